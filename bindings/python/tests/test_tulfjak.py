"""The module over the library: what it gives of rows of `crates/wit_rows/data`, of the examples and of texts made here."""

import concurrent.futures
import json
import pathlib
import pickle
import re
import subprocess
import sys
import unittest
from collections.abc import Callable
from typing import Any

import tulfjak
from tulfjak import Group, Refusal, data

TOP = pathlib.Path(__file__).resolve().parents[3]


def unescape(text: str) -> str:
    """The text that is written with the escapes of rows."""
    short = {"n": "\n", "r": "\r", "t": "\t"}
    return re.sub(r"\\(?:u\{([0-9a-fA-F]+)\}|(.))", lambda it: chr(int(it[1], 16)) if it[1] else short.get(it[2], it[2]), text, flags=re.S)


def rows() -> list[tuple[str, str, str]]:
    """The name, the text and the answer of each row that asks for a listing."""
    found = []
    for file in sorted((TOP / "crates/wit_rows/data").glob("*.rows")):
        text = file.read_bytes().decode()
        for row in text.removesuffix("\n").split("\n--- ")[1:]:
            front, _, wanted = f"{row}\n".partition("\n=>\n")
            head, _, sources = front.partition("\n")
            name, _, view = head.partition(" ")
            if name.endswith("\\"):
                sources, wanted = unescape(sources), unescape(wanted)
            if view in ("listing", "input"):
                found.append((name, sources, wanted))
    return found


def refusal_of(call: Callable[[Any], Any], given: Any) -> Refusal:
    try:
        call(given)
    except Refusal as refusal:
        return refusal
    raise AssertionError("not refused")


class Rows(unittest.TestCase):
    def test_rows_are_read_and_written_back(self) -> None:
        texts = []
        for name, text, wanted in rows():
            with self.subTest(name):
                if wanted.startswith("package "):
                    self.assertEqual(tulfjak.resolve(text), wanted)
                    written = tulfjak.resolve_json(text)
                    self.assertEqual(Group.from_json(written).to_json(), written)
                    texts.append(written)
                else:
                    refusal, other = refusal_of(tulfjak.resolve_json, text), refusal_of(tulfjak.resolve, text)
                    self.assertEqual(vars(refusal), vars(other))
        self.assertGreater(len(texts), 500)
        # Python's own reader of JSON, as a program.
        lines = "\n".join(texts)
        tool = [sys.executable, "-m", "json.tool", "--json-lines", "--compact", "--no-ensure-ascii"]
        done = subprocess.run(tool, input=lines.encode(), stdout=subprocess.PIPE, check=True)
        self.assertEqual(done.stdout.decode(), lines + "\n")

    def test_no_object_has_a_key_twice(self) -> None:
        def once(pairs: list[tuple[str, Any]]) -> dict[str, Any]:
            self.assertEqual(len(dict(pairs)), len(pairs))
            return dict(pairs)

        for name, text, wanted in rows():
            if wanted.startswith("package "):
                with self.subTest(name):
                    json.loads(tulfjak.resolve_json(text), object_pairs_hook=once)


class Sources(unittest.TestCase):
    def test_documented_examples(self) -> None:
        blocks = re.findall(r"```json\n(.*?)```", (TOP / "docs/JSON.md").read_text(), re.S)
        first, second, third = ("".join(line.strip() for line in block.splitlines()) for block in blocks)
        self.assertEqual(tulfjak.resolve_json((TOP / "examples/demo.wit").read_text()), first)
        self.assertEqual(tulfjak.resolve_json("package foo:foo;\ninterface i { record p { a: list<u8>, b: list<u8> } }\n"), second)
        error = json.loads(third)["error"]
        refusal = refusal_of(tulfjak.package, {"a.wit": "package a:b;", "b.wit": "interface i { type t = u; }"})
        self.assertEqual(vars(refusal), error)

    def test_classes(self) -> None:
        text = "package a:b; interface i { /// Hue\n @since(version = 1.0.0) record c { hue: u8 } resource r; f: func(to: borrow<r>); }"
        group = tulfjak.package([("a.wit", text)])
        interface = group.main.interfaces[0]
        color = group.main.types[interface.types["c"]]
        assert isinstance(color.kind, data.Record)
        self.assertEqual((color.docs, color.stability), ("Hue", data.Stable("1.0.0")))
        self.assertEqual(color.kind.fields[0].type, "u8")
        self.assertEqual(color.owner, data.ItemId("interface", 0))
        function = interface.functions["f"]
        self.assertEqual(function.kind, data.FunctionKind("freestanding"))
        to = function.params[0].type
        assert isinstance(to, int)
        self.assertEqual(group.main.types[to].kind, data.Handle("borrow", interface.types["r"]))
        place = group.locate(function.span)
        assert place is not None
        self.assertEqual((place[0].path, text[place[1] : place[2]]), ("a.wit", "f"))
        self.assertIsNone(group.locate(data.Span(9999, 9999)))

    def test_sources_are_whole(self) -> None:
        comment = "package a:b; /* é\n=== c.wit\n*/ interface i {}"
        group = tulfjak.package({"two\nlines.wit": comment, "d.wit": "interface j {}"})
        self.assertEqual([source.path for source in group.sources], ["two\nlines.wit", "d.wit"])
        self.assertEqual(sorted(interface.name or "" for interface in group.main.interfaces), ["i", "j"])

    def test_files_and_folders(self) -> None:
        sources = tulfjak.read_files(TOP / "examples/library")
        self.assertEqual([path.rsplit("/", 1)[1] for path, _ in sources], ["accounts.wit", "books.wit", "desk.wit", "search.wit"])
        self.assertEqual(len(tulfjak.package(sources).packages), 2)
        with self.assertRaises(OSError):
            tulfjak.read_files("no/such/file.wit")

    def test_refusals(self) -> None:
        refusal = refusal_of(tulfjak.package, {})
        self.assertEqual((refusal.rule, refusal.path, refusal.start, refusal.end), (4, None, 0, 0))
        self.assertEqual(vars(pickle.loads(pickle.dumps(refusal))), vars(refusal))
        path, name = "p" * 1000, "n" * 2000
        refusal = refusal_of(tulfjak.check, f"=== {path}\npackage a:b; interface i {{ type t = {name}; }}")
        self.assertEqual((refusal.path, refusal.message), (path, f"type `{name}` does not exist"))
        tulfjak.check("package a:b;")

    def test_other_json_is_no_group(self) -> None:
        for wrong in ("", "{}", "1", "[]", '{"sources":[],"packages":1}', '{"sources":[],"packages":[{}]}'):
            with self.assertRaises(ValueError):
                Group.from_json(wrong)

    def test_threads(self) -> None:
        text = "package a:b; interface i { " + " ".join(f"type t{n} = list<u{8 << n % 3}>;" for n in range(200)) + " }"
        with concurrent.futures.ThreadPoolExecutor(8) as pool:
            self.assertEqual(len(set(pool.map(tulfjak.resolve_json, [text] * 64))), 1)

    def test_version(self) -> None:
        self.assertEqual(tulfjak.library_version(), (0, 1, 0))


if __name__ == "__main__":
    unittest.main()
