#!/usr/bin/env python3
"""compare_json.py PROGRAM FOLDER ORACLE [FLAG ..]: on each file of the folder, whether the JSON that the program writes of it says what the
oracle says. Both read sources from standard input. The oracle ends with 0 and writes each package as Rust's `{:#?}` of `wit-parser`'s
`UnresolvedPackage`, after other lines, or ends with 1 where they are refused. It prints each file that differs, and how many are alike."""
import json
import os
import re
import subprocess
import sys

TOKEN = re.compile(r'\s*("(?:[^"\\]|\\.)*"|#?\d+|\w+|[{}()\[\],:])', re.S)

# The members of docs/JSON.md, in order; `?` is after those that are left out where there is nothing to say.
MEMBERS = {name: members.split() for name, members in {
    "UnresolvedPackage": "name worlds interfaces types foreign_deps docs? package_name_span unknown_type_spans foreign_dep_spans "
    "required_resource_types",
    "World": "name imports exports package docs? stability? includes span",
    "Import": "id stability? external_id? docs? span",
    "WorldInclude": "stability? id names span",
    "IncludeName": "name as_",
    "Interface": "name types functions docs? stability? package clone_of? span",
    "Function": "name kind params result? docs? stability? external_id? span",
    "Param": "name ty span",
    "TypeDef": "name kind owner docs? stability? external_id? span",
    "Record": "fields", "Flags": "flags", "Tuple": "types", "Variant": "cases", "Enum": "cases", "Result_": "ok err",
    "Field": "name ty docs? span", "Flag": "name docs? span", "Case": "name ty docs? span", "EnumCase": "name docs? span",
    "Docs": "contents?", "Stable": "since deprecated?", "Unstable": "feature deprecated?",
}.items()}
NOTHING = (None, "unknown", ())


class Pairs(tuple):
    """An object, as its members in order. It is equal to no array."""


def kebab(name):
    return re.sub(r"(?<=[a-z])(?=[A-Z])", "-", name).lower()


def text_of(literal):
    short = {"n": "\n", "r": "\r", "t": "\t", "0": "\0"}
    escape = re.compile(r"\\(?:u\{([0-9a-f]+)\}|(.))", re.S)
    return escape.sub(lambda m: chr(int(m[1], 16)) if m[1] else short.get(m[2], m[2]), literal[1:-1])


class Debug:
    """A reader of Rust's Debug text, which makes of it the value that the JSON has for it."""

    def __init__(self, text):
        self.tokens, self.at = TOKEN.findall(text), 0

    def next(self):
        self.at += 1
        return self.tokens[self.at - 1]

    def peek(self):
        return self.tokens[self.at] if self.at < len(self.tokens) else ""

    def until(self, close, read):
        items = []
        while self.peek() != close:
            items.append(read())
            if self.peek() == ",":
                self.next()
        self.next()
        return items

    def entry(self):
        key = self.value()
        self.next()
        return key, self.value()

    def value(self):
        token = self.next()
        if token[0] == '"':
            return text_of(token)
        if token.lstrip("#").isdigit():
            return int(token.lstrip("#"))
        if token == "[":
            return self.until("]", self.value)
        if token == "(":
            return self.until(")", self.value)
        if token == "{":
            return Pairs((self.key(key), value) for key, value in self.until("}", self.entry))
        if self.peek() == "(":
            self.next()
            return self.variant(token, self.until(")", self.value))
        if self.peek() == "{":
            self.next()
            return self.struct(token, dict(self.until("}", lambda: (self.next(), self.next(), self.value())[::2])))
        return None if token == "None" else kebab(token)

    def key(self, key):
        return f"interface:{key[0][1]}" if isinstance(key, Pairs) else key

    def variant(self, name, values):
        if name in ("Some", "Id", "Name", "Prerelease", "BuildMetadata"):
            return values[0]
        return Pairs([(kebab(name), values[0] if len(values) == 1 else values)])

    def struct(self, name, of):
        if name == "PackageName":
            return f"{of['namespace']}:{of['name']}" + (f"@{of['version']}" if of["version"] else "")
        if name == "Version":
            more = (f"-{of['pre']}" if "pre" in of else "") + (f"+{of['build']}" if "build" in of else "")
            return f"{of['major']}.{of['minor']}.{of['patch']}{more}"
        if name == "Span":
            return [of["start"], of["end"]]
        if name == "Arena":
            return of["items"]
        if name == "Type":
            return Pairs([("type", of["id"]), ("span", of["span"])])
        imported = name == "Interface" and "id" in of
        pairs = []
        for member in MEMBERS["Import" if imported else name]:
            value = of[member.rstrip("?")]
            if not (member.endswith("?") and value in NOTHING):
                pairs.append(({"ty": "type", "as_": "as"}.get(member, member.rstrip("?")), value))
        return Pairs([(kebab(name), Pairs(pairs))]) if imported or name in ("Stable", "Unstable") else Pairs(pairs)


def run(command, text):
    done = subprocess.run(command, input=text, stdout=subprocess.PIPE, check=False)
    return done.returncode, done.stdout.decode()


def first_difference(wanted, given, at):
    """Where two values first differ, with both, if they do."""
    if type(wanted) is not type(given) or not isinstance(wanted, (list, tuple)) or len(wanted) != len(given):
        return None if wanted == given else f"{at}: {str(given)[:80]}, not {str(wanted)[:80]}"
    inside = (first_difference(*pair, f"{at}.{pair[0] if isinstance(pair[0], str) else n}") for n, pair in enumerate(zip(wanted, given)))
    return next((found for found in inside if found), None)


def differs(program, oracle, text):
    """What differs, if something does, and whether there are packages."""
    (status, wrote), (wanted, debug) = run(program, text), run(oracle, text)
    if status != wanted:
        return f"status {status}, not {wanted}", False
    if wanted != 0:
        return None, False
    packages = [Debug(part).value() for part in re.split(r"^(?=UnresolvedPackage \{)", debug, flags=re.M)[1:]]
    given = dict(json.loads(wrote, object_pairs_hook=Pairs))["packages"]
    return first_difference(packages, given, "packages"), True


def main():
    program, folder, oracle = sys.argv[1], sys.argv[2], sys.argv[3:]
    alike = made = 0
    for name in sorted(os.listdir(folder)):
        with open(os.path.join(folder, name), "rb") as file:
            what, some = differs([program], oracle, file.read())
        alike, made = alike + (what is None), made + some
        if what is not None:
            print(f"{name}: {what}")
    print(f"{alike} alike, {made} of them packages" if alike == len(os.listdir(folder)) else f"{alike} alike")
    return alike != len(os.listdir(folder))


if __name__ == "__main__":
    sys.exit(main())
