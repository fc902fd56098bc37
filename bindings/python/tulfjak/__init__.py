"""A verified resolver of WIT packages.

    import tulfjak

    group = tulfjak.package({"a.wit": "package demo:first;", "b.wit": "interface i { type t = u8; }"})
    package = group.main
    print(package.name, [interface.name for interface in package.interfaces])

The classes of what is in a group are in `tulfjak.data`.

`package` and `package_json` take sources: pairs of a path and a text, or a mapping from paths to texts. `resolve`,
`resolve_json` and `check` take one text instead. That is one source, or several, each after a line `=== PATH`; what
stands in front of the first such line is the source `stdin.wit`. The sources make one package, in which others may be
nested.

Each call raises `Refusal` where the sources are refused, and MemoryError where an allocation failed. A call does not hold
the interpreter's lock while it resolves, and threads may call side by side.

The library is `libwit_ffi.so`: the file that the environment variable TULFJAK_LIBRARY names, or that in this folder, or
that in `bindings/out` of the repository.
"""

from tulfjak import data
from tulfjak._calls import check, library_version, package, package_json, read_files, resolve, resolve_json
from tulfjak._refusal import Refusal
from tulfjak.data import Group

__all__ = [
    "Group",
    "Refusal",
    "check",
    "data",
    "library_version",
    "package",
    "package_json",
    "read_files",
    "resolve",
    "resolve_json",
]
