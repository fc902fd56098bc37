"""The calls of the shared library."""

import ctypes
import json
import os
import pathlib
from collections.abc import Callable, Iterable, Mapping
from typing import NoReturn

from tulfjak._refusal import Refusal
from tulfjak.data import Group

Sources = Mapping[str, str] | Iterable[tuple[str, str]]

_MADE, _REFUSED = 0, 1
_OUT_OF_MEMORY = 45
_TEXT = (ctypes.c_char_p, ctypes.c_size_t)
_LEN = ctypes.POINTER(ctypes.c_size_t)


class _Fields(ctypes.Structure):
    """A refusal, as the library writes it."""

    _fields_ = (
        ("rule", ctypes.c_uint8),
        ("placed", ctypes.c_bool),
        ("start", ctypes.c_uint32),
        ("end", ctypes.c_uint32),
        ("path_len", ctypes.c_size_t),
        ("message_len", ctypes.c_size_t),
    )


def _load() -> ctypes.CDLL:
    here = pathlib.Path(__file__).resolve().parent
    beside = (here / "libwit_ffi.so", here.parent.parent / "out" / "libwit_ffi.so")
    found = next((path for path in beside if path.exists()), beside[0])
    library = ctypes.CDLL(os.environ.get("TULFJAK_LIBRARY") or os.fspath(found))
    for call in (library.wit_ffi_answer, library.wit_ffi_package):
        call.argtypes = (*_TEXT, *_TEXT, _LEN)
        call.restype = ctypes.c_uint8
    library.wit_ffi_package_of.argtypes = (*_TEXT, _LEN, ctypes.c_size_t, *_TEXT, _LEN)
    library.wit_ffi_package_of.restype = ctypes.c_uint8
    library.wit_ffi_check.argtypes = (*_TEXT, *_TEXT, *_TEXT, ctypes.POINTER(_Fields))
    library.wit_ffi_check.restype = ctypes.c_uint8
    library.wit_ffi_version.argtypes = ()
    library.wit_ffi_version.restype = ctypes.c_uint32
    return library


_library = _load()


def _written(capacity: int, call: Callable[..., int]) -> tuple[int, str]:
    """The status of a call and all that it writes: with a buffer of this capacity, and, if that is too small, with another."""
    while True:
        buffer, length = ctypes.create_string_buffer(capacity), ctypes.c_size_t()
        status = call(buffer, capacity, length)
        if length.value <= capacity:
            return status, ctypes.string_at(buffer, length.value).decode()
        capacity = length.value


def _of_text(call: Callable[..., int], text: str, factor: int) -> tuple[int, str]:
    source = text.encode()
    return _written(factor * len(source) + 1024, lambda *buffer: call(source, len(source), *buffer))


def _refuse(rule: int, path: str | None, start: int, end: int, message: str) -> NoReturn:
    if rule == _OUT_OF_MEMORY:
        raise MemoryError
    raise Refusal(rule, path, start, end, message)


def _made(status: int, written: str) -> str:
    """What is written of packages."""
    if status == _REFUSED:
        error = json.loads(written)["error"]
        _refuse(error["rule"], error.get("path"), error.get("start", 0), error.get("end", 0), error["message"])
    if status != _MADE:
        raise MemoryError
    return written


def package(sources: Sources) -> Group:
    """The packages that sources make. No line of a source begins another one."""
    return Group.from_json(package_json(sources))


def package_json(sources: Sources) -> str:
    """The packages that sources make, as JSON on one line without an end."""
    pairs = sources.items() if isinstance(sources, Mapping) else sources
    parts = [part.encode() for pair in pairs for part in pair]
    text, lens = b"".join(parts), (ctypes.c_size_t * len(parts))(*map(len, parts))
    call = _library.wit_ffi_package_of
    return _made(*_written(16 * len(text) + 1024, lambda *buffer: call(text, len(text), lens, len(lens), *buffer)))


def resolve_json(text: str) -> str:
    """The packages that the sources of a text make, as JSON on one line without an end."""
    return _made(*_of_text(_library.wit_ffi_package, text, 16))


def check(text: str) -> None:
    """Nothing, where the sources of a text make packages."""
    source, path_len, message_len = text.encode(), 256, 256
    while True:
        path, message, fields = ctypes.create_string_buffer(path_len), ctypes.create_string_buffer(message_len), _Fields()
        status = _library.wit_ffi_check(source, len(source), path, path_len, message, message_len, fields)
        if fields.path_len <= path_len and fields.message_len <= message_len:
            break
        path_len, message_len = max(path_len, fields.path_len), max(message_len, fields.message_len)
    if status == _REFUSED:
        where = ctypes.string_at(path, fields.path_len).decode() if fields.placed else None
        _refuse(fields.rule, where, fields.start, fields.end, ctypes.string_at(message, fields.message_len).decode())
    if status != _MADE:
        raise MemoryError


def resolve(text: str) -> str:
    """The listing of the packages that the sources of a text make: what the program `wit` prints."""
    status, written = _of_text(_library.wit_ffi_answer, text, 4)
    if status == _REFUSED:
        check(text)
    if status != _MADE:
        raise MemoryError
    return written


def library_version() -> tuple[int, int, int]:
    """The version of the library: major, minor and patch."""
    version = _library.wit_ffi_version()
    return version >> 16, version >> 8 & 255, version & 255


def read_files(*paths: str | os.PathLike[str]) -> list[tuple[str, str]]:
    """The texts of files, each after its path; of a folder, of the files in it whose names end with `.wit`, but not of
    those in its folders. Raises OSError, or UnicodeDecodeError where a file is not UTF-8."""
    files: list[pathlib.Path] = []
    for path in map(pathlib.Path, paths):
        files += sorted(file for file in path.glob("*.wit") if file.is_file()) if path.is_dir() else [path]
    return [(os.fspath(file), file.read_bytes().decode()) for file in files]
