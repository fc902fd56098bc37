"""Data classes as JSON and back, by their type hints. `docs/JSON.md` says what the JSON is.

A class is an object of its fields, unless its `_form` says otherwise:

    array  its fields, in order
    value  the value of its one field
    tag    an object with one member: its first field is the name, its second the value, or the name alone without a value
    word   nothing, as the class has no field
    flat   an object of its fields, the first of which has the `_tag` as its name

A field with a default is left out where it has it. In a union of classes, each comes after its `_tag`, but for words, which
stand alone, and flat ones; `None` is the word `unknown` there.
"""

import dataclasses
import functools
import types
import typing
from collections.abc import Callable
from typing import Any, Literal, NewType, Union, get_args, get_origin

Docs = NewType("Docs", str)
"""The text of docs."""

Step = Callable[[Any], Any]
"""From JSON to a value, or back."""


def _same(value: Any) -> Any:
    return value


def _form(of: Any) -> str:
    return getattr(of, "_form", "object")


def _is_plain(hint: Any) -> bool:
    """Whether a type's values are their own JSON."""
    return hint in (str, int) or isinstance(hint, NewType) or get_origin(hint) is Literal


def _optional(step: Step) -> Step:
    return lambda value: None if value is None else step(value)


def _union(hint: Any) -> tuple[Any, dict[str, Any]] | None:
    """The first type of a union, and its classes by their tags, if a type is a union."""
    if get_origin(hint) not in (Union, types.UnionType):
        return None
    return get_args(hint)[0], {of._tag: of for of in get_args(hint) if hasattr(of, "_tag")}


@functools.cache
def _fields(of: Any, step: Callable[[Any], Step]) -> list[tuple[str, str, Step, Any]]:
    """The fields of a class: name, name in JSON, step of its type, and default."""
    hints = typing.get_type_hints(of)
    return [(field.name, field.name.rstrip("_"), step(hints[field.name]), field.default) for field in dataclasses.fields(of)]


@functools.cache
def reader(hint: Any) -> Step:
    """From the JSON of a type to its values."""
    if hint is Docs:
        return lambda value: value["contents"]
    if _is_plain(hint):
        return _same
    if union := _union(hint):
        return _union_reader(*union)
    inner = [reader(of) for of in get_args(hint)]
    if get_origin(hint) is list:
        return lambda value: [inner[0](item) for item in value]
    if get_origin(hint) is dict:
        return lambda value: {key: inner[1](item) for key, item in value.items()}
    if get_origin(hint) is tuple:
        return lambda value: tuple(step(item) for step, item in zip(inner, value, strict=True))
    return _class_reader(hint)


def _union_reader(first: Any, classes: dict[str, Any]) -> Step:
    if not classes:
        return _optional(reader(first))
    steps = {tag: (_form(of) == "flat", _class_reader(of)) for tag, of in classes.items()}

    def read(value: Any) -> Any:
        if isinstance(value, str):
            return steps[value][1](value) if value in steps else None
        tag, inner = next(iter(value.items()))
        is_flat, step = steps[tag]
        return step(value if is_flat else inner)

    return read


@functools.cache
def _class_reader(of: Any) -> Step:
    fields = _fields(of, reader)
    match _form(of):
        case "array":
            return lambda value: of(*(field[2](item) for field, item in zip(fields, value, strict=True)))
        case "value":
            return lambda value: of(fields[0][2](value))
        case "tag":
            return lambda value: of(value) if isinstance(value, str) else of(*next(iter(value.items())))
        case "word":
            return lambda value: of()
    return lambda value: of(**{name: step(value[member]) for name, member, step, _ in fields if member in value})


@functools.cache
def writer(hint: Any) -> Step:
    """From the values of a type to their JSON."""
    if hint is Docs:
        return lambda value: {"contents": value}
    if _is_plain(hint):
        return _same
    if union := _union(hint):
        return _union_writer(*union)
    inner = [writer(of) for of in get_args(hint)]
    if get_origin(hint) is list:
        return lambda value: [inner[0](item) for item in value]
    if get_origin(hint) is dict:
        return lambda value: {key: inner[1](item) for key, item in value.items()}
    if get_origin(hint) is tuple:
        return lambda value: [step(item) for step, item in zip(inner, value, strict=True)]
    return _class_writer(hint)


def _union_writer(first: Any, classes: dict[str, Any]) -> Step:
    if not classes:
        return _optional(writer(first))

    def write(value: Any) -> Any:
        if value is None:
            return "unknown"
        of: Any = type(value)
        match _form(of):
            case "word":
                return of._tag
            case "flat":
                return _class_writer(of)(value)
        return {of._tag: _class_writer(of)(value)}

    return write


@functools.cache
def _class_writer(of: Any) -> Step:
    fields = _fields(of, writer)
    match _form(of):
        case "array":
            return lambda value: [step(getattr(value, name)) for name, _, step, _ in fields]
        case "value":
            return lambda value: fields[0][2](getattr(value, fields[0][0]))
        case "tag":
            tag, inner = fields[0][0], fields[1][0]
            return lambda value: getattr(value, tag) if getattr(value, inner) is None else {getattr(value, tag): getattr(value, inner)}

    def write(value: Any) -> Any:
        members = ((member, step, getattr(value, name), default) for name, member, step, default in fields)
        return {member: step(item) for member, step, item, default in members if item != default}

    return write
