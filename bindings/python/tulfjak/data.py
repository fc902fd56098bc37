"""Packages as data. Entries stand in lists, and refer to one another by their places in the lists of their package."""

import json
from dataclasses import dataclass
from typing import ClassVar, NewType

from tulfjak._schema import Docs as Docs, reader, writer
from tulfjak._types import (  # `as` exports the names, for type checkers too
    Alias as Alias, Case as Case, Enum as Enum, EnumCase as EnumCase, Field as Field,
    FixedLengthList as FixedLengthList, Flag as Flag, Flags as Flags, Function as Function,
    FunctionKind as FunctionKind, Future as Future, Handle as Handle, ItemId as ItemId, List as List, Map as Map,
    Option as Option, Param as Param, Primitive as Primitive, Record as Record, Resource as Resource,
    Result as Result, Span as Span, Stability as Stability, Stable as Stable, Stream as Stream, Tuple as Tuple,
    Type as Type, TypeDef as TypeDef, TypeId as TypeId, TypeKind as TypeKind, Unknown as Unknown,
    Unstable as Unstable, Variant as Variant,
)

WorldId = NewType("WorldId", int)
"""A place in the worlds of a package."""
InterfaceId = NewType("InterfaceId", int)
"""A place in the interfaces of a package."""


@dataclass(kw_only=True)
class WorldInterface:
    """An interface as a world imports or exports it: by a path, or inline."""

    id: InterfaceId
    stability: Stability = None
    external_id: str | None = None
    docs: Docs | None = None
    span: Span

    _tag: ClassVar = "interface"


@dataclass
class WorldType:
    """A type that a world defines or uses, and where its name in the world is; of `use i.{t as s}`, where `s` is."""

    _tag: ClassVar = "type"
    _form: ClassVar = "flat"
    type: TypeId
    span: Span


WorldItem = WorldInterface | Function | WorldType
"""An import or an export of a world."""


@dataclass
class IncludeName:
    """A name of an included world, and what it becomes."""

    name: str
    as_: str


@dataclass(kw_only=True)
class Include:
    """A world that another one includes."""

    stability: Stability = None
    id: WorldId
    names: list[IncludeName]
    span: Span


@dataclass(kw_only=True)
class World:
    """A world. The key of an import or an export is its name, or `interface:ID` for an interface that is named by a path.
    A world of another package has an empty name."""

    name: str
    imports: dict[str, WorldItem]
    exports: dict[str, WorldItem]
    package: int | None
    docs: Docs | None = None
    stability: Stability = None
    includes: list[Include]
    span: Span


@dataclass(kw_only=True)
class Interface:
    """An interface. One of another package, and an inline one, have no name."""

    name: str | None
    types: dict[str, TypeId]
    functions: dict[str, Function]
    docs: Docs | None = None
    stability: Stability = None
    package: int | None
    clone_of: InterfaceId | None = None
    span: Span


@dataclass
class ForeignItem:
    """An item of another package, and the stability of each path that leads to it."""

    _form: ClassVar = "array"
    item: ItemId
    stabilities: list[Stability]


@dataclass(kw_only=True)
class Package:
    """A package whose own names are resolved. Of other packages it has the items that it uses, which stand first in each list."""

    name: str
    worlds: list[World]
    interfaces: list[Interface]
    types: list[TypeDef]
    foreign_deps: dict[str, dict[str, ForeignItem]]
    docs: Docs | None = None
    package_name_span: Span
    unknown_type_spans: list[Span]
    foreign_dep_spans: list[Span]
    required_resource_types: list[tuple[TypeId, Span]]


@dataclass
class SourceSpan:
    """Where a source lies among the sources."""

    path: str
    start: int
    end: int


@dataclass
class Group:
    """The package of the sources, and after it those that are nested in it. Each has lists of its own."""

    sources: list[SourceSpan]
    packages: list[Package]

    @property
    def main(self) -> Package:
        """The package of the sources."""
        return self.packages[0]

    def locate(self, span: Span) -> tuple[SourceSpan, int, int] | None:
        """The source in which a span lies, and its range in the text of that source, in bytes of UTF-8."""
        for source in self.sources:
            if source.start <= span.start and span.end <= source.end:
                return source, span.start - source.start, span.end - source.start
        return None

    @staticmethod
    def from_json(text: str) -> "Group":
        """The group of a JSON text. Members that the schema does not have are passed over. Raises ValueError where it is
        not the JSON of a group."""
        value = json.loads(text)
        try:
            group: Group = reader(Group)(value)
        except (AttributeError, KeyError, TypeError) as error:
            raise ValueError("not the JSON of a group of packages") from error
        return group

    def to_json(self) -> str:
        """The group as JSON: of a group that the library made, the very text that the library wrote."""
        return json.dumps(writer(Group)(self), ensure_ascii=False, separators=(",", ":"))
