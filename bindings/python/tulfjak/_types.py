"""Types and functions as data."""

from dataclasses import dataclass
from typing import ClassVar, Literal, NewType

from tulfjak._schema import Docs

TypeId = NewType("TypeId", int)
"""A place in the types of a package."""

Primitive = Literal["bool", "u8", "u16", "u32", "u64", "s8", "s16", "s32", "s64", "f32", "f64", "char", "string", "error-context"]
Type = Primitive | TypeId
"""A type as it is referred to: the word of a primitive type, or a place in the types."""


@dataclass(frozen=True, order=True)
class Span:
    """A range of bytes over all sources, one after the other; `Group.locate` leads to one of them."""

    _form: ClassVar = "array"
    start: int
    end: int


@dataclass(frozen=True)
class Stable:
    """`@since`: the version from which on an item is stable, and that from which on it is deprecated."""

    _tag: ClassVar = "stable"
    since: str
    deprecated: str | None = None


@dataclass(frozen=True)
class Unstable:
    """`@unstable`: the feature of an item, and the version from which on it is deprecated."""

    _tag: ClassVar = "unstable"
    feature: str
    deprecated: str | None = None


Stability = Stable | Unstable | None
"""What attributes say of an item, if they do."""


@dataclass(frozen=True)
class ItemId:
    """An interface or a world."""

    _form: ClassVar = "tag"
    kind: Literal["interface", "world"]
    id: int


@dataclass(kw_only=True)
class Field:
    """A field of a record."""

    name: str
    type: Type
    docs: Docs | None = None
    span: Span


@dataclass(kw_only=True)
class Flag:
    """One of a set of flags."""

    name: str
    docs: Docs | None = None
    span: Span


@dataclass(kw_only=True)
class Case:
    """A case of a variant, which may have a type."""

    name: str
    type: Type | None
    docs: Docs | None = None
    span: Span


@dataclass(kw_only=True)
class EnumCase:
    """A case of an enum."""

    name: str
    docs: Docs | None = None
    span: Span


@dataclass
class Record:
    """`record`."""

    _tag: ClassVar = "record"
    fields: list[Field]


@dataclass
class Resource:
    """`resource`."""

    _tag: ClassVar = "resource"
    _form: ClassVar = "word"


@dataclass
class Handle:
    """A handle to a resource."""

    _tag: ClassVar = "handle"
    _form: ClassVar = "tag"
    mode: Literal["own", "borrow"]
    resource: TypeId


@dataclass
class Flags:
    """`flags`."""

    _tag: ClassVar = "flags"
    flags: list[Flag]


@dataclass
class Tuple:
    """`tuple`."""

    _tag: ClassVar = "tuple"
    types: list[Type]


@dataclass
class Variant:
    """`variant`."""

    _tag: ClassVar = "variant"
    cases: list[Case]


@dataclass
class Enum:
    """`enum`."""

    _tag: ClassVar = "enum"
    cases: list[EnumCase]


@dataclass
class Option:
    """`option`."""

    _tag: ClassVar = "option"
    _form: ClassVar = "value"
    type: Type


@dataclass
class Result:
    """`result`."""

    _tag: ClassVar = "result"
    ok: Type | None
    err: Type | None


@dataclass
class List:
    """`list`."""

    _tag: ClassVar = "list"
    _form: ClassVar = "value"
    type: Type


@dataclass
class Map:
    """`map`."""

    _tag: ClassVar = "map"
    _form: ClassVar = "array"
    key: Type
    value: Type


@dataclass
class FixedLengthList:
    """`list` of a fixed length."""

    _tag: ClassVar = "fixed-length-list"
    _form: ClassVar = "array"
    type: Type
    length: int


@dataclass
class Future:
    """`future`."""

    _tag: ClassVar = "future"
    _form: ClassVar = "value"
    type: Type | None


@dataclass
class Stream:
    """`stream`."""

    _tag: ClassVar = "stream"
    _form: ClassVar = "value"
    type: Type | None


@dataclass
class Alias:
    """Another name of a type, by `type` or by `use`."""

    _tag: ClassVar = "type"
    _form: ClassVar = "value"
    type: Type


@dataclass
class Unknown:
    """A type of another package."""

    _tag: ClassVar = "unknown"
    _form: ClassVar = "word"


TypeKind = (
    Record | Resource | Handle | Flags | Tuple | Variant | Enum | Option | Result | List | Map | FixedLengthList | Future | Stream | Alias | Unknown
)
"""What a type is."""


@dataclass(kw_only=True)
class TypeDef:
    """An entry of the types of a package. One without a name has no owner either."""

    name: str | None
    kind: TypeKind
    owner: ItemId | None
    docs: Docs | None = None
    stability: Stability = None
    external_id: str | None = None
    span: Span


@dataclass(frozen=True)
class FunctionKind:
    """What a function is: the words of `docs/JSON.md`; where it is of a resource, with that."""

    _form: ClassVar = "tag"
    word: str
    resource: TypeId | None = None


@dataclass
class Param:
    """A parameter. `self` of a method is one."""

    name: str
    type: Type
    span: Span


@dataclass(kw_only=True)
class Function:
    """A function, by its mangled name, as `[method]r.f`."""

    name: str
    kind: FunctionKind
    params: list[Param]
    result: Type | None = None
    docs: Docs | None = None
    stability: Stability = None
    external_id: str | None = None
    span: Span

    _tag: ClassVar = "function"
