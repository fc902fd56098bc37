//! Types and functions as data.

use crate::arena::TypeId;
use crate::package::{Docs, ItemId, Span, Stability};

/// An entry of the types of a package.
#[derive(Clone, Debug, PartialEq, Eq)]
pub struct TypeDef {
    /// Its name, if it has one.
    pub name: Option<String>,
    /// What it is.
    pub kind: TypeDefKind,
    /// Where it is defined; none for a type without a name.
    pub owner: Option<ItemId>,
    /// Its docs.
    pub docs: Docs,
    /// Its stability.
    pub stability: Stability,
    /// Its external id.
    pub external_id: Option<String>,
    /// Where its name is; of a type without a name, where it first occurs; of `use i.{t as s}`, where `t` is.
    pub span: Span,
}

/// What a type is.
#[derive(Clone, Debug, PartialEq, Eq)]
pub enum TypeDefKind {
    /// `record`.
    Record(Record),
    /// `resource`.
    Resource,
    /// A handle to a resource.
    Handle(Handle),
    /// `flags`.
    Flags(Flags),
    /// `tuple`.
    Tuple(Tuple),
    /// `variant`.
    Variant(Variant),
    /// `enum`.
    Enum(Enum),
    /// `option`.
    Option(Type),
    /// `result`.
    Result(ResultType),
    /// `list`.
    List(Type),
    /// `map`: the types of keys and of values.
    Map(Type, Type),
    /// `list` of a fixed length.
    FixedLengthList(Type, u32),
    /// `future`.
    Future(Option<Type>),
    /// `stream`.
    Stream(Option<Type>),
    /// Another name of a type, by `type` or by `use`.
    Type(Type),
    /// A type of another package.
    Unknown,
}

/// A type as it is referred to.
#[derive(Clone, Copy, Debug, PartialEq, Eq, Hash)]
#[expect(missing_docs, reason = "each is the primitive type of its name")]
pub enum Type {
    Bool,
    U8,
    U16,
    U32,
    U64,
    S8,
    S16,
    S32,
    S64,
    F32,
    F64,
    Char,
    String,
    ErrorContext,
    /// An entry of the types of the package.
    Id(TypeId),
}

/// A handle to a resource.
#[derive(Clone, Copy, Debug, PartialEq, Eq, Hash)]
pub enum Handle {
    /// `own`.
    Own(TypeId),
    /// `borrow`.
    Borrow(TypeId),
}

/// The fields of a record.
#[derive(Clone, Debug, PartialEq, Eq)]
pub struct Record {
    /// The fields, in order.
    pub fields: Vec<Field>,
}

/// A field of a record.
#[derive(Clone, Debug, PartialEq, Eq)]
pub struct Field {
    /// Its name.
    pub name: String,
    /// Its type.
    pub ty: Type,
    /// Its docs.
    pub docs: Docs,
    /// Where its name is.
    pub span: Span,
}

/// A set of flags.
#[derive(Clone, Debug, PartialEq, Eq)]
pub struct Flags {
    /// The flags, in order.
    pub flags: Vec<Flag>,
}

/// A flag.
#[derive(Clone, Debug, PartialEq, Eq)]
pub struct Flag {
    /// Its name.
    pub name: String,
    /// Its docs.
    pub docs: Docs,
    /// Where its name is.
    pub span: Span,
}

/// The parts of a tuple.
#[derive(Clone, Debug, PartialEq, Eq)]
pub struct Tuple {
    /// The types, in order.
    pub types: Vec<Type>,
}

/// The cases of a variant.
#[derive(Clone, Debug, PartialEq, Eq)]
pub struct Variant {
    /// The cases, in order.
    pub cases: Vec<Case>,
}

/// A case of a variant.
#[derive(Clone, Debug, PartialEq, Eq)]
pub struct Case {
    /// Its name.
    pub name: String,
    /// Its type, if it has one.
    pub ty: Option<Type>,
    /// Its docs.
    pub docs: Docs,
    /// Where its name is.
    pub span: Span,
}

/// The cases of an enum.
#[derive(Clone, Debug, PartialEq, Eq)]
pub struct Enum {
    /// The cases, in order.
    pub cases: Vec<EnumCase>,
}

/// A case of an enum.
#[derive(Clone, Debug, PartialEq, Eq)]
pub struct EnumCase {
    /// Its name.
    pub name: String,
    /// Its docs.
    pub docs: Docs,
    /// Where its name is.
    pub span: Span,
}

/// The two types of a `result`.
#[derive(Clone, Copy, Debug, PartialEq, Eq, Hash)]
pub struct ResultType {
    /// The type where all went well.
    pub ok: Option<Type>,
    /// The type of an error.
    pub err: Option<Type>,
}

/// A function.
#[derive(Clone, Debug, PartialEq, Eq)]
pub struct Function {
    /// Its mangled name, as `[method]r.f`.
    pub name: String,
    /// Its kind.
    pub kind: FunctionKind,
    /// Its parameters, in order; `self` of a method is one.
    pub params: Vec<Param>,
    /// The type of its result, if it has one.
    pub result: Option<Type>,
    /// Its docs.
    pub docs: Docs,
    /// Its stability.
    pub stability: Stability,
    /// Its external id.
    pub external_id: Option<String>,
    /// Where its name is.
    pub span: Span,
}

/// The kind of a function; where it is of a resource, with that.
#[derive(Clone, Copy, Debug, PartialEq, Eq, Hash)]
pub enum FunctionKind {
    /// A function.
    Freestanding,
    /// An `async` function.
    AsyncFreestanding,
    /// A getter of an interface or a world.
    Getter,
    /// A setter of an interface or a world.
    Setter,
    /// A method.
    Method(TypeId),
    /// An `async` method.
    AsyncMethod(TypeId),
    /// A getter.
    MethodGetter(TypeId),
    /// A setter.
    MethodSetter(TypeId),
    /// A `static` function.
    Static(TypeId),
    /// A `static async` function.
    AsyncStatic(TypeId),
    /// A static getter.
    StaticGetter(TypeId),
    /// A static setter.
    StaticSetter(TypeId),
    /// A constructor.
    Constructor(TypeId),
}

/// A parameter of a function.
#[derive(Clone, Debug, PartialEq, Eq)]
pub struct Param {
    /// Its name.
    pub name: String,
    /// Its type.
    pub ty: Type,
    /// Where its name is; of `self`, which is not written, the word `func`.
    pub span: Span,
}

impl FunctionKind {
    /// The resource of which the function is.
    #[must_use]
    pub fn resource(self) -> Option<TypeId> {
        match self {
            FunctionKind::Freestanding | FunctionKind::AsyncFreestanding | FunctionKind::Getter | FunctionKind::Setter => None,
            FunctionKind::Method(id)
            | FunctionKind::AsyncMethod(id)
            | FunctionKind::MethodGetter(id)
            | FunctionKind::MethodSetter(id)
            | FunctionKind::Static(id)
            | FunctionKind::AsyncStatic(id)
            | FunctionKind::StaticGetter(id)
            | FunctionKind::StaticSetter(id)
            | FunctionKind::Constructor(id) => Some(id),
        }
    }
}
