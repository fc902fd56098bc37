//! Enums around types and functions, in JSON.

use super::Schema;
use crate::arena::TypeId;
use crate::json::Json;
use crate::types::*;

/// The words of primitive types.
const PRIMITIVES: [(&str, Type); 14] = [
    ("bool", Type::Bool),
    ("u8", Type::U8),
    ("u16", Type::U16),
    ("u32", Type::U32),
    ("u64", Type::U64),
    ("s8", Type::S8),
    ("s16", Type::S16),
    ("s32", Type::S32),
    ("s64", Type::S64),
    ("f32", Type::F32),
    ("f64", Type::F64),
    ("char", Type::Char),
    ("string", Type::String),
    ("error-context", Type::ErrorContext),
];

impl Schema for Type {
    fn read(json: &Json) -> Option<Type> {
        match json.as_str() {
            Some(word) => PRIMITIVES.iter().find(|primitive| primitive.0 == word).map(|primitive| primitive.1),
            None => TypeId::read(json).map(Type::Id),
        }
    }

    fn write(&self) -> Json {
        match self {
            Type::Id(id) => id.write(),
            word => {
                let primitive = PRIMITIVES.iter().find(|primitive| primitive.1 == *word);
                primitive.map_or(Json::Null, |primitive| Json::String(primitive.0.into()))
            }
        }
    }
}

impl Schema for Handle {
    fn read(json: &Json) -> Option<Handle> {
        match json.only()? {
            ("own", id) => Schema::read(id).map(Handle::Own),
            ("borrow", id) => Schema::read(id).map(Handle::Borrow),
            _ => None,
        }
    }

    fn write(&self) -> Json {
        match self {
            Handle::Own(id) => Json::tagged("own", id.write()),
            Handle::Borrow(id) => Json::tagged("borrow", id.write()),
        }
    }
}

impl Schema for TypeDefKind {
    fn read(json: &Json) -> Option<TypeDefKind> {
        match json.as_str() {
            Some("resource") => return Some(TypeDefKind::Resource),
            Some("unknown") => return Some(TypeDefKind::Unknown),
            _ => {}
        }
        let (tag, kind) = json.only()?;
        match tag {
            "record" => Schema::read(kind).map(TypeDefKind::Record),
            "handle" => Schema::read(kind).map(TypeDefKind::Handle),
            "flags" => Schema::read(kind).map(TypeDefKind::Flags),
            "tuple" => Schema::read(kind).map(TypeDefKind::Tuple),
            "variant" => Schema::read(kind).map(TypeDefKind::Variant),
            "enum" => Schema::read(kind).map(TypeDefKind::Enum),
            "option" => Schema::read(kind).map(TypeDefKind::Option),
            "result" => Schema::read(kind).map(TypeDefKind::Result),
            "list" => Schema::read(kind).map(TypeDefKind::List),
            "map" => Schema::read(kind).map(|(key, value)| TypeDefKind::Map(key, value)),
            "fixed-length-list" => Schema::read(kind).map(|(ty, length)| TypeDefKind::FixedLengthList(ty, length)),
            "future" => Schema::read(kind).map(TypeDefKind::Future),
            "stream" => Schema::read(kind).map(TypeDefKind::Stream),
            "type" => Schema::read(kind).map(TypeDefKind::Type),
            _ => None,
        }
    }

    fn write(&self) -> Json {
        match self {
            TypeDefKind::Record(kind) => Json::tagged("record", kind.write()),
            TypeDefKind::Resource => Json::String("resource".into()),
            TypeDefKind::Handle(kind) => Json::tagged("handle", kind.write()),
            TypeDefKind::Flags(kind) => Json::tagged("flags", kind.write()),
            TypeDefKind::Tuple(kind) => Json::tagged("tuple", kind.write()),
            TypeDefKind::Variant(kind) => Json::tagged("variant", kind.write()),
            TypeDefKind::Enum(kind) => Json::tagged("enum", kind.write()),
            TypeDefKind::Option(ty) => Json::tagged("option", ty.write()),
            TypeDefKind::Result(kind) => Json::tagged("result", kind.write()),
            TypeDefKind::List(ty) => Json::tagged("list", ty.write()),
            TypeDefKind::Map(key, value) => Json::tagged("map", (*key, *value).write()),
            TypeDefKind::FixedLengthList(ty, length) => Json::tagged("fixed-length-list", (*ty, *length).write()),
            TypeDefKind::Future(ty) => Json::tagged("future", ty.write()),
            TypeDefKind::Stream(ty) => Json::tagged("stream", ty.write()),
            TypeDefKind::Type(ty) => Json::tagged("type", ty.write()),
            TypeDefKind::Unknown => Json::String("unknown".into()),
        }
    }
}

/// The words of functions that are of no resource.
const FREESTANDING: [(&str, FunctionKind); 4] = [
    ("freestanding", FunctionKind::Freestanding),
    ("async-freestanding", FunctionKind::AsyncFreestanding),
    ("getter", FunctionKind::Getter),
    ("setter", FunctionKind::Setter),
];

/// The kind of a function of a resource.
type OfResource = fn(TypeId) -> FunctionKind;

/// The words of functions of a resource.
const OF_RESOURCE: [(&str, OfResource); 9] = [
    ("method", FunctionKind::Method),
    ("async-method", FunctionKind::AsyncMethod),
    ("method-getter", FunctionKind::MethodGetter),
    ("method-setter", FunctionKind::MethodSetter),
    ("static", FunctionKind::Static),
    ("async-static", FunctionKind::AsyncStatic),
    ("static-getter", FunctionKind::StaticGetter),
    ("static-setter", FunctionKind::StaticSetter),
    ("constructor", FunctionKind::Constructor),
];

impl Schema for FunctionKind {
    fn read(json: &Json) -> Option<FunctionKind> {
        if let Some(word) = json.as_str() {
            return FREESTANDING.iter().find(|kind| kind.0 == word).map(|kind| kind.1);
        }
        let (word, id) = json.only()?;
        let kind = OF_RESOURCE.iter().find(|kind| kind.0 == word)?;
        Some(kind.1(Schema::read(id)?))
    }

    fn write(&self) -> Json {
        if let Some(id) = self.resource() {
            let kind = OF_RESOURCE.iter().find(|kind| kind.1(id) == *self);
            return kind.map_or(Json::Null, |kind| Json::tagged(kind.0, id.write()));
        }
        let kind = FREESTANDING.iter().find(|kind| kind.1 == *self);
        kind.map_or(Json::Null, |kind| Json::String(kind.0.into()))
    }
}
