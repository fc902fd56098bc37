//! The JSON of packages, in both directions: `docs/JSON.md` as code.

mod types;

use crate::arena::{Arena, Id, InterfaceId, Map, PackageId, TypeId, WorldId};
use crate::json::Json;
use crate::package::*;
use crate::types::*;

/// A value that has a form in JSON.
pub trait Schema: Sized {
    /// The value of this form, if it has it.
    fn read(json: &Json) -> Option<Self>;

    /// The form of the value.
    fn write(&self) -> Json;
}

/// What is found in an object by a string.
trait Key: Sized {
    fn read_key(text: &str) -> Option<Self>;
    fn write_key(&self) -> String;
}

/// The member of a name, which is left out where it has its default.
fn read_default<T: Schema + Default>(json: &Json, name: &str) -> Option<T> {
    json.get(name).map_or_else(|| Some(T::default()), T::read)
}

/// Structs as objects: their fields, and the names of these as members, in order. A field after which `?`
/// stands is left out where it has its default.
macro_rules! objects {
    ($($type:ident { $($field:ident $how:tt $name:literal),* $(,)? })*) => { $(
        impl Schema for $type {
            fn read(json: &Json) -> Option<$type> {
                Some($type { $($field: objects!(read $how json, $name)),* })
            }

            fn write(&self) -> Json {
                let members = [$(objects!(write $how $name, &self.$field)),*];
                Json::Object(members.into_iter().flatten().collect())
            }
        }
    )* };
    (read : $json:ident, $name:literal) => { Schema::read($json.get($name)?)? };
    (read ? $json:ident, $name:literal) => { read_default($json, $name)? };
    (write : $name:literal, $value:expr) => { Some(($name.into(), $value.write())) };
    (write ? $name:literal, $value:expr) => { (*$value != Default::default()).then(|| ($name.into(), $value.write())) };
}

objects! {
    Group { sources: "sources", packages: "packages" }
    Package {
        name: "name", worlds: "worlds", interfaces: "interfaces", types: "types", foreign_deps: "foreign_deps", docs? "docs",
        package_name_span: "package_name_span", unknown_type_spans: "unknown_type_spans",
        foreign_dep_spans: "foreign_dep_spans", required_resource_types: "required_resource_types",
    }
    World {
        name: "name", imports: "imports", exports: "exports", package: "package", docs? "docs", stability? "stability",
        includes: "includes", span: "span",
    }
    WorldInterface { id: "id", stability? "stability", external_id? "external_id", docs? "docs", span: "span" }
    WorldType { id: "type", span: "span" }
    Include { stability? "stability", id: "id", names: "names", span: "span" }
    IncludeName { name: "name", as_: "as" }
    Interface {
        name: "name", types: "types", functions: "functions", docs? "docs", stability? "stability", package: "package",
        clone_of? "clone_of", span: "span",
    }
    Function {
        name: "name", kind: "kind", params: "params", result? "result", docs? "docs", stability? "stability",
        external_id? "external_id", span: "span",
    }
    Param { name: "name", ty: "type", span: "span" }
    TypeDef {
        name: "name", kind: "kind", owner: "owner", docs? "docs", stability? "stability", external_id? "external_id",
        span: "span",
    }
    Record { fields: "fields" }
    Field { name: "name", ty: "type", docs? "docs", span: "span" }
    Flags { flags: "flags" }
    Flag { name: "name", docs? "docs", span: "span" }
    Tuple { types: "types" }
    Variant { cases: "cases" }
    Case { name: "name", ty: "type", docs? "docs", span: "span" }
    Enum { cases: "cases" }
    EnumCase { name: "name", docs? "docs", span: "span" }
    ResultType { ok: "ok", err: "err" }
    Docs { contents? "contents" }
}

impl Schema for usize {
    fn read(json: &Json) -> Option<usize> {
        if let Json::Number(number) = json { (*number).try_into().ok() } else { None }
    }

    fn write(&self) -> Json {
        Json::Number(*self as u64)
    }
}

impl Schema for u32 {
    fn read(json: &Json) -> Option<u32> {
        usize::read(json)?.try_into().ok()
    }

    fn write(&self) -> Json {
        Json::Number((*self).into())
    }
}

impl Schema for String {
    fn read(json: &Json) -> Option<String> {
        json.as_str().map(Into::into)
    }

    fn write(&self) -> Json {
        Json::String(self.clone())
    }
}

macro_rules! ids {
    ($($id:ident)*) => { $(
        impl Schema for $id {
            fn read(json: &Json) -> Option<$id> {
                usize::read(json).map($id::from_index)
            }

            fn write(&self) -> Json {
                self.index().write()
            }
        }
    )* };
}

ids! { PackageId WorldId InterfaceId TypeId }

impl<T: Schema> Schema for Option<T> {
    fn read(json: &Json) -> Option<Option<T>> {
        if *json == Json::Null { Some(None) } else { T::read(json).map(Some) }
    }

    fn write(&self) -> Json {
        self.as_ref().map_or(Json::Null, T::write)
    }
}

impl<T: Schema> Schema for Vec<T> {
    fn read(json: &Json) -> Option<Vec<T>> {
        json.items()?.iter().map(T::read).collect()
    }

    fn write(&self) -> Json {
        Json::Array(self.iter().map(T::write).collect())
    }
}

impl<A: Schema, B: Schema> Schema for (A, B) {
    fn read(json: &Json) -> Option<(A, B)> {
        let (first, second) = json.pair()?;
        Some((A::read(first)?, B::read(second)?))
    }

    fn write(&self) -> Json {
        Json::Array(vec![self.0.write(), self.1.write()])
    }
}

impl<I: Id, T: Schema> Schema for Arena<I, T> {
    fn read(json: &Json) -> Option<Arena<I, T>> {
        Vec::read(json).map(Into::into)
    }

    fn write(&self) -> Json {
        Json::Array(self.values().map(T::write).collect())
    }
}

impl<K: Key, V: Schema> Schema for Map<K, V> {
    fn read(json: &Json) -> Option<Map<K, V>> {
        let Json::Object(members) = json else { return None };
        let entry = |(key, value): &(String, Json)| Some((K::read_key(key)?, V::read(value)?));
        members.iter().map(entry).collect::<Option<Vec<_>>>().map(Into::into)
    }

    fn write(&self) -> Json {
        Json::Object(self.iter().map(|(key, value)| (key.write_key(), value.write())).collect())
    }
}

impl Key for String {
    fn read_key(text: &str) -> Option<String> {
        Some(text.into())
    }

    fn write_key(&self) -> String {
        self.clone()
    }
}

impl Key for WorldKey {
    /// No name has a colon.
    fn read_key(text: &str) -> Option<WorldKey> {
        match text.strip_prefix("interface:") {
            Some(index) => index.parse().ok().map(InterfaceId::from_index).map(WorldKey::Interface),
            None => Some(WorldKey::Name(text.into())),
        }
    }

    fn write_key(&self) -> String {
        match self {
            WorldKey::Name(name) => name.clone(),
            WorldKey::Interface(id) => format!("interface:{id}"),
        }
    }
}

impl Key for PackageName {
    fn read_key(text: &str) -> Option<PackageName> {
        let (path, version) = text.split_once('@').map_or((text, None), |(path, version)| (path, Some(version)));
        let (namespace, name) = path.split_once(':')?;
        Some(PackageName { namespace: namespace.into(), name: name.into(), version: version.map(Into::into) })
    }

    fn write_key(&self) -> String {
        self.to_string()
    }
}

impl Schema for PackageName {
    fn read(json: &Json) -> Option<PackageName> {
        PackageName::read_key(json.as_str()?)
    }

    fn write(&self) -> Json {
        Json::String(self.to_string())
    }
}

impl Schema for Span {
    fn read(json: &Json) -> Option<Span> {
        <(usize, usize)>::read(json).map(|(start, end)| Span { start, end })
    }

    fn write(&self) -> Json {
        (self.start, self.end).write()
    }
}

impl Schema for SourceSpan {
    fn read(json: &Json) -> Option<SourceSpan> {
        let place = |name| usize::read(json.get(name)?);
        Some(SourceSpan { path: String::read(json.get("path")?)?, span: Span { start: place("start")?, end: place("end")? } })
    }

    fn write(&self) -> Json {
        let Span { start, end } = self.span;
        Json::Object(vec![("path".into(), self.path.write()), ("start".into(), start.write()), ("end".into(), end.write())])
    }
}

impl Schema for ForeignItem {
    fn read(json: &Json) -> Option<ForeignItem> {
        <(ItemId, Vec<Stability>)>::read(json).map(|(item, stabilities)| ForeignItem { item, stabilities })
    }

    fn write(&self) -> Json {
        Json::Array(vec![self.item.write(), self.stabilities.write()])
    }
}

impl Schema for ItemId {
    fn read(json: &Json) -> Option<ItemId> {
        match json.only()? {
            ("interface", id) => Schema::read(id).map(ItemId::Interface),
            ("world", id) => Schema::read(id).map(ItemId::World),
            _ => None,
        }
    }

    fn write(&self) -> Json {
        match self {
            ItemId::Interface(id) => Json::tagged("interface", id.write()),
            ItemId::World(id) => Json::tagged("world", id.write()),
        }
    }
}

impl Schema for WorldItem {
    fn read(json: &Json) -> Option<WorldItem> {
        if json.get("type").is_some() {
            return Schema::read(json).map(WorldItem::Type);
        }
        match json.only()? {
            ("interface", item) => Schema::read(item).map(WorldItem::Interface),
            ("function", item) => Schema::read(item).map(WorldItem::Function),
            _ => None,
        }
    }

    fn write(&self) -> Json {
        match self {
            WorldItem::Interface(item) => Json::tagged("interface", item.write()),
            WorldItem::Function(item) => Json::tagged("function", item.write()),
            WorldItem::Type(item) => item.write(),
        }
    }
}

/// A text, and the version from which on an item is deprecated, if there is one.
fn read_attribute(json: &Json, name: &str) -> Option<(String, Option<String>)> {
    Some((String::read(json.get(name)?)?, read_default(json, "deprecated")?))
}

fn write_attribute(name: &str, text: &str, deprecated: Option<&String>) -> Json {
    let mut members = vec![(name.into(), Json::String(text.into()))];
    members.extend(deprecated.map(|version| ("deprecated".into(), version.write())));
    Json::Object(members)
}

impl Schema for Stability {
    fn read(json: &Json) -> Option<Stability> {
        if json.as_str() == Some("unknown") {
            return Some(Stability::Unknown);
        }
        match json.only()? {
            ("unstable", it) => read_attribute(it, "feature").map(|(feature, deprecated)| Stability::Unstable { feature, deprecated }),
            ("stable", it) => read_attribute(it, "since").map(|(since, deprecated)| Stability::Stable { since, deprecated }),
            _ => None,
        }
    }

    fn write(&self) -> Json {
        match self {
            Stability::Unknown => Json::String("unknown".into()),
            Stability::Unstable { feature, deprecated } => {
                Json::tagged("unstable", write_attribute("feature", feature, deprecated.as_ref()))
            }
            Stability::Stable { since, deprecated } => Json::tagged("stable", write_attribute("since", since, deprecated.as_ref())),
        }
    }
}
