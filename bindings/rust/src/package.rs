//! Packages as data: worlds, interfaces and other packages' items. Types are in [`crate::types`].

use crate::arena::{Arena, InterfaceId, Map, PackageId, TypeId, WorldId};
use crate::types::{Function, TypeDef};
use std::fmt;
use std::ops::Range;

/// A range of bytes over all sources of a group, one after the other; [`Group::locate`] leads to one of them.
#[derive(Clone, Copy, Debug, PartialEq, Eq, PartialOrd, Ord, Hash)]
pub struct Span {
    /// The place of the first byte.
    pub start: usize,
    /// The place after the last byte.
    pub end: usize,
}

/// The package of the sources, and the packages that are nested in it. Each has arenas of its own.
#[derive(Clone, Debug, PartialEq, Eq)]
pub struct Group {
    /// The sources, in the order in which they were given.
    pub sources: Vec<SourceSpan>,
    /// The package of the sources, and after it the nested ones, in their order.
    pub packages: Arena<PackageId, Package>,
}

/// Where a source lies among the sources.
#[derive(Clone, Debug, PartialEq, Eq, Hash)]
pub struct SourceSpan {
    /// The path of the source.
    pub path: String,
    /// Its bytes.
    pub span: Span,
}

/// A package whose own names are resolved. Of other packages it has the items that it uses.
#[derive(Clone, Debug, PartialEq, Eq)]
pub struct Package {
    /// Its name.
    pub name: PackageName,
    /// Its worlds: first those of other packages, then its own, each after all that it includes.
    pub worlds: Arena<WorldId, World>,
    /// Its interfaces: first those of other packages, then its own, each after all that it uses, and last
    /// the inline ones of its worlds.
    pub interfaces: Arena<InterfaceId, Interface>,
    /// Its types: first those of other packages, then each after all that it refers to. Equal types without
    /// a name are one entry.
    pub types: Arena<TypeId, TypeDef>,
    /// The items of other packages, by the names of the package and of the item.
    pub foreign_deps: Map<PackageName, Map<String, ForeignItem>>,
    /// Its docs.
    pub docs: Docs,
    /// Where its name is written; in several files, where it is last.
    pub package_name_span: Span,
    /// Where each type of another package is first used. These types are the first of `types`.
    pub unknown_type_spans: Vec<Span>,
    /// Where each package of `foreign_deps` is first named.
    pub foreign_dep_spans: Vec<Span>,
    /// The types of other packages that have to be resources, since a handle refers to them, and where.
    pub required_resource_types: Vec<(TypeId, Span)>,
}

/// The name of a package: `namespace:name`, with `@version` if it has one.
#[derive(Clone, Debug, PartialEq, Eq, PartialOrd, Ord, Hash)]
pub struct PackageName {
    /// What stands before the colon.
    pub namespace: String,
    /// What stands after it.
    pub name: String,
    /// The version, as text.
    pub version: Option<String>,
}

/// An item of another package.
#[derive(Clone, Debug, PartialEq, Eq)]
pub struct ForeignItem {
    /// Its entry.
    pub item: ItemId,
    /// The stability of each path that leads to it.
    pub stabilities: Vec<Stability>,
}

/// An interface or a world.
#[derive(Clone, Copy, Debug, PartialEq, Eq, Hash)]
pub enum ItemId {
    /// An interface.
    Interface(InterfaceId),
    /// A world.
    World(WorldId),
}

/// A world.
#[derive(Clone, Debug, PartialEq, Eq)]
pub struct World {
    /// Its name; empty for a world of another package, whose name `foreign_deps` has.
    pub name: String,
    /// What it imports, in source order.
    pub imports: Map<WorldKey, WorldItem>,
    /// What it exports, in source order.
    pub exports: Map<WorldKey, WorldItem>,
    /// Its package, once packages are joined.
    pub package: Option<PackageId>,
    /// Its docs.
    pub docs: Docs,
    /// Its stability.
    pub stability: Stability,
    /// The worlds that it includes. What they import and export is not among its own.
    pub includes: Vec<Include>,
    /// Where its name is; for a world of another package, in the path that first leads to it.
    pub span: Span,
}

/// What an import or an export of a world is found by.
#[derive(Clone, Debug, PartialEq, Eq, Hash)]
pub enum WorldKey {
    /// A name.
    Name(String),
    /// An interface that is named by a path.
    Interface(InterfaceId),
}

/// An import or an export of a world.
#[derive(Clone, Debug, PartialEq, Eq)]
pub enum WorldItem {
    /// An interface, which is named by a path or written in the world.
    Interface(WorldInterface),
    /// A function.
    Function(Function),
    /// A type that the world defines or uses.
    Type(WorldType),
}

/// An interface as a world imports or exports it.
#[derive(Clone, Debug, PartialEq, Eq)]
pub struct WorldInterface {
    /// The interface.
    pub id: InterfaceId,
    /// The stability of the import or export.
    pub stability: Stability,
    /// The external id of the import or export.
    pub external_id: Option<String>,
    /// The docs of the import or export.
    pub docs: Docs,
    /// Where the interface is named here.
    pub span: Span,
}

/// A type as a world has it.
#[derive(Clone, Copy, Debug, PartialEq, Eq, Hash)]
pub struct WorldType {
    /// The type.
    pub id: TypeId,
    /// Where its name in the world is; of `use i.{t as s}`, where `s` is.
    pub span: Span,
}

/// A world that another one includes.
#[derive(Clone, Debug, PartialEq, Eq)]
pub struct Include {
    /// The stability of the include.
    pub stability: Stability,
    /// The world that is included.
    pub id: WorldId,
    /// The names that get other ones.
    pub names: Vec<IncludeName>,
    /// Where the world is named.
    pub span: Span,
}

/// A name of an included world, and what it becomes.
#[derive(Clone, Debug, PartialEq, Eq, Hash)]
pub struct IncludeName {
    /// The name in the included world.
    pub name: String,
    /// The name in the world that includes it.
    pub as_: String,
}

/// An interface.
#[derive(Clone, Debug, PartialEq, Eq)]
pub struct Interface {
    /// Its name; none for an inline interface, and for one of another package, whose name `foreign_deps` has.
    pub name: Option<String>,
    /// The types that it defines and uses, in source order.
    pub types: Map<String, TypeId>,
    /// Its functions by their mangled names, as `[method]r.f`, in source order.
    pub functions: Map<String, Function>,
    /// Its docs.
    pub docs: Docs,
    /// Its stability.
    pub stability: Stability,
    /// Its package, once packages are joined.
    pub package: Option<PackageId>,
    /// The interface of which it is a copy, once worlds are joined.
    pub clone_of: Option<InterfaceId>,
    /// Where its name is; for an interface of another package, in the path that first leads to it; for an
    /// inline one, its name in the world.
    pub span: Span,
}

/// The docs of an item.
#[derive(Clone, Debug, Default, PartialEq, Eq, Hash)]
pub struct Docs {
    /// Their text, if there are some.
    pub contents: Option<String>,
}

/// What attributes say of an item. Versions are texts.
#[derive(Clone, Debug, Default, PartialEq, Eq, Hash)]
pub enum Stability {
    /// Nothing.
    #[default]
    Unknown,
    /// `@unstable`.
    Unstable {
        /// The feature.
        feature: String,
        /// The version from which on it is deprecated.
        deprecated: Option<String>,
    },
    /// `@since`.
    Stable {
        /// The version from which on it is stable.
        since: String,
        /// The version from which on it is deprecated.
        deprecated: Option<String>,
    },
}

impl Group {
    /// The package of the sources.
    ///
    /// # Panics
    ///
    /// There is no package. Each group of the library has one.
    #[must_use]
    pub fn main(&self) -> &Package {
        &self.packages[crate::Id::from_index(0)]
    }

    /// The source in which a span lies, and the range in that source's text, in bytes.
    #[must_use]
    pub fn locate(&self, span: Span) -> Option<(&SourceSpan, Range<usize>)> {
        let holds = |source: &&SourceSpan| source.span.start <= span.start && span.end <= source.span.end;
        let source = self.sources.iter().find(holds)?;
        Some((source, span.start - source.span.start..span.end - source.span.start))
    }
}

impl fmt::Display for PackageName {
    fn fmt(&self, f: &mut fmt::Formatter<'_>) -> fmt::Result {
        write!(f, "{}:{}", self.namespace, self.name)?;
        self.version.iter().try_for_each(|version| write!(f, "@{version}"))
    }
}
