//! A verified resolver of WIT packages.
//!
//! [`package`] takes [`Sources`], and gives the package that they mean as data, with every name resolved,
//! or the [`Refusal`] of the one rule that it found broken.
//!
//! ```
//! use tulfjak::{Sources, Type, TypeDefKind};
//!
//! let mut sources = Sources::new();
//! sources.push("a.wit", "package demo:first;");
//! sources.push("b.wit", "interface colors { type hue = u8; record color { hue: hue } }");
//! let group = tulfjak::package(&sources)?;
//! let package = group.main();
//! let colors = package.interfaces.values().next().expect("an interface");
//! assert_eq!(colors.name.as_deref(), Some("colors"));
//!
//! let color = &package.types[*colors.types.get("color").expect("a type")];
//! let TypeDefKind::Record(record) = &color.kind else { panic!("a record") };
//! let Type::Id(hue) = record.fields[0].ty else { panic!("a type with a name") };
//! assert_eq!(package.types[hue].kind, TypeDefKind::Type(Type::U8));
//!
//! let (source, range) = group.locate(record.fields[0].span).expect("a source");
//! assert_eq!((&*source.path, range), ("b.wit", 49..52));
//! # Ok::<(), tulfjak::Refusal>(())
//! ```
//!
//! [`resolve`], [`resolve_json`], [`check`] and [`answer`] take one text instead. That is one source, or
//! several, each after a line `=== PATH`; what stands in front of the first such line is the source
//! `stdin.wit`. The sources make one package, in which others may be nested.
//!
//! ```
//! let text = "package demo:first; interface colors { enum color { red, green } }";
//! let listing = tulfjak::resolve(text)?;
//! assert_eq!(
//!     listing,
//!     "package demo:first\n\
//!      types 1\n\
//!      #0 i0.color = enum red green\n\
//!      interfaces 1\n\
//!      i0 colors\n  color = type #0\n\
//!      worlds 0\n\
//!      foreign 0\n"
//! );
//!
//! let text = "=== a.wit\npackage demo:first;\n=== b.wit\ninterface colors { type hue = shade; }\n";
//! let refusal = tulfjak::resolve(text).unwrap_err();
//! assert_eq!(refusal.rule, 15);
//! assert_eq!(refusal.path.as_deref(), Some("b.wit"));
//! assert_eq!(refusal.span, 30..35);
//! assert_eq!(refusal.message, "type `shade` does not exist");
//! # Ok::<(), tulfjak::Refusal>(())
//! ```

#![deny(missing_docs)]

mod arena;
mod columns;
mod diagnostic;
mod json;
mod library;
mod package;
mod refusal;
mod rules;
mod schema;
mod sources;
mod types;
#[cfg(feature = "serde")]
mod with_serde;

pub use arena::{Arena, Id, InterfaceId, Map, PackageId, TypeId, WorldId};
pub use diagnostic::Diagnostic;
pub use package::*;
pub use refusal::Refusal;
pub use rules::{explain, rules};
pub use sources::{Source, Sources};
pub use types::*;

use std::error::Error;
use std::fmt;

/// The packages that sources make. No line of a source begins another one.
///
/// # Errors
///
/// The refusal of the sources.
///
/// # Panics
///
/// The library that is linked writes other JSON: it is of another version than this crate.
pub fn package(sources: &Sources) -> Result<Group, Refusal> {
    Ok(Group::from_json(&package_json(sources)?).expect("the JSON of a group"))
}

/// The packages that sources make, as JSON on one line without an end.
///
/// # Errors
///
/// The refusal of the sources.
pub fn package_json(sources: &Sources) -> Result<String, Refusal> {
    json_of(library::package_of(sources))
}

/// The listing of the packages that sources make. No line of a source begins another one.
///
/// # Errors
///
/// The refusal of the sources, for which they are resolved once more.
pub fn listing(sources: &Sources) -> Result<String, Refusal> {
    // In sources that are not refused, a line that begins like `=== PATH` is in a comment. A listing has no comments.
    match answer(sources.numbered().as_bytes()) {
        Answer::Listing(listing) => Ok(listing),
        _ => Err(package_json(sources).err().unwrap_or_else(Refusal::out_of_memory)),
    }
}

/// The packages that the sources of a text make, as JSON on one line without an end.
///
/// # Errors
///
/// The refusal of the sources.
pub fn resolve_json(text: &str) -> Result<String, Refusal> {
    json_of(library::package(text.as_bytes()))
}

fn json_of((status, bytes): (u8, Vec<u8>)) -> Result<String, Refusal> {
    match (status, String::from_utf8(bytes)) {
        (library::MADE, Ok(json)) => Ok(json),
        (library::REFUSED, Ok(json)) => Err(Refusal::from_json(&json).unwrap_or_else(Refusal::out_of_memory)),
        _ => Err(Refusal::out_of_memory()),
    }
}

/// A text that is not the JSON of a group.
#[derive(Clone, Copy, Debug, PartialEq, Eq, Hash)]
pub struct InvalidJson;

impl fmt::Display for InvalidJson {
    fn fmt(&self, f: &mut fmt::Formatter<'_>) -> fmt::Result {
        f.write_str("not the JSON of a group of packages")
    }
}

impl Error for InvalidJson {}

impl Group {
    /// The group of a JSON text. Members that the schema does not have are passed over.
    ///
    /// # Errors
    ///
    /// It is not the JSON of a group.
    pub fn from_json(text: &str) -> Result<Group, InvalidJson> {
        json::Json::parse(text).and_then(|json| schema::Schema::read(&json)).ok_or(InvalidJson)
    }

    /// The group as JSON: of a group that the library made, the very text that the library wrote.
    #[must_use]
    pub fn to_json(&self) -> String {
        schema::Schema::write(self).to_string()
    }
}

/// What the program `wit` prints of a text.
#[derive(Clone, Debug, PartialEq, Eq, Hash)]
pub enum Answer {
    /// The listing of the packages that the sources make.
    Listing(String),
    /// The line of the sources' refusal.
    Line(String),
    /// The bytes are not UTF-8.
    NoText,
    /// An allocation failed, outside reading and resolving; there it is the refusal 45.
    NoMemory,
}

/// What the program `wit` prints of a text, byte by byte.
#[must_use]
pub fn answer(text: &[u8]) -> Answer {
    let (status, bytes) = library::answer(text);
    match (status, String::from_utf8(bytes)) {
        (library::MADE, Ok(listing)) => Answer::Listing(listing),
        (library::REFUSED, Ok(line)) => Answer::Line(line),
        (library::NO_TEXT, _) => Answer::NoText,
        _ => Answer::NoMemory,
    }
}

/// Whether the sources of a text make packages.
///
/// # Errors
///
/// The refusal of the sources.
pub fn check(text: &str) -> Result<(), Refusal> {
    let (status, plain) = library::check(text.as_bytes());
    match status {
        library::MADE => Ok(()),
        library::REFUSED => Err(plain.refusal()),
        _ => Err(Refusal::out_of_memory()),
    }
}

/// The listing of the packages that the sources of a text make.
///
/// # Errors
///
/// The refusal of the sources, for which they are resolved once more.
pub fn resolve(text: &str) -> Result<String, Refusal> {
    match answer(text.as_bytes()) {
        Answer::Listing(listing) => Ok(listing),
        Answer::Line(_) => Err(check(text).err().unwrap_or_else(Refusal::out_of_memory)),
        Answer::NoText | Answer::NoMemory => Err(Refusal::out_of_memory()),
    }
}

/// The version of the library that is linked: major, minor and patch.
#[must_use]
pub fn library_version() -> (u16, u8, u8) {
    let [high, low, minor, patch] = library::version().to_be_bytes();
    (u16::from_be_bytes([high, low]), minor, patch)
}
