//! The rules in words.

/// What is wrong where a rule is broken and, where that helps, how to mend it. None for a number that no rule has.
///
/// ```
/// assert!(tulfjak::explain(15).is_some_and(|text| text.starts_with("A type does not exist. ")));
/// assert_eq!(tulfjak::explain(0), None);
/// ```
#[must_use]
pub fn explain(rule: u8) -> Option<&'static str> {
    RULES.iter().find(|(number, _)| *number == rule).map(|(_, text)| *text)
}

/// The numbers of all rules.
pub fn rules() -> impl Iterator<Item = u8> {
    RULES.iter().map(|(number, _)| *number)
}

const RULES: &[(u8, &str)] = &[
    (
        1,
        "Two headers name different packages. All sources that are given together are one package, so each \
         `package` header must have the same name and the same version. One header is enough for all of them.",
    ),
    (
        2,
        "Two headers have docs. A package has its docs in one place: only one of the `package` headers may \
         have a doc comment.",
    ),
    (
        3,
        "A nested package is inside another nested package. `package a:b { .. }` may only be at the top level \
         of a file.",
    ),
    (
        4,
        "There is no header. At least one file must begin with a header such as `package a:b;` or `package \
         a:b@1.0.0;`.",
    ),
    (
        5,
        "Two interfaces or worlds of the package have the same name, perhaps in two files. Interfaces and \
         worlds share one set of names.",
    ),
    (
        6,
        "Two items at the top level of a file have the same name. The interfaces and worlds of a file, and \
         the names that its top-level `use` statements bring in, must all be different. `use a:b/c as d;` \
         brings an interface in under another name.",
    ),
    (
        7,
        "An interface or world does not exist. A path without a package must be the name of an interface or \
         world in one of the files, or a name that a top-level `use` of the same file brings in. A path with \
         a package, such as `a:b/c`, refers to another package.",
    ),
    (
        8,
        "An interface or world depends on itself. An interface depends on the interfaces from which it uses \
         types, and a world on the worlds that it includes. These must not form a cycle.",
    ),
    (9, "A top-level `use` has attributes. `@since`, `@unstable` and `@deprecated` are not allowed there."),
    (
        10,
        "A world is given where an interface is needed. A `use` inside an interface or a world, and an import \
         or export by path, must refer to an interface.",
    ),
    (
        11,
        "An interface is given where a world is needed. Only a world can be included; import or export the \
         interface instead.",
    ),
    (
        12,
        "A used name does not exist. In `use i.{t};` the interface `i` must have a type `t`, either defined \
         there or brought in by a `use`.",
    ),
    (
        13,
        "A function is used like a type. `use i.{t};` brings in types only; to have the functions of an \
         interface, import it.",
    ),
    (
        14,
        "A name is defined more than once in an interface or world. The types that it uses and those that it \
         defines must all have different names. `use i.{t as s};` brings a type in under another name.",
    ),
    (
        15,
        "A type does not exist. A type name must be defined in the same interface or world, earlier or later, \
         or brought in by a `use` there. Primitive types are u8 to u64, s8 to s64, f32, f64, bool, char and \
         string.",
    ),
    (
        16,
        "A type depends on itself. WIT has no recursive types, not even through a list or an option. Refer to \
         one of the types by a resource, or by an index into a list.",
    ),
    (
        17,
        "Two names are the same, or differ only in case. In an interface, and on each side of a world, types \
         and functions share one set of names, in which `a-b` and `A-b` count as the same.",
    ),
    (
        18,
        "A setter has no getter. Each `x: set(..)` needs an `x: get() -> ..` in the same interface, world or \
         resource.",
    ),
    (19, "A record has no fields. It needs at least one."),
    (20, "A flags type has no flags. It needs at least one."),
    (21, "A flags type has more than 32 flags. Split it into several types."),
    (22, "A tuple has no types. `tuple<..>` needs at least one."),
    (23, "A variant has no cases. It needs at least one."),
    (24, "An enum has no cases. It needs at least one."),
    (25, "Two fields, flags or cases of a type have the same name, or names that differ only in case."),
    (
        26,
        "A map has a key type that is not allowed. The key of `map<k, v>` must be written as bool, u8, u16, \
         u32, u64, s8, s16, s32, s64, char or string. An alias of one of these is not allowed.",
    ),
    (
        27,
        "A handle is not to a resource. The name in `own<..>` or `borrow<..>` must be a resource, an alias of \
         one, or a type that is used from another package.",
    ),
    (28, "A function is used as a type. The name in this signature is that of a function of the interface."),
    (
        29,
        "A name in a signature does not exist. It must be a type that is defined in the same interface or \
         world, or brought in by a `use` there.",
    ),
    (30, "An item has `@since` twice."),
    (31, "An item has `@deprecated` twice."),
    (32, "An item has `@unstable` twice."),
    (
        33,
        "An item has both `@since` and `@unstable`. It is either stable since a version, or unstable with a \
         feature.",
    ),
    (34, "An item has `@deprecated` but neither `@since` nor `@unstable`. It needs one of these too."),
    (35, "An item has two external ids. It may have only one."),
    (36, "A getter has parameters. It is written `x: get() -> t;`."),
    (37, "A setter has no parameter, or several. It has exactly one, as in `x: set(value: t);`."),
    (
        38,
        "Two parameters of a function have the same name, or names that differ only in case. A method also \
         has a parameter `self`, before those that are written.",
    ),
    (39, "A getter has no result. It is written `x: get() -> t;`."),
    (
        40,
        "A setter returns a value. It may have no result, or one that gives nothing but an error: `result` or \
         `result<_, e>`.",
    ),
    (
        41,
        "A constructor has a result that is not a `result`. The constructor of a resource `r` is written \
         without one, or with `-> result<r, e>` if it can fail.",
    ),
    (
        42,
        "A constructor returns something else than its resource. The constructor of a resource `r` that can \
         fail must return `result<r, ..>` or `result<own<r>, ..>`.",
    ),
    (
        43,
        "A world imports, or exports, the same interface twice. By its path alone, an interface can be \
         imported once and exported once. Give it a name to import it again: `import x: a:b/c;`.",
    ),
    (
        44,
        "An import or export has the name of another one. On each side of a world, types, functions and \
         interfaces need different names.",
    ),
    (45, "An allocation failed while the sources were read or resolved. This says nothing about the sources."),
    (
        46,
        "A character is not part of any token. Outside of comments, WIT has only ASCII letters, digits and a \
         few signs. A byte order mark is not allowed either.",
    ),
    (
        47,
        "The grammar does not allow this token here, or the text ends too soon. The mistake may also be just \
         before it, such as a missing `;`. To use a keyword as a name, write it with `%`, as in `%record`.",
    ),
    (48, "A block comment has no end. Block comments nest, so each `/*` needs its own `*/`."),
    (49, "Types, or packages, are nested more than 100 deep. Define an inner type under a name of its own."),
    (
        50,
        "A version is not valid. It must be a semantic version: three numbers without leading zeros, such as \
         `1.0.0`, `1.0.0-rc.1` or `1.0.0+build`.",
    ),
    (51, "The length in `list<t, n>` is too large. The largest is 4,294,967,295."),
    (
        52,
        "The sources are too large. Their lengths in bytes, plus one for each source, must not exceed \
         4,294,967,295.",
    ),
    (
        53,
        "Two packages have the same name and version. The main package and the packages nested in it must all \
         differ in name or version.",
    ),
];
