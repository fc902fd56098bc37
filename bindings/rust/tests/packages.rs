//! Packages as data: what the library writes of sources is what `docs/JSON.md` says, the structs have all of
//! it, and a text and its sources make one group.

mod rows;

use rows::{all_rows, split};
use tulfjak::*;

/// The text of a file of the repository.
fn kept(path: &str) -> String {
    std::fs::read_to_string(format!("{}/../../{path}", env!("CARGO_MANIFEST_DIR"))).expect(path)
}

/// The JSON that `docs/JSON.md` has in a block, without its line ends and the spaces at their sides.
fn documented(place: usize) -> String {
    let page = kept("docs/JSON.md");
    let block = page.split("```json\n").nth(place + 1).and_then(|it| it.split("```").next()).expect("a block");
    block.lines().map(str::trim).collect()
}

/// The group of one text.
fn group_of(text: &str) -> Group {
    package(&Sources::from_iter([("a.wit", text)])).expect("legal")
}

#[test]
fn the_documented_examples() {
    let demo = kept("examples/demo.wit");
    assert_eq!(resolve_json(&demo), Ok(documented(0)));
    let text = "package foo:foo;\ninterface i { record p { a: list<u8>, b: list<u8> } }\n";
    assert_eq!(resolve_json(text), Ok(documented(1)));
}

#[test]
fn all_rows_read_and_written_back() {
    let mut groups = 0;
    for row in all_rows() {
        let sources: Sources = split(&row.text).into_iter().collect();
        let json = resolve_json(&row.text);
        if row.view == "listing" || row.view == "input" {
            assert_eq!(json.is_ok(), row.wanted.starts_with("package "), "{}", row.name);
        }
        match json {
            Ok(json) => {
                groups += 1;
                let group = Group::from_json(&json).expect(&row.name);
                assert_eq!(group.to_json(), json, "{}", row.name);
                assert_eq!(package(&sources).as_ref(), Ok(&group), "{}", row.name);
            }
            Err(refusal) => {
                assert_eq!(resolve(&row.text).as_ref(), Err(&refusal), "{}", row.name);
                assert_eq!(package(&sources), Err(refusal), "{}", row.name);
            }
        }
    }
    assert!(groups >= 1000, "{groups}");
}

/// The types to which a type refers.
fn parts(kind: &TypeDefKind) -> Vec<Type> {
    match kind {
        TypeDefKind::Record(record) => record.fields.iter().map(|field| field.ty).collect(),
        TypeDefKind::Handle(Handle::Own(id) | Handle::Borrow(id)) => vec![Type::Id(*id)],
        TypeDefKind::Tuple(tuple) => tuple.types.clone(),
        TypeDefKind::Variant(variant) => variant.cases.iter().filter_map(|case| case.ty).collect(),
        TypeDefKind::Result(result) => result.ok.into_iter().chain(result.err).collect(),
        TypeDefKind::Map(key, value) => vec![*key, *value],
        TypeDefKind::Option(ty) | TypeDefKind::List(ty) | TypeDefKind::FixedLengthList(ty, _) | TypeDefKind::Type(ty) => vec![*ty],
        TypeDefKind::Future(ty) | TypeDefKind::Stream(ty) => ty.iter().copied().collect(),
        TypeDefKind::Resource | TypeDefKind::Flags(_) | TypeDefKind::Enum(_) | TypeDefKind::Unknown => vec![],
    }
}

#[test]
fn ids_point_backward_and_spans_lie_in_sources() {
    for row in all_rows() {
        let Some(group) = resolve_json(&row.text).ok().map(|json| Group::from_json(&json).expect(&row.name)) else { continue };
        for package in group.packages.values() {
            for (id, ty) in package.types.iter() {
                assert!(parts(&ty.kind).iter().all(|part| !matches!(part, Type::Id(part) if *part >= id)), "{}: {id}", row.name);
                assert!(group.locate(ty.span).is_some(), "{}: {id}", row.name);
            }
            for (name, id) in package.interfaces.values().flat_map(|interface| interface.types.iter()) {
                assert_eq!(package.types[*id].name.as_ref(), Some(name), "{}", row.name);
            }
        }
    }
}

#[test]
fn docs_stability_and_places() {
    let text = "package a:b@1.0.0;\n/// Docs, \"quoted\" \\ \u{e9}.\n@since(version = 1.2.0)\n@deprecated(version = 1.3.0)\n\
        interface i {\n  /// Two\n  /// lines.\n  @unstable(feature = fresh)\n  f: func();\n}";
    let group = group_of(text);
    let package = group.main();
    let interface = package.interfaces.values().next().expect("an interface");
    assert_eq!(package.name, PackageName { namespace: "a".into(), name: "b".into(), version: Some("1.0.0".into()) });
    assert_eq!(interface.docs.contents.as_deref(), Some("Docs, \"quoted\" \\ \u{e9}."));
    assert_eq!(interface.stability, Stability::Stable { since: "1.2.0".into(), deprecated: Some("1.3.0".into()) });
    let function = interface.functions.get("f").expect("a function");
    assert_eq!(function.docs.contents.as_deref(), Some("Two\nlines."));
    assert_eq!(function.stability, Stability::Unstable { feature: "fresh".into(), deprecated: None });
    let (source, range) = group.locate(function.span).expect("a place");
    assert_eq!((&*source.path, &text[range.clone()]), ("a.wit", "f"));
    let source = Source { path: "a.wit".into(), text: text.into() };
    assert_eq!((source.line_column(range.start), source.line_column(9999)), ((9, 3), (10, 2)));
}

#[test]
fn worlds_and_other_packages() {
    let text = "package a:b; interface j { use x:y/z.{t}; }
        world v { import interface-0: func(); }
        world w { include v with { interface-0 as k }; import j; export q: interface { f: func(); } include x:y/u; }";
    let group = group_of(text);
    let package = group.main();
    let (id, world) = package.worlds.iter().find(|(_, world)| world.name == "w").expect("w");
    assert_eq!(package.worlds[id].name, "w");
    let (key, item) = world.imports.iter().next().expect("an import");
    let (WorldKey::Interface(key), WorldItem::Interface(item)) = (key, item) else { panic!("{item:?}") };
    assert_eq!((*key, package.interfaces[*key].name.as_deref()), (item.id, Some("j")));
    let Some(WorldItem::Interface(inline)) = world.exports.get(&WorldKey::Name("q".into())) else { panic!("no q") };
    assert!(package.interfaces[inline.id].functions.get("f").is_some());
    assert_eq!(world.includes[0].names, [IncludeName { name: "interface-0".into(), as_: "k".into() }]);
    let (name, items) = package.foreign_deps.iter().next().expect("a package");
    assert_eq!(name.to_string(), "x:y");
    assert_eq!(items.iter().map(|(name, _)| &**name).collect::<Vec<_>>(), ["z", "u"]);
    assert_eq!(items.get("u").map(|it| it.item), Some(ItemId::World(world.includes[1].id)));
}

#[test]
fn types_of_worlds_have_places() {
    let text = "package a:b; interface i { type t = u8; } world w { use i.{t as s}; type r = s; }";
    let group = group_of(text);
    let package = group.main();
    let world = package.worlds.values().next().expect("a world");
    let place = |span| &text[group.locate(span).expect("a place").1];
    let written: Vec<_> = world
        .imports
        .values()
        .map(|item| match item {
            WorldItem::Type(ty) => (place(ty.span), place(package.types[ty.id].span)),
            other => panic!("{other:?}"),
        })
        .collect();
    assert_eq!(written, [("s", "t"), ("r", "r")]);
}

#[test]
fn a_refusal_is_read_from_its_json() {
    let sources = Sources::from_iter([("a.wit", "package a:b;"), ("b \"q\".wit", "interface i { type t = u; }")]);
    let refusal = package(&sources).expect_err("refused");
    let message = "type `u` does not exist".into();
    assert_eq!(refusal, Refusal { rule: 15, path: Some("b \"q\".wit".into()), span: 23..24, message });
    let refusal = package(&Sources::new()).expect_err("no package");
    assert_eq!((refusal.rule, refusal.path, refusal.span), (4, None, 0..0));
}

#[test]
fn listings_are_those_of_one_text() {
    for row in all_rows() {
        let sources: Sources = split(&row.text).into_iter().collect();
        assert_eq!(listing(&sources), resolve(&row.text), "{}", row.name);
    }
}

#[test]
fn refusals_are_written_as_the_library_does() {
    let sources = Sources::from_iter([("a.wit", "package a:b;"), ("b \"q\"\n.wit", "interface i { type t = u; }")]);
    let refusal = package(&sources).expect_err("refused");
    let json = r#"{"error":{"rule":15,"path":"b \"q\"\n.wit","start":23,"end":24,"message":"type `u` does not exist"}}"#;
    assert_eq!(refusal.to_json(), json);
    let refusal = package(&Sources::new()).expect_err("no header");
    assert_eq!(refusal.to_json(), format!("{{\"error\":{{\"rule\":4,\"message\":\"{}\"}}}}", refusal.message));
}

#[test]
fn sources_are_whole() {
    let comment = "package a:b; /*\n=== c.wit\n*/ interface i {}";
    let sources = Sources::from_iter([("two\nlines.wit", comment), ("d.wit", "interface j {}"), ("", "")]);
    let group = package(&sources).expect("legal");
    let paths: Vec<_> = group.sources.iter().map(|source| &*source.path).collect();
    assert_eq!(paths, ["two\nlines.wit", "d.wit", ""]);
    assert_eq!(group.main().interfaces.len(), 2);
    assert_eq!(sources.get("d.wit").map(|source| &*source.text), Some("interface j {}"));
}

#[test]
fn files_and_folders() {
    let folder = format!("{}/../../examples/library", env!("CARGO_MANIFEST_DIR"));
    let sources = Sources::from_files([&folder]).expect("files");
    assert_eq!(sources.iter().filter(|source| source.path.ends_with(".wit")).count(), 4);
    assert_eq!(package(&sources).expect("legal").packages.len(), 2);
    let error = Sources::from_files(["no/such/file.wit"]).expect_err("no file");
    assert!(error.to_string().starts_with("no/such/file.wit: "), "{error}");
}

#[test]
fn much_json_of_little_text() {
    let version = "9".repeat(9);
    let lists = format!("{}u8{}", "list<".repeat(90), ">".repeat(90));
    let text = format!("package a:b; interface i {{ @since(version = {version}.0.0-{}) type t = {lists}; }}", "x".repeat(5000));
    let group = group_of(&text);
    assert_eq!(group.main().types.len(), 90);
    assert!(group.to_json().len() > 32 * text.len() + 1024);
}

#[test]
fn other_json_is_no_group() {
    let json = resolve_json("package a:b;").expect("legal");
    assert!(Group::from_json(&json).is_ok());
    for wrong in ["", "{}", "null", "[", "{\"sources\":[],\"packages\":1}", &format!("{json},"), &json[1..], &"[".repeat(100_000)] {
        assert_eq!(Group::from_json(wrong), Err(InvalidJson), "{wrong:.40}");
    }
    for end in 0..json.len() {
        assert_eq!(Group::from_json(&json[..end]), Err(InvalidJson), "{end}");
    }
    let more = json.replacen("{\"sources\"", " {\n\"later\" : [ { \"a\": 0 }, true ],\t\"sources\"", 1) + "\r\n";
    assert_eq!(Group::from_json(&more).expect("a group").to_json(), json);
}

#[test]
fn the_library_has_a_version() {
    let (major, minor, patch) = library_version();
    assert_eq!((major, minor, patch), (0, 1, 0));
    assert_eq!(format!("{major}.{minor}.{patch}"), env!("CARGO_PKG_VERSION"));
}
