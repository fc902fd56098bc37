//! The worked rows of `crates/wit_rows/data`: what is said of each source, as a listing or a line, and as
//! fields, is what its row says.

mod rows;

use rows::{Row, all_rows, split};
use tulfjak::{Answer, Refusal, answer, check, resolve};

/// The sources of a text at a path.
fn sources_at(text: &str, path: &str) -> Vec<String> {
    split(text).into_iter().filter(|it| it.0 == path).map(|it| it.1).collect()
}

/// The lines of a refusal, made of its fields: one for each source at its path.
fn lines_of(text: &str, refusal: &Refusal) -> Vec<String> {
    let Refusal { rule, path, span, message } = refusal;
    let Some(path) = path else {
        return vec![format!("error E{rule} - \"\": {message}\n")];
    };
    let line = |source: &String| {
        let slice = source.get(span.clone()).unwrap_or("no slice");
        let first = slice.split(['\n', '\r']).next().unwrap_or_default();
        format!("error E{rule} {path} \"{first}\": {message}\n")
    };
    sources_at(text, path).iter().map(line).collect()
}

/// Checks all that is said of the text of a row.
fn check_row(row: &Row) {
    let Row { name, text, wanted, .. } = row;
    match answer(text.as_bytes()) {
        Answer::Listing(listing) => {
            assert_eq!(&listing, wanted, "{name}");
            assert_eq!(resolve(text), Ok(listing), "{name}");
            assert_eq!(check(text), Ok(()), "{name}");
        }
        Answer::Line(line) => {
            assert_eq!(&line, wanted, "{name}");
            let refusal = resolve(text).expect_err(name);
            assert!(lines_of(text, &refusal).contains(&line), "{name}: {line} {refusal:?}");
            assert_eq!(check(text), Err(refusal), "{name}");
        }
        other => panic!("{name}: {other:?}"),
    }
}

/// Checks the rows of a view, and that there are some.
fn check_view(view: &str, least: usize) {
    let rows: Vec<_> = all_rows().into_iter().filter(|row| row.view == view).collect();
    assert!(rows.len() >= least, "{} rows of {view}", rows.len());
    rows.iter().for_each(check_row);
}

#[test]
fn listings_of_rows() {
    check_view("listing", 3000);
}

#[test]
fn inputs_of_rows() {
    check_view("input", 20);
}

#[test]
fn the_examples() {
    let kept = |path: &str| std::fs::read_to_string(format!("{}/../../{path}", env!("CARGO_MANIFEST_DIR"))).expect(path);
    let listing = resolve(&kept("examples/demo.wit")).expect("demo.wit");
    assert_eq!(listing, kept("crates/wit/stdout"));
    let library: String = ["accounts", "books", "desk", "search"]
        .map(|name| format!("=== {name}.wit\n{}", kept(&format!("examples/library/{name}.wit"))))
        .concat();
    assert_eq!(resolve(&library).expect("library"), kept("examples/library.listing"));
}

#[test]
fn what_is_no_text_is_told_so() {
    assert_eq!(answer(b"package foo:foo; // \xff\n"), Answer::NoText);
}

#[test]
fn a_long_listing_path_and_message_are_whole() {
    let types: String = (0..500).map(|n| format!(" type t{n} = list<list<u{}>>;", 8 << (n % 3))).collect();
    let listing = resolve(&format!("package a:b;interface i {{{types}}}")).expect("legal");
    assert!(listing.ends_with("foreign 0\n") && listing.len() > 10_000);
    let (path, name) = ("p".repeat(1000), "n".repeat(2000));
    let refusal = resolve(&format!("=== {path}\npackage a:b; interface i {{ type t = {name}; }}")).expect_err("refused");
    assert_eq!((refusal.path, refusal.span.len()), (Some(path), 2000));
    assert_eq!(refusal.message, format!("type `{name}` does not exist"));
}

#[test]
fn threads_share_nothing() {
    let text = "package a:b; interface i { type t = u; }";
    let answer = resolve(text);
    let threads: Vec<_> = (0..8).map(|_| std::thread::spawn(move || (0..200).map(|_| resolve(text)).collect::<Vec<_>>())).collect();
    for thread in threads {
        assert!(thread.join().expect("joined").iter().all(|it| *it == answer));
    }
}
