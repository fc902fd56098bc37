//! A refusal of each rule as people read it: `tests/refusals` has a file for each, whose first line names the
//! row of `crates/wit_rows/data` with the sources. Text breaks all rules but three.

mod rows;

use rows::{all_rows, split};
use tulfjak::{Diagnostic, Refusal, Sources, package};

/// The files, by number: the name of the row, if there is one, and what is printed.
fn kept() -> Vec<(u8, Option<String>, String)> {
    let folder = concat!(env!("CARGO_MANIFEST_DIR"), "/tests/refusals");
    let mut files: Vec<_> = std::fs::read_dir(folder)
        .expect(folder)
        .map(|file| {
            let path = file.expect(folder).path();
            let number = path.file_stem().and_then(|name| name.to_str()?.strip_prefix('E')?.parse().ok());
            let text = std::fs::read_to_string(&path).expect("a file");
            let (head, printed) = text.split_once('\n').expect("a line");
            (number.expect("a number"), head.strip_prefix("row ").map(Into::into), printed.into())
        })
        .collect();
    files.sort();
    files
}

/// The sources and the refusal of a rule that no text breaks.
fn by_hand(rule: u8) -> (Sources, Refusal) {
    let text = "package a:b;\n@external-id(\"a\")\n@external-id(\"b\")\ninterface i {}\n";
    let refusal = match rule {
        35 => Refusal { rule, path: Some("a.wit".into()), span: 31..48, message: "cannot specify @external-id twice".into() },
        45 => Refusal { rule, path: None, span: 0..0, message: "out of memory".into() },
        52 => Refusal { rule, path: None, span: 0..0, message: "sources too large".into() },
        _ => panic!("text breaks E{rule}"),
    };
    (Sources::from_iter([("a.wit", text)]), refusal)
}

#[test]
fn each_rule_is_printed() {
    let rows = all_rows();
    for (rule, row, printed) in kept() {
        let (sources, refusal) = row.map_or_else(
            || by_hand(rule),
            |name| {
                let line = format!("error E{rule} ");
                let mut rows = rows.iter().filter(|row| row.view == "listing" && row.wanted.starts_with(&line));
                let row = rows.find(|row| row.name == name).expect(&name);
                let sources = split(&row.text).into_iter().collect();
                let refusal = package(&sources).expect_err(&name);
                (sources, refusal)
            },
        );
        let diagnostic = Diagnostic::new(&refusal, &sources);
        assert_eq!(diagnostic.to_string(), printed, "E{rule}");
        let place = printed.lines().nth(1).and_then(|line| line.split_once("--> "));
        let short = place.map_or(String::new(), |(_, place)| format!("{place}: ")) + printed.lines().next().expect("a line") + "\n";
        assert_eq!(diagnostic.short(true).to_string(), short, "E{rule}");
    }
}

#[test]
fn each_rule_has_words_and_a_file() {
    let page = std::fs::read_to_string(concat!(env!("CARGO_MANIFEST_DIR"), "/../../docs/REFUSALS.md")).expect("the page");
    let rows = page.lines().filter_map(|line| line.strip_prefix("| E")?.split(' ').next()?.parse::<u8>().ok());
    let mut numbers: Vec<u8> = rows.collect();
    numbers.sort_unstable();
    numbers.dedup();
    assert!(numbers.len() >= 53);
    assert_eq!(tulfjak::rules().collect::<Vec<_>>(), numbers);
    assert_eq!(kept().into_iter().map(|file| file.0).collect::<Vec<_>>(), numbers);
    for rule in 0..=u8::MAX {
        assert_eq!(tulfjak::explain(rule).is_some(), numbers.contains(&rule), "E{rule}");
    }
}

/// What is printed of a range of a text.
fn printed(text: &str, span: std::ops::Range<usize>) -> String {
    let sources = Sources::from_iter([("a.wit", text)]);
    let refusal = Refusal { rule: 47, path: Some("a.wit".into()), span, message: "m".into() };
    let printed = Diagnostic::new(&refusal, &sources).to_string();
    printed.strip_prefix("error[E47]: m\n").expect("the first line").to_owned()
}

#[test]
fn marks_stand_below_the_range() {
    assert_eq!(printed("ab cd\n", 3..5), " --> a.wit:1:4\n  |\n1 | ab cd\n  |    ^^\n");
    // A tab is four spaces, and one character.
    assert_eq!(printed("\ta\tb", 1..4), " --> a.wit:1:2\n  |\n1 |     a    b\n  |     ^^^^^^\n");
    // Wide characters take two columns, combining ones none.
    assert_eq!(printed("\u{4e16}\u{754c} x \u{ff01}", 7..12), " --> a.wit:1:4\n  |\n1 | \u{4e16}\u{754c} x \u{ff01}\n  |      ^^^^\n");
    assert_eq!(printed("e\u{301} x", 4..5), " --> a.wit:1:4\n  |\n1 | e\u{301} x\n  |   ^\n");
    // The end of a text, after a line's end and after none.
    assert_eq!(printed("ab\n", 3..3), " --> a.wit:2:1\n  |\n2 |\n  | ^\n");
    assert_eq!(printed("ab", 2..2), " --> a.wit:1:3\n  |\n1 | ab\n  |   ^\n");
    assert_eq!(printed("", 0..0), " --> a.wit:1:1\n  |\n1 |\n  | ^\n");
    // Several lines, with either end; and a range that ends with its line.
    assert_eq!(printed("a /*\n*/ b", 2..7), " --> a.wit:1:3\n  |\n1 | a /*\n  |   ^^...\n");
    assert_eq!(printed("a /*\r\n*/ b", 2..8), " --> a.wit:1:3\n  |\n1 | a /*\n  |   ^^...\n");
    assert_eq!(printed("ab\r\ncd", 0..4), " --> a.wit:1:1\n  |\n1 | ab\n  | ^^\n");
    // What controls a terminal is not printed.
    assert_eq!(printed("a\u{1b}[2J\u{202e}b\r c", 1..2), " --> a.wit:1:2\n  |\n1 | a\u{fffd}[2J\u{fffd}b\u{fffd} c\n  |  ^\n");
    // Places that are none.
    assert_eq!(printed("\u{4e16}", 1..2), " --> a.wit:1:1\n  |\n1 | \u{4e16}\n  | ^\n");
    assert_eq!(printed("ab", 7..9), " --> a.wit:1:3\n  |\n1 | ab\n  |   ^\n");
}

#[test]
fn the_gutter_is_as_wide_as_the_number() {
    let text = "\n".repeat(99) + "ab";
    assert_eq!(printed(&text, 99..101), "   --> a.wit:100:1\n    |\n100 | ab\n    | ^^\n");
}

#[test]
fn a_long_line_is_cut() {
    let text = format!("{}xyz{}", "a".repeat(500), "b".repeat(500));
    let line = format!("...{}xyz{}...", "a".repeat(60), "b".repeat(60));
    let marks = " ".repeat(63) + "^^^";
    assert_eq!(printed(&text, 500..503), format!(" --> a.wit:1:501\n  |\n1 | {line}\n  | {marks}\n"));
    let marks = "^".repeat(60) + "...";
    assert_eq!(printed(&text, 0..900), format!(" --> a.wit:1:1\n  |\n1 | {}\n  | {marks}\n", "a".repeat(60)));
    assert!(printed(&"\u{4e16}".repeat(500), 600..603).len() < 800);
}

#[test]
fn colors() {
    let sources = Sources::from_iter([("a.wit", "package a:b; interface i { type t = float32; }")]);
    let refusal = package(&sources).expect_err("refused");
    let plain = Diagnostic::new(&refusal, &sources).to_string();
    let colored = Diagnostic::new(&refusal, &sources).color(true).to_string();
    assert!(plain.ends_with("\n  |\n  = help: the `float32` type has been renamed to `f32` and is no longer accepted, but the `WIT_REQUIRE_F32_F64=0` environment variable can be used to temporarily disable this error\n"));
    assert!(colored.starts_with("\x1b[1;31merror[E15]\x1b[0m\x1b[1m: type `float32` does not exist\x1b[0m\n"));
    let mut bare = String::new();
    for (place, part) in colored.split('\x1b').enumerate() {
        bare.push_str(if place == 0 { part } else { part.split_once('m').expect("an end").1 });
    }
    assert_eq!(bare, plain);
}
