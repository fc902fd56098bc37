//! Files of rows, as `crates/wit_rows/src/cases.rt` describes them.

/// A row: its name, its view, the text of its sources, and what is to be written of them.
pub struct Row {
    pub name: String,
    pub view: String,
    pub text: String,
    pub wanted: String,
}

/// The letter that stands for another one after a `\`.
fn letter_of(letter: char) -> char {
    match letter {
        'n' => '\n',
        'r' => '\r',
        't' => '\t',
        other => other,
    }
}

/// The text that is written with escapes.
fn unescape(written: &str) -> String {
    let mut text = String::new();
    let mut letters = written.chars();
    while let Some(letter) = letters.next() {
        if letter != '\\' {
            text.push(letter);
            continue;
        }
        match letters.next() {
            Some('u') if letters.as_str().starts_with('{') => {
                let digits: String = letters.by_ref().skip(1).take_while(|it| *it != '}').collect();
                text.extend(u32::from_str_radix(&digits, 16).ok().and_then(char::from_u32));
            }
            other => text.extend(other.map(letter_of)),
        }
    }
    text
}

/// The row that a text is, after what begins it.
fn row_of(text: &str) -> Option<Row> {
    let (front, wanted) = text.split_once("\n=>\n")?;
    let (head, sources) = front.split_once('\n').unwrap_or((front, ""));
    let (name, view) = head.split_once(' ')?;
    let meant = |it: &str| if name.ends_with('\\') { unescape(it) } else { it.to_owned() };
    Some(Row { name: name.to_owned(), view: view.to_owned(), text: meant(sources), wanted: meant(wanted) })
}

/// The rows of all files.
pub fn all_rows() -> Vec<Row> {
    let folder = format!("{}/../../crates/wit_rows/data", env!("CARGO_MANIFEST_DIR"));
    let mut files: Vec<_> = std::fs::read_dir(&folder).expect(&folder).map(|it| it.expect(&folder).path()).collect();
    files.sort();
    let mut rows = Vec::new();
    for file in files.iter().filter(|it| it.extension().is_some_and(|it| it == "rows")) {
        let text = std::fs::read_to_string(file).expect("a file of rows");
        let text = text.strip_suffix('\n').unwrap_or(&text);
        rows.extend(text.split("\n--- ").skip(1).filter_map(|it| row_of(&format!("{it}\n"))));
    }
    rows
}

/// The sources of a text, each after its path.
pub fn split(text: &str) -> Vec<(String, String)> {
    let mut sources = vec![("stdin.wit".to_owned(), String::new())];
    for line in text.split_inclusive('\n') {
        match line.strip_prefix("=== ") {
            Some(path) => {
                let path = path.strip_suffix('\n').unwrap_or(path);
                sources.push((path.strip_suffix('\r').unwrap_or(path).to_owned(), String::new()));
            }
            None => sources.last_mut().expect("a source").1.push_str(line),
        }
    }
    if sources[0].1.is_empty() {
        sources.remove(0);
    }
    sources
}
