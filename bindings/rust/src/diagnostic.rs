//! A refusal as people read it.

use crate::columns::{back, columns, front, shown};
use crate::{Refusal, Source, Sources};
use std::fmt;

const RED: &str = "1;31";
const BLUE: &str = "1;34";
const BOLD: &str = "1";

/// How many columns each part of a long line has at most.
const PART: usize = 60;

/// A refusal with the line in which it has its place, in the form in which `rustc` prints an error.
///
/// ```
/// let text = "package demo:first;\ninterface colors {\n    type hue = shade;\n}\n";
/// let sources = tulfjak::Sources::from_iter([("a.wit", text)]);
/// let refusal = tulfjak::package(&sources).unwrap_err();
/// let diagnostic = tulfjak::Diagnostic::new(&refusal, &sources);
/// assert_eq!(
///     diagnostic.to_string(),
///     "error[E15]: type `shade` does not exist
///  --> a.wit:3:16
///   |
/// 3 |     type hue = shade;
///   |                ^^^^^
/// "
/// );
/// assert_eq!(diagnostic.short(true).to_string(), "a.wit:3:16: error[E15]: type `shade` does not exist\n");
/// ```
///
/// Lines and columns count from 1, columns in characters. A tab is shown as four spaces, and a character
/// that controls the terminal as U+FFFD. Of a range over several lines the first one is shown, and its
/// marks end in `...`; of a line that is longer than a terminal, the part around the range.
#[derive(Clone, Copy, Debug)]
pub struct Diagnostic<'a> {
    refusal: &'a Refusal,
    source: Option<&'a Source>,
    short: bool,
    color: bool,
}

impl<'a> Diagnostic<'a> {
    /// A refusal of these sources, without colors.
    #[must_use]
    pub fn new(refusal: &'a Refusal, sources: &'a Sources) -> Diagnostic<'a> {
        let source = refusal.path.as_ref().and_then(|path| sources.get(path));
        Diagnostic { refusal, source, short: false, color: false }
    }

    /// Whether it takes one line, `PATH:LINE:COLUMN: error[EN]: MESSAGE`.
    #[must_use]
    pub fn short(self, short: bool) -> Diagnostic<'a> {
        Diagnostic { short, ..self }
    }

    /// Whether it has the colors of a terminal, where it takes several lines.
    #[must_use]
    pub fn color(self, color: bool) -> Diagnostic<'a> {
        Diagnostic { color, ..self }
    }

    fn paint(&self, style: &str, text: &str) -> String {
        if self.color { format!("\x1b[{style}m{text}\x1b[0m") } else { text.to_owned() }
    }

    /// `PATH:LINE:COLUMN` of the refusal in a source.
    fn place(&self, source: &Source) -> String {
        let (line, column) = source.line_column(self.refusal.span.start);
        format!("{}:{line}:{column}", shown(&source.path))
    }

    fn fmt_short(&self, f: &mut fmt::Formatter<'_>) -> fmt::Result {
        if let Some(source) = self.source {
            write!(f, "{}: ", self.place(source))?;
        }
        writeln!(f, "error[E{}]: {}", self.refusal.rule, shown(&self.refusal.message))
    }

    /// The line of the refusal in a source, with marks below it. `gutter` is as wide as the line's number.
    fn fmt_line(&self, f: &mut fmt::Formatter<'_>, source: &Source, gutter: &str) -> fmt::Result {
        let (number, _) = source.line_column(self.refusal.span.start);
        let bar = self.paint(BLUE, "|");
        let excerpt = Excerpt::new(source, &self.refusal.span);
        let marks = " ".repeat(columns(&excerpt.before)) + &self.paint(RED, &excerpt.marks());
        let line = excerpt.before + &excerpt.marked + &excerpt.after;
        writeln!(f, "{gutter}{} {}", self.paint(BLUE, "-->"), self.place(source))?;
        writeln!(f, "{gutter} {bar}")?;
        writeln!(f, "{}", format!("{} {bar} {line}", self.paint(BLUE, &number.to_string())).trim_end())?;
        writeln!(f, "{gutter} {bar} {marks}")
    }

    fn fmt_long(&self, f: &mut fmt::Formatter<'_>) -> fmt::Result {
        let message = shown(&self.refusal.message);
        let (message, hint) = message.split_once("; ").map_or((&*message, None), |(message, hint)| (message, Some(hint)));
        let error = format!("error[E{}]", self.refusal.rule);
        writeln!(f, "{}{}", self.paint(RED, &error), self.paint(BOLD, &format!(": {message}")))?;
        let number = self.source.map_or(1, |source| source.line_column(self.refusal.span.start).0);
        let gutter = " ".repeat(number.to_string().len());
        if let Some(source) = self.source {
            self.fmt_line(f, source, &gutter)?;
        }
        let Some(hint) = hint else { return Ok(()) };
        writeln!(f, "{gutter} {}", self.paint(BLUE, "|"))?;
        writeln!(f, "{gutter} {} {}: {hint}", self.paint(BLUE, "="), self.paint(BOLD, "help"))
    }
}

impl fmt::Display for Diagnostic<'_> {
    fn fmt(&self, f: &mut fmt::Formatter<'_>) -> fmt::Result {
        if self.short { self.fmt_short(f) } else { self.fmt_long(f) }
    }
}

/// The line in which a range begins, as it is shown: before the range, in it, and after it.
struct Excerpt {
    before: String,
    marked: String,
    after: String,
    /// Whether the range goes on after the line.
    goes_on: bool,
}

impl Excerpt {
    fn new(source: &Source, span: &std::ops::Range<usize>) -> Excerpt {
        let line = source.line_range(span.start);
        let start = source.floor(span.start).min(line.end);
        let end = source.floor(span.end).max(start);
        let within = end.min(line.end);
        let part = |range| shown(&source.text[range]);
        Excerpt {
            before: part(line.start..start),
            marked: part(start..within),
            after: part(within..line.end),
            goes_on: !source.text[within..end].trim().is_empty(),
        }
        .cut()
    }

    /// The part of a long line around the range, with `...` for each of its other parts.
    fn cut(mut self) -> Excerpt {
        if columns(&self.before) + columns(&self.marked) + columns(&self.after) <= 2 * PART {
            return self;
        }
        if columns(&self.before) > PART {
            self.before = format!("...{}", back(&self.before, PART));
        }
        if columns(&self.marked) > PART {
            self.marked = front(&self.marked, PART).to_owned();
            self.after.clear();
            self.goes_on = true;
        }
        if columns(&self.after) > PART {
            self.after = format!("{}...", front(&self.after, PART));
        }
        self
    }

    /// The marks below the range: one at least.
    fn marks(&self) -> String {
        let end = if self.goes_on { "..." } else { "" };
        "^".repeat(columns(&self.marked).max(1)) + end
    }
}
