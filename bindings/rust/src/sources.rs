//! The sources of a package.

use std::fs;
use std::io;
use std::ops::Range;
use std::path::{Path, PathBuf};

/// A source: where it comes from, and its text.
#[derive(Clone, Debug, PartialEq, Eq, Hash)]
pub struct Source {
    /// How a refusal names it. Sources are resolved in the order of their paths.
    pub path: String,
    /// Its text.
    pub text: String,
}

impl Source {
    /// The line and the column of a place in the text, in bytes: both from 1, the column in characters.
    /// A place past the end is the end.
    #[must_use]
    pub fn line_column(&self, at: usize) -> (usize, usize) {
        let at = self.floor(at);
        let line = self.line_start(at);
        (self.text[..line].matches('\n').count() + 1, self.text[line..at].chars().count() + 1)
    }

    /// The range of the line in which a place lies, without its end.
    pub(crate) fn line_range(&self, at: usize) -> Range<usize> {
        let start = self.line_start(self.floor(at));
        let line = self.text[start..].split('\n').next().unwrap_or_default();
        start..start + line.strip_suffix('\r').unwrap_or(line).len()
    }

    /// The last place up to this one that is between two characters of the text.
    pub(crate) fn floor(&self, at: usize) -> usize {
        (0..=at.min(self.text.len())).rev().find(|place| self.text.is_char_boundary(*place)).unwrap_or_default()
    }

    /// Where the line begins in which a place between two characters lies.
    fn line_start(&self, at: usize) -> usize {
        self.text[..at].rfind('\n').map_or(0, |feed| feed + 1)
    }
}

/// The sources of one package, in which others may be nested.
///
/// ```
/// let mut sources = tulfjak::Sources::new();
/// sources.push("a.wit", "package demo:first;");
/// sources.push("b.wit", "interface i { type t = u8; }");
/// let group = tulfjak::package(&sources)?;
/// assert_eq!(group.main().name.to_string(), "demo:first");
/// # Ok::<(), tulfjak::Refusal>(())
/// ```
#[derive(Clone, Debug, Default, PartialEq, Eq, Hash)]
pub struct Sources {
    sources: Vec<Source>,
}

impl Sources {
    /// No sources.
    #[must_use]
    pub fn new() -> Sources {
        Sources::default()
    }

    /// Adds a source after the others.
    pub fn push(&mut self, path: impl Into<String>, text: impl Into<String>) {
        self.sources.push(Source { path: path.into(), text: text.into() });
    }

    /// The texts of files, each at its path; of a folder, of the files in it whose names end with `.wit`,
    /// but not of those in its folders.
    ///
    /// # Errors
    ///
    /// A file or a folder cannot be read, or a file is not UTF-8; the error names its path.
    pub fn from_files<P: AsRef<Path>>(paths: impl IntoIterator<Item = P>) -> io::Result<Sources> {
        let mut sources = Sources::new();
        for path in paths {
            for file in files_at(path.as_ref())? {
                let text = fs::read_to_string(&file).map_err(|error| named(&file, &error))?;
                sources.push(file.display().to_string(), text);
            }
        }
        Ok(sources)
    }

    /// One text of the sources, by path: each after a line `=== N`, where the numbers count them. A line of a source
    /// that begins like those gets a space before it.
    pub(crate) fn numbered(&self) -> String {
        let mut sources: Vec<&Source> = self.iter().collect();
        sources.sort_by_key(|source| &source.path);
        let mut text = String::new();
        for (number, source) in sources.into_iter().enumerate() {
            text.push_str(&format!("=== {number:020}\n"));
            for line in source.text.split('\n') {
                text.push_str(if line.starts_with("=== ") { " " } else { "" });
                text.push_str(line);
                text.push('\n');
            }
        }
        text
    }

    /// The sources, in the order in which they were pushed.
    pub fn iter(&self) -> std::slice::Iter<'_, Source> {
        self.sources.iter()
    }

    /// How many sources there are.
    #[must_use]
    pub fn len(&self) -> usize {
        self.sources.len()
    }

    /// Whether there is no source.
    #[must_use]
    pub fn is_empty(&self) -> bool {
        self.sources.is_empty()
    }

    /// The first source at a path.
    #[must_use]
    pub fn get(&self, path: &str) -> Option<&Source> {
        self.iter().find(|source| source.path == path)
    }
}

/// The file of a path, or the WIT files of the folder there, by name.
fn files_at(path: &Path) -> io::Result<Vec<PathBuf>> {
    if !path.is_dir() {
        return Ok(vec![path.to_path_buf()]);
    }
    let entries = fs::read_dir(path).map_err(|error| named(path, &error))?;
    let mut files = entries.map(|entry| Ok(entry?.path())).collect::<io::Result<Vec<_>>>()?;
    files.retain(|file| !file.is_dir() && file.extension().is_some_and(|end| end == "wit"));
    files.sort();
    Ok(files)
}

/// An error with the path at which it occurs.
fn named(path: &Path, error: &io::Error) -> io::Error {
    io::Error::new(error.kind(), format!("{}: {error}", path.display()))
}

impl<'a> IntoIterator for &'a Sources {
    type Item = &'a Source;
    type IntoIter = std::slice::Iter<'a, Source>;

    fn into_iter(self) -> Self::IntoIter {
        self.iter()
    }
}

impl IntoIterator for Sources {
    type Item = Source;
    type IntoIter = std::vec::IntoIter<Source>;

    fn into_iter(self) -> Self::IntoIter {
        self.sources.into_iter()
    }
}

impl Extend<Source> for Sources {
    fn extend<S: IntoIterator<Item = Source>>(&mut self, sources: S) {
        self.sources.extend(sources);
    }
}

impl<P: Into<String>, T: Into<String>> FromIterator<(P, T)> for Sources {
    fn from_iter<S: IntoIterator<Item = (P, T)>>(pairs: S) -> Sources {
        let mut sources = Sources::new();
        pairs.into_iter().for_each(|(path, text)| sources.push(path, text));
        sources
    }
}
