//! Why sources are refused.

use crate::json::Json;
use crate::schema::Schema;
use std::error::Error;
use std::fmt;
use std::ops::Range;

/// Why sources are refused.
#[derive(Clone, Debug, PartialEq, Eq, Hash)]
pub struct Refusal {
    /// The number of the rule that is broken; 45 where an allocation failed.
    pub rule: u8,
    /// The path of the source in which the refusal has its place, if it has one.
    pub path: Option<String>,
    /// Where it is in the text of that source, in bytes; empty, at 0, where it has no place.
    pub span: Range<usize>,
    /// What it says.
    pub message: String,
}

impl Refusal {
    pub(crate) fn out_of_memory() -> Refusal {
        Refusal { rule: 45, path: None, span: 0..0, message: "out of memory".into() }
    }

    /// The refusal as JSON: of one that the library gave as JSON, the very text that the library wrote.
    #[must_use]
    pub fn to_json(&self) -> String {
        let mut error = vec![("rule".into(), usize::from(self.rule).write())];
        if let Some(path) = &self.path {
            error.push(("path".into(), path.write()));
            error.push(("start".into(), self.span.start.write()));
            error.push(("end".into(), self.span.end.write()));
        }
        error.push(("message".into(), self.message.write()));
        Json::Object(vec![("error".into(), Json::Object(error))]).to_string()
    }

    /// The refusal that a JSON text tells.
    pub(crate) fn from_json(text: &str) -> Option<Refusal> {
        let json = Json::parse(text)?;
        let error = json.get("error")?;
        let place = |name| error.get(name).map_or(Some(0), usize::read);
        Some(Refusal {
            rule: usize::read(error.get("rule")?)?.try_into().ok()?,
            path: error.get("path").and_then(Schema::read),
            span: place("start")?..place("end")?,
            message: Schema::read(error.get("message")?)?,
        })
    }
}

impl fmt::Display for Refusal {
    fn fmt(&self, f: &mut fmt::Formatter<'_>) -> fmt::Result {
        write!(f, "E{}", self.rule)?;
        if let Some(path) = &self.path {
            write!(f, " {path} {}..{}", self.span.start, self.span.end)?;
        }
        write!(f, ": {}", self.message)
    }
}

impl Error for Refusal {}
