//! What the command is asked for.

use std::ffi::OsString;

/// What `--help` prints.
pub const HELP: &str = "\
Resolves a WIT package, and says what is wrong with it.

Usage: tulfjak [OPTION].. PATH..

A PATH is a file, a folder (each *.wit in it, but not in its folders), or -
for standard input. All together are the sources of one package. Nothing is
printed where they make one; else the rule that they break, on standard error.

Options:
      --listing      print the listing of the package and of those nested in it
      --json         print the package, or what is wrong with it, as JSON
      --short        print what is wrong in one line, as editors read it:
                     PATH:LINE:COLUMN: error[EN]: MESSAGE
      --color WHEN   always, never, or auto: on a terminal without NO_COLOR
      --explain EN   print what a rule says, as in --explain E15
  -h, --help         print this
  -V, --version      print the version

Status: 0 if the sources make a package, 1 if they are refused, 2 for no answer:
wrong options, a file that cannot be read or is not UTF-8, or failed output.
";

/// What the command does.
pub enum Task {
    Help,
    Version,
    /// Explains a rule, in these words.
    Explain(u8, &'static str),
    Resolve(Request),
}

/// What is printed of packages.
#[derive(Clone, Copy, Default, PartialEq, Eq)]
pub enum Output {
    #[default]
    Nothing,
    Listing,
    Json,
}

/// What is asked of sources.
#[derive(Default)]
pub struct Request {
    pub output: Output,
    pub short: bool,
    /// Whether there are colors; none where the terminal decides.
    pub color: Option<bool>,
    pub paths: Vec<OsString>,
}

impl Task {
    /// The task of these arguments, or what is wrong with them.
    pub fn parse(arguments: impl IntoIterator<Item = OsString>) -> Result<Task, String> {
        let mut arguments = arguments.into_iter().peekable();
        if arguments.peek().is_none() {
            return Ok(Task::Help);
        }
        let mut request = Request::default();
        while let Some(argument) = arguments.next() {
            if argument == "--" {
                request.paths.extend(arguments);
                break;
            }
            let shown = argument.to_string_lossy();
            if !shown.starts_with('-') || shown == "-" {
                request.paths.push(argument);
                continue;
            }
            let (name, value) = shown.split_once('=').map_or((&*shown, None), |(name, value)| (name, Some(value.to_owned())));
            let mut value = || value.clone().or_else(|| arguments.next().map(|it| it.to_string_lossy().into_owned()));
            match name {
                "--color" => request.color = color(value())?,
                "--explain" => return explain(&value().unwrap_or_default()),
                _ if name != shown => return Err(unknown(&shown)),
                "-h" | "--help" => return Ok(Task::Help),
                "-V" | "--version" => return Ok(Task::Version),
                "--short" => request.short = true,
                "--listing" => request.print(Output::Listing)?,
                "--json" => request.print(Output::Json)?,
                _ => return Err(unknown(&shown)),
            }
        }
        if request.paths.is_empty() {
            return Err(usage("no PATH is given"));
        }
        Ok(Task::Resolve(request))
    }
}

impl Request {
    fn print(&mut self, output: Output) -> Result<(), String> {
        if self.output != Output::Nothing && self.output != output {
            return Err(usage("--listing and --json cannot be given together"));
        }
        self.output = output;
        Ok(())
    }
}

fn color(when: Option<String>) -> Result<Option<bool>, String> {
    match when.as_deref() {
        Some("always") => Ok(Some(true)),
        Some("never") => Ok(Some(false)),
        Some("auto") => Ok(None),
        _ => Err(usage("--color wants always, never or auto")),
    }
}

fn explain(rule: &str) -> Result<Task, String> {
    let number = rule.strip_prefix(['E', 'e']).unwrap_or(rule).parse().ok();
    let found = number.and_then(|number| Some(Task::Explain(number, tulfjak::explain(number)?)));
    found.ok_or_else(|| usage("--explain wants the number of a rule, such as E15"))
}

fn unknown(argument: &str) -> String {
    usage(&format!("there is no option {argument}"))
}

fn usage(error: &str) -> String {
    format!("{error}\nTry `tulfjak --help`.")
}
