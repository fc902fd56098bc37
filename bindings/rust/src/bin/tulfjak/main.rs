//! Resolves a WIT package, and says what is wrong with it.

mod input;
mod options;

use options::{Output, Request, Task};
use std::env;
use std::io::{self, ErrorKind, IsTerminal, Write};
use std::process::ExitCode;
use tulfjak::{Diagnostic, Refusal, Sources};

/// The status where there is no answer: wrong options, input that cannot be read, output that fails.
const NO_ANSWER: u8 = 2;

fn main() -> ExitCode {
    let task = Task::parse(env::args_os().skip(1)).map_err(|error| io::Error::new(ErrorKind::InvalidInput, error));
    task.and_then(run).unwrap_or_else(|error| {
        // Who closed a pipe wants no more.
        if error.kind() != ErrorKind::BrokenPipe {
            let _ = writeln!(io::stderr(), "tulfjak: {error}");
        }
        ExitCode::from(NO_ANSWER)
    })
}

fn run(task: Task) -> io::Result<ExitCode> {
    match task {
        Task::Help => print(options::HELP)?,
        Task::Version => print(&format!("tulfjak {}\n", env!("CARGO_PKG_VERSION")))?,
        Task::Explain(rule, text) => print(&wrapped(&format!("E{rule}: {text}"), 78))?,
        Task::Resolve(request) => return resolve(&request),
    }
    Ok(ExitCode::SUCCESS)
}

/// Resolves sources, and prints what is asked for.
fn resolve(request: &Request) -> io::Result<ExitCode> {
    let sources = input::read(&request.paths)?;
    let resolved = match request.output {
        Output::Listing => tulfjak::listing(&sources),
        Output::Nothing | Output::Json => tulfjak::package_json(&sources),
    };
    match (request.output, resolved) {
        (Output::Nothing, Ok(_)) => {}
        (Output::Listing, Ok(listing)) => print(&listing)?,
        (Output::Json, Ok(json)) => print(&(json + "\n"))?,
        (Output::Json, Err(refusal)) => {
            print(&(refusal.to_json() + "\n"))?;
            return Ok(ExitCode::FAILURE);
        }
        (_, Err(refusal)) => {
            report(request, &refusal, &sources)?;
            return Ok(ExitCode::FAILURE);
        }
    }
    Ok(ExitCode::SUCCESS)
}

/// Prints a refusal on standard error.
fn report(request: &Request, refusal: &Refusal, sources: &Sources) -> io::Result<()> {
    let color = request.color.unwrap_or_else(|| io::stderr().is_terminal() && env::var_os("NO_COLOR").is_none_or(|it| it.is_empty()));
    let diagnostic = Diagnostic::new(refusal, sources).short(request.short).color(color);
    io::stderr().write_all(diagnostic.to_string().as_bytes())
}

/// Prints a text on standard output.
fn print(text: &str) -> io::Result<()> {
    let mut output = io::stdout().lock();
    let written = output.write_all(text.as_bytes()).and_then(|()| output.flush());
    written.map_err(|error| io::Error::new(error.kind(), format!("standard output: {error}")))
}

/// A text with its words in lines of so many columns at most.
fn wrapped(text: &str, most: usize) -> String {
    let mut lines = String::new();
    let mut column = 0;
    for word in text.split(' ') {
        let goes_on = column > 0 && column + 1 + word.len() <= most;
        let between = if goes_on { " " } else { "\n" };
        lines.push_str(if column == 0 { "" } else { between });
        lines.push_str(word);
        column = if goes_on { column + 1 } else { 0 } + word.len();
    }
    lines + "\n"
}
