//! The sources that are given.

use std::ffi::OsString;
use std::io::{self, ErrorKind, Read};
use tulfjak::{Source, Sources};

/// How standard input is called as a source.
const STDIN: &str = "stdin.wit";

/// The sources at paths: of a file, of a folder's `*.wit`, or of standard input where the path is `-`.
pub fn read(paths: &[OsString]) -> io::Result<Sources> {
    let mut sources = Sources::new();
    for path in paths {
        if path == "-" {
            sources.extend([standard_input()?]);
            continue;
        }
        let found = Sources::from_files([path])?;
        if found.is_empty() {
            let message = format!("{}: this folder has no *.wit", path.display());
            return Err(io::Error::new(ErrorKind::NotFound, message));
        }
        sources.extend(found);
    }
    Ok(sources)
}

fn standard_input() -> io::Result<Source> {
    let mut text = String::new();
    let read = io::stdin().read_to_string(&mut text);
    read.map_err(|error| io::Error::new(error.kind(), format!("standard input: {error}")))?;
    Ok(Source { path: STDIN.into(), text })
}
