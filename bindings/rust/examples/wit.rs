//! Reads a text from standard input, and prints the listing of its packages, or their refusal on
//! standard error.

use std::io::Read;
use std::process::ExitCode;

fn main() -> std::io::Result<ExitCode> {
    let mut text = String::new();
    std::io::stdin().read_to_string(&mut text)?;
    Ok(match tulfjak::resolve(&text) {
        Ok(listing) => {
            print!("{listing}");
            ExitCode::SUCCESS
        }
        Err(refusal) => {
            eprintln!("{refusal}");
            ExitCode::FAILURE
        }
    })
}
