//! Reads lines "m r rounds leaves" from standard input and writes the table file to standard output.

use std::io::{self, Read, Write};
use std::process::ExitCode;

fn main() -> ExitCode {
    let mut lines = String::new();
    let read = io::stdin().read_to_string(&mut lines).map_err(|error| error.to_string());
    let written = read
        .and_then(|_| table::file(&lines))
        .and_then(|bytes| io::stdout().write_all(&bytes).map_err(|error| error.to_string()));
    if let Err(text) = written {
        eprintln!("table: {text}");
        return ExitCode::FAILURE;
    }
    ExitCode::SUCCESS
}
