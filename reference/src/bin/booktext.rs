//! Turns text into a book or journal, and these into text.

use reference::text;
use std::io::{self, Write};
use std::process::ExitCode;

const USAGE: &str = "usage: booktext make FILE.txt > FILE.book
       booktext show FILE.book > FILE.txt
       (FILE.journal in place of FILE.book for a journal)";

fn main() -> ExitCode {
    let arguments: Vec<String> = std::env::args().skip(1).collect();
    let done = match arguments.as_slice() {
        [verb, file] if verb == "make" => make(file),
        [verb, file] if verb == "show" => show(file),
        _ => Err(USAGE.to_string()),
    };
    match done.and_then(|bytes| io::stdout().write_all(&bytes).map_err(|e| e.to_string())) {
        Ok(()) => ExitCode::SUCCESS,
        Err(message) => {
            eprintln!("{message}");
            ExitCode::FAILURE
        }
    }
}

fn make(file: &str) -> Result<Vec<u8>, String> {
    let text = std::fs::read_to_string(file).map_err(|error| format!("{file}: {error}"))?;
    text::make(&text).map_err(|fault| format!("{file}: {fault}"))
}

fn show(file: &str) -> Result<Vec<u8>, String> {
    let book = std::fs::read(file).map_err(|error| format!("{file}: {error}"))?;
    let text = text::show(&book).map_err(|fault| format!("{file}: {fault}"))?;
    Ok(text.into_bytes())
}
