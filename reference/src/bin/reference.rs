//! Reads a book or a journal on standard input and prints what the program prints for it.

use std::io::{self, Read, Write};
use std::process::ExitCode;

const USAGE: &str = "usage: reference < BOOK
       reference --journal < JOURNAL";

fn main() -> ExitCode {
    let arguments: Vec<String> = std::env::args().skip(1).collect();
    let words: Vec<&str> = arguments.iter().map(String::as_str).collect();
    let done = match words.as_slice() {
        [] => print(reference::run),
        ["--journal"] => print(reference::journal::run),
        _ => Err(USAGE.to_string()),
    };
    match done {
        Ok(()) => ExitCode::SUCCESS,
        Err(message) => {
            eprintln!("{message}");
            ExitCode::FAILURE
        }
    }
}

/// Prints what a program makes of the bytes on standard input.
fn print(program: fn(&[u8]) -> Vec<u8>) -> Result<(), String> {
    let mut bytes = Vec::new();
    io::stdin()
        .read_to_end(&mut bytes)
        .and_then(|_| io::stdout().write_all(&program(&bytes)))
        .map_err(|error| format!("reference: {error}"))
}
