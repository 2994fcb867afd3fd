//! What `balance` and `journal` cannot read or write ends them with status 1 and a line on standard error, and what comes in pieces is read
//! whole. Both have to be built before.

use std::fs::{self, File};
use std::io::{self, Write};
use std::path::{Path, PathBuf};
use std::process::{Command, Output, Stdio};
use std::thread;
use std::time::Duration;

/// A file of the repository.
fn file(name: &str) -> PathBuf {
    Path::new(env!("CARGO_MANIFEST_DIR")).join("..").join(name)
}

/// Runs a program on a file, its standard output sent as the shell's words say.
fn run(program: &str, input: &str, output: &str) -> Output {
    let command = format!("exec \"$0\" < \"$1\" {output}");
    let shell = Command::new("sh")
        .args(["-c", &command])
        .arg(file("target/bin").join(program))
        .arg(file(input))
        .output();
    shell.expect("the shell runs")
}

/// The line on standard error, which is the only one.
fn said(output: &Output) -> String {
    let text = String::from_utf8(output.stderr.clone()).expect("what is said is text");
    assert_eq!(text.lines().count(), 1, "{text:?}");
    text
}

const INPUTS: [(&str, &str); 2] = [
    ("balance", "examples/cuenca.book"),
    ("journal", "examples/year.journal"),
];

#[test]
fn a_full_disk_is_said() {
    for (program, input) in INPUTS {
        let output = run(program, input, "> /dev/full");
        assert_eq!(output.status.code(), Some(1));
        assert!(said(&output).contains("No space left on device"));
    }
}

#[test]
fn a_closed_output_is_said() {
    for (program, input) in INPUTS {
        let output = run(program, input, ">&-");
        assert_eq!(output.status.code(), Some(1));
        assert!(said(&output).contains("Bad file descriptor"));
    }
}

#[test]
fn a_pipe_that_nobody_reads_any_more_is_said() {
    for (program, input) in INPUTS {
        let (reader, writer) = io::pipe().expect("a pipe");
        drop(reader);
        let output = Command::new(file("target/bin").join(program))
            .stdin(File::open(file(input)).expect("a sample"))
            .stdout(writer)
            .output()
            .expect("the program runs");
        assert_eq!(output.status.code(), Some(1));
        assert!(said(&output).contains("Broken pipe"));
    }
}

#[test]
fn nothing_is_said_of_an_output_that_takes_all() {
    for (program, input) in INPUTS {
        let output = run(program, input, "");
        assert!(output.status.success());
        assert!(output.stderr.is_empty());
        assert!(!output.stdout.is_empty());
    }
}

#[test]
fn an_input_that_cannot_be_read_is_said() {
    for (program, _) in INPUTS {
        let output = run(program, "examples", "");
        assert_eq!(output.status.code(), Some(1));
        assert!(said(&output).contains("Is a directory"));
        assert!(output.stdout.is_empty());
    }
}

#[test]
fn an_input_in_pieces_is_read_whole() {
    for (program, input) in INPUTS {
        let mut child = Command::new(file("target/bin").join(program))
            .stdin(Stdio::piped())
            .stdout(Stdio::piped())
            .spawn()
            .expect("the program runs");
        let mut pieces = child.stdin.take().expect("it has an input");
        for piece in fs::read(file(input)).expect("a sample").chunks(100) {
            pieces.write_all(piece).expect("it reads");
            thread::sleep(Duration::from_millis(2));
        }
        drop(pieces);
        let output = child.wait_with_output().expect("it ends");
        assert!(output.status.success());
        assert_eq!(output.stdout, run(program, input, "").stdout);
    }
}
