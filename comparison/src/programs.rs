//! Built programs, run by their standard input and output.

use std::fs::File;
use std::io::{self, Write};
use std::path::{Path, PathBuf};
use std::process::{Child, ChildStdin, Command, Output, Stdio};
use std::thread;
use std::time::{Duration, Instant};

/// The most bytes that go into any pipe at once.
const PIPE: usize = 4096;

/// Tells the C library to copy and clear by vectors, because valgrind counts a string instruction once for each byte.
const BY_VECTORS: &str =
    "glibc.cpu.x86_rep_movsb_threshold=1073741824:glibc.cpu.x86_rep_stosb_threshold=1073741824";

/// A program that reads standard input and prints.
pub struct Program {
    path: PathBuf,
    words: Vec<String>,
}

/// The programs that a command line names with `--program` and `--balance`, and its other words.
pub struct Chosen {
    pub journal: Program,
    pub balance: Program,
    pub words: Vec<String>,
}

impl Chosen {
    /// Takes the words of a command line. Programs that aren't named are those of `../target/bin`.
    pub fn of(words: impl Iterator<Item = String>) -> Chosen {
        let mut chosen = Chosen {
            journal: Program::built("journal"),
            balance: Program::built("balance"),
            words: Vec::new(),
        };
        let mut words = words;
        while let Some(word) = words.next() {
            let program = match word.as_str() {
                "--program" => &mut chosen.journal,
                "--balance" => &mut chosen.balance,
                _ => {
                    chosen.words.push(word);
                    continue;
                }
            };
            *program = Program::of(&words.next().unwrap_or_default());
        }
        chosen
    }
}

impl Program {
    /// A program of `../target/bin`.
    pub fn built(name: &str) -> Program {
        let folder = Path::new(env!("CARGO_MANIFEST_DIR")).join("../target/bin");
        Program {
            path: folder.join(name),
            words: Vec::new(),
        }
    }

    /// The program of a command: its path and the words that it takes, with spaces between them.
    pub fn of(command: &str) -> Program {
        let mut words = command.split_whitespace().map(str::to_string);
        Program {
            path: words.next().unwrap_or_default().into(),
            words: words.collect(),
        }
    }

    /// The path of the program, or what is wrong with it.
    pub fn found(&self) -> Result<&Path, String> {
        match self.path.is_file() {
            true => Ok(&self.path),
            false => Err(format!("there is no program {}", self.path.display())),
        }
    }

    fn command(&self) -> Command {
        let mut command = Command::new(&self.path);
        command.args(&self.words);
        command
    }

    /// What the program prints for an input.
    pub fn printed(&self, input: &[u8]) -> io::Result<Vec<u8>> {
        let mut command = self.command();
        let mut child = command
            .stdin(Stdio::piped())
            .stdout(Stdio::piped())
            .spawn()?;
        let stdin = child.stdin.take().expect("standard input is a pipe");
        let output = feed(child, stdin, input)?;
        match output.status.success() {
            true => Ok(output.stdout),
            false => Err(io::Error::other(output.status.to_string())),
        }
    }

    /// How long the program takes for a file, from its start to its end. What it prints is thrown away.
    pub fn time(&self, file: &Path) -> io::Result<Duration> {
        let mut command = self.command();
        command.stdin(File::open(file)?).stdout(Stdio::null());
        let start = Instant::now();
        let status = command.status()?;
        let time = start.elapsed();
        match status.success() {
            true => Ok(time),
            false => Err(io::Error::other(status.to_string())),
        }
    }

    /// The instructions that the program takes for a file, by valgrind.
    pub fn instructions(&self, file: &Path) -> io::Result<u64> {
        let mut command = Command::new("valgrind");
        command
            .args(["--tool=callgrind", "--callgrind-out-file=/dev/null"])
            .arg(&self.path)
            .args(&self.words)
            .env("GLIBC_TUNABLES", BY_VECTORS)
            .stdin(File::open(file)?)
            .stdout(Stdio::null());
        let said = String::from_utf8_lossy(&command.output()?.stderr).into_owned();
        let collected = said.lines().find_map(|line| line.split_once("Collected :"));
        let count = collected.and_then(|(_, number)| number.trim().parse().ok());
        count.ok_or_else(|| io::Error::other("valgrind has counted nothing"))
    }
}

/// Whether instructions can be counted.
pub fn has_valgrind() -> bool {
    let mut command = Command::new("valgrind");
    command.arg("--version").stdout(Stdio::null());
    command.status().is_ok_and(|status| status.success())
}

/// Writes the input, from a thread of its own if it may not fit into the pipe, and waits for the end.
fn feed(child: Child, stdin: ChildStdin, input: &[u8]) -> io::Result<Output> {
    if input.len() <= PIPE {
        write(stdin, input)?;
        return child.wait_with_output();
    }
    thread::scope(|scope| {
        let writer = scope.spawn(|| write(stdin, input));
        let output = child.wait_with_output();
        writer.join().expect("the writer ends")?;
        output
    })
}

/// Writes the input and closes the pipe. A program may end without having read all of it.
fn write(mut stdin: ChildStdin, input: &[u8]) -> io::Result<()> {
    match stdin.write_all(input) {
        Err(error) if error.kind() == io::ErrorKind::BrokenPipe => Ok(()),
        done => done,
    }
}
