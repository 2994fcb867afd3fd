//! Times the program `journal`, and the same calls by the program `balance`.
//!
//!     journal_times [TABLE...]    replay, calls, full: all tables or those named, in Markdown
//!
//! `--program COMMAND` and `--balance COMMAND` name other programs than those of `../target/bin`. The programs read a
//! file, and what they print is thrown away.

use comparison::journals::{self, Ordinary, FULL_SIZE, ORDINARY};
use comparison::programs::{has_valgrind, Chosen, Program};
use comparison::times::{machine, microseconds, Times};
use std::path::{Path, PathBuf};
use std::process::ExitCode;

/// How often each journal is timed.
const REPETITIONS: usize = 15;
/// How often a short journal is timed to take the least time.
const TRIES: usize = 5;
/// The tables by name.
const TABLES: [(&str, Table); 3] = [
    ("replay", print_replays),
    ("calls", print_calls),
    ("full", print_full_size),
];

type Table = fn(&Chosen, &Folder) -> Result<(), String>;

fn main() -> ExitCode {
    let chosen = Chosen::of(std::env::args().skip(1));
    let known = |word: &String| TABLES.iter().any(|(name, _)| name == word);
    if !chosen.words.iter().all(known) {
        eprintln!(
            "usage: journal_times [--program COMMAND] [--balance COMMAND] [replay] [calls] [full]"
        );
        return ExitCode::from(2);
    }
    match print_tables(&chosen) {
        Ok(()) => ExitCode::SUCCESS,
        Err(message) => {
            eprintln!("{message}");
            ExitCode::FAILURE
        }
    }
}

fn print_tables(chosen: &Chosen) -> Result<(), String> {
    chosen.journal.found()?;
    let folder = Folder::new()?;
    println!("{REPETITIONS} repetitions, {}.", machine());
    println!("Wall time in microseconds: median (lower quartile–upper quartile).");
    for (name, print) in TABLES {
        if chosen.words.is_empty() || chosen.words.iter().any(|word| word == name) {
            print(chosen, &folder)?;
        }
    }
    Ok(())
}

/// A folder for the journals, which goes with its end.
struct Folder {
    path: PathBuf,
}

impl Folder {
    fn new() -> Result<Folder, String> {
        let name = format!("journal_times-{}", std::process::id());
        let path = std::env::temp_dir().join(name);
        let made = std::fs::create_dir_all(&path);
        made.map_err(|error| format!("{}: {error}", path.display()))?;
        Ok(Folder { path })
    }

    fn write(&self, name: &str, journal: &[u8]) -> Result<PathBuf, String> {
        let path = self.path.join(name);
        let written = std::fs::write(&path, journal);
        written.map_err(|error| format!("{}: {error}", path.display()))?;
        Ok(path)
    }
}

impl Drop for Folder {
    fn drop(&mut self) {
        std::fs::remove_dir_all(&self.path).ok();
    }
}

fn time(program: &Program, file: &Path) -> Result<f64, String> {
    let time = program.time(file).map_err(|error| error.to_string())?;
    Ok(time.as_secs_f64())
}

fn times(program: &Program, file: &Path) -> Result<Times, String> {
    time(program, file)?;
    let times: Result<Vec<f64>, String> = (0..REPETITIONS).map(|_| time(program, file)).collect();
    times.map(Times::of)
}

/// The least of a few times.
fn least(program: &Program, file: &Path) -> Result<f64, String> {
    let mut least = time(program, file)?;
    for _ in 1..TRIES {
        least = least.min(time(program, file)?);
    }
    Ok(least)
}

/// Whether a program prints for a journal what the model prints.
fn check(program: &Program, name: &str, journal: &[u8]) -> Result<(), String> {
    let printed = program
        .printed(journal)
        .map_err(|error| error.to_string())?;
    match printed == reference::journal::run(journal) {
        true => Ok(()),
        false => Err(format!("{name}: the program differs from the model")),
    }
}

/// The time of the program for an empty journal.
fn start(program: &Program, folder: &Folder) -> Result<Times, String> {
    times(program, &folder.write("empty", b"")?)
}

fn print_replays(chosen: &Chosen, folder: &Folder) -> Result<(), String> {
    let program = &chosen.journal;
    let start = start(program, folder)?;
    println!("\n### Replays of the sample book's journal\n");
    println!(
        "The start of an empty journal, {}, is taken off in the last two columns.\n",
        start.shown()
    );
    println!("| Calls | Bytes | Time | Less the start | For one call |");
    println!("|---:|---:|---:|---:|---:|");
    for calls in [1_000, 10_000, 100_000] {
        let journal = journals::replay(calls);
        check(program, &format!("{calls} calls"), &journal)?;
        let times = times(program, &folder.write("replay", &journal)?)?;
        let less = times.median() - start.median();
        println!(
            "| {calls} | {} | {} | {} | {} |",
            journal.len(),
            times.shown(),
            microseconds(less),
            microseconds(less / calls as f64)
        );
    }
    Ok(())
}

fn print_full_size(chosen: &Chosen, folder: &Folder) -> Result<(), String> {
    println!("\n### Journals of full size\n");
    println!("| Row | Meaning | Bytes | Time |");
    println!("|---|---|---:|---:|");
    for row in FULL_SIZE {
        let journal = (row.journal)();
        check(&chosen.journal, row.name, &journal)?;
        let times = times(&chosen.journal, &folder.write(row.name, &journal)?)?;
        println!(
            "| {} | {} | {} | {} |",
            row.name,
            row.meaning,
            journal.len(),
            times.shown()
        );
    }
    Ok(())
}

/// The two journals of a kind of call, as files.
struct Pair {
    few: PathBuf,
    many: PathBuf,
    calls: usize,
}

impl Pair {
    fn new(row: &Ordinary, chosen: &Chosen, folder: &Folder) -> Result<Pair, String> {
        let (few, many) = row.calls;
        let write = |calls: usize| {
            let journal = (row.journal)(calls);
            check(&chosen.journal, row.name, &journal)?;
            check(&chosen.balance, row.name, &journal)?;
            folder.write(&format!("{}-{calls}", row.name), &journal)
        };
        Ok(Pair {
            few: write(few)?,
            many: write(many)?,
            calls: many - few,
        })
    }

    /// The seconds of one call.
    fn time(&self, program: &Program) -> Result<f64, String> {
        let (few, many) = (least(program, &self.few)?, least(program, &self.many)?);
        Ok((many - few) / self.calls as f64)
    }

    /// The times of one call by both programs, each time with another one first.
    fn times(&self, programs: [&Program; 2]) -> Result<[Times; 2], String> {
        let mut times = [Vec::new(), Vec::new()];
        for repetition in 0..REPETITIONS {
            for place in 0..2 {
                let place = (place + repetition) % 2;
                times[place].push(self.time(programs[place])?);
            }
        }
        Ok(times.map(Times::of))
    }

    /// The instructions of one call.
    fn instructions(&self, program: &Program) -> Result<f64, String> {
        let count = |file: &Path| {
            let counted = program.instructions(file);
            counted.map_err(|error| error.to_string())
        };
        let more = count(&self.many)? as f64 - count(&self.few)? as f64;
        Ok(more / self.calls as f64)
    }
}

fn print_calls(chosen: &Chosen, folder: &Folder) -> Result<(), String> {
    chosen.balance.found()?;
    let programs = [&chosen.balance, &chosen.journal];
    let counted = has_valgrind();
    println!("\n### One call by each program, from journals of two lengths\n");
    println!("| Row | Meaning | balance | journal | journal / balance | balance, instructions | journal, instructions | journal / balance |");
    println!("|---|---|---:|---:|---:|---:|---:|---:|");
    for row in &ORDINARY {
        let pair = Pair::new(row, chosen, folder)?;
        let [balance, journal] = pair.times(programs)?;
        print!(
            "| {} | {} | {} | {} | {:.2} |",
            row.name,
            row.meaning,
            balance.shown(),
            journal.shown(),
            journal.median() / balance.median()
        );
        match counted {
            true => {
                let balance = pair.instructions(programs[0])?;
                let journal = pair.instructions(programs[1])?;
                println!(" {balance:.0} | {journal:.0} | {:.3} |", journal / balance);
            }
            false => println!(" – | – | – |"),
        }
    }
    Ok(())
}
