//! Writes random or boundary journals as files, or counts what the model makes of random ones.

use reference::journal::{self, LONGEST_JOURNAL};
use reference::{boundary_journals, random_journals};
use std::collections::{BTreeMap, BTreeSet};
use std::ops::Range;
use std::path::Path;
use std::process::ExitCode;

const USAGE: &str = "usage: journals SEED COUNT DIR        writes SEED.journal and the following
       journals SEED COUNT DIR --out  also writes what the program prints as SEED.out
       journals --boundary DIR        writes the boundary journals NAME.journal and NAME.out
       journals --tally SEED COUNT    counts replies instead";

fn main() -> ExitCode {
    let arguments: Vec<String> = std::env::args().skip(1).collect();
    let words: Vec<&str> = arguments.iter().map(String::as_str).collect();
    let done = match words.as_slice() {
        ["--boundary", folder] => write_boundary(folder),
        ["--tally", seed, count] => seeds(seed, count).map(tally),
        [seed, count, folder] => seeds(seed, count).and_then(|s| write_random(s, folder, false)),
        [seed, count, folder, "--out"] => {
            seeds(seed, count).and_then(|s| write_random(s, folder, true))
        }
        _ => Err(USAGE.to_string()),
    };
    match done {
        Ok(()) => ExitCode::SUCCESS,
        Err(message) => {
            eprintln!("{message}");
            ExitCode::FAILURE
        }
    }
}

fn seeds(seed: &str, count: &str) -> Result<Range<u64>, String> {
    let seed: u64 = seed.parse().map_err(|_| USAGE.to_string())?;
    let count: u64 = count.parse().map_err(|_| USAGE.to_string())?;
    let end = seed.checked_add(count).ok_or_else(|| USAGE.to_string())?;
    Ok(seed..end)
}

fn write_random(seeds: Range<u64>, folder: &str, with_out: bool) -> Result<(), String> {
    for seed in seeds {
        let journal = random_journals::journal(seed);
        write(folder, &seed.to_string(), &journal, with_out)?;
    }
    Ok(())
}

fn write_boundary(folder: &str) -> Result<(), String> {
    for named in boundary_journals::journals() {
        write(folder, &named.name, &named.journal, true)?;
    }
    Ok(())
}

/// Writes a journal into a folder, and what the program prints for it if that is wanted.
fn write(folder: &str, name: &str, journal: &[u8], with_out: bool) -> Result<(), String> {
    let folder = Path::new(folder);
    let fault = |error: std::io::Error| format!("{}: {error}", folder.display());
    std::fs::create_dir_all(folder).map_err(fault)?;
    std::fs::write(folder.join(format!("{name}.journal")), journal).map_err(fault)?;
    if with_out {
        let out = journal::run(journal);
        std::fs::write(folder.join(format!("{name}.out")), out).map_err(fault)?;
    }
    Ok(())
}

type Counts = BTreeMap<String, usize>;

/// Counts by what is counted.
#[derive(Default)]
struct Tally {
    bytes: usize,
    lengths: Counts,
    own_marks: Counts,
    descriptions: Counts,
    replies: Counts,
    failures: Counts,
    journals: Counts,
}

fn count(counts: &mut Counts, what: impl Into<String>) {
    *counts.entry(what.into()).or_insert(0) += 1;
}

/// Counts descriptions, replies, records that fail, and journals by the replies that they have.
fn tally(seeds: Range<u64>) {
    let mut tally = Tally::default();
    for seed in seeds {
        tally.take(&random_journals::journal(seed));
    }
    println!("bytes {}", tally.bytes);
    for (title, counts) in [
        ("journals by length", tally.lengths),
        ("journals with such a mark", tally.own_marks),
        ("descriptions", tally.descriptions),
        ("replies", tally.replies),
        (
            "accepted descriptions whose records end with",
            tally.failures,
        ),
        ("accepted descriptions with such a reply", tally.journals),
    ] {
        println!("{title}: {}", counts.values().sum::<usize>());
        for (what, count) in counts {
            println!("  {what:<24} {count}");
        }
    }
}

impl Tally {
    fn take(&mut self, journal: &[u8]) {
        self.bytes += journal.len();
        count(&mut self.lengths, length(journal));
        own_marks(journal)
            .into_iter()
            .for_each(|mark| count(&mut self.own_marks, mark));
        count(&mut self.descriptions, description(journal));
        if description(journal) != "accepted" {
            return;
        }
        let printed = String::from_utf8(journal::run(journal)).expect("the output is ASCII");
        let mut end = "whole records".to_string();
        let mut kinds = BTreeSet::new();
        for line in printed.lines() {
            let words: Vec<&str> = line.split(' ').collect();
            match words.as_slice() {
                ["call", _, "refused", number] => {
                    kinds.insert(format!("refused {number:>2}"));
                    count(&mut self.replies, format!("refused {number:>2}"));
                }
                ["call", _, reply, ..] => {
                    kinds.insert(reply.to_string());
                    count(&mut self.replies, *reply);
                }
                ["refused", number, ..] => end = format!("refused {number:>2}"),
                _ => {}
            }
        }
        count(&mut self.failures, end);
        if kinds.contains("kept") && kinds.contains("back") {
            kinds.insert("kept and back".to_string());
        }
        kinds
            .into_iter()
            .for_each(|kind| count(&mut self.journals, kind));
    }
}

/// The own marks that stand where a record starts, up to the first bytes that are no record.
fn own_marks(journal: &[u8]) -> BTreeSet<String> {
    let mut marks = BTreeSet::new();
    let mut at = 0;
    loop {
        if journal::is_own_mark(journal, at) {
            marks.insert(String::from_utf8_lossy(&journal[at..at + 2]).to_string());
        }
        match journal::record_at(journal, at) {
            Ok((_, next)) => at = next,
            Err(_) => return marks,
        }
    }
}

fn length(journal: &[u8]) -> &'static str {
    match journal.len() {
        0..=1_000 => "to 1,000",
        1_001..=10_000 => "to 10,000",
        10_001..=reference::LONGEST_BOOK => "to 65,536",
        65_537..=1_000_000 => "to a million",
        1_000_001..=LONGEST_JOURNAL => "to 1,048,576",
        _ => "too long",
    }
}

/// Whether the description is accepted, or the number of its refusal.
fn description(journal: &[u8]) -> String {
    if journal.len() > LONGEST_JOURNAL {
        return "refused 21".to_string();
    }
    match journal::open(journal) {
        Ok(_) => "accepted".to_string(),
        Err(refusal) => format!("refused {:>2}", refusal.number),
    }
}
