//! Writes random books as files, or counts what the model makes of them.

use reference::book::{next_call, open};
use reference::record::{mark_at, records_of, Call, Mark, Record};
use std::collections::{BTreeMap, BTreeSet};
use std::path::Path;
use std::process::ExitCode;

const USAGE: &str = "usage: books SEED COUNT DIR        writes SEED.book and the following
       books SEED COUNT DIR --out  also writes what the program prints as SEED.out
       books --tally SEED COUNT    counts replies instead";

fn main() -> ExitCode {
    let arguments: Vec<String> = std::env::args().skip(1).collect();
    let words: Vec<&str> = arguments.iter().map(String::as_str).collect();
    let done = match words.as_slice() {
        ["--tally", seed, count] => seeds(seed, count).map(tally),
        [seed, count, folder] => seeds(seed, count).and_then(|s| write(s, folder, false)),
        [seed, count, folder, "--out"] => seeds(seed, count).and_then(|s| write(s, folder, true)),
        _ => Err(USAGE.to_string()),
    };
    match done {
        Ok(()) => ExitCode::SUCCESS,
        Err(message) => {
            eprintln!("{message}");
            ExitCode::FAILURE
        }
    }
}

fn seeds(seed: &str, count: &str) -> Result<std::ops::Range<u64>, String> {
    let seed: u64 = seed.parse().map_err(|_| USAGE.to_string())?;
    let count: u64 = count.parse().map_err(|_| USAGE.to_string())?;
    let end = seed.checked_add(count).ok_or_else(|| USAGE.to_string())?;
    Ok(seed..end)
}

fn write(seeds: std::ops::Range<u64>, folder: &str, with_out: bool) -> Result<(), String> {
    let folder = Path::new(folder);
    let fault = |error: std::io::Error| error.to_string();
    std::fs::create_dir_all(folder).map_err(fault)?;
    for seed in seeds {
        let book = reference::random::book(seed);
        std::fs::write(folder.join(format!("{seed}.book")), &book).map_err(fault)?;
        if with_out {
            let out = reference::run(&book);
            std::fs::write(folder.join(format!("{seed}.out")), out).map_err(fault)?;
        }
    }
    Ok(())
}

/// Counts descriptions and calls by reply.
fn tally(seeds: std::ops::Range<u64>) {
    let mut books: BTreeMap<String, usize> = BTreeMap::new();
    let mut calls: BTreeMap<String, usize> = BTreeMap::new();
    let mut records: BTreeMap<String, usize> = BTreeMap::new();
    let mut rain: BTreeMap<String, usize> = BTreeMap::new();
    let mut at_tenths: BTreeMap<String, usize> = BTreeMap::new();
    let mut marks = Marks::default();
    let mut bytes = 0;
    for seed in seeds {
        let book = reference::random::book(seed);
        bytes += book.len();
        let printed = String::from_utf8(reference::run(&book)).expect("the output is ASCII");
        *books.entry(kind_of_book(&book)).or_insert(0) += 1;
        for unit in rain_of_units(&book) {
            *rain.entry(unit.to_string()).or_insert(0) += 1;
        }
        if let Some(number) = refused_at_tenths(&book) {
            *at_tenths.entry(format!("refused {number:>2}")).or_insert(0) += 1;
        }
        marks.count(&answered_calls(&book, &printed));
        for line in printed.lines() {
            let words: Vec<&str> = line.split(' ').collect();
            match words.as_slice() {
                ["call", _, "refused", number] => {
                    *calls.entry(format!("refused {number:>2}")).or_insert(0) += 1
                }
                ["call", _, reply, _] => *calls.entry(reply.to_string()).or_insert(0) += 1,
                ["refused", number, ..] if reference::book::open(&book).is_ok() => {
                    *records.entry(format!("refused {number:>2}")).or_insert(0) += 1
                }
                _ => {}
            }
        }
    }
    println!("bytes {bytes}");
    for (title, counts) in [
        ("descriptions", books),
        ("calls", calls),
        (
            "call records or lengths refused after an accepted description",
            records,
        ),
        ("units with rain in accepted descriptions", rain),
        ("descriptions refused at a PD", at_tenths),
        ("calls by mark", marks.calls),
        ("replies to GW, and to CA of such a title", marks.replies),
        ("books with such a reply, once for each reply", marks.books),
    ] {
        println!("{title}: {}", counts.values().sum::<usize>());
        for (reply, count) in counts {
            println!("  {reply:<15} {count}");
        }
    }
}

/// The marks of the rain years of each unit that has any, if the description is accepted.
fn rain_of_units(book: &[u8]) -> Vec<&'static str> {
    let Ok(opened) = reference::book::open(book) else {
        return Vec::new();
    };
    let records = records_of(&book[..opened.end]).expect("an accepted description is whole");
    let units = records.split(|record| matches!(record, Record::Unit(_)));
    units
        .filter_map(|unit| {
            let has = |mark: Mark| unit.iter().any(|record| record.mark() == mark);
            match (has(Mark::Rain), has(Mark::Tenths)) {
                (true, true) => Some("PR and PD"),
                (true, false) => Some("PR"),
                (false, true) => Some("PD"),
                (false, false) => None,
            }
        })
        .collect()
}

/// Calls by their marks, and what becomes of withdrawals with a return to a unit (GW).
#[derive(Default)]
struct Marks {
    calls: BTreeMap<String, usize>,
    /// The replies to GW and to cancellations of such titles.
    replies: BTreeMap<String, usize>,
    /// The books with such a reply.
    books: BTreeMap<String, usize>,
}

impl Marks {
    /// Counts the calls of one book.
    fn count(&mut self, answered: &[(Call, String)]) {
        for (call, _) in answered {
            let mark = Record::Call(*call).mark();
            let letters = String::from_utf8_lossy(mark.letters()).into_owned();
            *self.calls.entry(letters).or_insert(0) += 1;
        }
        let replies = replies_to_returning(answered);
        for reply in replies.iter().cloned().collect::<BTreeSet<String>>() {
            *self.books.entry(reply).or_insert(0) += 1;
        }
        for reply in replies {
            *self.replies.entry(reply).or_insert(0) += 1;
        }
    }
}

/// The calls of a book, each with the words of its reply as printed.
fn answered_calls(book: &[u8], printed: &str) -> Vec<(Call, String)> {
    let Ok(opened) = open(book) else {
        return Vec::new();
    };
    let mut at = opened.end;
    let replies = printed.lines().filter_map(|line| {
        let (_, reply) = line.strip_prefix("call ")?.split_once(' ')?;
        Some(reply.to_string())
    });
    replies
        .map(|reply| {
            let (call, next) = next_call(book, at).expect("the call has been read before");
            at = next;
            (call, reply)
        })
        .collect()
}

/// The replies to the calls that ask for a withdrawal with a return to a unit, and to the
/// cancellations of such titles.
fn replies_to_returning(answered: &[(Call, String)]) -> Vec<String> {
    let mut titles: Vec<Call> = Vec::new();
    let mut replies = Vec::new();
    for (call, reply) in answered {
        let shown = match reply.split_once(' ') {
            Some(("refused", number)) => format!("refused {number:>2}"),
            Some((word, _)) => word.to_string(),
            None => reply.clone(),
        };
        match *call {
            Call::PumpReturning { .. } => replies.push(format!("GW {shown}")),
            Call::Cancel { title } => {
                let cancelled = titles.get(usize::from(title).wrapping_sub(1));
                if let Some(Call::PumpReturning { .. }) = cancelled {
                    replies.push(format!("CA {shown}"));
                }
            }
            _ => {}
        }
        if reply.starts_with("given") {
            titles.push(*call);
        }
    }
    replies
}

/// The number by which a description is refused, if its place is the offset of a PD.
fn refused_at_tenths(book: &[u8]) -> Option<u8> {
    let refusal = reference::book::open(book).err()?;
    let by_offset = (1..=5).contains(&refusal.number);
    let at_tenths = by_offset && mark_at(book, refusal.place) == Ok(Mark::Tenths);
    at_tenths.then_some(refusal.number)
}

fn kind_of_book(book: &[u8]) -> String {
    if book.len() > reference::LONGEST_BOOK {
        return "refused 21".to_string();
    }
    match reference::book::open(book) {
        Ok(_) => "accepted".to_string(),
        Err(refusal) => format!("refused {:>2}", refusal.number),
    }
}
