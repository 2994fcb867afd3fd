//! Puts the same journals to the built program and to the reference model, byte for byte.
//!
//!     journals SEED COUNT            the random journals of COUNT seeds from SEED on
//!     journals --named               the boundary journals
//!     journals --books SEED COUNT    random books without own marks to the programs `journal` and `balance`
//!
//! `--program COMMAND` and `--balance COMMAND` name other programs than those of `../target/bin`.

use comparison::programs::{Chosen, Program};
use reference::boundary_journals::{self, Named};
use reference::journal::{self, LONGEST_JOURNAL};
use reference::random_journals::{self, has_own_mark};
use reference::{random, LONGEST_BOOK};
use std::collections::BTreeMap;
use std::process::ExitCode;
use std::sync::atomic::{AtomicU64, Ordering};
use std::thread;

/// How many threads put journals to the program.
const WORKERS: usize = 2;
/// How many journals a thread takes at once.
const SHARE: u64 = 16;

/// A journal and how it is called.
struct Subject {
    name: String,
    journal: Vec<u8>,
}

/// What a journal has to print.
type Expected<'a> = dyn Fn(&[u8]) -> Result<Vec<u8>, String> + Sync + 'a;

/// What prints, and what it is held to.
struct Sides<'a> {
    program: &'a Program,
    expected: &'a Expected<'a>,
}

/// What has been compared.
#[derive(Default)]
struct Tally {
    journals: u64,
    accepted: u64,
    bytes_read: u64,
    bytes_printed: u64,
    replies: BTreeMap<String, u64>,
}

fn main() -> ExitCode {
    let chosen = Chosen::of(std::env::args().skip(1));
    let words: Vec<&str> = chosen.words.iter().map(String::as_str).collect();
    let compared = match words[..] {
        ["--named"] => compare_named(&chosen),
        ["--books", seed, count] => match (seed.parse(), count.parse()) {
            (Ok(seed), Ok(count)) => compare_books(&chosen, seed, count),
            _ => return usage(),
        },
        [seed, count] => match (seed.parse(), count.parse()) {
            (Ok(seed), Ok(count)) => compare_seeds(&chosen, seed, count),
            _ => return usage(),
        },
        _ => return usage(),
    };
    match compared {
        Ok(summary) => {
            println!("{summary}");
            ExitCode::SUCCESS
        }
        Err(message) => {
            println!("{message}");
            ExitCode::FAILURE
        }
    }
}

fn usage() -> ExitCode {
    eprintln!(
        "usage: journals [--program COMMAND] [--balance COMMAND] SEED COUNT | --named | --books SEED COUNT"
    );
    ExitCode::from(2)
}

fn by_model(journal: &[u8]) -> Result<Vec<u8>, String> {
    Ok(journal::run(journal))
}

fn compare_seeds(chosen: &Chosen, seed: u64, count: u64) -> Result<String, String> {
    let subject = |index: u64| {
        let seed = seed.wrapping_add(index);
        Some(Subject {
            name: format!("seed {seed}"),
            journal: random_journals::journal(seed),
        })
    };
    let sides = Sides {
        program: &chosen.journal,
        expected: &by_model,
    };
    compare(&format!("seeds from {seed}"), count, &sides, subject)
}

fn compare_named(chosen: &Chosen) -> Result<String, String> {
    let mut journals: Vec<Named> = boundary_journals::journals();
    journals.extend(boundary_journals::large());
    let subject = |index: u64| {
        let named = &journals[index as usize];
        Some(Subject {
            name: format!("boundary journal {}", named.name),
            journal: named.journal.clone(),
        })
    };
    let sides = Sides {
        program: &chosen.journal,
        expected: &by_model,
    };
    compare("boundary journals", journals.len() as u64, &sides, subject)
}

/// Compares the programs `journal` and `balance` on books that both take.
fn compare_books(chosen: &Chosen, seed: u64, count: u64) -> Result<String, String> {
    chosen.balance.found()?;
    let subject = |index: u64| {
        let seed = seed.wrapping_add(index);
        let book = random::book(seed);
        let wanted = book.len() <= LONGEST_BOOK && !has_own_mark(&book);
        wanted.then(|| Subject {
            name: format!("book of seed {seed}"),
            journal: book,
        })
    };
    let by_balance = |book: &[u8]| {
        let printed = chosen.balance.printed(book);
        printed.map_err(|error| format!("balance: {error}"))
    };
    let sides = Sides {
        program: &chosen.journal,
        expected: &by_balance,
    };
    let what = format!("books of seeds from {seed}, held to the program balance");
    compare(&what, count, &sides, subject)
}

/// Compares all subjects, and reports the first that differs.
fn compare(
    what: &str,
    count: u64,
    sides: &Sides,
    subject: impl Fn(u64) -> Option<Subject> + Sync,
) -> Result<String, String> {
    sides.program.found()?;
    let next = AtomicU64::new(0);
    let first_different = AtomicU64::new(u64::MAX);
    let mut tally = Tally::default();
    thread::scope(|scope| {
        let work = || compare_shares(&next, &first_different, count, sides, &subject);
        let started: Vec<_> = (0..WORKERS).map(|_| scope.spawn(work)).collect();
        for thread in started {
            tally.add(thread.join().expect("a thread ends"));
        }
    });
    match first_different.load(Ordering::SeqCst) {
        u64::MAX => Ok(tally.summary(what)),
        index => {
            let subject = subject(index).expect("the subject has been compared before");
            Err(report(&subject, sides))
        }
    }
}

/// Takes shares of the subjects until there are no more, or one before them has differed.
fn compare_shares(
    next: &AtomicU64,
    first_different: &AtomicU64,
    count: u64,
    sides: &Sides,
    subject: &(impl Fn(u64) -> Option<Subject> + Sync),
) -> Tally {
    let mut tally = Tally::default();
    loop {
        let start = next.fetch_add(SHARE, Ordering::SeqCst);
        if start >= count {
            return tally;
        }
        for index in start..count.min(start + SHARE) {
            if index > first_different.load(Ordering::SeqCst) {
                return tally;
            }
            let Some(subject) = subject(index) else {
                continue;
            };
            match sides.printed(&subject.journal) {
                Ok((printed, expected)) if printed == expected => {
                    tally.count(&subject.journal, &expected)
                }
                _ => {
                    first_different.fetch_min(index, Ordering::SeqCst);
                }
            }
        }
    }
}

impl Sides<'_> {
    /// What the program prints and what it has to print.
    fn printed(&self, journal: &[u8]) -> Result<(Vec<u8>, Vec<u8>), String> {
        let printed = self.program.printed(journal);
        let printed = printed.map_err(|error| format!("the program: {error}"))?;
        Ok((printed, (self.expected)(journal)?))
    }
}

impl Tally {
    fn count(&mut self, journal: &[u8], printed: &[u8]) {
        self.journals += 1;
        let accepted = journal.len() <= LONGEST_JOURNAL && journal::open(journal).is_ok();
        self.accepted += u64::from(accepted);
        self.bytes_read += journal.len() as u64;
        self.bytes_printed += printed.len() as u64;
        for line in printed.split(|byte| *byte == b'\n') {
            let mut words = line.split(|byte| *byte == b' ');
            if words.next() == Some(b"call") {
                let reply = words.nth(1).unwrap_or_default();
                self.count_reply(&String::from_utf8_lossy(reply));
            }
        }
    }

    fn count_reply(&mut self, reply: &str) {
        match self.replies.get_mut(reply) {
            Some(count) => *count += 1,
            None => {
                self.replies.insert(reply.to_string(), 1);
            }
        }
    }

    fn add(&mut self, other: Tally) {
        self.journals += other.journals;
        self.accepted += other.accepted;
        self.bytes_read += other.bytes_read;
        self.bytes_printed += other.bytes_printed;
        for (reply, count) in other.replies {
            *self.replies.entry(reply).or_insert(0) += count;
        }
    }

    fn summary(&self, what: &str) -> String {
        let replies: Vec<String> = self
            .replies
            .iter()
            .map(|(reply, count)| format!("{count} {reply}"))
            .collect();
        format!(
            "{} compared ({what}), {} descriptions accepted, calls {}, {} bytes read, {} bytes printed, 0 differ",
            self.journals,
            self.accepted,
            replies.join(" "),
            self.bytes_read,
            self.bytes_printed
        )
    }
}

/// A subject that differs and the first line in which it does.
fn report(subject: &Subject, sides: &Sides) -> String {
    let head = format!("{} differs, {} bytes", subject.name, subject.journal.len());
    match sides.printed(&subject.journal) {
        Err(fault) => format!("{head}: {fault}"),
        Ok((printed, expected)) => match first_difference(&printed, &expected) {
            Some((line, printed, expected)) => {
                format!("{head}. Line {line}\nprinted:  {printed}\nexpected: {expected}")
            }
            None => format!("{head} at one time, and not at another"),
        },
    }
}

/// The number of the first line that differs, and that line of both.
fn first_difference(printed: &[u8], expected: &[u8]) -> Option<(usize, String, String)> {
    let lines = |text: &[u8]| -> Vec<String> {
        let lines = text.split_inclusive(|byte| *byte == b'\n');
        lines.map(|line| line.escape_ascii().to_string()).collect()
    };
    let (printed, expected) = (lines(printed), lines(expected));
    let line = (0..printed.len().max(expected.len()))
        .find(|line| printed.get(*line) != expected.get(*line))?;
    let shown = |lines: &[String]| match lines.get(line) {
        Some(line) => line.clone(),
        None => "(nothing)".to_string(),
    };
    Some((line + 1, shown(&printed), shown(&expected)))
}
