//! Puts the same books to the proved library and to the reference model, byte for byte.
//!
//!     compare SEED COUNT    the random books of COUNT seeds from SEED on
//!     compare --named       the boundary books

use comparison::{plain, proved, states};
use reference::register::Reply;
use reference::{boundary, random, text};
use std::process::ExitCode;
use std::sync::atomic::{AtomicU64, Ordering};
use std::thread;

/// The stack of a thread that runs the proved library.
const STACK: usize = 64 << 20;
/// How many books a thread takes at once.
const SHARE: u64 = 16;
/// How often an operation on a planning state is repeated.
const TIMES: u64 = 5;

/// A book and how it is called.
struct Subject {
    name: String,
    book: Vec<u8>,
}

/// One answer in which the two differ.
struct Difference {
    question: &'static str,
    proved: String,
    reference: String,
}

#[derive(Default)]
struct Tally {
    books: u64,
    accepted: u64,
    given: u64,
    cancelled: u64,
    refused: u64,
    bytes_read: u64,
    bytes_printed: u64,
}

impl Tally {
    fn count(&mut self, reply: &Reply) {
        match reply {
            Reply::Given(_) => self.given += 1,
            Reply::Cancelled(_) => self.cancelled += 1,
            Reply::Refused(_) => self.refused += 1,
        }
    }

    fn add(&mut self, other: &Tally) {
        self.books += other.books;
        self.accepted += other.accepted;
        self.given += other.given;
        self.cancelled += other.cancelled;
        self.refused += other.refused;
        self.bytes_read += other.bytes_read;
        self.bytes_printed += other.bytes_printed;
    }
}

fn main() -> ExitCode {
    let words: Vec<String> = std::env::args().skip(1).collect();
    let words: Vec<&str> = words.iter().map(String::as_str).collect();
    match words[..] {
        ["--named"] => compare_named(),
        [seed, count] => match (seed.parse(), count.parse()) {
            (Ok(seed), Ok(count)) => compare_seeds(seed, count),
            _ => usage(),
        },
        _ => usage(),
    }
}

fn usage() -> ExitCode {
    eprintln!("usage: compare SEED COUNT | compare --named");
    ExitCode::from(2)
}

fn compare_seeds(seed: u64, count: u64) -> ExitCode {
    let subject = |index: u64| {
        let seed = seed.wrapping_add(index);
        Subject {
            name: format!("seed {seed}"),
            book: random::book(seed),
        }
    };
    compare(&format!("seeds from {seed}"), count, subject)
}

fn compare_named() -> ExitCode {
    let books = boundary::books();
    let count = books.len() as u64;
    let subject = |index: u64| {
        let named = &books[index as usize];
        Subject {
            name: format!("boundary book {}", named.name),
            book: named.book.clone(),
        }
    };
    compare("boundary books", count, subject)
}

/// Compares all subjects on all cores, and reports the first that differs.
fn compare(what: &str, count: u64, subject: impl Fn(u64) -> Subject + Sync) -> ExitCode {
    let next = AtomicU64::new(0);
    let first_different = AtomicU64::new(u64::MAX);
    let cores = thread::available_parallelism().map_or(1, usize::from);
    let mut tally = Tally::default();
    thread::scope(|scope| {
        let work = || compare_shares(&next, &first_different, count, &subject);
        let started: Vec<_> = (0..cores)
            .map(|_| {
                let thread = thread::Builder::new().stack_size(STACK);
                thread.spawn_scoped(scope, work).expect("a thread starts")
            })
            .collect();
        for thread in started {
            tally.add(&thread.join().expect("a thread ends"));
        }
    });
    match first_different.load(Ordering::SeqCst) {
        u64::MAX => summary(what, &tally),
        index => report(&subject(index)),
    }
}

/// Takes shares of the subjects until there are no more, or one before them has differed.
fn compare_shares(
    next: &AtomicU64,
    first_different: &AtomicU64,
    count: u64,
    subject: &(impl Fn(u64) -> Subject + Sync),
) -> Tally {
    let mut tally = Tally::default();
    let mut out = proved::buffer();
    loop {
        let start = next.fetch_add(SHARE, Ordering::SeqCst);
        if start >= count {
            return tally;
        }
        for index in start..count.min(start + SHARE) {
            if index > first_different.load(Ordering::SeqCst) {
                return tally;
            }
            if !differences(&subject(index).book, &mut out, &mut tally).is_empty() {
                first_different.fetch_min(index, Ordering::SeqCst);
            }
        }
    }
}

/// Puts every question of the interface to both.
fn differences(book: &[u8], out: &mut [u8; proved::ROOM], tally: &mut Tally) -> Vec<Difference> {
    let mut found = Vec::new();
    let mut ask = |question, proved: String, reference: String| {
        if proved != reference {
            found.push(Difference {
                question,
                proved,
                reference,
            });
        }
    };
    let expected = reference::run(book);
    let printed = proved::print(book, out);
    if printed != expected {
        ask("hasheqro_print", escaped(printed), escaped(&expected));
    }
    let ran = plain::run(book);
    let table = plain::table(&ran);
    let figures = proved::figures(book);
    if figures != table {
        ask("hasheqro_figures", lines(&figures), lines(&table));
    }
    let open = plain::open(book);
    ask(
        "hasheqro_open",
        proved::open(book).to_string(),
        open.to_string(),
    );
    let given = ran.as_ref().map_or(0, |ran| ran.balance.titles.len());
    ask(
        "hasheqro_run",
        proved::run(book).to_string(),
        given.to_string(),
    );
    ask(
        "hasheqro_refigure",
        proved::refigure(book, 3).to_string(),
        3.to_string(),
    );
    let balance = ran.as_ref().map(|ran| ran.balance.clone());
    let state = states::with_four_kept(balance.unwrap_or_default());
    for operation in states::OPERATIONS {
        let reference = states::repeat_plain(operation, state.clone(), TIMES);
        let proved = states::proved(operation, book, TIMES);
        ask(
            operation.function(),
            proved.to_string(),
            reference.to_string(),
        );
    }
    tally.books += 1;
    tally.bytes_read += book.len() as u64;
    tally.bytes_printed += expected.len() as u64;
    if let Ok(ran) = &ran {
        tally.accepted += 1;
        ran.replies.iter().for_each(|reply| tally.count(reply));
    }
    found
}

/// Printed bytes as text, with line ends as they are and other control bytes shown.
fn escaped(bytes: &[u8]) -> String {
    let lines: Vec<String> = bytes
        .split(|byte| *byte == b'\n')
        .map(|line| line.escape_ascii().to_string())
        .collect();
    lines.join("\n")
}

/// A table as text: the first line, then every place that is in use or not 0.
fn lines(table: &proved::Table) -> String {
    let mut text = format!(
        "accepted {} number {} place {} units {} aquifers {}\n",
        table.accepted, table.number, table.place, table.unit_count, table.aquifer_count
    );
    for (number, unit) in (1..).zip(&table.units) {
        if number <= table.unit_count || *unit != proved::Unit::default() {
            text += &format!("unit {number} {unit:?}\n");
        }
    }
    for (number, aquifer) in (1..).zip(&table.aquifers) {
        if number <= table.aquifer_count || *aquifer != proved::Aquifer::default() {
            text += &format!("aquifer {number} {aquifer:?}\n");
        }
    }
    text
}

fn summary(what: &str, tally: &Tally) -> ExitCode {
    println!(
        "{} books ({what}), {} descriptions accepted, calls {} given {} cancelled {} refused, {} bytes read, {} bytes printed, 0 differ",
        tally.books,
        tally.accepted,
        tally.given,
        tally.cancelled,
        tally.refused,
        tally.bytes_read,
        tally.bytes_printed
    );
    ExitCode::SUCCESS
}

/// Shows a subject and every answer in which the two differ.
fn report(subject: &Subject) -> ExitCode {
    println!(
        "{} differs. The book, {} bytes:",
        subject.name,
        subject.book.len()
    );
    match text::show(&subject.book) {
        Ok(text) => println!("{text}"),
        Err(_) => println!("{}", hex(&subject.book)),
    }
    let found = differences(&subject.book, &mut proved::buffer(), &mut Tally::default());
    for difference in found {
        println!("{}, proved:\n{}", difference.question, difference.proved);
        println!(
            "{}, reference:\n{}",
            difference.question, difference.reference
        );
    }
    ExitCode::FAILURE
}

/// Bytes in hexadecimal, 32 to a line.
fn hex(bytes: &[u8]) -> String {
    let lines: Vec<String> = bytes
        .chunks(32)
        .map(|line| line.iter().map(|byte| format!("{byte:02x}")).collect())
        .collect();
    lines.join("\n")
}
