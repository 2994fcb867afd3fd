//! Journals: those of the gate, books read as journals, the example year, and what ends a journal.

mod common;

use common::{book, of_crate, BASIN};
use reference::journal::{self, next_asked, Asked, Own, LONGEST_JOURNAL};
use reference::planning::{self, State};
use reference::random::{self, Source};
use reference::{random_windows, register, report, text, windows, LONGEST_BOOK};
use std::path::Path;

/// What the program prints of a journal.
fn printed(journal: &[u8]) -> String {
    String::from_utf8(journal::run(journal)).expect("the output is ASCII")
}

/// A file of the gate's journals as text, which has something in it.
fn text_of_gate(name: &str) -> String {
    let path = Path::new(env!("CARGO_MANIFEST_DIR"))
        .join("../crates/journal_runs")
        .join(name);
    let shown = path.display();
    let text = std::fs::read_to_string(&path).unwrap_or_else(|error| panic!("{shown}: {error}"));
    assert!(!text.is_empty(), "{shown} is empty");
    text
}

/// The names of the files in the gate's folder of journals, in order.
fn files_of_gate() -> Vec<String> {
    let folder = Path::new(env!("CARGO_MANIFEST_DIR")).join("../crates/journal_runs/data");
    let files = std::fs::read_dir(&folder).expect("the folder of the gate's journals");
    let mut names: Vec<String> = files
        .map(|file| file.expect("a file of the gate").file_name())
        .map(|name| name.into_string().expect("the name is text"))
        .collect();
    names.sort();
    names
}

#[test]
fn every_journal_of_the_gate_is_named() {
    let names = text_of_gate("args");
    let mut names: Vec<&str> = names.lines().collect();
    names.sort();
    assert_eq!(names, files_of_gate());
}

#[test]
fn the_journals_of_the_gate_have_the_expected_output() {
    let names = text_of_gate("args");
    let expected = text_of_gate("stdout");
    let mut rest = expected.as_str();
    for name in names.lines() {
        let journal = of_crate("journal_runs", &format!("data/{name}"));
        let section = format!("{name}\n{}", printed(&journal));
        match rest.strip_prefix(&section) {
            Some(after) => rest = after,
            None => panic!("the output of {name} is not the expected one:\n{section}"),
        }
    }
    assert!(rest.is_empty(), "more is expected after the last journal");
}

/// Whether an own mark stands where a record begins.
fn has_own_mark(bytes: &[u8]) -> bool {
    let mut at = 0;
    while !journal::is_own_mark(bytes, at) {
        match journal::record_at(bytes, at) {
            Ok((_, next)) => at = next,
            Err(_) => return false,
        }
    }
    true
}

/// Whether a journal of these bytes has to print what the book prints.
fn is_plain_book(bytes: &[u8]) -> bool {
    bytes.len() <= LONGEST_BOOK && !has_own_mark(bytes)
}

#[test]
fn a_book_prints_as_a_journal_what_it_prints_as_a_book() {
    let names = String::from_utf8(of_crate("book_runs", "args")).expect("the names are text");
    let of_gate = names
        .lines()
        .map(|name| of_crate("book_runs", &format!("data/{name}")));
    let mut compared = 0;
    for book in of_gate.chain((0..1000).map(random::book)) {
        if is_plain_book(&book) {
            assert!(journal::run(&book) == reference::run(&book));
            compared += 1;
        }
    }
    assert!(compared > 2500, "{compared}");
}

/// A random book with keepings, returns and moving windows between its calls, if its description is accepted.
fn book_with_plans(seed: u64) -> Option<Vec<u8>> {
    let mut source = Source::new(seed);
    let book = random::book(seed);
    let mut at = reference::book::open(&book).ok()?.end;
    let mut journal = book[..at].to_vec();
    while let Ok((_, next)) = reference::book::next_call(&book, at) {
        journal.extend(&book[at..next]);
        at = next;
        if source.chance(40) {
            let name = [source.pick(b"abcdef"), 0, 0, 0, 0, 0, 0, 0];
            let own = match source.below(9) {
                0..=3 => Own::Keep(name),
                4..=7 => Own::Back(name),
                _ => Own::Windows(random_windows::request(&mut source)),
            };
            journal.extend(own.bytes());
        }
    }
    journal.extend(&book[at..]);
    Some(journal)
}

/// What the program prints of a journal with an accepted description, each call made by the plain
/// functions that test the whole state for 0 before it.
fn printed_plainly(journal: &[u8]) -> String {
    let (ledger, mut at) = journal::open(journal).expect("the description is accepted");
    let mut state = ledger.state;
    let mut text = String::new();
    let mut place = 0;
    while at < journal.len() {
        let (asked, next) = match next_asked(journal, at) {
            Ok(read) => read,
            Err(refusal) => {
                text += &report::refused(&refusal);
                break;
            }
        };
        place += 1;
        text += &answered_plainly(&mut state, place, &asked);
        at = next;
    }
    text + &report::table(&state.balance)
}

fn answered_plainly(state: &mut State, place: usize, asked: &Asked) -> String {
    let (reply, after) = match asked {
        Asked::Call(call) => {
            let (reply, after) = register::apply(&state.balance, call);
            state.balance = after;
            return report::call(place, &reply);
        }
        Asked::Own(Own::Keep(name)) => planning::keep(state, *name),
        Asked::Own(Own::Back(name)) => planning::back(state, *name),
        Asked::Own(Own::Windows(request)) => return windows_answered(place, request),
    };
    *state = after;
    match reply {
        planning::Reply::Kept => format!("call {place} kept\n"),
        planning::Reply::Back => format!("call {place} back\n"),
        planning::Reply::Refused(number) => format!("call {place} refused {number}\n"),
    }
}

fn windows_answered(place: usize, request: &windows::Request) -> String {
    match windows::runoffs(request) {
        Ok(runoffs) => format!("call {place} {}", report::windows(&runoffs)),
        Err(number) => format!("call {place} refused {number}\n"),
    }
}

#[test]
fn one_test_for_0_of_each_balance_gives_what_a_test_before_each_call_gives() {
    let mut replies = std::collections::BTreeMap::new();
    for journal in (0..1500).filter_map(book_with_plans) {
        let text = printed(&journal);
        assert_eq!(text, printed_plainly(&journal));
        for line in text.lines().filter(|line| line.starts_with("call ")) {
            let words: Vec<&str> = line.split(' ').skip(2).collect();
            let reply = match words[0] {
                "refused" => words.join(" "),
                word => word.to_string(),
            };
            *replies.entry(reply).or_insert(0) += 1;
        }
    }
    for reply in ["given", "cancelled", "kept", "back", "windows"] {
        assert!(replies[reply] > 100, "{replies:?}");
    }
    for reply in ["refused 17", "refused 22", "refused 23"] {
        assert!(replies[reply] > 20, "{replies:?}");
    }
}

const TABLE: &str = "unit 1 10080 3063 3063 7017\nunit 2 1540 468 468 1072\n\
                     unit 3 10160 1000 469 9160\naquifer 1 2000 200\n";

/// The paper's book, its first call between a keeping and a return, and a second keeping.
#[test]
fn going_back_on_the_papers_book() {
    let calls =
        "keep \"dry\"; withdraw unit=3 use=1 volume=2000; back \"dry\"; pump aquifer=1 volume=200;
                 keep \"wet\"; back \"gone\"";
    let replies = "call 1 kept\ncall 2 given 1\ncall 3 back\ncall 4 given 1\ncall 5 kept\n\
                   call 6 refused 23\n";
    let table = TABLE.replace("aquifer 1 2000 200", "aquifer 1 2000 0");
    assert_eq!(
        printed(&book(&format!("{BASIN}; {calls}"))),
        format!("{replies}{table}")
    );
}

#[test]
fn a_fifth_name_is_refused_and_a_used_one_replaced() {
    let calls = "keep \"a\"; keep \"b\"; keep \"c\"; keep \"\"; keep \"e\"; pump aquifer=1 volume=7; keep \"\";
                 cancel 1; back \"\"; cancel 1; back \"a\"; cancel 1";
    let replies = "call 1 kept\ncall 2 kept\ncall 3 kept\ncall 4 kept\ncall 5 refused 22\n\
                   call 6 given 1\ncall 7 kept\ncall 8 cancelled 1\ncall 9 back\n\
                   call 10 cancelled 1\ncall 11 back\ncall 12 refused 19\n";
    assert_eq!(
        printed(&book(&format!("{BASIN}; {calls}"))),
        format!("{replies}{TABLE}")
    );
}

#[test]
fn an_own_mark_ends_the_description_even_if_its_body_is_short() {
    for mark in [b"KP", b"GB"] {
        for length in 0..8 {
            let own = [mark.as_slice(), &vec![0; length]].concat();
            assert_eq!(printed(&own), "refused 1 at 0\n");
            let mut journal = book(BASIN);
            let end = journal.len();
            journal.extend(&own);
            assert_eq!(printed(&journal), format!("refused 1 at {end}\n{TABLE}"));
            let mut short_of_years = book("unit; soil cover=8 soil=1 hectares=10000; rain 800 x19");
            short_of_years.extend(&own);
            assert_eq!(printed(&short_of_years), "refused 6 at 0\n");
        }
    }
}

#[test]
fn a_record_that_fails_is_printed_before_the_table() {
    for (bytes, number) in [
        (&b"KP1234567"[..], 1),
        (b"G", 1),
        (b"GU\x01", 1),
        (b"KQ12345678", 2),
        (b"kp12345678", 2),
        (b"WI\x14\0\x14\0", 1),
        (b"WJ\x14\0\0\0", 2),
        (b"wi\x14\0\0\0", 2),
        (b"UN", 2),
        (b"PR\x20\x03", 2),
    ] {
        let mut journal = book(&format!("{BASIN}; keep \"x\""));
        let end = journal.len();
        journal.extend(bytes);
        assert_eq!(
            printed(&journal),
            format!("call 1 kept\nrefused {number} at {end}\n{TABLE}")
        );
    }
}

#[test]
fn own_marks_are_unknown_in_a_book() {
    for own in ["keep \"x\"", "back \"x\"", "windows width=20"] {
        let own = book(own);
        assert_eq!(reference::run(&own), b"refused 2 at 0\n");
        let mut after_a_call = book("cancel 1");
        after_a_call.extend(&own);
        assert_eq!(
            reference::run(&after_a_call),
            b"call 1 refused 19\nrefused 2 at 4\n"
        );
    }
}

#[test]
fn a_journal_has_at_most_1048576_bytes() {
    let mut journal = b"CA\x01\0".repeat(LONGEST_JOURNAL / 4);
    let text = printed(&journal);
    assert_eq!(text.lines().count(), 262_144);
    assert_eq!(text.lines().last(), Some("call 262144 refused 19"));
    journal.push(0);
    assert_eq!(printed(&journal), "refused 21 at 1048576\n");
}

/// The replies that stand in the comments of an example, each before a colon or alone.
fn replies_of_comments(text: &str) -> Vec<String> {
    let words = ["given", "refused", "cancelled", "kept", "back"];
    text.lines()
        .filter(|line| !line.starts_with('#'))
        .filter_map(|line| line.split_once("  # ").or(line.split_once(" # ")))
        .map(|(_, comment)| comment.split(':').next().unwrap_or("").to_string())
        .filter(|reply| words.contains(&reply.split(' ').next().unwrap_or("")))
        .collect()
}

#[test]
fn the_example_year_prints_the_replies_of_its_comments() {
    let text = include_str!("../../examples/year.txt");
    let journal = text::make(text).expect("the example is well formed");
    let replies: Vec<String> = printed(&journal)
        .lines()
        .filter(|line| line.starts_with("call "))
        .map(|line| line.splitn(3, ' ').nth(2).unwrap_or("").to_string())
        .collect();
    assert_eq!(replies.len(), 37);
    assert_eq!(replies, replies_of_comments(text));
}

#[test]
fn the_programs_samples_have_the_expected_output() {
    let journal = journal::run(&of_crate("journal", "stdin"));
    assert!(journal == of_crate("journal", "stdout"));
    let book = reference::run(&of_crate("balance", "stdin"));
    assert!(book == of_crate("balance", "stdout"));
}

#[test]
fn the_example_year_has_the_description_of_the_example_basin() {
    let opened = |text: &str| {
        let bytes = text::make(text).expect("the example is well formed");
        let (_, end) = journal::open(&bytes).expect("the description is accepted");
        bytes[..end].to_vec()
    };
    let basin = opened(include_str!("../../examples/cuenca.txt"));
    assert!(opened(include_str!("../../examples/year.txt")) == basin);
}

#[test]
fn the_examples_are_made_from_their_texts() {
    let folder = Path::new(env!("CARGO_MANIFEST_DIR")).join("../examples");
    for (name, kind) in [
        ("listing", "book"),
        ("rio-bravo", "book"),
        ("tequisistlan", "book"),
        ("cuenca", "book"),
        ("year", "journal"),
        ("drift", "journal"),
    ] {
        let words = std::fs::read_to_string(folder.join(format!("{name}.txt"))).expect(name);
        let bytes = std::fs::read(folder.join(format!("{name}.{kind}"))).expect(name);
        assert!(text::make(&words) == Ok(bytes), "{name}");
    }
}
