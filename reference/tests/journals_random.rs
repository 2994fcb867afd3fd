//! Random and boundary journals: what they contain, and what the model prints for the latter.

use reference::boundary_journals::{self, Named};
use reference::journal::{self, LONGEST_JOURNAL};
use reference::random;
use reference::random_journals::{has_own_mark, journal};
use std::collections::BTreeSet;

fn printed(journal: &[u8]) -> String {
    String::from_utf8(journal::run(journal)).expect("the output is ASCII")
}

#[test]
fn a_seed_gives_one_journal() {
    for seed in 0..500 {
        assert!(journal(seed) == journal(seed), "{seed}");
    }
}

#[test]
fn most_descriptions_are_accepted_and_most_of_those_keep_and_go_back() {
    let (mut accepted, mut kept_and_back, mut with_windows) = (0, 0, 0);
    let mut replies = BTreeSet::new();
    for seed in 0..3000 {
        let journal = journal(seed);
        if journal.len() > LONGEST_JOURNAL || journal::open(&journal).is_err() {
            continue;
        }
        accepted += 1;
        let printed = printed(&journal);
        let has = |reply: &str| printed.lines().any(|line| line.ends_with(reply));
        kept_and_back += usize::from(has(" kept") && has(" back"));
        with_windows += usize::from(printed.contains("\nwindow "));
        replies.extend(printed.lines().filter_map(reply_without_number));
    }
    assert!((1800..2300).contains(&accepted), "{accepted}");
    assert!(kept_and_back * 10 > accepted * 6, "{kept_and_back}");
    assert!(with_windows * 10 > accepted * 4, "{with_windows}");
    for number in [3, 4, 5, 7].into_iter().chain(12..=20).chain(22..=24) {
        assert!(replies.contains(&format!("refused {number}")), "{number}");
    }
}

/// The reply of a call line: its word, and for a refusal its number.
fn reply_without_number(line: &str) -> Option<String> {
    let (_, reply) = line.strip_prefix("call ")?.split_once(' ')?;
    Some(match reply.starts_with("refused") {
        true => reply.to_string(),
        false => reply.split(' ').next()?.to_string(),
    })
}

#[test]
fn a_book_without_own_marks_prints_what_balance_prints() {
    let mut books = 0;
    for seed in 0..3000 {
        let book = random::book(seed);
        if book.len() <= reference::LONGEST_BOOK && !has_own_mark(&book) {
            assert!(journal::run(&book) == reference::run(&book), "{seed}");
            books += 1;
        }
    }
    assert!(books > 2900, "{books}");
}

fn boundary() -> Vec<Named> {
    boundary_journals::journals()
}

fn find(name: &str) -> Vec<u8> {
    let named = boundary().into_iter().find(|named| named.name == name);
    named.unwrap_or_else(|| panic!("no journal {name}")).journal
}

#[test]
fn the_names_differ_and_the_journals_are_small_together() {
    let journals = boundary();
    let names: BTreeSet<&str> = journals.iter().map(|named| &named.name[..]).collect();
    assert_eq!(names.len(), journals.len());
    assert!(names.iter().all(|name| name.starts_with("j-")));
    let bytes: usize = journals.iter().map(|named| named.journal.len()).sum();
    assert!(bytes < 3_400_000, "{bytes}");
}

#[test]
fn lengths_are_those_of_the_names() {
    for (name, length) in [
        ("j-empty", 0),
        ("j-65536-plain", 65_536),
        ("j-65537-plain", 65_537),
        ("j-longest", LONGEST_JOURNAL),
        ("j-too-long", LONGEST_JOURNAL + 1),
        ("j-longest-description", 64 * (31 + 50 * 34) + 32 * 22 + 36),
    ] {
        assert_eq!(find(name).len(), length, "{name}");
    }
    for named in boundary_journals::large() {
        assert_eq!(named.journal.len(), LONGEST_JOURNAL, "{}", named.name);
    }
    assert_eq!(printed(&find("j-too-long")), "refused 21 at 1048576\n");
    assert!(printed(&find("j-longest")).ends_with("aquifer 1 90 70\n"));
}

#[test]
fn replies_where_the_program_starts_a_page() {
    for calls in [16_383, 16_384, 16_385, 32_769] {
        let printed = printed(&find(&format!("j-calls-{calls}")));
        let last = format!("call {calls} refused 19");
        assert_eq!(printed.lines().nth(calls - 1), Some(&last[..]));
        assert_eq!(printed.lines().nth(calls), Some("unit 1 1540 0 0 1540"));
    }
    for (name, replies) in [
        (
            "j-keep-at-16384-back-at-16385",
            ["kept", "back", "given 1", "back", "given 2"],
        ),
        (
            "j-back-at-16384-keep-at-16385",
            ["back", "kept", "given 1", "back", "given 1"],
        ),
    ] {
        let printed = printed(&find(name));
        let lines: Vec<&str> = printed.lines().skip(16_383).take(5).collect();
        let expected: Vec<String> = (16_384..)
            .zip(replies)
            .map(|(place, reply)| format!("call {place} {reply}"))
            .collect();
        assert_eq!(lines, expected, "{name}");
    }
}

/// The replies of a journal and the line of its failing record, without the words `call K`.
fn replies(name: &str) -> String {
    let printed = printed(&find(name));
    let lines = printed.lines().filter(|line| {
        let other = ["unit", "aquifer", "window"];
        !other.iter().any(|word| line.starts_with(word))
    });
    let shown = lines.enumerate().map(|(place, line)| {
        let call = format!("call {} ", place + 1);
        line.strip_prefix(&call).unwrap_or(line).to_string()
    });
    shown.collect::<Vec<String>>().join(", ")
}

#[test]
fn replies_are_those_of_the_format() {
    for (name, expected) in [
        ("j-empty", ""),
        ("j-keep-first", "kept"),
        ("j-back-first", "refused 23"),
        ("j-keep-short-0", "refused 1 at 119"),
        ("j-keep-short-7", "refused 1 at 119"),
        ("j-back-short-7-after-calls", "given 1, kept, given 2, refused 1 at 405"),
        ("j-lone-k-after-unit", "refused 1 at 119"),
        ("j-lone-k-in-unit", "refused 1 at 31"),
        ("j-keep-after-19-years", "refused 6 at 0"),
        ("j-keep-short-after-19-years-second", "refused 6 at 119"),
        ("j-keep-after-missing-downstream", "refused 8 at 2"),
        ("j-keep-after-negative-flow", "refused 10 at 1"),
        ("j-keep-after-gauged-sum", "refused 9 at 0"),
        ("j-keep-after-short-record", "refused 1 at 119"),
        ("j-keep-inside-record", "refused 5 at 119"),
        ("j-keep-then-description-mark", "kept, refused 2 at 129"),
        ("j-keep-in-mid-description", "refused 6 at 0"),
        ("j-keep-between-units", "kept, refused 2 at 129"),
        ("j-keep-between-draining-units", "refused 8 at 1"),
        (
            "j-fifth-name",
            "kept, given 1, kept, given 2, kept, given 3, kept, given 4, refused 22, refused 23, refused 22, given 5",
        ),
        ("j-no-such-name", "kept, given 1, refused 23, given 2, kept, back"),
        ("j-zero-name", "kept, given 1, back, given 1"),
        ("j-zero-name-not-kept", "given 1, refused 23"),
        (
            "j-names-differ-in-byte-8",
            "kept, given 1, kept, given 2, back, given 1, back, given 2, refused 23, back",
        ),
        ("j-back-twice", "kept, given 1, back, back, given 1, back"),
        (
            "j-back-then-numbers-repeat",
            "given 1, kept, given 2, given 3, back, given 2, refused 19, cancelled 2, given 3",
        ),
        (
            "j-back-restores-register",
            "given 1, given 2, kept, cancelled 1, refused 19, back, cancelled 1, refused 19, cancelled 2",
        ),
        (
            "j-keep-refused-call-counted",
            "refused 19, kept, refused 12, refused 23, given 1, refused 14, back, given 1, cancelled 1",
        ),
        (
            "j-back-to-water-in-use",
            "given 1, kept, given 2, refused 20, kept, back, cancelled 1, back, refused 20, cancelled 2, cancelled 1",
        ),
        ("j-unknown-own-mark-fi", "kept, given 1, refused 2 at 397"),
        ("j-unknown-own-mark-mo-first", "refused 2 at 379"),
        ("j-wi-first-refused", "refused 24"),
        ("j-wi-after-19-years", "refused 6 at 0"),
        ("j-wi-short-after-19-years-second", "refused 6 at 119"),
        ("j-wi-between-units", "windows 1, refused 2 at 171"),
        ("j-wi-between-draining-units", "refused 8 at 1"),
        ("j-wi-in-mid-description", "refused 6 at 0"),
        ("j-wi-short-0", "refused 1 at 119"),
        ("j-wi-short-3", "refused 1 at 119"),
        ("j-wi-short-49-after-calls", "given 1, windows 1, given 2, refused 1 at 447"),
        ("j-wi-short-49-in-unit", "refused 6 at 0"),
        ("j-wi-inside-wi", "refused 5, refused 2 at 171"),
        ("j-wi-counts-0-0", "refused 24, given 1"),
        ("j-wi-count-of-5120", "refused 1 at 119"),
        (
            "j-wi-between-all",
            "windows 1, kept, windows 1, given 1, refused 24, kept, windows 1, back, windows 1, refused 19, windows 1, back, refused 24, cancelled 1, windows 1, given 2",
        ),
        (
            "j-wi-widths-of-60",
            "refused 24, refused 24, refused 24, windows 41, windows 40, windows 12, windows 11, refused 24, refused 24, refused 24, refused 24, given 1",
        ),
        (
            "j-wi-areas",
            "refused 3, windows 2, windows 2, windows 2, windows 2, refused 4, refused 4, refused 4, given 1",
        ),
        (
            "j-wi-hectares",
            "refused 5, windows 2, windows 2, windows 2, refused 5, refused 5, refused 5, given 1",
        ),
        (
            "j-wi-hectares-in-all",
            "windows 1, refused 7, refused 7, windows 1, refused 7, refused 7, windows 1, refused 7, refused 7, windows 1, refused 7, given 1",
        ),
        (
            "j-wi-rain-entering",
            "refused 5, refused 5, refused 5, refused 5, windows 11, windows 11, refused 5, refused 5, refused 5, given 1",
        ),
    ] {
        assert_eq!(replies(name), expected, "{name}");
    }
}

/// The replies to every pair of faults of the areas and of the years. A window that is 20 wide has 20 years in the
/// first two columns of each row.
#[test]
fn the_first_refusal_of_a_window_counts() {
    let mut expected = Vec::new();
    for [sound, wrong_rain] in [
        ["windows 1", "refused 5"],
        ["refused 3"; 2],
        ["refused 4"; 2],
        ["refused 4"; 2],
        ["refused 4"; 2],
        ["refused 4"; 2],
        ["refused 4"; 2],
        ["refused 5"; 2],
        ["refused 7"; 2],
        ["refused 5"; 2],
        ["refused 5"; 2],
    ] {
        expected.extend([sound, wrong_rain]);
        expected.extend(["refused 24"; 5]);
    }
    expected.push("given 1");
    assert_eq!(replies("j-wi-order-20"), expected.join(", "));
    for width in [0, 19, 51] {
        let replies = replies(&format!("j-wi-order-{width}"));
        assert_eq!(replies, format!("{}given 1", "refused 24, ".repeat(77)));
    }
}

#[test]
fn moving_windows_leave_the_state() {
    for name in ["j-wi-first", "j-wi-first-refused", "j-wi-thrice"] {
        let table = |name: &str| -> Vec<String> {
            let printed = printed(&find(name));
            let lines = printed
                .lines()
                .filter(|line| line.starts_with("unit") || line.starts_with("aquifer"));
            lines.map(str::to_string).collect()
        };
        assert_eq!(table(name), table("j-description-only"), "{name}");
    }
}

/// What keeping hands out is a copy: the table is that of the balance that was kept.
#[test]
fn the_table_is_that_of_the_balance_gone_back_to() {
    let table = |name: &str| -> String {
        let printed = printed(&find(name));
        let lines = printed.lines().filter(|line| !line.starts_with("call"));
        lines.collect::<Vec<&str>>().join("\n")
    };
    let untouched = table("j-description-only");
    for name in ["j-back-twice", "j-back-forgets-title", "j-keep-then-back"] {
        assert_eq!(table(name), untouched, "{name}");
    }
    assert_ne!(table("j-zero-name"), untouched);
}
