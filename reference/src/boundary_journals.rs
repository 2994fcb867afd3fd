//! Named journals at the limits of the format and at the places where each of its refusals can arise.

mod windows;

use crate::journal::{Own, LONGEST_JOURNAL};
use crate::planning::Name;
use crate::random_journals::UNKNOWN_OWN_MARKS;
use crate::record::Mark;
use crate::{book, text, LONGEST_BOOK};
use windows::WINDOW;

/// A named journal.
pub struct Named {
    pub name: String,
    pub journal: Vec<u8>,
}

/// How many replies the program writes at once.
const PAGE: usize = 16_384;

/// Areas and years that follow a unit line and give 1540.
const RAIN: &str = "soil cover=8 soil=1 hectares=10000; rain 800 x20";
/// A unit of forest whose natural runoff is 1540.
const FOREST: &str = "unit; soil cover=8 soil=1 hectares=10000; rain 800 x20";
/// An aquifer with a recharge of 90 and 70 to spare.
const AQUIFER: &str = "aquifer storage=-10 natural=60 pumped=40 extraction=20";
/// Units 1 and 2 of 1540 each drain to unit 3, an outlet with a commitment; the aquifer has 400 to spare.
const BASIN: &str = "unit downstream=3; soil cover=8 soil=1 hectares=10000; rain 800 x20; \
    unit downstream=3; soil cover=8 soil=1 hectares=10000; rain 800 x20; \
    unit commitment=100; soil cover=8 soil=1 hectares=10000; rain 800 x20; \
    aquifer natural=600 pumped=100 committed=200 extraction=100";
/// A grant of the basin.
const GRANT: &str = "withdraw unit=1 use=1 volume=99";

/// One grant of each kind.
const GRANTS: [(&str, &str); 5] = [
    ("withdraw", GRANT),
    ("pump", "pump aquifer=1 volume=33"),
    ("transfer", "transfer from=2 to=1 volume=55"),
    ("bring", "bring aquifer=1 unit=2 volume=77"),
    (
        "returning",
        "pump-returning aquifer=1 unit=3 use=3 volume=88",
    ),
];

/// The journals for the gate, in the order in which they are made.
pub fn journals() -> Vec<Named> {
    let mut list = List(Vec::new());
    whole_journals(&mut list);
    keepings(&mut list);
    names(&mut list);
    returns(&mut list);
    registers(&mut list);
    counting(&mut list);
    short_records(&mut list);
    faulty_descriptions(&mut list);
    marks_inside_descriptions(&mut list);
    description_marks(&mut list);
    unknown_marks(&mut list);
    pages(&mut list);
    lengths(&mut list);
    windows::windows(&mut list);
    list.0
}

/// Journals of full length whose expected output is too large to be stored.
pub fn large() -> Vec<Named> {
    let mut list = List(Vec::new());
    list.add("j-most-calls", t("cancel 1").repeat(LONGEST_JOURNAL / 4));
    list.add(
        "j-longest-refused-calls",
        filled(
            t(BASIN),
            LONGEST_JOURNAL,
            &t("withdraw unit=1 use=1 volume=9000"),
        ),
    );
    let mut unread = join(FOREST, b"XX");
    unread.resize(LONGEST_JOURNAL, b'K');
    list.add("j-longest-unread", unread);
    list.add("j-longest-zeros", vec![0; LONGEST_JOURNAL]);
    windows::large(&mut list);
    list.0
}

struct List(Vec<Named>);

impl List {
    fn add(&mut self, name: &str, journal: Vec<u8>) {
        self.0.push(Named {
            name: name.to_string(),
            journal,
        });
    }

    fn text(&mut self, name: &str, text: &str) {
        self.add(name, t(text));
    }
}

/// A name of eight bytes: a word and spaces after it.
fn name(word: &str) -> Name {
    let mut name = [b' '; 8];
    name[..word.len()].copy_from_slice(word.as_bytes());
    name
}

/// The bytes of a text whose lines are separated by semicolons: the lines of a book, `windows`, `keep WORD` and
/// `back WORD`.
fn t(text: &str) -> Vec<u8> {
    text.split(';')
        .flat_map(|line| line_bytes(line.trim()))
        .collect()
}

fn line_bytes(line: &str) -> Vec<u8> {
    match line.split_once(' ') {
        Some(("keep", word)) => keep(name(word)),
        Some(("back", word)) => back(name(word)),
        _ => match text::make(line) {
            Ok(bytes) => bytes,
            Err(fault) => panic!("{line}: {fault}"),
        },
    }
}

fn keep(name: Name) -> Vec<u8> {
    Own::Keep(name).bytes()
}

fn back(name: Name) -> Vec<u8> {
    Own::Back(name).bytes()
}

/// The bytes of a text followed by other bytes.
fn join(text: &str, bytes: &[u8]) -> Vec<u8> {
    let mut journal = t(text);
    journal.extend(bytes);
    journal
}

fn repeated(text: &str, times: usize) -> String {
    vec![text; times].join(";")
}

/// A record of zeros without its last `missing` bytes.
fn short(mark: Mark, missing: usize) -> Vec<u8> {
    let mut bytes = mark.letters().to_vec();
    bytes.resize(2 + mark.body_length() - missing, 0);
    bytes
}

fn whole_journals(list: &mut List) {
    list.text("j-empty", "");
    list.text("j-description-only", BASIN);
    list.text(
        "j-aquifers-only",
        &format!("{AQUIFER}; {AQUIFER}; keep A; pump aquifer=2 volume=30; keep B; pump aquifer=2 volume=41; back A; pump aquifer=2 volume=41; back B"),
    );
    list.text(
        "j-calls-only",
        "withdraw unit=1 use=1 volume=5; cancel 1; pump aquifer=1 volume=5",
    );
    list.text("j-own-only", "keep A; back A; back B; cancel 1; back A");
    let cuenca = text::make(include_str!("../../examples/cuenca.txt")).expect("the example");
    let end = book::open(&cuenca).expect("the example is accepted").end;
    let (description, calls) = cuenca.split_at(end);
    list.add("j-cuenca", cuenca.clone());
    list.add(
        "j-cuenca-kept",
        [
            description,
            &t("keep A"),
            calls,
            &t("keep B; back A"),
            calls,
            &t("back B"),
        ]
        .concat(),
    );
    let units = repeated(FOREST, 64);
    let aquifers = repeated(AQUIFER, 32);
    list.text(
        "j-units-64-aquifers-32",
        &format!("{units}; {aquifers}; keep A; withdraw unit=64 use=1 volume=9; bring aquifer=32 unit=1 volume=9; keep B; back A; withdraw unit=1 use=1 volume=9; back B; cancel 2"),
    );
    let units = repeated("unit; gauge outflow=1000 x50", 64);
    list.text(
        "j-longest-description",
        &format!("{units}; {aquifers}; keep A; withdraw unit=64 use=1 volume=9; back A; withdraw unit=1 use=1 volume=9"),
    );
}

fn keepings(list: &mut List) {
    list.text("j-keep-first", &format!("{BASIN}; keep A"));
    list.text("j-back-first", &format!("{BASIN}; back A"));
    list.text("j-keep-alone", "keep A");
    list.text("j-back-alone", "back A");
    list.text("j-keep-then-back", &format!("{BASIN}; keep A; back A"));
    let four = format!("{BASIN}; keep A; {GRANT}; keep B; {GRANT}; keep C; {GRANT}; keep D");
    list.text(
        "j-fourth-name",
        &format!("{four}; {GRANT}; back D; back A; back C; back B"),
    );
    list.text(
        "j-fifth-name",
        &format!("{four}; {GRANT}; keep E; back E; keep E; {GRANT}"),
    );
    for word in ["A", "B", "C", "D"] {
        list.text(
            &format!("j-fifth-name-then-back-to-{}", word.to_lowercase()),
            &format!("{four}; {GRANT}; keep E; back {word}; {GRANT}"),
        );
        list.text(
            &format!("j-used-name-with-four-kept-{}", word.to_lowercase()),
            &format!("{four}; cancel 2; keep {word}; back A; {GRANT}; back B; {GRANT}; back C; {GRANT}; back D; {GRANT}; back {word}"),
        );
    }
    list.text(
        "j-used-name",
        &format!("{BASIN}; keep A; {GRANT}; keep A; cancel 1; back A; cancel 1; {GRANT}"),
    );
    list.text(
        "j-no-such-name",
        &format!("{BASIN}; keep A; {GRANT}; back B; {GRANT}; keep B; back B"),
    );
    list.text(
        "j-no-such-name-with-four-kept",
        &format!("{four}; {GRANT}; back E; {GRANT}"),
    );
}

/// Keeps under a name, grants, keeps under another, goes back to each, and asks for a third.
fn two_names(first: Name, second: Name, third: Name) -> Vec<u8> {
    let grant = t(GRANT);
    [
        t(BASIN),
        keep(first),
        grant.clone(),
        keep(second),
        grant.clone(),
        back(first),
        grant.clone(),
        back(second),
        grant,
        back(third),
        back(first),
    ]
    .concat()
}

fn names(list: &mut List) {
    let (zeros, some) = ([0; 8], name("A"));
    let grant = t(GRANT);
    let parts = |parts: &[&[u8]]| [&t(BASIN), &parts.concat()[..]].concat();
    list.add(
        "j-zero-name",
        parts(&[&keep(zeros), &grant, &back(zeros), &grant]),
    );
    list.add("j-zero-name-not-kept", parts(&[&grant, &back(zeros)]));
    list.add(
        "j-zero-name-not-kept-with-one",
        parts(&[&keep(some), &grant, &back(zeros), &grant]),
    );
    let three = [&keep(some)[..], &keep(name("B")), &keep(name("C"))].concat();
    list.add(
        "j-zero-name-not-kept-with-three",
        parts(&[&three, &grant, &back(zeros), &grant]),
    );
    list.add(
        "j-zero-name-as-fourth",
        parts(&[&three, &grant, &keep(zeros), &grant, &back(zeros), &grant]),
    );
    let four = [&three[..], &keep(name("D"))].concat();
    list.add(
        "j-zero-name-as-fifth",
        parts(&[&four, &grant, &keep(zeros), &back(zeros)]),
    );
    list.add("j-name-of-255", two_names([255; 8], zeros, [254; 8]));
    list.add(
        "j-name-of-marks",
        two_names(*b"KPGBUNCA", *b"GBKPCAUN", *b"KPKPKPKP"),
    );
    for byte in 1..=8 {
        let mut second = *b"original";
        let mut third = second;
        second[byte - 1] ^= 1;
        third[byte - 1] ^= 128;
        list.add(
            &format!("j-names-differ-in-byte-{byte}"),
            two_names(*b"original", second, third),
        );
    }
    list.add(
        "j-name-turned",
        two_names([1, 0, 0, 0, 0, 0, 0, 0], [0, 0, 0, 0, 0, 0, 0, 1], zeros),
    );
}

fn returns(list: &mut List) {
    list.text(
        "j-back-twice",
        &format!("{BASIN}; keep A; {GRANT}; back A; back A; {GRANT}; back A"),
    );
    list.text(
        "j-back-then-numbers-repeat",
        &format!("{BASIN}; {GRANT}; keep A; {GRANT}; {GRANT}; back A; {GRANT}; cancel 3; cancel 2; {GRANT}"),
    );
    list.text(
        "j-back-restores-register",
        &format!("{BASIN}; {GRANT}; {GRANT}; keep A; cancel 1; cancel 1; back A; cancel 1; cancel 1; cancel 2"),
    );
    list.text(
        "j-back-forgets-title",
        &format!("{BASIN}; keep A; {GRANT}; back A; cancel 1"),
    );
    for (word, grant) in GRANTS {
        list.text(
            &format!("j-back-before-{word}"),
            &format!("{BASIN}; keep A; {grant}; keep B; back A; cancel 1; back B; cancel 1; back B; {grant}"),
        );
    }
    list.text(
        "j-back-to-water-in-use",
        &format!("{BASIN}; bring aquifer=1 unit=2 volume=300; keep A; transfer from=2 to=1 volume=1840; cancel 1; keep B; back A; cancel 1; back B; cancel 1; cancel 2; cancel 1"),
    );
    list.text(
        "j-back-to-each-in-turn",
        &format!("{BASIN}; keep A; {GRANT}; keep B; {GRANT}; keep C; {GRANT}; keep D; back C; cancel 2; back B; cancel 2; back D; cancel 2; back A; cancel 1; back D; back C; back B"),
    );
    list.text(
        "j-keep-what-was-gone-back-to",
        &format!("{BASIN}; {GRANT}; keep A; {GRANT}; back A; keep B; cancel 1; back B; cancel 1; back A; cancel 1"),
    );
}

/// Registers that are full when they are kept.
fn registers(list: &mut List) {
    let grant = "withdraw unit=3 use=6 volume=1";
    let all = repeated(grant, 256);
    list.text(
        "j-titles-256-kept",
        &format!("{BASIN}; keep A; {all}; keep B; {grant}; back A; cancel 1; {grant}; back B; {grant}; cancel 256; cancel 257"),
    );
    list.text(
        "j-titles-255-kept",
        &format!(
            "{BASIN}; {}; keep A; {grant}; {grant}; back A; {grant}; {grant}",
            repeated(grant, 255)
        ),
    );
    let pairs: Vec<String> = (1..=256)
        .map(|number| format!("{grant}; cancel {number}"))
        .collect();
    list.text(
        "j-titles-256-cancelled",
        &format!(
            "{BASIN}; keep A; {}; {grant}; back A; {grant}; cancel 1",
            pairs.join(";")
        ),
    );
}

/// Every record is counted, refused ones and own ones too.
fn counting(list: &mut List) {
    list.text(
        "j-keep-refused-call-counted",
        &format!("{BASIN}; cancel 1; keep A; withdraw unit=9 use=1 volume=1; back B; {GRANT}; pump aquifer=1 volume=0; back A; {GRANT}; cancel 1"),
    );
    list.text(
        "j-calls-9-10-99-100",
        &format!(
            "{BASIN}; {}; keep A; back A; {}; keep A; back A",
            repeated("cancel 1", 8),
            repeated("cancel 1", 88)
        ),
    );
}

fn short_records(list: &mut List) {
    let given = format!("{BASIN}; {GRANT}; keep A; {GRANT}");
    for (word, record) in [("keep", t("keep A")), ("back", t("back A"))] {
        for length in 0..8 {
            let short = &record[..2 + length];
            list.add(&format!("j-{word}-short-{length}"), join(FOREST, short));
            list.add(
                &format!("j-{word}-short-{length}-after-calls"),
                join(&given, short),
            );
        }
        list.add(&format!("j-{word}-short-alone"), record[..2].to_vec());
        let letter = word.replace("keep", "k").replace("back", "g");
        let lone = &record[..1];
        list.add(&format!("j-lone-{letter}"), lone.to_vec());
        list.add(&format!("j-lone-{letter}-in-unit"), join("unit", lone));
        list.add(&format!("j-lone-{letter}-after-unit"), join(FOREST, lone));
        list.add(&format!("j-lone-{letter}-after-calls"), join(&given, lone));
    }
    list.add(
        "j-cancel-short-after-keep",
        join(&format!("{BASIN}; keep A"), b"CA\x01"),
    );
    let aquifer = t(AQUIFER);
    let keep = t("keep A");
    list.add(
        "j-keep-after-short-record",
        join(FOREST, &[&aquifer[..7], &keep].concat()),
    );
    list.add(
        "j-keep-inside-record",
        join(FOREST, &[&aquifer[..12], &keep].concat()),
    );
    list.add(
        "j-keep-inside-keep",
        join(FOREST, &[&keep[..6], &keep].concat()),
    );
}

/// An own mark ends the description, so that the faults that show at its end do.
fn faulty_descriptions(list: &mut List) {
    let years = "soil cover=8 soil=1 hectares=10000; rain 800 x19";
    for (word, text) in [
        ("19-years", format!("unit; {years}")),
        ("19-years-second", format!("{FOREST}; unit; {years}")),
        ("unit", "unit".to_string()),
        (
            "soil",
            "unit; soil cover=8 soil=1 hectares=10000".to_string(),
        ),
        ("gauged-sum", "unit; gauge inflow=1 x20".to_string()),
        (
            "missing-downstream",
            format!("{FOREST}; unit downstream=3; {RAIN}"),
        ),
        ("negative-flow", format!("unit extraction=1541; {RAIN}")),
        (
            "missing-downstream-and-negative-flow",
            format!("unit exports=1541; {RAIN}; unit downstream=3; {RAIN}"),
        ),
    ] {
        list.text(&format!("j-keep-after-{word}"), &format!("{text}; keep A"));
        list.text(&format!("j-back-after-{word}"), &format!("{text}; back A"));
        list.text(&format!("j-wi-after-{word}"), &format!("{text}; {WINDOW}"));
        list.add(&format!("j-keep-short-after-{word}"), join(&text, b"KP"));
        list.add(&format!("j-back-short-after-{word}"), join(&text, b"GB"));
        list.add(&format!("j-wi-short-after-{word}"), join(&text, b"WI\x14"));
    }
    list.text(
        "j-keep-after-20-years",
        &format!("{FOREST}; keep A; rain 800"),
    );
    list.text(
        "j-keep-after-flow-0",
        &format!("unit extraction=1540; {RAIN}; keep A"),
    );
    list.text(
        "j-wi-after-20-years",
        &format!("{FOREST}; {WINDOW}; rain 800"),
    );
    list.text(
        "j-wi-after-flow-0",
        &format!("unit extraction=1540; {RAIN}; {WINDOW}"),
    );
    list.add(
        "j-unknown-mark-before-keep",
        join(FOREST, &[b"XX", &t("keep A")[..]].concat()),
    );
}

fn marks_inside_descriptions(list: &mut List) {
    for (word, own) in [("keep", "keep A"), ("back", "back A"), ("wi", WINDOW)] {
        list.text(
            &format!("j-{word}-in-mid-description"),
            &format!("unit; {own}; {RAIN}"),
        );
        list.text(
            &format!("j-{word}-between-units"),
            &format!("{FOREST}; {own}; {FOREST}"),
        );
        list.text(
            &format!("j-{word}-between-draining-units"),
            &format!("unit downstream=2; {RAIN}; {own}; {FOREST}"),
        );
        list.text(
            &format!("j-{word}-between-years"),
            &format!("unit; soil cover=8 soil=1 hectares=10000; rain 800 x10; {own}; rain 800 x10"),
        );
        list.text(
            &format!("j-{word}-between-aquifers"),
            &format!("{FOREST}; {AQUIFER}; {own}; {AQUIFER}"),
        );
        list.text(
            &format!("j-{word}-before-description"),
            &format!("{own}; {FOREST}"),
        );
    }
}

/// Records of a description after an own record.
fn description_marks(list: &mut List) {
    let kept = format!("{FOREST}; keep A");
    for (mark, word) in [
        (Mark::Unit, "description-mark"),
        (Mark::Soil, "soil"),
        (Mark::Rain, "rain"),
        (Mark::Tenths, "tenths"),
        (Mark::Gauge, "gauge"),
        (Mark::Aquifer, "aquifer"),
    ] {
        list.add(&format!("j-keep-then-{word}"), join(&kept, &short(mark, 0)));
    }
    list.add("j-keep-then-short-unit", join(&kept, b"UN"));
    list.add(
        "j-back-then-description-mark",
        join(&format!("{kept}; back A"), &short(Mark::Unit, 0)),
    );
}

fn unknown_marks(list: &mut List) {
    let kept = format!("{BASIN}; keep A; {GRANT}");
    let like_own: [(&str, &[u8; 2]); 9] = [
        ("kp-lowercase", b"kp"),
        ("gb-lowercase", b"gb"),
        ("pk", b"PK"),
        ("bg", b"BG"),
        ("kb", b"KB"),
        ("gp", b"GP"),
        ("ko", b"KO"),
        ("wi-lowercase", b"wi"),
        ("iw", b"IW"),
    ];
    let later = UNKNOWN_OWN_MARKS.map(|letters| {
        let word = String::from_utf8_lossy(letters).to_lowercase();
        (format!("own-mark-{word}"), letters)
    });
    let like_own = like_own.map(|(word, letters)| (format!("mark-{word}"), letters));
    for (word, letters) in later.into_iter().chain(like_own) {
        let bytes = [&letters[..], &[1; 8], &t("keep B")].concat();
        list.add(&format!("j-unknown-{word}"), join(&kept, &bytes));
        list.add(&format!("j-unknown-{word}-first"), join(BASIN, &bytes));
    }
    list.add("j-unknown-own-mark-short", join(&kept, b"FI"));
    list.add(
        "j-call-after-failed",
        join(&kept, &[b"XX", &t("back A")[..]].concat()),
    );
}

/// More records than the program answers at once, and own records where it starts anew.
fn pages(list: &mut List) {
    for calls in [PAGE - 1, PAGE, PAGE + 1, 2 * PAGE + 1] {
        list.add(
            &format!("j-calls-{calls}"),
            join(FOREST, &t("cancel 1").repeat(calls)),
        );
    }
    let start = join(
        &format!("{FOREST}; keep A; {GRANT}"),
        &t("cancel 2").repeat(PAGE - 3),
    );
    for (word, end) in [
        ("keep-at-16384-back-at-16385", "keep B; back A"),
        ("back-at-16384-keep-at-16385", "back A; keep B"),
    ] {
        let end = t(&format!("{end}; {GRANT}; back B; {GRANT}"));
        list.add(&format!("j-{word}"), [&start[..], &end].concat());
    }
    let full = [&t(FOREST)[..], &t("cancel 1").repeat(PAGE)].concat();
    list.add("j-calls-16384-then-short", [&full[..], b"KP"].concat());
}

/// A journal with records over and over up to exactly a length, after as many refused calls of seven bytes as that takes.
fn filled(mut journal: Vec<u8>, length: usize, records: &[u8]) -> Vec<u8> {
    while !(length - journal.len()).is_multiple_of(records.len()) {
        journal.extend(t("pump aquifer=2 volume=1"));
    }
    while journal.len() < length {
        journal.extend(records);
    }
    journal
}

fn lengths(list: &mut List) {
    let start = join(FOREST, &t(AQUIFER));
    for length in [LONGEST_BOOK, LONGEST_BOOK + 1] {
        list.add(
            &format!("j-{length}-plain"),
            filled(start.clone(), length, &t("cancel 1")),
        );
    }
    let in_turn = t("keep A; back A; keep B; back B; keep C; back C; keep D; back D");
    let longest = filled(start, LONGEST_JOURNAL, &in_turn);
    let too_long = [&longest[..], b"K"].concat();
    list.add("j-longest", longest);
    list.add("j-too-long", too_long);
}
