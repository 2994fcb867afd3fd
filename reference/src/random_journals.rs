//! Random and damaged journals from a seed.
//!
//! Most have an accepted description, calls near what the balance allows, keepings and returns
//! under a few names and moving windows; the others carry faults in records, in bytes or in their
//! length.

use crate::journal::{Own, LONGEST_JOURNAL};
use crate::planning::{self, Name, State, MOST_KEPT};
use crate::random::{self, Office, Source};
use crate::record::{self, Call, Mark, Record};
use crate::register::Balance;
use crate::{book, random_windows, LONGEST_BOOK};

/// The marks of journals that books don't have.
pub const OWN_MARKS: [&[u8; 2]; 3] = [b"KP", b"GB", b"WI"];

/// Marks of journals that are unknown for now.
pub const UNKNOWN_OWN_MARKS: [&[u8; 2]; 8] =
    [b"FI", b"AP", b"GR", b"LP", b"LO", b"SP", b"CH", b"MO"];

/// Bytes that resemble an own mark.
const LIKE_OWN_MARKS: [&[u8; 2]; 12] = [
    b"kp", b"gb", b"PK", b"BG", b"KB", b"GP", b"Kp", b"K\0", b"XX", b"wi", b"IW", b"WB",
];

/// The journal of a seed.
pub fn journal(seed: u64) -> Vec<u8> {
    let s = &mut Source::new(seed);
    match s.below(20_000) {
        0..=9_999 => planned(s, random::sound_description),
        10_000..=12_799 => planned(s, random::faulty_description),
        12_800..=14_799 => planned(s, unfinished_description),
        14_800..=15_999 => interrupted(s),
        16_000..=18_399 => damaged(s),
        18_400..=18_799 => random::book(s.draw()),
        18_800..=19_299 => random_records(s),
        19_300..=19_949 => random_bytes(s),
        19_950..=19_998 => longer_than_a_book(s),
        _ => near_longest(s),
    }
}

/// Whether an own mark stands where a record starts, up to the first bytes that are no record of a book.
pub fn has_own_mark(book: &[u8]) -> bool {
    let mut at = 0;
    loop {
        let letters = book.get(at..at + 2);
        if letters.is_some_and(|letters| OWN_MARKS.iter().any(|own| letters == own.as_slice())) {
            return true;
        }
        match record::record_at(book, at) {
            Ok((_, next)) => at = next,
            Err(_) => return false,
        }
    }
}

/// A description by `describe`, records that suit it, and sometimes an end that is no record.
fn planned(s: &mut Source, describe: fn(&mut Source) -> Vec<Record>) -> Vec<u8> {
    let mut journal = record::book_of(&describe(s));
    journal.extend(records(s, &journal));
    if s.chance(15) {
        journal.extend(tail(s));
    }
    journal
}

/// Records for the state that a description opens.
fn records(s: &mut Source, description: &[u8]) -> Vec<u8> {
    let opened = book::open(description);
    let mut plan = Plan::new(s, opened.map(|opened| opened.balance).unwrap_or_default());
    let (count, modest) = match s.below(100) {
        0..=3 => (0, false),
        4..=24 => (s.between(1, 6) as usize, false),
        25..=84 => (s.between(7, 25) as usize, false),
        85..=97 => (s.between(26, 80) as usize, false),
        _ => (s.between(260, 420) as usize, true),
    };
    if count > 0 {
        plan.begin(s);
    }
    while plan.records < count {
        plan.put_some(s, modest);
    }
    plan.bytes
}

// Names

/// A few names: one and some that differ from it in one byte, often the one of eight zeros, and others.
fn names(s: &mut Source) -> Vec<Name> {
    let first = any_name(s);
    let mut names = vec![first];
    for _ in 0..s.below(4) {
        let mut name = s.pick(&names);
        name[s.below(8)] ^= 1 << s.below(8);
        names.push(name);
    }
    if s.chance(60) {
        names.push([0; 8]);
    }
    for _ in 0..s.between(1, 4) {
        names.push(any_name(s));
    }
    names
}

fn any_name(s: &mut Source) -> Name {
    match s.below(10) {
        0 => [0; 8],
        1 => [255; 8],
        2 => *b"KPGBUNCA",
        3 => [0, 0, 0, 0, 0, 0, 0, 1],
        4..=5 => *b"original",
        6..=7 => (s.draw() % 4).to_le_bytes(),
        _ => s.draw().to_le_bytes(),
    }
}

// Records that follow the state

/// The records written so far and the state after them.
struct Plan {
    office: Office,
    kept: Vec<(Name, Balance)>,
    names: Vec<Name>,
    bytes: Vec<u8>,
    records: usize,
}

impl Plan {
    fn new(s: &mut Source, balance: Balance) -> Plan {
        Plan {
            office: Office {
                balance,
                calls: Vec::new(),
            },
            kept: Vec::new(),
            names: names(s),
            bytes: Vec::new(),
            records: 0,
        }
    }

    /// Often starts with an own record, so that it ends the description.
    fn begin(&mut self, s: &mut Source) {
        match s.below(20) {
            0..=8 => self.keep_some(s),
            9..=10 => self.back_to_some(s),
            11..=14 => self.window_some(s),
            _ => {}
        }
    }

    /// One record or several that belong together.
    fn put_some(&mut self, s: &mut Source, modest: bool) {
        let percent_calls = match modest {
            true => 98,
            false => 40,
        };
        if s.chance(percent_calls) {
            return self.call_some(s, modest);
        }
        match s.below(120) {
            0..=37 => self.keep_some(s),
            38..=70 => self.back_to_some(s),
            71..=89 => self.try_and_return(s),
            90..=94 => self.keep_five(s),
            95..=99 => self.keep_instead(s),
            _ => self.window_some(s),
        }
    }

    fn write(&mut self, bytes: &[u8]) {
        self.bytes.extend(bytes);
        self.records += 1;
    }

    fn call(&mut self, call: Call) -> Option<usize> {
        let given = self.office.put(call);
        self.write_calls();
        given
    }

    fn call_some(&mut self, s: &mut Source, modest: bool) {
        self.office.put_some(s, modest);
        self.write_calls();
    }

    /// Writes the calls that the office has made since the last time.
    fn write_calls(&mut self) {
        for call in std::mem::take(&mut self.office.calls) {
            self.write(&Record::Call(call).bytes());
        }
    }

    fn keep(&mut self, name: Name) {
        self.write(&Own::Keep(name).bytes());
        self.follow(|state| planning::keep(state, name).1);
    }

    fn back(&mut self, name: Name) {
        self.write(&Own::Back(name).bytes());
        self.follow(|state| planning::back(state, name).1);
    }

    fn follow(&mut self, step: impl Fn(&State) -> State) {
        let state = State {
            balance: std::mem::take(&mut self.office.balance),
            kept: std::mem::take(&mut self.kept),
        };
        let after = step(&state);
        self.office.balance = after.balance;
        self.kept = after.kept;
    }

    /// A name that is kept, or one of the few, or one that is none of them.
    fn name(&self, s: &mut Source, percent_kept: usize) -> Name {
        let kept: Vec<Name> = self.kept.iter().map(|(name, _)| *name).collect();
        match s.below(100) {
            place if place < percent_kept && !kept.is_empty() => s.pick(&kept),
            99 => s.draw().to_le_bytes(),
            _ => s.pick(&self.names),
        }
    }

    fn keep_some(&mut self, s: &mut Source) {
        let name = self.name(s, 20);
        self.keep(name);
    }

    fn back_to_some(&mut self, s: &mut Source) {
        let name = self.name(s, 80);
        self.back(name);
    }

    /// A moving window. It changes nothing.
    fn window_some(&mut self, s: &mut Source) {
        self.write(&window_record(s));
    }

    /// Keeps, grants, cancels, goes back and grants again, so that title numbers repeat.
    fn try_and_return(&mut self, s: &mut Source) {
        let name = match self.kept.len() < MOST_KEPT {
            true => self.name(s, 20),
            false => self.name(s, 90),
        };
        self.keep(name);
        let mut given = Vec::new();
        for _ in 0..s.between(1, 3) {
            let call = self.office.modest_call(s);
            given.extend(self.call(call));
        }
        if !given.is_empty() && s.chance(70) {
            let title = s.pick(&given) as u16;
            self.call(Call::Cancel { title });
        }
        self.back(name);
        for _ in 0..s.between(1, 2) {
            let call = self.office.modest_call(s);
            self.call(call);
        }
        if s.chance(30) {
            self.back(name);
        }
    }

    /// Keeps under five names, of which at least one is refused if they differ, and goes back to one.
    fn keep_five(&mut self, s: &mut Source) {
        let first = s.draw().to_le_bytes();
        for place in 0..5 {
            let mut name: Name = first;
            name[place] ^= 1;
            self.keep(name);
            if s.chance(40) {
                let call = self.office.modest_call(s);
                self.call(call);
            }
        }
        let name = self.name(s, 90);
        self.back(name);
    }

    /// Keeps something else under a name that is kept, and goes back to it.
    fn keep_instead(&mut self, s: &mut Source) {
        let name = self.name(s, 100);
        let call = self.office.modest_call(s);
        self.call(call);
        self.keep(name);
        self.call_some(s, false);
        self.back(name);
    }
}

/// What stands at the end and is no whole record of a journal, or is out of place there.
fn tail(s: &mut Source) -> Vec<u8> {
    match s.below(12) {
        0..=3 => short_own_record(s),
        4 => vec![s.pick(b"KGWC\0")],
        5..=6 => unknown_record(s),
        7 => [s.pick(&LIKE_OWN_MARKS).as_slice(), &some_bytes(s, 10)].concat(),
        8..=9 => random::random_record(s, true).bytes(),
        10 => short_record(s),
        _ => some_bytes(s, 20),
    }
}

fn some_bytes(s: &mut Source, most: usize) -> Vec<u8> {
    let count = s.below(most + 1);
    (0..count).map(|_| s.byte()).collect()
}

fn own_record(s: &mut Source) -> Vec<u8> {
    match s.below(10) {
        0..=4 => Own::Keep(any_name(s)).bytes(),
        5..=7 => Own::Back(any_name(s)).bytes(),
        _ => window_record(s),
    }
}

fn window_record(s: &mut Source) -> Vec<u8> {
    Own::Windows(random_windows::request(s)).bytes()
}

/// An own mark without some of the bytes of its body, or without all.
fn short_own_record(s: &mut Source) -> Vec<u8> {
    let mut record = own_record(s);
    let most = match s.chance(50) {
        true => 8,
        false => record.len() - 2,
    };
    let left = s.below(most.min(record.len() - 2));
    record.truncate(2 + left);
    record
}

/// A record of a book without its last bytes.
fn short_record(s: &mut Source) -> Vec<u8> {
    let mut record = random::random_record(s, true).bytes();
    record.truncate(1 + s.below(record.len() - 1));
    record
}

/// A mark that is unknown for now, with a body, and a record after it.
fn unknown_record(s: &mut Source) -> Vec<u8> {
    let mut bytes = s.pick(&UNKNOWN_OWN_MARKS).to_vec();
    bytes.extend(some_bytes(s, 12));
    bytes.extend(own_record(s));
    bytes
}

// Descriptions with a fault that shows where they end

/// A description whose fault shows where it ends: too few years, a unit that drains to none, or too little water.
fn unfinished_description(s: &mut Source) -> Vec<Record> {
    let mut records = random::sound_description(s);
    match s.below(4) {
        0..=1 => cut_last_years(s, &mut records),
        2 => drain_below_the_last(s, &mut records),
        _ => dry_up(s, &mut records),
    }
    records
}

/// The places of the units.
fn units(records: &[Record]) -> Vec<usize> {
    (0..records.len())
        .filter(|place| records[*place].mark() == Mark::Unit)
        .collect()
}

/// Ends the description in its last unit with 20 years or fewer.
fn cut_last_years(s: &mut Source, records: &mut Vec<Record>) {
    let Some(unit) = units(records).last().copied() else {
        return;
    };
    let areas = records[unit + 1..]
        .iter()
        .take_while(|record| record.mark() == Mark::Soil)
        .count();
    records.truncate(unit + 1 + areas + s.pick(&[0, 1, 18, 19, 19, 19, 19, 20]));
}

/// Lets a unit drain to a number above that of the last.
fn drain_below_the_last(s: &mut Source, records: &mut [Record]) {
    let units = units(records);
    if units.is_empty() {
        return;
    }
    let above = s.pick(&[1, 1, 2, 100]);
    if let Record::Unit(unit) = &mut records[s.pick(&units)] {
        unit.downstream = (units.len() + above) as u8;
        unit.commitment = 0;
    }
}

/// Takes more water from a unit than there is, or about as much.
fn dry_up(s: &mut Source, records: &mut [Record]) {
    let units = units(records);
    if units.is_empty() {
        return;
    }
    if s.chance(50) {
        return random::change_flow(s, records);
    }
    if let Record::Unit(unit) = &mut records[s.pick(&units)] {
        unit.extraction = 10_000_000;
        unit.exports = 10_000_000;
        unit.imports = 0;
    }
}

/// A description with an own record, whole or short, between two of its records, mostly before a unit.
fn interrupted(s: &mut Source) -> Vec<u8> {
    let description = random::sound_description(s);
    let mut places = units(&description);
    places.push(description.len());
    let place = match s.chance(60) {
        true => s.pick(&places),
        false => s.below(description.len() + 1),
    };
    let mut journal = record::book_of(&description[..place]);
    let inserted = match s.chance(85) {
        true => own_record(s),
        false => short_own_record(s),
    };
    journal.extend(inserted);
    if s.chance(40) {
        journal.extend(records(s, &journal));
    }
    journal.extend(record::book_of(&description[place..]));
    journal
}

// Damage

/// A journal with damaged bytes, half of the time in what follows its description only.
fn damaged(s: &mut Source) -> Vec<u8> {
    let description = record::book_of(&random::sound_description(s));
    let records = records(s, &description);
    let (mut whole, mut part) = match s.chance(50) {
        true => (Vec::new(), [description, records].concat()),
        false => (description, records),
    };
    for _ in 0..s.pick(&[1, 1, 1, 2, 3]) {
        part = damage(s, part);
    }
    whole.extend(part);
    whole
}

fn damage(s: &mut Source, mut bytes: Vec<u8>) -> Vec<u8> {
    let place = s.below(bytes.len() + 1);
    let inserted = match s.below(10) {
        0..=6 => return random::damage_bytes(s, bytes),
        7 => own_record(s),
        8 => short_own_record(s),
        _ => unknown_record(s),
    };
    bytes.splice(place..place, inserted);
    bytes
}

/// Records of any kind and order, half of the time after a description.
fn random_records(s: &mut Source) -> Vec<u8> {
    let mut journal = match s.chance(50) {
        true => record::book_of(&random::sound_description(s)),
        false => Vec::new(),
    };
    for _ in 0..s.between(1, 60) {
        let record = match s.below(40) {
            0 => unknown_record(s),
            1..=20 => own_record(s),
            _ => random::random_record(s, false).bytes(),
        };
        journal.extend(record);
    }
    journal
}

/// Random bytes with marks among them.
fn random_bytes(s: &mut Source) -> Vec<u8> {
    let mut journal = match s.chance(30) {
        true => own_record(s),
        false => random::random_bytes(s),
    };
    for _ in 0..s.below(8) {
        match s.below(3) {
            0 => journal.extend(own_record(s)),
            1 => journal.extend(short_own_record(s)),
            _ => journal.extend(some_bytes(s, 40)),
        }
    }
    journal
}

// Length

/// A journal of about 65,536 bytes or more, sometimes without a record of its own.
fn longer_than_a_book(s: &mut Source) -> Vec<u8> {
    let book = LONGEST_BOOK as i64;
    let length = match s.chance(40) {
        true => book + s.pick(&[-1, 0, 1, 1, 2, 9]),
        false => s.between(book + 1, 160_000),
    };
    repeated(s, length as usize)
}

/// A journal of about 1,048,576 bytes.
fn near_longest(s: &mut Source) -> Vec<u8> {
    let length = LONGEST_JOURNAL as i64 + s.pick(&[-3, -1, 0, 0, 0, 0, 1, 9]);
    repeated(s, length as usize)
}

/// A small description and a few records over and over, to about a length or exactly to it.
fn repeated(s: &mut Source, length: usize) -> Vec<u8> {
    let (units, aquifers) = (s.below(4), s.below(3));
    let mut journal = record::book_of(&random::describe(s, units, aquifers));
    let few = few_records(s);
    while journal.len() < length {
        journal.extend(&few[s.below(few.len())]);
    }
    if s.chance(70) {
        journal.truncate(length);
    }
    journal
}

/// Calls of every kind, more often than not with keepings and returns, sometimes with a moving window.
fn few_records(s: &mut Source) -> Vec<Vec<u8>> {
    let volume = s.between(0, 3) as u32;
    let usage = s.between(1, 7) as u8;
    let [unit, aquifer] = [1, 1];
    let mut calls = vec![
        Call::Withdraw {
            unit,
            usage,
            volume,
        },
        Call::Pump { aquifer, volume },
        Call::Transfer {
            from: 2,
            to: 1,
            volume,
        },
        Call::Bring {
            aquifer,
            unit,
            volume,
        },
        Call::PumpReturning {
            aquifer,
            unit,
            usage,
            volume,
        },
    ];
    for _ in 0..s.between(1, 10) {
        let title = s.between(0, 40) as u16;
        calls.push(Call::Cancel { title });
    }
    let calls = calls.into_iter().map(|call| Record::Call(call).bytes());
    let mut few: Vec<Vec<u8>> = calls.collect();
    if s.chance(70) {
        for name in names(s) {
            few.push(Own::Keep(name).bytes());
            few.push(Own::Back(name).bytes());
        }
    }
    if s.chance(30) {
        few.push(window_record(s));
    }
    few
}
