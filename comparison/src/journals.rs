//! Journals for timing.

use crate::books;
use reference::fast::{self, State};
use reference::journal::{Own, LONGEST_JOURNAL};
use reference::planning::Name;
use reference::random::Source;
use reference::record::{self, AquiferRecord, Call, Record, SoilRecord, UnitRecord};
use reference::register::{Reply, MOST_TITLES};

/// The name under which a journal keeps what it starts from.
const START: Name = *b"at first";

/// A withdrawal for which no unit has the water.
const TOO_MUCH: Call = Call::Withdraw {
    unit: 1,
    usage: 1,
    volume: 9_000_000,
};

/// A cancellation of a number that is never given.
const NO_TITLE: Call = Call::Cancel { title: 65_535 };

fn bytes(call: Call) -> Vec<u8> {
    Record::Call(call).bytes()
}

/// The description of the sample book `../examples/cuenca.book`.
pub fn sample() -> Vec<u8> {
    let book = include_bytes!("../../examples/cuenca.book");
    let (_, end) = fast::open(book).expect("the sample is accepted");
    book[..end].to_vec()
}

/// A description of 64 units in three basins and 32 aquifers.
pub fn largest() -> Vec<u8> {
    let mut records = Vec::new();
    for number in 1..=books::UNITS as u8 {
        let outlet = number > 61;
        records.push(Record::Unit(UnitRecord {
            downstream: if outlet { 0 } else { number + 3 },
            ..UnitRecord::default()
        }));
        records.push(Record::Soil(SoilRecord {
            cover: 8,
            soil: 1,
            hectares: 10_000,
        }));
        records.extend([Record::Rain(800); 20]);
    }
    let aquifer = AquiferRecord {
        natural: 60_000,
        ..AquiferRecord::default()
    };
    records.extend([Record::Aquifer(aquifer); books::AQUIFERS]);
    record::book_of(&records)
}

/// A journal that is being written, and the state after its records.
struct Writer {
    journal: Vec<u8>,
    start: State,
    state: State,
}

impl Writer {
    /// Starts with a description, which is kept if that is asked for.
    fn new(description: Vec<u8>, kept: bool) -> Writer {
        let (start, _) = fast::open(&description).expect("the description is accepted");
        let mut writer = Writer {
            journal: description,
            state: start.clone(),
            start,
        };
        if kept {
            writer.journal.extend(Own::Keep(START).bytes());
        }
        writer
    }

    fn call(&mut self, call: Call) -> Reply {
        self.journal.extend(bytes(call));
        fast::apply(&mut self.state, &call)
    }

    fn go_back(&mut self) {
        self.journal.extend(Own::Back(START).bytes());
        self.state = self.start.clone();
    }

    /// Grants a small volume and cancels it.
    fn grant_and_cancel(&mut self, turn: usize) {
        let given = self.call(small_grant(&self.state, turn));
        let Reply::Given(title) = given else {
            panic!("{given:?}");
        };
        let cancelled = self.call(Call::Cancel {
            title: title as u16,
        });
        assert!(matches!(cancelled, Reply::Cancelled(_)), "{cancelled:?}");
    }

    fn is_full(&self) -> bool {
        self.state.title_count >= MOST_TITLES
    }
}

/// A small withdrawal that is given in any unit.
fn small_grant(state: &State, turn: usize) -> Call {
    Call::Withdraw {
        unit: (1 + turn % state.unit_count.min(3)) as u8,
        usage: (1 + turn % 7) as u8,
        volume: (1 + turn % 3) as u32,
    }
}

// Replays

/// The sample's description and so many records: grants of every kind, cancellations and refused calls, and a
/// return to the start whenever all numbers are given.
pub fn replay(count: usize) -> Vec<u8> {
    let s = &mut Source::new(7);
    let mut writer = Writer::new(sample(), true);
    for _ in 1..count {
        match writer.is_full() {
            true => writer.go_back(),
            false => {
                let call = mixed_call(s, &writer.state);
                writer.call(call);
            }
        }
    }
    writer.journal
}

/// A grant in four cases of ten, a cancellation in three, and a call that is refused in three.
fn mixed_call(s: &mut Source, state: &State) -> Call {
    match s.below(10) {
        0..=3 => mixed_grant(s, state),
        4..=6 => Call::Cancel {
            title: title_in_force(s, state),
        },
        7 => NO_TITLE,
        8 => TOO_MUCH,
        _ => Call::Pump {
            aquifer: 99,
            volume: 1,
        },
    }
}

fn mixed_grant(s: &mut Source, state: &State) -> Call {
    let unit = s.between(1, state.unit_count as i64) as u8;
    let (aquifer, volume) = (1, s.between(1, 3) as u32);
    let usage = s.between(1, 7) as u8;
    match s.below(6) {
        0 => Call::Pump { aquifer, volume },
        1 => Call::Transfer {
            from: 4,
            to: 7,
            volume,
        },
        2 => Call::Bring {
            aquifer,
            unit,
            volume,
        },
        3 => Call::PumpReturning {
            aquifer,
            unit,
            usage,
            volume,
        },
        _ => Call::Withdraw {
            unit,
            usage,
            volume,
        },
    }
}

/// The number of a title in force, or 1 if there is none.
fn title_in_force(s: &mut Source, state: &State) -> u16 {
    let numbers = (1..).zip(state.titles());
    let in_force: Vec<u16> = numbers
        .filter(|(_, registered)| registered.in_force)
        .map(|(number, _)| number)
        .collect();
    match in_force.is_empty() {
        true => 1,
        false => s.pick(&in_force),
    }
}

// Ordinary calls

/// A kind of call whose cost is the difference of two journals, both of at most 65,536 bytes.
pub struct Ordinary {
    pub name: &'static str,
    pub meaning: &'static str,
    /// The replies that the calls have.
    pub replies: &'static [&'static str],
    /// The two numbers of calls.
    pub calls: (usize, usize),
    /// The journal with so many calls.
    pub journal: fn(usize) -> Vec<u8>,
}

/// The kinds of calls that are timed.
pub const ORDINARY: [Ordinary; 6] = [
    Ordinary {
        name: "refused-19",
        meaning: "a number that is not in force",
        replies: &["refused 19"],
        calls: (500, 15_000),
        journal: |calls| repeated(sample(), NO_TITLE, calls),
    },
    Ordinary {
        name: "refused-17",
        meaning: "a withdrawal without the water",
        replies: &["refused 17"],
        calls: (500, 7_500),
        journal: |calls| repeated(sample(), TOO_MUCH, calls),
    },
    Ordinary {
        name: "granted-cancelled",
        meaning: "a small withdrawal, then its cancellation",
        replies: &["given", "cancelled"],
        calls: (12, 512),
        journal: |calls| granted_and_cancelled(sample(), calls),
    },
    Ordinary {
        name: "refused-19-full",
        meaning: "a number that is not in force, after 256 titles",
        replies: &["refused 19"],
        calls: (500, 14_000),
        journal: |calls| repeated(full(sample()), NO_TITLE, calls),
    },
    Ordinary {
        name: "refused-17-largest",
        meaning: "a withdrawal without the water, 64 units and 32 aquifers",
        replies: &["refused 17"],
        calls: (500, 7_000),
        journal: |calls| repeated(largest(), TOO_MUCH, calls),
    },
    Ordinary {
        name: "granted-cancelled-largest",
        meaning: "a small withdrawal, then its cancellation, 64 units and 32 aquifers",
        replies: &["given", "cancelled"],
        calls: (12, 512),
        journal: |calls| granted_and_cancelled(largest(), calls),
    },
];

fn repeated(mut journal: Vec<u8>, call: Call, calls: usize) -> Vec<u8> {
    journal.extend(bytes(call).repeat(calls));
    journal
}

fn granted_and_cancelled(description: Vec<u8>, calls: usize) -> Vec<u8> {
    let mut writer = Writer::new(description, false);
    (0..calls / 2).for_each(|turn| writer.grant_and_cancel(turn));
    writer.journal
}

/// A description and 256 grants.
fn full(description: Vec<u8>) -> Vec<u8> {
    let mut writer = Writer::new(description, false);
    for turn in 0..MOST_TITLES {
        let reply = writer.call(small_grant(&writer.state, turn));
        assert!(matches!(reply, Reply::Given(_)), "{reply:?}");
    }
    writer.journal
}

// Full size

/// A journal of nearly as many bytes as it may have.
pub struct FullSize {
    pub name: &'static str,
    pub meaning: &'static str,
    /// The replies that the calls have.
    pub replies: &'static [&'static str],
    pub journal: fn() -> Vec<u8>,
}

/// The journals of full size that are timed.
pub const FULL_SIZE: [FullSize; 6] = [
    FullSize {
        name: "refused-19",
        meaning: "cancellations that are refused",
        replies: &["refused 19"],
        journal: || filled(sample(), &bytes(NO_TITLE)),
    },
    FullSize {
        name: "refused-17",
        meaning: "withdrawals without the water",
        replies: &["refused 17"],
        journal: || filled(sample(), &bytes(TOO_MUCH)),
    },
    FullSize {
        name: "keep-back",
        meaning: "keepings and returns in turn under four names",
        replies: &["kept", "back"],
        journal: || filled(sample(), &four_names()),
    },
    FullSize {
        name: "keep-back-full",
        meaning: "keepings and returns in turn under four names, 256 titles",
        replies: &["kept", "back"],
        journal: || filled(full(sample()), &four_names()),
    },
    FullSize {
        name: "granted-cancelled",
        meaning: "grants and cancellations, back to the start after 256",
        replies: &["given", "cancelled"],
        journal: || all_granted_and_cancelled(sample()),
    },
    FullSize {
        name: "keep-back-largest",
        meaning: "keepings and returns in turn, 64 units, 32 aquifers and 256 titles",
        replies: &["kept", "back"],
        journal: || filled(full(largest()), &four_names()),
    },
];

/// A keeping and a return under each of four names.
fn four_names() -> Vec<u8> {
    let names: [Name; 4] = [*b"name one", *b"name two", *b"name 003", *b"name 004"];
    let each = names.map(|name| [Own::Keep(name).bytes(), Own::Back(name).bytes()].concat());
    each.concat()
}

/// As many of the records over and over as a journal holds.
fn filled(mut journal: Vec<u8>, records: &[u8]) -> Vec<u8> {
    let times = (LONGEST_JOURNAL - journal.len()) / records.len();
    journal.extend(records.repeat(times));
    journal
}

fn all_granted_and_cancelled(description: Vec<u8>) -> Vec<u8> {
    let mut writer = Writer::new(description, true);
    let mut turn = 0;
    while writer.journal.len() + 12 <= LONGEST_JOURNAL {
        match writer.is_full() {
            true => writer.go_back(),
            false => writer.grant_and_cancel(turn),
        }
        turn += 1;
    }
    writer.journal
}
