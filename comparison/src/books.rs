//! Books for timing.

use reference::book::{MOST_AREAS, MOST_YEARS};
use reference::fast::{self, State};
use reference::random::Source;
use reference::record::{self, AquiferRecord, Call, GaugeRecord, Record, SoilRecord, UnitRecord};
use reference::register::Reply;
use reference::LONGEST_BOOK;

/// The most units and aquifers, as the books for timing have them.
pub const UNITS: usize = 64;
pub const AQUIFERS: usize = 32;

/// How the units of a book drain.
#[derive(Clone, Copy, Debug, PartialEq, Eq)]
pub enum Tree {
    /// Each into the next.
    Chain,
    /// All straight into the last.
    Star,
    /// Two by two.
    Balanced,
}

impl Tree {
    /// The downstream number of a unit.
    fn downstream(self, number: usize, units: usize) -> usize {
        if number == units {
            return 0;
        }
        match self {
            Tree::Chain => number + 1,
            Tree::Star => units,
            Tree::Balanced => units - (units - number - 1) / 2,
        }
    }
}

fn bytes_of(records: &[Record]) -> usize {
    record::book_of(records).len()
}

// Books to open

/// A unit whose water can't run out, so that gauged years of any kind are accepted.
fn outlet(s: &mut Source) -> Record {
    Record::Unit(UnitRecord {
        extraction: s.between(0, 500) as u32,
        exports: s.between(0, 100) as u32,
        imports: s.between(0, 100) as u32,
        returns: s.between(0, 100) as u32,
        evaporation: s.between(0, 50) as u32,
        storage: -10_000,
        commitment: s.between(0, 500) as u32,
        downstream: 0,
    })
}

fn area(s: &mut Source) -> Record {
    Record::Soil(SoilRecord {
        cover: s.between(1, 14) as u8,
        soil: s.between(1, 3) as u8,
        hectares: s.between(1, 18_000) as u32,
    })
}

fn rain(s: &mut Source) -> Record {
    Record::Rain(s.between(350, 2150) as u16)
}

fn tenths(s: &mut Source) -> Record {
    Record::Tenths(s.between(3500, 21_500) as u16)
}

fn gauge(s: &mut Source) -> Record {
    Record::Gauge(GaugeRecord {
        outflow: s.between(500_000, 900_000) as u32,
        inflow: s.between(0, 300_000) as u32,
        extraction: s.between(0, 50_000) as u32,
        exports: s.between(0, 50_000) as u32,
        imports: s.between(0, 50_000) as u32,
        returns: s.between(0, 50_000) as u32,
        evaporation: s.between(0, 50_000) as u32,
        storage: s.between(-50_000, 50_000) as i32,
    })
}

/// A unit of 16 areas and 50 rain years by `year`.
fn rain_unit(s: &mut Source, year: fn(&mut Source) -> Record) -> Vec<Record> {
    let mut records = vec![outlet(s)];
    records.extend((0..MOST_AREAS).map(|_| area(s)));
    records.extend((0..MOST_YEARS).map(|_| year(s)));
    records
}

fn gauged_unit(s: &mut Source, years: usize) -> Vec<Record> {
    let mut records = vec![outlet(s)];
    records.extend((0..years).map(|_| gauge(s)));
    records
}

fn aquifers(count: usize) -> Vec<Record> {
    let aquifer = AquiferRecord {
        storage: -10_000,
        natural: 60_000,
        pumped: 40_000,
        committed: 1_000,
        extraction: 2_000,
    };
    vec![Record::Aquifer(aquifer); count]
}

/// A book with so many rain units of 16 areas and 50 years by `year`, gauged units with as many years
/// as the longest book lets them have, and 32 aquifers.
fn largest(rain_units: usize, year: fn(&mut Source) -> Record) -> Vec<u8> {
    let s = &mut Source::new(1);
    let mut records: Vec<Record> = (0..rain_units).flat_map(|_| rain_unit(s, year)).collect();
    let end = aquifers(AQUIFERS);
    for done in rain_units..UNITS {
        let left = LONGEST_BOOK - bytes_of(&records) - bytes_of(&end);
        let years = (left / (UNITS - done) - 31) / 34;
        records.extend(gauged_unit(s, years.min(MOST_YEARS)));
    }
    records.extend(end);
    record::book_of(&records)
}

/// 64 units with 16 areas and 50 rain years each, and 32 aquifers.
pub fn largest_rain() -> Vec<u8> {
    largest(UNITS, rain)
}

/// The same with the rain in tenths of a millimetre.
pub fn largest_tenths() -> Vec<u8> {
    largest(UNITS, tenths)
}

/// 64 units with 28 or 29 gauged years each, and 32 aquifers.
pub fn largest_gauged() -> Vec<u8> {
    largest(0, rain)
}

/// 32 units of each kind, and 32 aquifers.
pub fn largest_mixed() -> Vec<u8> {
    largest(UNITS / 2, rain)
}

// Books to ask

/// A unit of a tree with about 1500 of its own water. The unit below unit 1 lives on falling
/// storage, so that a withdrawal from it can leave unit 1 without availability.
fn tree_unit(s: &mut Source, tree: Tree, number: usize, units: usize) -> Vec<Record> {
    let downstream = tree.downstream(number, units);
    let below_first = number == tree.downstream(1, units);
    let storage = match below_first {
        true => -20_000,
        false => s.between(-10, 10) as i32,
    };
    let mut records = vec![
        Record::Unit(UnitRecord {
            downstream: downstream as u8,
            extraction: s.between(5, 20) as u32,
            exports: s.between(0, 5) as u32,
            imports: s.between(0, 5) as u32,
            returns: s.between(0, 10) as u32,
            evaporation: s.between(0, 5) as u32,
            storage,
            commitment: match downstream {
                0 => 75 * units as u32,
                _ => 0,
            },
        }),
        Record::Soil(SoilRecord {
            cover: 8,
            soil: 1,
            hectares: 10_000,
        }),
    ];
    records.extend((0..20).map(|_| Record::Rain(s.between(760, 840) as u16)));
    records
}

/// A book that is being written, and the state after its calls so far.
pub struct Register {
    pub book: Vec<u8>,
    pub calls: usize,
    state: State,
    tree: Tree,
}

impl Register {
    /// A book of a tree of units and 32 aquifers, without calls.
    pub fn new(tree: Tree, units: usize) -> Register {
        let s = &mut Source::new(2);
        let mut records: Vec<Record> = Vec::new();
        for number in 1..=units {
            records.extend(tree_unit(s, tree, number, units));
        }
        records.extend(aquifers(AQUIFERS));
        let book = record::book_of(&records);
        let (state, _) = fast::open(&book).expect("the description is accepted");
        Register {
            book,
            calls: 0,
            state,
            tree,
        }
    }

    /// Such a book of a balanced tree, with so many titles in force.
    pub fn filled(units: usize, titles: usize) -> Register {
        let mut register = Register::new(Tree::Balanced, units);
        register.grant_in_use();
        register.fill(titles);
        register
    }

    /// The same with withdrawals from aquifers that return to units, but for title 2.
    pub fn filled_returning(units: usize, titles: usize) -> Register {
        let mut register = Register::new(Tree::Balanced, units);
        register.grant_return_in_use();
        while register.state.title_count < titles {
            register.grant(register.small_returning(register.state.title_count));
        }
        register
    }

    fn write(&mut self, call: Call) {
        self.book.extend(Record::Call(call).bytes());
        self.calls += 1;
    }

    /// Asks for a title, which is given.
    pub fn grant(&mut self, call: Call) {
        self.write(call);
        let reply = fast::apply(&mut self.state, &call);
        assert!(matches!(reply, Reply::Given(_)), "{call:?} {reply:?}");
    }

    /// Cancels the title given last.
    pub fn cancel_last(&mut self) {
        let call = Call::Cancel {
            title: self.state.title_count as u16,
        };
        self.write(call);
        let reply = fast::apply(&mut self.state, &call);
        assert!(matches!(reply, Reply::Cancelled(_)), "{reply:?}");
    }

    /// Grants GU, GA, TU and TA in turn until so many numbers are given.
    pub fn fill(&mut self, titles: usize) {
        while self.state.title_count < titles {
            self.grant(self.small_grant(self.state.title_count));
        }
    }

    /// A grant that is given. Units 1 and 2 are left alone.
    pub fn small_grant(&self, turn: usize) -> Call {
        let units = self.state.unit_count;
        let unit = 3 + turn * 7 % (units - 2);
        let aquifer = (1 + turn * 5 % AQUIFERS) as u8;
        let volume = (2 + turn % 5) as u32;
        match turn % 4 {
            0 => Call::Withdraw {
                unit: unit as u8,
                usage: (1 + turn % 7) as u8,
                volume,
            },
            1 => Call::Pump { aquifer, volume },
            2 => Call::Transfer {
                from: unit.max(4) as u8,
                to: 3,
                volume,
            },
            _ => Call::Bring {
                aquifer,
                unit: unit as u8,
                volume,
            },
        }
    }

    /// A withdrawal from an aquifer with a return that is given. Units 1 and 2 are left alone.
    pub fn small_returning(&self, turn: usize) -> Call {
        let units = self.state.unit_count;
        Call::PumpReturning {
            aquifer: (1 + turn * 5 % AQUIFERS) as u8,
            unit: (3 + turn * 7 % (units - 2)) as u8,
            usage: (1 + turn % 7) as u8,
            volume: (2 + turn % 5) as u32,
        }
    }

    /// Brings water to unit 2 as title 1, and withdraws nearly all that unit 2 has as title 2.
    pub fn grant_in_use(&mut self) {
        self.grant(Call::Bring {
            aquifer: 1,
            unit: 2,
            volume: 50,
        });
        self.spend_in_unit_2();
    }

    /// Returns water to unit 2 as title 1, and withdraws nearly all that unit 2 has as title 2.
    fn grant_return_in_use(&mut self) {
        self.grant(Call::PumpReturning {
            aquifer: 1,
            unit: 2,
            usage: 6,
            volume: 50,
        });
        self.spend_in_unit_2();
    }

    fn spend_in_unit_2(&mut self) {
        let flow = self.flow(2);
        self.grant(Call::Withdraw {
            unit: 2,
            usage: 5,
            volume: (flow * 100 / 85 - 2) as u32,
        });
    }

    fn flow(&self, number: usize) -> i64 {
        fast::figures(&self.state).0[number - 1].flow
    }

    /// Repeats calls, in turn, that leave the state as it is, and returns the length of the book
    /// before them and after each.
    pub fn repeat(&mut self, calls: &[Call], times: usize) -> Vec<usize> {
        let mut ends = vec![self.book.len()];
        for turn in 0..times {
            self.write(calls[turn % calls.len()]);
            ends.push(self.book.len());
        }
        ends
    }

    /// How many calls like these the book has room for, none of them counted as less than 8 bytes.
    pub fn room(&self, calls: &[Call]) -> usize {
        let lengths = calls.iter().map(|call| Record::Call(*call).bytes().len());
        (LONGEST_BOOK - self.book.len()) / lengths.fold(8, usize::max)
    }

    // Calls that are refused

    /// 17: the flow of unit 1 would be negative.
    pub fn without_flow(&self) -> Call {
        Call::Withdraw {
            unit: 1,
            usage: 1,
            volume: 1_000_000,
        }
    }

    /// 17: the outlet would have water, but less than its commitment.
    pub fn against_commitment(&self) -> Call {
        let outlet = self.state.unit_count;
        Call::Withdraw {
            unit: outlet as u8,
            usage: 1,
            volume: (self.flow(outlet) * 122 / 100) as u32,
        }
    }

    /// 17: unit 1, which the pass from the outlet up the tree meets last, would have no availability.
    pub fn against_first(&self) -> Call {
        let units = self.state.unit_count;
        Call::Withdraw {
            unit: self.tree.downstream(1, units) as u8,
            usage: 5,
            volume: 10_000,
        }
    }

    /// 17: the aquifer hasn't so much.
    pub fn without_recharge(&self) -> Call {
        Call::Pump {
            aquifer: 7,
            volume: 1_000_000,
        }
    }

    /// 17: the aquifer hasn't so much, whatever would come back.
    pub fn returning_without_recharge(&self) -> Call {
        Call::PumpReturning {
            aquifer: 7,
            unit: 3,
            usage: 6,
            volume: 1_000_000,
        }
    }

    /// 19: no such title.
    pub fn not_in_force(&self) -> Call {
        Call::Cancel { title: 300 }
    }

    /// 20: the water of title 1 is in use.
    pub fn in_use(&self) -> Call {
        Call::Cancel { title: 1 }
    }
}
