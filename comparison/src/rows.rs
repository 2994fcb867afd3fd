//! What is timed: the rows of the tables, each for its contestants.

use crate::books::{self, Register, Tree, UNITS};
use crate::states::{self, Operation};
use crate::{plain, proved, windows};
use reference::journal::Own;
use reference::record::Call;
use reference::windows::Request;
use reference::{basin, book, fast, register};
use std::hint::black_box;

/// Who does the work.
#[derive(Clone, Copy, Debug, PartialEq, Eq)]
pub enum Contestant {
    Proved,
    Plain,
    Fast,
    /// The fast model without the test for refusal 0 at every call.
    Untested,
    /// Each window from all of its years.
    Afresh,
}

pub const CONTESTANTS: [Contestant; 5] = [
    Contestant::Proved,
    Contestant::Plain,
    Contestant::Fast,
    Contestant::Untested,
    Contestant::Afresh,
];

impl Contestant {
    pub fn name(self) -> &'static str {
        match self {
            Contestant::Proved => "proved",
            Contestant::Plain => "plain",
            Contestant::Fast => "fast",
            Contestant::Untested => "untested",
            Contestant::Afresh => "afresh",
        }
    }
}

/// What is done with the book of a row. One operation is one opening, one call, the figures once, one
/// operation on a planning state, or the reply to one moving window.
pub enum Work {
    /// Opens the book.
    Open,
    /// Opens the book, runs the calls before those that are counted, then these. The lengths are
    /// those of the book before the counted calls and after each.
    Calls {
        before: usize,
        lengths: Vec<usize>,
        /// The replies to the counted calls, in turn.
        replies: Vec<&'static str>,
    },
    /// Opens the book, runs its calls, then tests the state and works out all figures.
    Figures,
    /// Opens the book, runs its calls, keeps the balance under four names, then does one operation on
    /// the state again and again.
    States(Operation),
    /// Replies to a moving window again and again. The row has the record that asks for it in place of a book.
    Windows(Request),
}

/// One row of the tables.
pub struct Row {
    pub name: String,
    pub meaning: String,
    pub book: Vec<u8>,
    pub work: Work,
    /// How many operations are timed together.
    pub most: usize,
    /// Two numbers of operations whose instructions are counted.
    pub counted: (usize, usize),
}

impl Row {
    fn open(name: &str, meaning: &str, book: Vec<u8>) -> Row {
        Row {
            name: name.to_string(),
            meaning: format!("{meaning}, {} bytes", book.len()),
            book,
            work: Work::Open,
            most: 1,
            counted: (1, 3),
        }
    }

    fn figures(name: &str, meaning: &str, register: Register) -> Row {
        Row {
            name: name.to_string(),
            meaning: meaning.to_string(),
            book: register.book,
            work: Work::Figures,
            most: 1000,
            counted: (4, 12),
        }
    }

    fn states(
        name: &str,
        meaning: &str,
        register: Register,
        operation: Operation,
        most: usize,
    ) -> Row {
        Row {
            name: name.to_string(),
            meaning: meaning.to_string(),
            book: register.book,
            work: Work::States(operation),
            most,
            counted: (4, 12),
        }
    }

    /// A row of calls that are repeated in turn and change nothing.
    fn repeated(
        name: &str,
        meaning: &str,
        mut register: Register,
        calls: &[Call],
        replies: &[&'static str],
    ) -> Row {
        let before = register.calls;
        let times = register.room(calls) / calls.len() * calls.len();
        let lengths = register.repeat(calls, times);
        Row {
            name: name.to_string(),
            meaning: meaning.to_string(),
            book: register.book,
            work: Work::Calls {
                before,
                lengths,
                replies: replies.to_vec(),
            },
            most: times,
            counted: (2 * calls.len(), 6 * calls.len()),
        }
    }

    fn windows(name: &str, width: u8) -> Row {
        let request = windows::longest(width);
        let (years, areas) = (request.years.len(), request.areas.len());
        let count = years + 1 - usize::from(width);
        Row {
            name: name.to_string(),
            meaning: format!("{count} windows of {width} of {years} years, {areas} soil records"),
            book: Own::Windows(request.clone()).bytes(),
            work: Work::Windows(request),
            most: 100,
            counted: (4, 12),
        }
    }

    /// Who is timed: the model without the test only where calls are made, and each window afresh where
    /// there are any.
    pub fn contestants(&self) -> Vec<Contestant> {
        let fourth = match self.work {
            Work::Calls { .. } => Some(Contestant::Untested),
            Work::Windows(_) => Some(Contestant::Afresh),
            Work::Open | Work::Figures | Work::States(_) => None,
        };
        CONTESTANTS[..3].iter().copied().chain(fourth).collect()
    }

    /// Does so many operations, and returns a number that depends on them.
    pub fn perform(&self, who: Contestant, times: usize) -> u64 {
        let book = black_box(self.book.as_slice());
        match &self.work {
            Work::Open => (0..times).map(|_| open(who, black_box(book))).sum(),
            Work::Calls { lengths, .. } => run(who, &book[..lengths[times]]),
            Work::Figures => refigure(who, book, times as u64),
            Work::States(operation) => restate(who, *operation, book, times as u64),
            Work::Windows(request) => rewatch(who, book, request, times as u64),
        }
    }
}

fn open(who: Contestant, book: &[u8]) -> u64 {
    match who {
        Contestant::Proved => proved::open(book),
        Contestant::Plain => black_box(book::open(book)).is_ok().into(),
        _ => black_box(fast::open(book)).is_ok().into(),
    }
}

fn run(who: Contestant, book: &[u8]) -> u64 {
    match who {
        Contestant::Proved => proved::run(book),
        Contestant::Plain => run_plain(book).titles.len() as u64,
        Contestant::Untested => run_by(fast::apply_untested, book).title_count as u64,
        _ => run_fast(book).title_count as u64,
    }
}

fn run_plain(book: &[u8]) -> register::Balance {
    let ran = plain::run(book).unwrap_or_else(|refusal| panic!("{refusal:?}"));
    black_box(ran.balance)
}

fn run_fast(book: &[u8]) -> fast::State {
    run_by(fast::apply, book)
}

/// Opens a book and applies its calls by one of the fast model's ways.
fn run_by(apply: impl Fn(&mut fast::State, &Call) -> register::Reply, book: &[u8]) -> fast::State {
    let (mut state, end) = fast::open(book).expect("the description is accepted");
    fast::run_by(apply, &mut state, book, end, |reply| {
        black_box(reply);
    })
    .expect("every call record is whole");
    state
}

fn refigure(who: Contestant, book: &[u8], times: u64) -> u64 {
    match who {
        Contestant::Proved => proved::refigure(book, times),
        Contestant::Plain => refigure_plain(&run_plain(book), times),
        _ => refigure_fast(&run_fast(book), times),
    }
}

fn refigure_plain(balance: &register::Balance, times: u64) -> u64 {
    let mut given = 0;
    for _ in 0..times {
        let balance = black_box(balance);
        if !register::is_faulty(balance) {
            black_box(basin::results(&balance.units));
            for aquifer in &balance.aquifers {
                black_box((aquifer.recharge(), aquifer.availability()));
            }
            given += 1;
        }
    }
    given
}

fn refigure_fast(state: &fast::State, times: u64) -> u64 {
    let mut given = 0;
    for _ in 0..times {
        let state = black_box(state);
        if !fast::is_faulty(state) {
            black_box(fast::figures(state));
            given += 1;
        }
    }
    given
}

fn restate(who: Contestant, operation: Operation, book: &[u8], times: u64) -> u64 {
    match who {
        Contestant::Proved => states::proved(operation, book, times),
        Contestant::Plain => states::plain(operation, book, times),
        _ => states::fast(operation, book, times),
    }
}

fn rewatch(who: Contestant, record: &[u8], request: &Request, times: u64) -> u64 {
    match who {
        Contestant::Proved => windows::proved(record, times),
        Contestant::Plain => windows::plain(request, times),
        Contestant::Afresh => windows::afresh(request, times),
        _ => windows::fast(request, times),
    }
}

/// A row that is made when it is wanted.
pub struct Planned {
    pub name: String,
    pub make: Box<dyn Fn() -> Row>,
}

fn planned(name: &str, make: impl Fn(&str) -> Row + 'static) -> Planned {
    let own = name.to_string();
    Planned {
        name: name.to_string(),
        make: Box::new(move || make(&own)),
    }
}

/// (a) Opening the largest books.
pub fn openings() -> Vec<Planned> {
    vec![
        planned("open-rain", |name| {
            let meaning = "64 units of 16 soils and 50 rain years, 32 aquifers";
            Row::open(name, meaning, books::largest_rain())
        }),
        planned("open-tenths", |name| {
            let meaning = "64 units of 16 soils and 50 rain years in tenths, 32 aquifers";
            Row::open(name, meaning, books::largest_tenths())
        }),
        planned("open-gauged", |name| {
            let meaning = "64 units of 28 or 29 gauged years, 32 aquifers";
            Row::open(name, meaning, books::largest_gauged())
        }),
        planned("open-mixed", |name| {
            let meaning = "32 rain units, 32 gauged units of 48 or 49 years, 32 aquifers";
            Row::open(name, meaning, books::largest_mixed())
        }),
    ]
}

/// The calls that are repeated to ask a register with room for one title, and their replies.
fn mixture(register: &Register) -> (Vec<Call>, [&'static str; 6]) {
    let calls = vec![
        register.without_flow(),
        register.against_commitment(),
        register.against_first(),
        register.without_recharge(),
        register.not_in_force(),
        register.in_use(),
    ];
    let replies = [
        "refused 17",
        "refused 17",
        "refused 17",
        "refused 17",
        "refused 19",
        "refused 20",
    ];
    (calls, replies)
}

/// A row of one call, repeated on a register of 64 units with 255 titles in force.
fn of_call(
    name: &str,
    meaning: &'static str,
    call: fn(&Register) -> Call,
    reply: &'static str,
) -> Planned {
    repeated_on(Register::filled, name, meaning, call, reply)
}

/// The same on a register of withdrawals from aquifers that return to units.
fn of_call_returning(
    name: &str,
    meaning: &'static str,
    call: fn(&Register) -> Call,
    reply: &'static str,
) -> Planned {
    repeated_on(Register::filled_returning, name, meaning, call, reply)
}

fn repeated_on(
    filled: fn(usize, usize) -> Register,
    name: &str,
    meaning: &'static str,
    call: fn(&Register) -> Call,
    reply: &'static str,
) -> Planned {
    planned(name, move |name| {
        let register = filled(UNITS, 255);
        let call = call(&register);
        Row::repeated(name, meaning, register, &[call], &[reply])
    })
}

/// (b) Calls on a register of 64 units and 32 aquifers, 255 titles in force unless the row says
/// otherwise.
pub fn calls() -> Vec<Planned> {
    vec![
        planned("calls-book", whole_book),
        of_call(
            "calls-17-flow",
            "refused at 17 by a negative flow",
            Register::without_flow,
            "refused 17",
        ),
        of_call(
            "calls-17-outlet",
            "refused at 17 by the outlet's availability",
            Register::against_commitment,
            "refused 17",
        ),
        of_call(
            "calls-17-first",
            "refused at 17 by the availability of unit 1",
            Register::against_first,
            "refused 17",
        ),
        of_call(
            "calls-17-aquifer",
            "refused at 17 by an aquifer's availability",
            Register::without_recharge,
            "refused 17",
        ),
        of_call(
            "calls-19",
            "a cancellation refused at 19",
            Register::not_in_force,
            "refused 19",
        ),
        of_call(
            "calls-20",
            "a cancellation refused at 20",
            Register::in_use,
            "refused 20",
        ),
        planned("calls-15", full),
        planned("calls-given-cancelled", given_and_cancelled),
        of_call_returning(
            "calls-17-returning",
            "GW refused at 17 by an aquifer's availability, 255 titles nearly all GW",
            Register::returning_without_recharge,
            "refused 17",
        ),
        of_call_returning(
            "calls-20-returning",
            "a cancellation of GW refused at 20, 255 titles nearly all GW",
            Register::in_use,
            "refused 20",
        ),
        planned("calls-15-returning", full_returning),
        planned("calls-given-cancelled-returning", returning_and_cancelled),
    ]
}

/// Grants on a register whose 256 numbers are given.
fn full(name: &str) -> Row {
    let register = Register::filled(UNITS, 256);
    let calls: Vec<Call> = (0..4).map(|turn| register.small_grant(turn)).collect();
    let meaning = "GU, GA, TU and TA refused at 15, 256 titles in force";
    Row::repeated(name, meaning, register, &calls, &["refused 15"])
}

/// GW on a register whose 256 numbers are given, nearly all to GW.
fn full_returning(name: &str) -> Row {
    let register = Register::filled_returning(UNITS, 256);
    let calls: Vec<Call> = (0..4).map(|turn| register.small_returning(turn)).collect();
    let meaning = "GW refused at 15, 256 titles nearly all GW";
    Row::repeated(name, meaning, register, &calls, &["refused 15"])
}

/// GU, GA, TU and TA, each cancelled at once, on a register with 16 titles in force.
fn given_and_cancelled(name: &str) -> Row {
    let meaning = "GU, GA, TU and TA given and cancelled, 16 titles in force";
    cancelled_at_once(
        name,
        meaning,
        Register::filled(UNITS, 16),
        Register::small_grant,
    )
}

/// GW, each cancelled at once, on a register with 16 titles in force.
fn returning_and_cancelled(name: &str) -> Row {
    let meaning = "GW given and cancelled, 16 titles nearly all GW";
    let register = Register::filled_returning(UNITS, 16);
    cancelled_at_once(name, meaning, register, Register::small_returning)
}

/// A row of 240 grants, each cancelled at once.
fn cancelled_at_once(
    name: &str,
    meaning: &str,
    mut register: Register,
    grant: fn(&Register, usize) -> Call,
) -> Row {
    let start = register.book.len();
    let before = register.calls;
    for turn in 0..240 {
        register.grant(grant(&register, turn));
        register.cancel_last();
    }
    let lengths = lengths_of_calls(&register.book, start);
    Row {
        name: name.to_string(),
        meaning: meaning.to_string(),
        book: register.book,
        most: lengths.len() - 1,
        counted: (0, 80),
        work: Work::Calls {
            before,
            lengths,
            replies: vec!["given", "cancelled"],
        },
    }
}

/// All calls of one book, GU, GA, TU, TA and CA: 255 numbers given, three of them cancelled again,
/// refused calls, the last number, and refused calls of a full register.
fn whole_book(name: &str) -> Row {
    let mut register = Register::new(Tree::Balanced, UNITS);
    let start = register.book.len();
    register.grant_in_use();
    for titles in [64, 128, 192] {
        register.fill(titles);
        register.cancel_last();
    }
    register.fill(255);
    let (calls, _) = mixture(&register);
    register.repeat(&calls, register.room(&calls) / 2);
    register.grant(register.small_grant(0));
    let full: Vec<Call> = (0..4)
        .map(|turn| register.small_grant(turn))
        .chain([register.not_in_force(), register.in_use()])
        .collect();
    register.repeat(&full, register.room(&full));
    let lengths = lengths_of_calls(&register.book, start);
    let count = lengths.len() - 1;
    Row {
        name: name.to_string(),
        meaning: format!("all {count} calls of one book, 253 titles in force in the end"),
        book: register.book,
        most: count,
        counted: (0, count),
        work: Work::Calls {
            before: 0,
            lengths,
            replies: Vec::new(),
        },
    }
}

/// The length of a book before its calls and after each of them.
fn lengths_of_calls(book: &[u8], start: usize) -> Vec<usize> {
    let mut lengths = vec![start];
    let mut at = start;
    while at < book.len() {
        let (_, next) = fast::next_call(book, at).expect("every call record is whole");
        lengths.push(next);
        at = next;
    }
    lengths
}

/// (c) The figures of 64 units and 32 aquifers without titles.
pub fn figures() -> Vec<Planned> {
    let of = |name: &str, meaning: &'static str, tree: Tree| {
        planned(name, move |name| {
            Row::figures(name, meaning, Register::new(tree, UNITS))
        })
    };
    vec![
        of("figures-chain", "64 units in a chain", Tree::Chain),
        of("figures-star", "63 units that drain into one", Tree::Star),
        of("figures-tree", "64 units two by two", Tree::Balanced),
    ]
}

/// (d) Planning states of 64 units and 32 aquifers, with four balances kept.
pub fn planning_states() -> Vec<Planned> {
    let mut rows = of_operation("keep", "keeping under a used name", Operation::Keep, 1000);
    rows.extend(of_operation("back", "going back", Operation::Back, 1000));
    let asked = "a cancellation refused at 19";
    rows.extend(of_operation("ask", asked, Operation::Ask, 10_000));
    let recorded = "a journal's record: a cancellation refused at 19";
    rows.extend(of_operation("record", recorded, Operation::Record, 1000));
    rows
}

/// The rows of an operation, with few titles in force and with many.
fn of_operation(
    kind: &str,
    meaning: &'static str,
    operation: Operation,
    most: usize,
) -> Vec<Planned> {
    let of = |titles: usize| {
        planned(&format!("state-{kind}-{titles}-titles"), move |name| {
            let meaning = format!("{meaning}, {titles} titles in force");
            let register = Register::filled(UNITS, titles);
            Row::states(name, &meaning, register, operation, most)
        })
    };
    vec![of(16), of(255)]
}

/// (e) Moving windows in the longest record of rain years, of the most years and of the fewest.
pub fn moving_windows() -> Vec<Planned> {
    let of = |width: u8| {
        planned(&format!("windows-{width}-years"), move |name| {
            Row::windows(name, width)
        })
    };
    vec![of(50), of(20)]
}

/// The numbers of units and of titles at which growth is shown.
pub const UNIT_COUNTS: [usize; 4] = [8, 16, 32, 64];
pub const TITLE_COUNTS: [usize; 3] = [16, 64, 256];

/// (b) at growing numbers of units and titles: six calls in turn, refused at 17 in four ways, at 19
/// and at 20. With 256 titles every grant would be refused at 15, so that 255 stand for them.
pub fn growing_calls() -> Vec<Planned> {
    growing("calls", |name, units, titles| {
        let titles = titles.min(255);
        let register = Register::filled(units, titles);
        let (calls, replies) = mixture(&register);
        let meaning = format!("{units} units, {titles} titles in force");
        Row::repeated(name, &meaning, register, &calls, &replies)
    })
}

/// (c) at growing numbers of units and titles.
pub fn growing_figures() -> Vec<Planned> {
    growing("figures", |name, units, titles| {
        let meaning = format!("{units} units, {titles} titles in force");
        Row::figures(name, &meaning, Register::filled(units, titles))
    })
}

fn growing(kind: &str, row: fn(&str, usize, usize) -> Row) -> Vec<Planned> {
    let mut rows = Vec::new();
    for units in UNIT_COUNTS {
        for titles in TITLE_COUNTS {
            let name = format!("{kind}-{units}-units-{titles}-titles");
            rows.push(planned(&name, move |name| row(name, units, titles)));
        }
    }
    rows
}

/// The rows of each table, with the table's title.
pub fn tables() -> Vec<(&'static str, Vec<Planned>)> {
    vec![
        ("Opening", openings()),
        ("Calls", calls()),
        ("Figures", figures()),
        ("States", planning_states()),
        ("Windows", moving_windows()),
        ("Growth of calls", growing_calls()),
        ("Growth of figures", growing_figures()),
    ]
}
