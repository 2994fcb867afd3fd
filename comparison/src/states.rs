//! Planning states: keeping, going back, asking, and replying to a record of a journal, repeated on
//! a state with four balances kept.

use crate::{plain, proved};
use reference::journal::{self, Ledger};
use reference::planning::{self, Name};
use reference::record::Call;
use reference::register::{self, Balance};
use reference::report;
use reference::{fast, fast::Plans};
use std::hint::black_box;

/// The names that the balance of a book is kept under, and that are asked for in turn.
const NAMES: [Name; 4] = [
    [1, 0, 0, 0, 0, 0, 0, 0],
    [2, 0, 0, 0, 0, 0, 0, 0],
    [3, 0, 0, 0, 0, 0, 0, 0],
    [4, 0, 0, 0, 0, 0, 0, 0],
];

/// A cancellation of number 0, which is always refused.
const CANCEL_NOTHING: Call = Call::Cancel { title: 0 };

/// A journal's record that asks for it.
const CANCELLING_NOTHING: &[u8] = b"CA\0\0";

/// What is repeated.
#[derive(Clone, Copy, Debug, PartialEq, Eq)]
pub enum Operation {
    /// Keeps the current balance under the name in turn.
    Keep,
    /// Goes back to the name in turn.
    Back,
    /// Makes a call on the current balance that is refused.
    Ask,
    /// Reads that call from a journal's record and prints the reply.
    Record,
}

pub const OPERATIONS: [Operation; 4] = [
    Operation::Keep,
    Operation::Back,
    Operation::Ask,
    Operation::Record,
];

impl Operation {
    /// The function of the proved library.
    pub fn function(self) -> &'static str {
        match self {
            Operation::Keep => "hasheqro_rekeep",
            Operation::Back => "hasheqro_reback",
            Operation::Ask => "hasheqro_reask",
            Operation::Record => "hasheqro_rerecord",
        }
    }
}

fn name_in_turn(turn: u64) -> Name {
    NAMES[(turn % NAMES.len() as u64) as usize]
}

/// The proved library opens a book, runs its calls, keeps the balance under the four names, and
/// repeats an operation so many times. Returns how often it was accepted; of `Ask`, refused; of
/// `Record`, answered.
pub fn proved(operation: Operation, book: &[u8], times: u64) -> u64 {
    match operation {
        Operation::Keep => proved::rekeep(book, times),
        Operation::Back => proved::reback(book, times),
        Operation::Ask => proved::reask(book, times),
        Operation::Record => proved::rerecord(book, times),
    }
}

/// The same by the plain model.
pub fn plain(operation: Operation, book: &[u8], times: u64) -> u64 {
    let balance = plain::run(book).map_or_else(|_| Balance::default(), |ran| ran.balance);
    repeat_plain(operation, with_four_kept(balance), times)
}

/// A balance as the current one, kept under the four names.
pub fn with_four_kept(balance: Balance) -> planning::State {
    let kept = Vec::new();
    let state = planning::State { balance, kept };
    NAMES
        .iter()
        .fold(state, |state, name| planning::keep(&state, *name).1)
}

/// Repeats an operation on a state, and returns how often it was accepted; of `Ask`, refused; of
/// `Record`, answered.
pub fn repeat_plain(operation: Operation, mut state: planning::State, times: u64) -> u64 {
    let mut done = 0;
    for turn in 0..times {
        done += u64::from(plain_once(operation, &mut state, name_in_turn(turn)));
        black_box(&mut state);
    }
    done
}

fn plain_once(operation: Operation, state: &mut planning::State, name: Name) -> bool {
    match operation {
        Operation::Keep => {
            let (reply, after) = planning::keep(state, name);
            *state = after;
            reply == planning::Reply::Kept
        }
        Operation::Back => {
            let (reply, after) = planning::back(state, name);
            *state = after;
            reply == planning::Reply::Back
        }
        Operation::Ask => {
            let (reply, after) = register::apply(&state.balance, &CANCEL_NOTHING);
            state.balance = after;
            matches!(reply, register::Reply::Refused(_))
        }
        Operation::Record => {
            let mut ledger = Ledger::of(state.clone());
            let text = journal::next_asked(CANCELLING_NOTHING, 0)
                .map(|(asked, _)| journal::answer(&mut ledger, 1, &asked));
            *state = ledger.state;
            black_box(text).is_ok()
        }
    }
}

/// The same by the fast model.
pub fn fast(operation: Operation, book: &[u8], times: u64) -> u64 {
    let mut plans = Plans::of(run_fast(book));
    for name in NAMES {
        fast::keep(&mut plans, name);
    }
    let mut done = 0;
    for turn in 0..times {
        done += u64::from(fast_once(operation, &mut plans, name_in_turn(turn)));
        black_box(&mut plans);
    }
    done
}

/// The state of a book after its calls, up to a call record that fails.
fn run_fast(book: &[u8]) -> fast::State {
    let Ok((mut state, end)) = fast::open(book) else {
        return fast::State::empty();
    };
    let ran = fast::run_calls(&mut state, book, end, |reply| {
        black_box(reply);
    });
    black_box(ran.is_ok());
    state
}

fn fast_once(operation: Operation, plans: &mut Plans, name: Name) -> bool {
    match operation {
        Operation::Keep => fast::keep(plans, name) == planning::Reply::Kept,
        Operation::Back => fast::back(plans, name) == planning::Reply::Back,
        Operation::Ask => {
            let reply = fast::apply(&mut plans.current, &CANCEL_NOTHING);
            matches!(reply, register::Reply::Refused(_))
        }
        Operation::Record => {
            let text = fast::next_call(CANCELLING_NOTHING, 0)
                .map(|(call, _)| report::call(1, &fast::apply(&mut plans.current, &call)));
            black_box(text).is_ok()
        }
    }
}
