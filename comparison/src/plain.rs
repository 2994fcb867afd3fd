//! The plain model by the same interface as the proved library.

use crate::proved::{Aquifer, Table, Unit};
use reference::basin::{self, MOST_AQUIFERS, MOST_UNITS};
use reference::book::{self, Refusal};
use reference::register::{self, Balance, Reply};

/// A book whose description is accepted, after its calls.
pub struct Ran {
    pub balance: Balance,
    /// The refusal of a call record that failed.
    pub failed: Option<Refusal>,
    pub replies: Vec<Reply>,
}

/// Opens a book of any length and runs its calls.
pub fn run(book: &[u8]) -> Result<Ran, Refusal> {
    let opened = book::open(book)?;
    let mut ran = Ran {
        balance: opened.balance,
        failed: None,
        replies: Vec::new(),
    };
    let mut at = opened.end;
    while at < book.len() {
        match book::next_call(book, at) {
            Ok((call, next)) => {
                let (reply, after) = register::apply(&ran.balance, &call);
                ran.replies.push(reply);
                ran.balance = after;
                at = next;
            }
            Err(refusal) => {
                ran.failed = Some(refusal);
                break;
            }
        }
    }
    Ok(ran)
}

/// The place that opening returns.
pub fn open(book: &[u8]) -> u64 {
    match book::open(book) {
        Ok(opened) => opened.end as u64,
        Err(refusal) => refusal.place as u64,
    }
}

/// The figures of a balance that isn't faulty, put into a table.
fn fill(table: &mut Table, balance: &Balance) {
    table.unit_count = balance.units.len() as u64;
    table.aquifer_count = balance.aquifers.len() as u64;
    for (place, result) in table.units.iter_mut().zip(basin::results(&balance.units)) {
        *place = Unit {
            flow: result.flow as i64,
            committed: result.committed as u64,
            reserve: result.reserve as u64,
            availability: result.availability as i64,
        };
    }
    for (place, aquifer) in table.aquifers.iter_mut().zip(&balance.aquifers) {
        *place = Aquifer {
            recharge: aquifer.recharge() as i64,
            availability: aquifer.availability() as i64,
        };
    }
}

/// The table of what a book gave.
pub fn table(ran: &Result<Ran, Refusal>) -> Table {
    let refusal = match ran {
        Ok(ran) => ran.failed,
        Err(refusal) => Some(*refusal),
    };
    let mut table = Table {
        accepted: u8::from(ran.is_ok()),
        number: refusal.map_or(0, |refusal| refusal.number),
        place: refusal.map_or(0, |refusal| refusal.place as u64),
        unit_count: 0,
        aquifer_count: 0,
        units: [Unit::default(); MOST_UNITS],
        aquifers: [Aquifer::default(); MOST_AQUIFERS],
    };
    if let Ok(ran) = ran {
        fill(&mut table, &ran.balance);
    }
    table
}
