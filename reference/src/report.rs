//! The printed text.

use crate::basin;
use crate::book::Refusal;
use crate::register::{Balance, Reply};

/// The line of a refused description or of a failing call record.
pub fn refused(refusal: &Refusal) -> String {
    format!("refused {} at {}\n", refusal.number, refusal.place)
}

/// The line of the call with this place among the book's calls.
pub fn call(place: usize, reply: &Reply) -> String {
    match reply {
        Reply::Given(title) => format!("call {place} given {title}\n"),
        Reply::Cancelled(title) => format!("call {place} cancelled {title}\n"),
        Reply::Refused(number) => format!("call {place} refused {number}\n"),
    }
}

/// What stands after `call K ` for a moving window: how many windows there are, and a line for each.
pub fn windows(runoffs: &[i64]) -> String {
    let mut text = format!("windows {}\n", runoffs.len());
    for (number, runoff) in (1..).zip(runoffs) {
        text += &format!("window {number} {runoff}\n");
    }
    text
}

/// The lines of all units, then of all aquifers.
pub fn table(balance: &Balance) -> String {
    let mut text = String::new();
    for (index, result) in basin::results(&balance.units).iter().enumerate() {
        text += &format!(
            "unit {} {} {} {} {}\n",
            index + 1,
            result.flow,
            result.committed,
            result.reserve,
            result.availability
        );
    }
    for (index, aquifer) in balance.aquifers.iter().enumerate() {
        text += &format!(
            "aquifer {} {} {}\n",
            index + 1,
            aquifer.recharge(),
            aquifer.availability()
        );
    }
    text
}
