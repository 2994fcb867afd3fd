//! Planning states: up to four balances kept under names, to come back to.

use crate::book::{self, Refusal};
use crate::register::{self, refuse_if, Balance};

/// The most balances that are kept.
pub const MOST_KEPT: usize = 4;

/// The name of a kept balance: any eight bytes.
pub type Name = [u8; 8];

/// The current balance, and those kept, each with its name.
#[derive(Clone, Debug, Default, PartialEq, Eq)]
pub struct State {
    pub balance: Balance,
    pub kept: Vec<(Name, Balance)>,
}

/// The reply to keeping or going back. It concerns no title, so that the number of an accepted one is 0.
#[derive(Clone, Copy, Debug, PartialEq, Eq)]
pub enum Reply {
    Kept,
    Back,
    Refused(u8),
}

/// Opens a book: a state with nothing kept, and the offset where the description ends or its refusal.
pub fn open(book: &[u8]) -> (State, Result<usize, Refusal>) {
    let (balance, end) = match book::open(book) {
        Ok(opened) => (opened.balance, Ok(opened.end)),
        Err(refusal) => (Balance::default(), Err(refusal)),
    };
    let kept = Vec::new();
    (State { balance, kept }, end)
}

/// Keeps the current balance under a name. A refused call leaves the state as it was.
pub fn keep(state: &State, name: Name) -> (Reply, State) {
    match kept(state, name) {
        Ok(after) => (Reply::Kept, after),
        Err(number) => (Reply::Refused(number), state.clone()),
    }
}

/// Makes the balance kept under a name the current one. A refused call leaves the state as it was.
pub fn back(state: &State, name: Name) -> (Reply, State) {
    match gone_back(state, name) {
        Ok(after) => (Reply::Back, after),
        Err(number) => (Reply::Refused(number), state.clone()),
    }
}

/// The state after an accepted keeping, or the number of the refusal.
fn kept(state: &State, name: Name) -> Result<State, u8> {
    refuse_if(is_faulty(state), 0)?;
    let mut after = state.clone();
    keep_after_0(&mut after, name)?;
    Ok(after)
}

/// The state after an accepted return, or the number of the refusal.
fn gone_back(state: &State, name: Name) -> Result<State, u8> {
    refuse_if(is_faulty(state), 0)?;
    let mut after = state.clone();
    back_after_0(&mut after, name)?;
    Ok(after)
}

/// Puts the current balance in the place of the name, or in the next one if the name is new. The
/// state has passed the test for 0.
pub(crate) fn keep_after_0(state: &mut State, name: Name) -> Result<(), u8> {
    let balance = state.balance.clone();
    match place_of(state, name) {
        Some(place) => state.kept[place].1 = balance,
        None => {
            refuse_if(state.kept.len() >= MOST_KEPT, 22)?;
            state.kept.push((name, balance));
        }
    }
    Ok(())
}

/// Makes the balance of the name the current one. The state has passed the test for 0.
pub(crate) fn back_after_0(state: &mut State, name: Name) -> Result<(), u8> {
    let place = place_of(state, name).ok_or(23)?;
    state.balance = state.kept[place].1.clone();
    Ok(())
}

fn place_of(state: &State, name: Name) -> Option<usize> {
    state.kept.iter().position(|(kept, _)| *kept == name)
}

/// The test for refusal 0 of keeping and going back: the current balance, how many are kept, each
/// kept balance, and whether a name is kept twice.
pub fn is_faulty(state: &State) -> bool {
    register::is_faulty(&state.balance)
        || state.kept.len() > MOST_KEPT
        || state.kept.iter().any(|(_, kept)| register::is_faulty(kept))
        || name_kept_twice(state)
}

fn name_kept_twice(state: &State) -> bool {
    let names: Vec<Name> = state.kept.iter().map(|(name, _)| *name).collect();
    (1..names.len()).any(|place| names[..place].contains(&names[place]))
}
