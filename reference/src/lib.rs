//! Reference model of the basin book, its water balance and its title register.
//!
//! Volumes are whole thousands of cubic metres. All arithmetic is exact.

pub mod basin;
pub mod book;
pub mod boundary;
pub mod boundary_journals;
pub mod fast;
pub mod journal;
pub mod planning;
pub mod random;
pub mod random_journals;
pub mod random_states;
pub mod random_windows;
pub mod record;
pub mod register;
pub mod report;
pub mod runoff;
pub mod text;
pub mod windows;

use book::Refusal;
use register::Balance;

/// The longest book that the program reads, in bytes.
pub const LONGEST_BOOK: usize = 65_536;

/// What the program `balance` prints for a book on standard input.
pub fn run(book: &[u8]) -> Vec<u8> {
    let text = match open_for_program(book) {
        Ok(opened) => run_calls(book, opened),
        Err(refusal) => report::refused(&refusal),
    };
    text.into_bytes()
}

/// Opens a book with the program's own limit on its length.
fn open_for_program(book: &[u8]) -> Result<book::Opened, Refusal> {
    if book.len() > LONGEST_BOOK {
        return Err(Refusal {
            number: 21,
            place: LONGEST_BOOK,
        });
    }
    book::open(book)
}

/// The call lines, the line of a failing call record, and the table after the calls.
fn run_calls(book: &[u8], opened: book::Opened) -> String {
    let mut text = String::new();
    let mut balance: Balance = opened.balance;
    let mut at = opened.end;
    let mut count = 0;
    while at < book.len() {
        match book::next_call(book, at) {
            Ok((call, next)) => {
                count += 1;
                let (reply, after) = register::apply(&balance, &call);
                text += &report::call(count, &reply);
                balance = after;
                at = next;
            }
            Err(refusal) => {
                text += &report::refused(&refusal);
                break;
            }
        }
    }
    text + &report::table(&balance)
}
