//! The proved library, by the interface in `../include/hasheqro.h`, and the functions that repeat what planning states do and
//! the reply to a moving window.

use reference::basin::{MOST_AQUIFERS, MOST_UNITS};

/// The bytes that the buffer for the printed text has.
pub const ROOM: usize = 1_064_960;

/// The figures of a unit.
#[repr(C)]
#[derive(Clone, Copy, Debug, Default, PartialEq, Eq)]
pub struct Unit {
    pub flow: i64,
    pub committed: u64,
    pub reserve: u64,
    pub availability: i64,
}

/// The figures of an aquifer.
#[repr(C)]
#[derive(Clone, Copy, Debug, Default, PartialEq, Eq)]
pub struct Aquifer {
    pub recharge: i64,
    pub availability: i64,
}

/// The table of a book after its calls, with 0 in the unused places.
#[repr(C)]
#[derive(Clone, Debug, PartialEq, Eq)]
pub struct Table {
    /// 1 if the description was accepted, otherwise 0. The interface has a `bool` here; a byte lets
    /// any other value be seen as a difference.
    pub accepted: u8,
    /// The refusal of the description or of the call record that failed, 0 if there is none.
    pub number: u8,
    /// Its place, 0 if there is none.
    pub place: u64,
    pub unit_count: u64,
    pub aquifer_count: u64,
    pub units: [Unit; MOST_UNITS],
    pub aquifers: [Aquifer; MOST_AQUIFERS],
}

mod link {
    use super::Table;

    extern "C" {
        pub fn hasheqro_print(book: *const u8, length: usize, out: *mut u8) -> usize;
        pub fn hasheqro_figures(book: *const u8, length: usize) -> Table;
        pub fn hasheqro_open(book: *const u8, length: usize) -> u64;
        pub fn hasheqro_run(book: *const u8, length: usize) -> u64;
        pub fn hasheqro_refigure(book: *const u8, length: usize, times: u64) -> u64;
        pub fn hasheqro_rekeep(book: *const u8, length: usize, times: u64) -> u64;
        pub fn hasheqro_reback(book: *const u8, length: usize, times: u64) -> u64;
        pub fn hasheqro_reask(book: *const u8, length: usize, times: u64) -> u64;
        pub fn hasheqro_rerecord(book: *const u8, length: usize, times: u64) -> u64;
        pub fn hasheqro_rewatch(record: *const u8, length: usize, times: u32) -> u64;
    }
}

/// A buffer for the printed text.
pub fn buffer() -> Box<[u8; ROOM]> {
    let bytes = vec![0; ROOM].into_boxed_slice();
    bytes.try_into().expect("the buffer has its length")
}

/// What `balance` prints for a book.
pub fn print<'a>(book: &[u8], out: &'a mut [u8; ROOM]) -> &'a [u8] {
    // The book is read only, and the buffer has the length that the interface asks for.
    let length = unsafe { link::hasheqro_print(book.as_ptr(), book.len(), out.as_mut_ptr()) };
    &out[..length]
}

/// The table of a book after its calls.
pub fn figures(book: &[u8]) -> Table {
    unsafe { link::hasheqro_figures(book.as_ptr(), book.len()) }
}

/// The offset where an accepted description ends, or the place of its refusal.
pub fn open(book: &[u8]) -> u64 {
    unsafe { link::hasheqro_open(book.as_ptr(), book.len()) }
}

/// How many title numbers are given after the calls of a book, 0 if its description is refused.
pub fn run(book: &[u8]) -> u64 {
    unsafe { link::hasheqro_run(book.as_ptr(), book.len()) }
}

/// Opens a book, runs its calls and works out all figures so many times; how often they were given.
pub fn refigure(book: &[u8], times: u64) -> u64 {
    unsafe { link::hasheqro_refigure(book.as_ptr(), book.len(), times) }
}

/// Opens a book, runs its calls, keeps the balance under four names, and keeps it under them in turn
/// so many times; how often that was accepted.
pub fn rekeep(book: &[u8], times: u64) -> u64 {
    unsafe { link::hasheqro_rekeep(book.as_ptr(), book.len(), times) }
}

/// The same, going back to the four names in turn.
pub fn reback(book: &[u8], times: u64) -> u64 {
    unsafe { link::hasheqro_reback(book.as_ptr(), book.len(), times) }
}

/// The same, cancelling number 0 of the current balance; how often that was refused.
pub fn reask(book: &[u8], times: u64) -> u64 {
    unsafe { link::hasheqro_reask(book.as_ptr(), book.len(), times) }
}

/// The same, replying to a journal's record that asks for that; how many records were answered.
pub fn rerecord(book: &[u8], times: u64) -> u64 {
    unsafe { link::hasheqro_rerecord(book.as_ptr(), book.len(), times) }
}

/// Replies so many times to the moving window that bytes begin with; how many windows that gave in all.
pub fn rewatch(record: &[u8], times: u32) -> u64 {
    unsafe { link::hasheqro_rewatch(record.as_ptr(), record.len(), times) }
}
