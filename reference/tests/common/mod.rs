//! Helpers of the tests.

#![allow(dead_code)]

pub mod places;

use reference::boundary::Named;
use std::path::Path;

/// A file of a program crate that runs many books or calls through the proved functions.
pub fn of_crate(program: &str, name: &str) -> Vec<u8> {
    let folder = Path::new(env!("CARGO_MANIFEST_DIR"))
        .join("../crates")
        .join(program);
    std::fs::read(folder.join(name)).expect(name)
}

/// The book of a text whose lines are separated by semicolons or line ends.
pub fn book(text: &str) -> Vec<u8> {
    reference::text::make(&text.replace(';', "\n")).expect("the text is well formed")
}

/// What the program prints of a text.
pub fn printed(text: &str) -> String {
    String::from_utf8(reference::run(&book(text))).expect("the output is ASCII")
}

/// What the program prints of an example file, in which a semicolon separates nothing.
pub fn printed_example(text: &str) -> String {
    printed_bytes(&reference::text::make(text).expect("the example is well formed"))
}

/// What the program prints of bytes.
pub fn printed_bytes(book: &[u8]) -> String {
    String::from_utf8(reference::run(book)).expect("the output is ASCII")
}

/// The boundary book of that name.
pub fn named<'a>(books: &'a [Named], name: &str) -> &'a Named {
    let found = books.iter().find(|named| named.name == name);
    found.unwrap_or_else(|| panic!("no book {name}"))
}

/// The paper's book without its calls.
pub const BASIN: &str = "unit downstream=3; soil cover=14 soil=2 hectares=10000; rain 800 x20;
    unit downstream=3; soil cover=8 soil=1 hectares=10000; rain 800 x20;
    unit extraction=3000 commitment=1000; soil cover=8 soil=1 hectares=10000; rain 800 x20;
    aquifer storage=-200 natural=900 pumped=1300 committed=500 extraction=1300";
