//! Evaporation as a demand: what boundary books print, checked by hand, and books whose evaporation is taken as an
//! extraction.

mod common;

use common::{named, printed_bytes};
use reference::book::open;
use reference::random;
use reference::record::{book_of, records_of, Record};
use reference::{basin, boundary};

/// The output of each book, its lines separated by semicolons.
const PRINTED: [(&str, &str); 27] = [
    // Demand 1500 of contributions 1540 and 1540.
    ("reservoir-at-the-outlet", "unit 1 1540 750 750 790; unit 2 2080 500 750 1580"),
    ("reservoir-alone", "unit 1 540 0 1000 540"),
    ("reservoir-alone-all-evaporates", "unit 1 0 0 1540 0"),
    ("reservoir-alone-more-evaporates", "refused 10 at 1"),
    // 900 of 2380 and 1540, of which unit 2 gets 546; then 1246 of 1540 and 1540.
    (
        "reservoir-inside",
        "unit 1 1540 623 623 917; unit 2 2380 546 623 1834; unit 3 3920 900 354 3020",
    ),
    // 900 of 840 and 1540, of which unit 1 gets 317; its own 700 are demanded of no unit above.
    ("reservoir-at-the-head", "unit 1 840 317 1017 523; unit 2 2380 900 583 1480"),
    // 65 of 1540 and 1540.
    ("reservoir-with-every-demand", "unit 1 1540 32 32 1508; unit 2 3020 5 33 3015"),
    // No contributions: the unit gets all that is demanded, units above get nothing.
    ("reservoir-total-0", "unit 1 70 20 50 50"),
    ("reservoir-total-0-nothing-else", "unit 1 0 0 100 0"),
    ("reservoir-total-0-above", "unit 1 0 0 0 0; unit 2 70 20 50 50"),
    ("reservoir-total-0-inside", "unit 1 0 0 100 0; unit 2 1140 100 500 1040"),
    ("reservoir-total-0-then-1", "call 1 given 1; unit 1 70 20 51 50"),
    // 2082 and 1000 of 1540 and 1540: unit 1 gets 1541. Without the reservoir it gets 1041.
    ("reservoir-availability-2081", "unit 1 1540 1540 1540 0; unit 2 3080 2081 1541 999"),
    ("reservoir-availability-2082", "unit 1 1540 1541 1541 -1; unit 2 3080 2082 1541 998"),
    (
        "reservoir-availability-2082-without",
        "unit 1 1540 1041 1041 499; unit 2 3080 2082 1041 998",
    ),
    // After 727, of which 145 return: 2500 of 958 and 1540, so 958. After 728: 2500 of 957 and 1540, so 958.
    (
        "reservoir-17-above-727",
        "call 1 given 1; unit 1 958 958 1685 0; unit 2 2498 1500 1542 998",
    ),
    (
        "reservoir-17-above-728",
        "call 1 refused 17; unit 1 1540 1250 1250 290; unit 2 3080 1500 1250 1580",
    ),
    (
        "reservoir-without-above-728",
        "call 1 given 1; unit 1 957 574 1302 383; unit 2 2497 1500 926 997",
    ),
    // After 728 at the reservoir, of which 145 return: 3228 of 1540 and 1685, so 1541 of unit 1.
    (
        "reservoir-17-at-it-727",
        "call 1 given 1; unit 1 1540 1540 1540 0; unit 2 2498 1500 1687 998",
    ),
    (
        "reservoir-17-at-it-728",
        "call 1 refused 17; unit 1 1540 1250 1250 290; unit 2 3080 1500 1250 1580",
    ),
    // After 1527, of which 305 return: 3400 of 1540, 318 and 1540, so 319 of unit 2.
    (
        "reservoir-17-branch-1526",
        "call 1 given 1; unit 1 1540 1540 1540 0; unit 2 319 319 1845 0; unit 3 3399 1400 1541 1999",
    ),
    (
        "reservoir-17-branch-1527",
        "call 1 refused 17; unit 1 1540 1133 1133 407; unit 2 1540 1133 1133 407; unit 3 4620 1400 1134 3220",
    ),
    (
        "reservoir-17-other-basin",
        "call 1 given 1; call 2 refused 17; unit 1 1540 1250 1250 290; unit 2 3080 1500 1250 1580; unit 3 340 0 1500 340",
    ),
    (
        "reservoir-all-entries-full",
        "unit 1 10000000 10000000 40000000 0",
    ),
    (
        "reservoir-all-entries-full-dry",
        "unit 1 0 10000000 40000000 -10000000",
    ),
    // 2 of 1, 1 and 1.
    (
        "reservoir-shares-thirds",
        "unit 1 1 0 0 1; unit 2 1 1 1 0; unit 3 1 0 1 1",
    ),
    // 6 of 1, 2, 3 and 1.
    (
        "reservoir-shares-sevenths",
        "unit 1 1 0 0 1; unit 2 2 2 2 0; unit 3 3 3 3 0; unit 4 2 1 1 1",
    ),
];

#[test]
fn the_boundary_books_print_what_was_checked_by_hand() {
    let books = boundary::books();
    for (name, lines) in PRINTED {
        let text = lines.replace("; ", "\n") + "\n";
        assert_eq!(printed_bytes(&named(&books, name).book), text, "{name}");
    }
}

#[test]
fn what_is_evaporated_prints_as_what_is_extracted() {
    let books = boundary::books();
    let printed = |name: &str| printed_bytes(&named(&books, name).book);
    assert_eq!(
        printed("reservoir-evaporated"),
        printed("reservoir-extracted")
    );
    assert_eq!(
        printed("reservoir-half-evaporated"),
        printed("reservoir-extracted")
    );
}

/// The description of a book with what is evaporated extracted instead.
fn extracted(book: &[u8]) -> Option<Vec<u8>> {
    let mut records = records_of(book).ok()?;
    for record in &mut records {
        if let Record::Unit(unit) = record {
            unit.extraction = unit.extraction.checked_add(unit.evaporation)?;
            unit.evaporation = 0;
        }
    }
    Some(book_of(&records))
}

/// In random books the figures are the same, before any call.
#[test]
fn random_books_have_the_figures_of_what_is_extracted() {
    let mut changed = 0;
    for seed in 0..4000 {
        let book = random::book(seed);
        let Some(Ok(other)) = extracted(&book).map(|other| open(&other)) else {
            continue;
        };
        let opened = open(&book).expect("the entries are no larger");
        let units = (&opened.balance.units, &other.balance.units);
        assert!(basin::results(units.0) == basin::results(units.1), "{seed}");
        changed += usize::from(units.0 != units.1);
    }
    assert!(changed > 1000, "{changed}");
}
