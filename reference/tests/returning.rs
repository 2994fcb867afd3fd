//! Withdrawals from an aquifer with a return to a unit (GW): what the boundary books print, worked by hand.

mod common;

use common::{named, printed_bytes};
use reference::boundary;

/// The lines of a book's output, separated by semicolons, with or without those of calls.
fn lines(book: &[u8], of_calls: bool) -> String {
    let text = printed_bytes(book);
    let wanted = text
        .lines()
        .filter(|line| line.starts_with("call ") == of_calls);
    wanted.collect::<Vec<_>>().join("; ")
}

/// The replies to a book's calls, separated by commas: g, c and r for given, cancelled and refused.
fn replies(book: &[u8]) -> String {
    let text = lines(book, true);
    let replies = text.split("; ").filter_map(|line| {
        let mut words = line.split(' ').skip(2);
        let letter = words.next()?.get(..1)?;
        Some(format!("{letter}{}", words.next()?))
    });
    replies.collect::<Vec<_>>().join(", ")
}

/// The replies to the calls of each book.
const REPLIES: [(&str, &str); 92] = [
    ("returning-alone", "r12"),
    ("returning-without-units", "r12"),
    ("returning-without-aquifers", "r12"),
    ("returning-use-0", "r13"),
    ("returning-use-1", "g1"),
    ("returning-use-2", "g1"),
    ("returning-use-3", "g1"),
    ("returning-use-4", "g1"),
    ("returning-use-5", "g1"),
    ("returning-use-6", "g1"),
    ("returning-use-7", "g1"),
    ("returning-use-8", "r13"),
    ("returning-use-255", "r13"),
    ("returning-volume-0", "r14"),
    ("returning-volume-1", "g1"),
    ("returning-volume-10000000", "g1"),
    ("returning-volume-10000001", "r14"),
    ("returning-volume-4294967295", "r14"),
    ("returning-aquifer-0", "r12"),
    ("returning-aquifer-2", "r12"),
    ("returning-aquifer-255", "r12"),
    ("returning-unit-0", "r12"),
    ("returning-unit-4", "r12"),
    ("returning-unit-255", "r12"),
    ("returning-aquifer-numbered-like-a-unit", "r12"),
    ("returning-unit-numbered-like-an-aquifer", "r12"),
    ("returning-12-before-13", "r12, r12"),
    ("returning-13-before-14", "r13, r13"),
    ("returning-16-before-17", "r16, r17"),
    ("returning-16-aquifer-1000", "g1"),
    ("returning-16-aquifer-1001", "r16"),
    ("returning-16-returns-use-6-1000", "g1"),
    ("returning-16-returns-use-6-1001", "r16"),
    ("returning-16-returns-use-1-5004", "g1"),
    ("returning-16-returns-use-1-5005", "r16"),
    ("returning-16-returns-full-4", "g1"),
    ("returning-16-returns-full-5", "r16"),
    ("returning-16-other-unit-full", "g1, r16"),
    ("returning-16-other-entries-full", "g1"),
    ("returning-16-other-aquifer-full", "g1, r16"),
    (
        "returns-filled-from-returning",
        "g1, g2, r16, r16, c1, r16, g3, r16, r16, c2, g4, r16, r16",
    ),
    (
        "returns-filled-from-withdraw",
        "g1, g2, r16, r16, c1, r16, g3, r16, r16, c2, g4, r16, r16",
    ),
    (
        "aquifer-filled-by-three-kinds",
        "g1, g2, g3, r16, r16, r16, c3, r16, g4, c1, c2, g5, r16, r16, r16",
    ),
    ("returning-17-400", "g1"),
    ("returning-17-401", "r17"),
    ("returning-17-aquifer-in-deficit", "r17"),
    ("returning-17-other-aquifer-in-deficit", "g1, r17"),
    (
        "returning-17-among-pump-and-bring",
        "g1, g2, r17, g3, r17, c1, r17, g4, c3, g5, r17",
    ),
    ("returning-to-deficit", "g1, r17"),
    ("returning-ends-deficit", "r17, g1, g2, r17, c1, r17"),
    ("returning-floor-use-1-volume-1", "g1, g2, c1"),
    ("returning-floor-use-1-volume-4", "g1, g2, c1"),
    ("returning-floor-use-1-volume-5", "g1, g2, c1"),
    ("returning-floor-use-2-volume-1", "g1, g2, c1"),
    ("returning-floor-use-3-volume-2", "g1, g2, c1"),
    ("returning-floor-use-5-volume-6", "g1, g2, c1"),
    ("returning-floor-use-5-volume-7", "g1, g2, c1"),
    ("returning-floor-use-7-volume-1", "g1, g2, c1"),
    ("cancelled-returning-4", "g1, g2, g3, g4, g5, c3, c2"),
    ("cancelled-returning-9", "g1, g2, g3, g4, g5, c3, c2"),
    (
        "cancelled-returning-of-each-use",
        "g1, g2, g3, g4, g5, g6, g7, c1, c2, c3, c4, c5, c6, c7",
    ),
    // 61, 62 and 63 take 49, 50 and 51 with their returns; 187 and 188 take 150 and 151.
    ("cancel-returning-spent-61", "g1, g2, c1, c2, r19"),
    ("cancel-returning-spent-62", "g1, g2, c1, c2, r19"),
    ("cancel-returning-spent-63", "g1, g2, r20, c2, c1"),
    ("cancel-returning-spent-187", "g1, g2, r20, c2, c1"),
    ("cancel-returning-spent-188", "g1, r17, c1, r19, r19"),
    ("cancel-returning-exported-49", "g1, g2, c1, c2, r19"),
    ("cancel-returning-exported-50", "g1, g2, c1, c2, r19"),
    ("cancel-returning-exported-51", "g1, g2, r20, c2, c1"),
    ("cancel-returning-exported-150", "g1, g2, r20, c2, c1"),
    ("cancel-returning-exported-151", "g1, r17, c1, r19, r19"),
    ("cancel-returning-spent-below-62", "g1, g2, c1, c2, r19"),
    ("cancel-returning-spent-below-63", "g1, g2, r20, c2, c1"),
    ("cancel-returning-exported-midway", "g1, g2, r20"),
    (
        "cancel-returning-covered-by-returning",
        "g1, g2, g3, c1, r20, c3, c2",
    ),
    (
        "cancel-returning-covered-by-bring",
        "g1, g2, g3, c1, r20, c3, c2",
    ),
    (
        "cancel-returning-refused-keeps-aquifer",
        "g1, g2, r20, r17, c2, c1, g3",
    ),
    ("returning-from-1-to-1", "g1"),
    ("returning-from-1-to-2", "g1"),
    ("returning-from-1-to-3", "g1"),
    ("returning-from-2-to-1", "g1"),
    ("returning-from-2-to-2", "g1"),
    ("returning-from-2-to-5", "g1"),
    ("returning-from-3-to-3", "g1"),
    ("returning-from-3-to-4", "g1"),
    ("returning-to-other-basin", "g1, g2, g3, g4"),
    (
        "returning-to-other-basin-alone-in-force",
        "g1, g2, g3, g4, c1, c3, c2",
    ),
    ("returning-beside-withdraw-cancel-1", "g1, g2, c1"),
    ("returning-beside-withdraw-cancel-2", "g1, g2, c2"),
    (
        "returning-refused-between",
        "g1, r13, r12, r17, r14, g2, r19, c2, c1",
    ),
    ("cancel-returning", "g1, c1, r19, g2, r19, c2, r19"),
    (
        "cancel-returning-after-refusal",
        "g1, r14, r19, c1, r19, r19",
    ),
];

#[test]
fn replies_to_calls() {
    let books = boundary::books();
    for (name, expected) in REPLIES {
        assert_eq!(replies(&named(&books, name).book), expected, "{name}");
    }
}

#[test]
fn replies_to_256_titles() {
    let books = boundary::books();
    let replies = |name: &str| replies(&named(&books, name).book);
    let of = |letter: &str, numbers: &mut dyn Iterator<Item = usize>| -> String {
        let each: Vec<String> = numbers.map(|n| format!("{letter}{n}")).collect();
        each.join(", ")
    };
    let given = of("g", &mut (1..=256));
    let last = |rest: &str| format!("{given}, {rest}");
    assert_eq!(replies("returning-14-before-15"), last("r14, r14"));
    assert_eq!(replies("returning-15-before-16"), last("r15"));
    assert_eq!(replies("returning-257"), last("r15, r19"));
    let from_first = of("c", &mut (1..=256));
    let from_last = of("c", &mut (1..=256).rev());
    assert_eq!(
        replies("cancel-all-256-returning-from-first"),
        last(&format!("{from_first}, r15"))
    );
    assert_eq!(
        replies("cancel-all-256-returning-from-last"),
        last(&format!("{from_last}, r15"))
    );
    let pairs: Vec<String> = (1..=256).map(|n| format!("g{n}, c{n}")).collect();
    assert_eq!(
        replies("grant-cancel-returning-257"),
        format!("{}, r15", pairs.join(", "))
    );
}

#[test]
fn replies_to_five_kinds() {
    let books = boundary::books();
    for (first, cancelled) in [
        (1, "c1, c2, c3, c4, c5"),
        (2, "c2, c4, c1, c5, c3"),
        (3, "c3, c5, c1, c4, c2"),
        (4, "c4, c1, c5, c2, c3"),
        (5, "c5, c4, c3, c2, c1"),
    ] {
        let book = &named(&books, &format!("cancel-all-five-from-{first}")).book;
        let expected = format!("g1, g2, g3, g4, g5, {cancelled}, g6, g7, g8, g9, g10");
        assert_eq!(replies(book), expected, "{first}");
    }
}

/// Boundary books of which the whole output after the call lines is worked by hand.
const TABLES: [(&str, &str); 44] = [
    ("short-returning-alone", "refused 1 at 0"),
    ("short-returning-8-alone", "refused 1 at 0"),
    ("short-returning-after-unit", "refused 1 at 119; unit 1 1540 0 0 1540"),
    ("short-returning-after-bare-unit", "refused 6 at 0"),
    ("short-returning-after-19-years", "refused 6 at 0"),
    ("short-returning-after-negative-flow", "refused 10 at 1"),
    ("short-returning-after-aquifer", "refused 1 at 22; aquifer 1 90 70"),
    ("unknown-mark-gw-lowercase", "refused 2 at 379"),
    ("unknown-mark-gw-turned", "refused 2 at 379"),
    ("unknown-mark-gv", "refused 2 at 379"),
    ("unknown-mark-gx", "refused 2 at 379"),
    ("returning-use-1", "unit 1 1540 33 33 1507; unit 2 1560 33 33 1527; unit 3 4640 100 34 4540; aquifer 1 700 300"),
    ("returning-use-2", "unit 1 1540 32 32 1508; unit 2 1615 35 35 1580; unit 3 4695 100 33 4595; aquifer 1 700 300"),
    ("returning-use-3", "unit 1 1540 32 32 1508; unit 2 1595 35 35 1560; unit 3 4675 100 33 4575; aquifer 1 700 300"),
    ("returning-use-4", "unit 1 1540 32 32 1508; unit 2 1615 35 35 1580; unit 3 4695 100 33 4595; aquifer 1 700 300"),
    ("returning-use-5", "unit 1 1540 33 33 1507; unit 2 1555 33 33 1522; unit 3 4635 100 34 4535; aquifer 1 700 300"),
    ("returning-use-6", "unit 1 1540 32 32 1508; unit 2 1640 35 35 1605; unit 3 4720 100 33 4620; aquifer 1 700 300"),
    ("returning-use-7", "unit 1 1540 32 32 1508; unit 2 1640 35 35 1605; unit 3 4720 100 33 4620; aquifer 1 700 300"),
    ("returning-use-8", "unit 1 1540 33 33 1507; unit 2 1540 33 33 1507; unit 3 4620 100 34 4520; aquifer 1 700 400"),
    ("returning-volume-1", "unit 1 1540 0 0 1540; aquifer 1 20000000 19999999"),
    ("returning-volume-10000000", "unit 1 2001540 0 0 2001540; aquifer 1 20000000 10000000"),
    ("returning-16-other-entries-full", "unit 1 100 0 20001540 100; aquifer 1 20000000 19999900"),
    ("returning-to-deficit", "unit 1 1640 5000 5000 -3360; aquifer 1 20000000 19999900"),
    ("returning-ends-deficit", "unit 1 1500 1600 1650 -100; aquifer 1 20000000 20000000"),
    ("returning-floor-use-1-volume-1", "unit 1 0 0 0 0; aquifer 1 20000000 19999999"),
    ("returning-floor-use-1-volume-4", "unit 1 0 0 0 0; aquifer 1 20000000 19999996"),
    ("returning-floor-use-1-volume-5", "unit 1 1 0 0 1; aquifer 1 20000000 19999995"),
    ("returning-floor-use-2-volume-1", "unit 1 0 0 0 0; aquifer 1 20000000 19999999"),
    ("returning-floor-use-3-volume-2", "unit 1 1 0 0 1; aquifer 1 20000000 19999998"),
    ("returning-floor-use-5-volume-6", "unit 1 0 0 0 0; aquifer 1 20000000 19999994"),
    ("returning-floor-use-5-volume-7", "unit 1 1 0 0 1; aquifer 1 20000000 19999993"),
    ("returning-floor-use-7-volume-1", "unit 1 1 0 0 1; aquifer 1 20000000 19999999"),
    ("cancelled-returning-9", "unit 1 1543 33 33 1510; unit 2 1540 33 33 1507; unit 3 4623 100 34 4523; aquifer 1 700 373"),
    ("cancelled-returning-of-each-use", "unit 1 1540 33 33 1507; unit 2 1540 33 33 1507; unit 3 4620 100 34 4520; aquifer 1 700 400"),
    ("cancel-returning-spent-63", "unit 1 50 0 0 50; aquifer 1 20000000 20000000"),
    ("cancel-returning-exported-midway", "unit 1 100 100 100 0; unit 2 0 0 0 0; unit 3 1540 0 0 1540; unit 4 100 0 0 100; aquifer 1 20000000 19999900"),
    ("cancel-returning-refused-keeps-aquifer", "unit 1 0 0 0 0; aquifer 1 100 0"),
    ("returning-from-2-to-1", "unit 1 1615 255 255 1360; unit 2 3155 500 245 2655; unit 3 1540 350 350 1190; unit 4 3080 700 350 2380; unit 5 1540 900 900 640; aquifer 1 500 500; aquifer 2 600 500; aquifer 3 700 700"),
    ("returning-from-1-to-2", "unit 1 1540 244 244 1296; unit 2 3155 500 256 2655; unit 3 1540 350 350 1190; unit 4 3080 700 350 2380; unit 5 1540 900 900 640; aquifer 1 500 400; aquifer 2 600 600; aquifer 3 700 700"),
    ("returning-from-2-to-5", "unit 1 1540 250 250 1290; unit 2 3080 500 250 2580; unit 3 1540 350 350 1190; unit 4 3080 700 350 2380; unit 5 1615 900 900 715; aquifer 1 500 500; aquifer 2 600 500; aquifer 3 700 700"),
    ("returning-to-other-basin", "unit 1 1380 378 578 1002; unit 2 2620 500 422 2120; unit 3 1840 340 340 1500; unit 4 3780 700 360 3080; unit 5 1705 900 900 805; aquifer 1 500 500; aquifer 2 600 600; aquifer 3 700 0"),
    ("returning-to-other-basin-alone-in-force", "unit 1 1540 250 250 1290; unit 2 3080 500 250 2580; unit 3 1540 350 350 1190; unit 4 3080 700 350 2380; unit 5 1705 900 900 805; aquifer 1 500 500; aquifer 2 600 600; aquifer 3 700 400"),
    ("returning-beside-withdraw-cancel-1", "unit 1 1540 33 33 1507; unit 2 1515 33 133 1482; unit 3 4595 100 34 4495; aquifer 1 700 400"),
    ("returning-beside-withdraw-cancel-2", "unit 1 1540 32 32 1508; unit 2 1615 35 35 1580; unit 3 4695 100 33 4595; aquifer 1 700 300"),
];

#[test]
fn tables_worked_by_hand() {
    let books = boundary::books();
    for (name, expected) in TABLES {
        assert_eq!(lines(&named(&books, name).book, false), expected, "{name}");
    }
}

#[test]
fn records_after_the_call() {
    let books = boundary::books();
    let given = "refused 2 at 388; unit 1 1615 34 34 1581; unit 2 1540 33 33 1507; unit 3 4695 100 33 4595; aquifer 1 700 300";
    for word in ["unit", "soil", "rain", "tenths", "gauge", "aquifer"] {
        let book = &named(&books, &format!("{word}-after-returning")).book;
        assert_eq!(lines(book, false), given, "{word}");
    }
    for word in ["unit", "tenths"] {
        let book = &named(&books, &format!("short-{word}-after-returning")).book;
        assert_eq!(lines(book, false), given, "{word}");
    }
    let cut = printed_bytes(&named(&books, "cut-bring-by-1").book);
    assert!(cut.contains("refused 1 at 387\n"));
    for missing in 1..=7 {
        let book = &named(&books, &format!("cut-returning-by-{missing}")).book;
        assert_eq!(printed_bytes(book), cut, "{missing}");
    }
}

#[test]
fn cancelled_titles_leave_the_table_of_a_book_without_them() {
    let books = boundary::books();
    let none = lines(&named(&books, "returning-use-0").book, false);
    for name in [
        "cancel-returning",
        "cancel-returning-after-refusal",
        "cancel-all-256-returning-from-first",
        "cancel-all-256-returning-from-last",
        "grant-cancel-returning-257",
        "returning-refused-between",
    ] {
        assert_eq!(lines(&named(&books, name).book, false), none, "{name}");
    }
}
