//! The paper's listing and cases, and every refusal number.

mod common;

use common::{book, printed, printed_bytes, printed_example, BASIN};

const LISTING: &str = "call 1 given 1
call 2 refused 17
call 3 refused 17
call 4 given 2
unit 1 10080 4395 4395 5685
unit 2 1540 671 671 869
unit 3 8760 1000 934 7760
aquifer 1 2000 0
";

#[test]
fn case_h_the_listing() {
    assert_eq!(
        printed_example(include_str!("../../examples/listing.txt")),
        LISTING
    );
}

#[test]
fn cases_a_to_e_natural_runoff() {
    let unit = |rest: &str| printed(&format!("unit; {rest}"));
    let meadow = unit("soil cover=14 soil=2 hectares=10000; rain 800 x20");
    assert_eq!(meadow, "unit 1 10080 0 0 10080\n");
    let forest = unit("soil cover=8 soil=1 hectares=10000; rain 800 x20");
    assert_eq!(forest, "unit 1 1540 0 0 1540\n");
    let two_rains = unit("soil cover=8 soil=1 hectares=10000; rain 400 x10; rain 1200 x10");
    assert_eq!(two_rains, "unit 1 2100 0 0 2100\n");
    let half = unit("soil cover=8 soil=1 hectares=8; soil cover=9 soil=1 hectares=2; rain 500 x20");
    assert_eq!(half, "unit 1 1 0 0 1\n");
    let less = unit("soil cover=8 soil=1 hectares=1; soil cover=9 soil=1 hectares=6; rain 500 x20");
    assert_eq!(less, "unit 1 0 0 0 0\n");
}

#[test]
fn case_f_before_any_call() {
    let table = "unit 1 10080 3063 3063 7017\nunit 2 1540 468 468 1072\n\
                 unit 3 10160 1000 469 9160\naquifer 1 2000 200\n";
    assert_eq!(printed(BASIN), table);
}

#[test]
fn case_g_after_the_first_call() {
    let table = "call 1 given 1\nunit 1 10080 4460 4460 5620\nunit 2 1540 681 681 859\n\
                 unit 3 8560 1000 859 7560\naquifer 1 2000 200\n";
    let text = format!("{BASIN}; withdraw unit=3 use=1 volume=2000");
    assert_eq!(printed(&text), table);
}

/// Wells of 200 on the paper's book: 150 come back to unit 2 and reach unit 3 with its flow.
#[test]
fn well_water_that_comes_back() {
    let table = "call 1 given 1\nunit 1 10080 3029 3029 7051\nunit 2 1690 508 508 1182\n\
                 unit 3 10310 1000 463 9310\naquifer 1 2000 0\n";
    let text = format!("{BASIN}; pump-returning aquifer=1 unit=2 use=2 volume=200");
    assert_eq!(printed(&text), table);
}

#[test]
fn appendix_c() {
    let text = include_str!("../../examples/rio-bravo.txt");
    assert_eq!(printed_example(text), "unit 1 946062 0 0 946062\n");
}

#[test]
fn appendix_d() {
    let text = include_str!("../../examples/tequisistlan.txt");
    assert_eq!(printed_example(text), "unit 1 264955 0 0 264955\n");
}

#[test]
fn rain_in_tenths() {
    let forest = |years: &str| printed(&format!("{AREA}; {years}"));
    assert_eq!(forest("tenths 8000 x20"), "unit 1 1540 0 0 1540\n");
    assert_eq!(
        forest("rain 400 x10; tenths 12000 x10"),
        "unit 1 2100 0 0 2100\n"
    );
    // 8002 × 3 × 70,000 × 5502 / 6,000,000,000 is 1540.945 and some more.
    assert_eq!(forest("tenths 8002 x20"), "unit 1 1541 0 0 1541\n");
    assert_eq!(
        forest("tenths 8002 x19; rain 800"),
        "unit 1 1541 0 0 1541\n"
    );
    assert_eq!(
        forest("tenths 8002 x10; rain 800 x10"),
        "unit 1 1540 0 0 1540\n"
    );
}

#[test]
fn the_example_basin_prints_the_replies_of_its_comments() {
    let text = include_str!("../../examples/cuenca.txt");
    let expected: Vec<String> = text
        .lines()
        .filter_map(|line| line.split_once("# "))
        .map(|(_, comment)| comment.split(':').next().unwrap_or("").to_string())
        .filter(|reply| {
            let words: Vec<&str> = reply.split(' ').collect();
            words.len() == 2 && ["given", "refused", "cancelled"].contains(&words[0])
        })
        .collect();
    let replies: Vec<String> = printed_example(text)
        .lines()
        .filter(|line| line.starts_with("call "))
        .map(|line| line.splitn(3, ' ').nth(2).unwrap_or("").to_string())
        .collect();
    assert_eq!(expected.len(), 30);
    assert_eq!(replies, expected);
}

#[test]
fn an_empty_book_prints_nothing() {
    assert_eq!(printed(""), "");
    assert_eq!(printed("cancel 1"), "call 1 refused 19\n");
}

const FOREST: &str = "unit; soil cover=8 soil=1 hectares=10000; rain 800 x20";
const AREA: &str = "unit; soil cover=8 soil=1 hectares=10000";

#[test]
fn refusals_of_a_description() {
    assert_eq!(printed_bytes(b"U"), "refused 1 at 0\n");
    assert_eq!(printed_bytes(b"UN"), "refused 1 at 0\n");
    assert_eq!(printed_bytes(b"un"), "refused 2 at 0\n");
    for (text, refusal) in [
        ("rain 800".to_string(), "3 at 0"),
        (vec!["aquifer"; 33].join(";"), "4 at 704"),
        (format!("{FOREST}; rain 800 x31"), "4 at 239"),
        ("unit; soil".to_string(), "5 at 31"),
        ("tenths 8000".to_string(), "3 at 0"),
        ("unit; tenths 350".to_string(), "3 at 31"),
        ("unit; gauge; tenths 8000".to_string(), "3 at 65"),
        ("aquifer; tenths 8000".to_string(), "3 at 22"),
        (format!("{AREA}; tenths 8000; soil"), "3 at 43"),
        (format!("{AREA}; tenths 8000; gauge"), "3 at 43"),
        (format!("{FOREST}; tenths 8000 x30; rain 800"), "4 at 239"),
        (format!("{FOREST}; tenths 8000 x30; tenths 0"), "4 at 239"),
        (format!("{AREA}; tenths 3499"), "5 at 39"),
        (format!("{AREA}; tenths 21501"), "5 at 39"),
        (format!("{AREA}; tenths 350"), "5 at 39"),
        (format!("{AREA}; rain 3500"), "5 at 39"),
        (format!("{AREA}; tenths 8000 x9; rain 800 x10"), "6 at 0"),
        (format!("{FOREST}; unit; gauge x19"), "6 at 119"),
        (
            "unit; soil cover=1 soil=1 hectares=300000; soil cover=1 soil=1 hectares=1".to_string(),
            "7 at 39",
        ),
        (format!("{FOREST}; unit downstream=2"), "8 at 119"),
        (format!("{FOREST}; unit downstream=3; gauge x20"), "8 at 2"),
        ("unit; gauge inflow=1 x20; aquifer".to_string(), "9 at 0"),
        (format!("{FOREST}; unit exports=1; gauge x20"), "10 at 2"),
        ("aquifer storage=-1".to_string(), "11 at 0"),
    ] {
        assert_eq!(printed(&text), format!("refused {refusal}\n"), "{text}");
    }
    let length = "cancel 1;".repeat(16_384);
    assert_eq!(printed(&length).lines().count(), 16_384);
    let mut longer = book(&length);
    longer.push(b'X');
    assert_eq!(printed_bytes(&longer), "refused 21 at 65536\n");
}

/// The reply to the last call of a text.
fn last_reply(text: &str) -> String {
    let printed = printed(text);
    let call = printed.lines().rfind(|line| line.starts_with("call "));
    call.and_then(|line| line.splitn(3, ' ').nth(2))
        .unwrap_or("")
        .to_string()
}

#[test]
fn refusals_of_calls() {
    let wide = "aquifer natural=10000000 extraction=9999000";
    let full = vec!["pump aquifer=1 volume=1"; 256].join(";");
    let imported = "unit; gauge x20; aquifer natural=500";
    for (text, reply) in [
        (format!("{BASIN}; withdraw unit=4 use=9 volume=0"), "refused 12"),
        (format!("{BASIN}; bring aquifer=1 unit=4 volume=0"), "refused 12"),
        (format!("{BASIN}; withdraw unit=1 use=8 volume=0"), "refused 13"),
        (format!("{BASIN}; withdraw unit=1 use=7 volume=0"), "refused 14"),
        (format!("{BASIN}; pump aquifer=1 volume=10000001"), "refused 14"),
        (format!("{wide}; {full}"), "given 256"),
        (format!("{wide}; {full}; cancel 3; pump aquifer=1 volume=1"), "refused 15"),
        (format!("{wide}; {full}; pump aquifer=1 volume=9000000"), "refused 15"),
        (format!("{wide}; pump aquifer=1 volume=1001"), "refused 16"),
        (format!("{wide}; pump aquifer=1 volume=1000"), "given 1"),
        (format!("{BASIN}; pump aquifer=1 volume=201"), "refused 17"),
        (format!("{BASIN}; transfer from=3 to=3 volume=0"), "refused 18"),
        (format!("{BASIN}; transfer from=1 to=3 volume=5"), "refused 18"),
        (format!("{BASIN}; transfer from=3 to=1 volume=5"), "given 1"),
        (format!("{BASIN}; cancel 0"), "refused 19"),
        (format!("{BASIN}; pump aquifer=1 volume=5; cancel 1; cancel 1"), "refused 19"),
        (
            format!("{imported}; bring aquifer=1 unit=1 volume=9; withdraw unit=1 use=1 volume=5; cancel 1"),
            "refused 20",
        ),
        (format!("{imported}; bring aquifer=1 unit=1 volume=9; cancel 1"), "cancelled 1"),
        (format!("{BASIN}; pump-returning aquifer=2 unit=1 use=9 volume=0"), "refused 12"),
        (format!("{BASIN}; pump-returning aquifer=1 unit=4 use=9 volume=0"), "refused 12"),
        (format!("{BASIN}; pump-returning aquifer=1 unit=1 use=8 volume=0"), "refused 13"),
        (format!("{BASIN}; pump-returning aquifer=1 unit=1 use=7 volume=0"), "refused 14"),
        (format!("{FOREST}; {wide}; {full}; pump-returning aquifer=1 unit=1 use=1 volume=1001"), "refused 15"),
        (format!("{FOREST}; {wide}; pump-returning aquifer=1 unit=1 use=1 volume=1001"), "refused 16"),
        (format!("{BASIN}; pump-returning aquifer=1 unit=1 use=6 volume=201"), "refused 17"),
        (format!("{BASIN}; pump-returning aquifer=1 unit=1 use=6 volume=200"), "given 1"),
        (
            format!("{imported}; pump-returning aquifer=1 unit=1 use=6 volume=9; withdraw unit=1 use=1 volume=5; cancel 1"),
            "refused 20",
        ),
        (format!("{imported}; pump-returning aquifer=1 unit=1 use=6 volume=9; cancel 1"), "cancelled 1"),
    ] {
        assert_eq!(last_reply(&text), reply, "{text}");
    }
}

#[test]
fn a_failing_call_record_is_printed_before_the_table() {
    let text = format!("{FOREST}; cancel 1");
    let table = "unit 1 1540 0 0 1540\n";
    for (bytes, number) in [
        (&b"GU\x01"[..], 1),
        (b"GW\x01\x01\x01\x01\0\0", 1),
        (b"GV\x01\x01\x01\x01\0\0\0", 2),
        (b"G", 1),
        (b"XX", 2),
        (b"UN", 2),
        (b"PD", 2),
        (b"PD\x40\x1f", 2),
    ] {
        let mut book = book(&text);
        book.extend(bytes);
        let expected = format!("call 1 refused 19\nrefused {number} at 123\n{table}");
        assert_eq!(printed_bytes(&book), expected);
    }
}

#[test]
fn a_cancelled_title_takes_back_its_own_return() {
    let before = printed(BASIN);
    let calls =
        "withdraw unit=3 use=1 volume=3; withdraw unit=3 use=1 volume=4; cancel 1; cancel 2";
    let after = printed(&format!("{BASIN}; {calls}"));
    assert!(after.ends_with(&before));
}
