//! Books as text.

mod common;

use reference::random::Source;
use reference::text::{make, show};

fn fault(text: &str) -> String {
    make(text).expect_err("the text has a fault").to_string()
}

#[test]
fn faults_have_their_line() {
    assert_eq!(
        fault("unit\n\n# note\nriver"),
        "line 4: unknown keyword 'river'"
    );
    assert_eq!(fault("unit flow=3"), "line 1: 'unit' has no field 'flow'");
    assert_eq!(
        fault("unit exports=1 exports=1"),
        "line 1: field 'exports' stands twice"
    );
    assert_eq!(fault("unit 3"), "line 1: '3' is not name=value");
    assert_eq!(
        fault("unit downstream=256"),
        "line 1: 256 does not fit in field 'downstream'"
    );
    assert_eq!(
        fault("pump volume=-1"),
        "line 1: -1 does not fit in field 'volume'"
    );
    assert_eq!(
        fault("pump-returning use=256"),
        "line 1: 256 does not fit in field 'use'"
    );
    assert_eq!(
        fault("pump-returning to=1"),
        "line 1: 'pump-returning' has no field 'to'"
    );
    assert_eq!(
        fault("unit\nrain"),
        "line 2: one number is wanted after the keyword"
    );
    assert_eq!(
        fault("rain 8 9"),
        "line 1: one number is wanted after the keyword"
    );
    assert_eq!(
        fault("rain 65536"),
        "line 1: 65536 does not fit in field 'rain'"
    );
    assert_eq!(
        fault("tenths 65536"),
        "line 1: 65536 does not fit in field 'tenths'"
    );
    assert_eq!(
        fault("tenths 800.5"),
        "line 1: '800.5' is not a whole number of fitting size"
    );
    assert_eq!(fault("rain 800 x0"), "line 1: repetition is not 1 to 65536");
    assert_eq!(
        fault("rain +8"),
        "line 1: '+8' is not a whole number of fitting size"
    );
    assert_eq!(
        fault("cancel"),
        "line 1: one number is wanted after the keyword"
    );
    assert_eq!(fault("unit x2"), "line 1: 'x2' is not name=value");
    assert_eq!(
        fault("soil hectares=99999999999999999999"),
        "line 1: '99999999999999999999' is not a whole number of fitting size"
    );
}

#[test]
fn bytes_that_are_no_records_have_their_offset() {
    let shown = |book: &[u8]| show(book).expect_err("the book has a fault").to_string();
    assert_eq!(shown(b"XX"), "byte 0: unknown mark");
    assert_eq!(
        shown(b"CA\0\0C"),
        "byte 4: fewer bytes left than the record has"
    );
    assert_eq!(
        shown(b"CA\0\0GU\0"),
        "byte 4: fewer bytes left than the record has"
    );
    assert_eq!(
        shown(b"CA\0\0GW\x01\x01\x01\x05\0\0"),
        "byte 4: fewer bytes left than the record has"
    );
}

#[test]
fn values_past_every_limit_go_through_text() {
    let lines = "unit downstream=255 extraction=4294967295 storage=-2147483648\n\
                 soil cover=255 soil=255 hectares=4294967295\nrain 65535\nrain 0\n\
                 tenths 65535\ntenths 0 x2\nrain 0\n\
                 gauge outflow=4294967295 storage=2147483647 x3\n\
                 aquifer storage=-2147483648 natural=4294967295\n\
                 withdraw unit=255 use=255 volume=4294967295\npump aquifer=255\n\
                 transfer from=255 to=255\nbring aquifer=255 unit=255\n\
                 pump-returning aquifer=255 unit=254 use=253 volume=4294967295\n\
                 cancel 65535\nunit\n";
    let book = make(lines).expect("the text is well formed");
    let text = show(&book).expect("the book is well formed");
    let without_comments: String = text
        .lines()
        .filter(|line| !line.is_empty() && !line.starts_with('#'))
        .map(|line| format!("{line}\n"))
        .collect();
    assert_eq!(without_comments, lines);
    assert_eq!(make(&text), Ok(book));
}

#[test]
fn the_fields_of_a_returning_withdrawal_have_their_order() {
    assert_eq!(
        make("pump-returning volume=67305985 use=3 unit=2 aquifer=1"),
        Ok(b"GW\x01\x02\x03\x01\x02\x03\x04".to_vec())
    );
}

#[test]
fn random_and_boundary_books_go_through_text() {
    let random = (0..3000).map(reference::random::book);
    let boundary = reference::boundary::books()
        .into_iter()
        .map(|named| named.book);
    let mut well_formed = 0;
    for book in random.chain(boundary) {
        match show(&book) {
            Ok(text) => {
                assert_eq!(make(&text), Ok(book));
                well_formed += 1;
            }
            Err(_) => assert!(!reference::boundary::is_well_formed(&book)),
        }
    }
    assert!(well_formed > 2000);
}

#[test]
fn names_of_kept_balances_have_two_forms() {
    for (line, journal) in [
        (r#"keep "dry year""#, b"KPdry year"),
        (r#"back "dry""#, b"GBdry\0\0\0\0\0"),
        (r#"keep """#, b"KP\0\0\0\0\0\0\0\0"),
        (r#"back " # \"\\ #""#, b"GB # \"\\ #\0"),
        (r#"keep " a  b ""#, b"KP a  b \0\0"),
        ("keep 0x00ff00000000007f", b"KP\0\xff\0\0\0\0\0\x7f"),
        ("back 0x6472790064727900", b"GBdry\0dry\0"),
    ] {
        assert_eq!(make(line), Ok(journal.to_vec()), "{line}");
        assert_eq!(show(journal), Ok(format!("\n# calls\n{line}\n")));
    }
    for (line, journal) in [
        ("  keep\t\"a\"  # a comment", b"KPa\0\0\0\0\0\0\0"),
        ("back \"a\"#comment", b"GBa\0\0\0\0\0\0\0"),
        ("keep 0x6100000000000000#comment", b"KPa\0\0\0\0\0\0\0"),
        ("keep 0x00000000000000aB # a", b"KP\0\0\0\0\0\0\0\xab"),
    ] {
        assert_eq!(make(line), Ok(journal.to_vec()), "{line}");
    }
}

#[test]
fn faults_of_names_have_their_line() {
    let wanted = "a name is wanted after the keyword";
    let long = "the name is longer than eight bytes";
    let open = "the quote is not closed";
    for (line, message) in [
        ("keep", wanted),
        ("back # \"a\"", wanted),
        ("keep \"123456789\"", long),
        (r#"keep "1234567\"\\""#, long),
        ("keep \"12345678", open),
        ("keep \"", open),
        ("keep \"a # b", open),
        (r#"keep "a\"#, open),
        (r#"keep "a\""#, open),
        (
            r#"keep "a\n""#,
            "a backslash stands before a quote or a backslash only",
        ),
        ("keep \"a\tb\"", "'\\t' is not a printable ASCII byte"),
        ("keep \"año\"", "'ñ' is not a printable ASCII byte"),
        ("keep \"\x7f\"", "'\\u{7f}' is not a printable ASCII byte"),
        ("keep \"a\" b # c", "'b # c' stands after the name"),
        ("keep \"a\"\"b\"", "'\"b\"' stands after the name"),
        (
            "keep dry",
            "'dry' is not a name in quotes or in hex digits after 0x",
        ),
        (
            "keep 0X6100000000000000",
            "'0X6100000000000000' is not a name in quotes or in hex digits after 0x",
        ),
        ("back 0x", "'0x' is not 0x and sixteen hex digits"),
        (
            "back 0x610000000000000",
            "'0x610000000000000' is not 0x and sixteen hex digits",
        ),
        (
            "back 0x61000000000000000",
            "'0x61000000000000000' is not 0x and sixteen hex digits",
        ),
        (
            "back 0x610000000000000g",
            "'0x610000000000000g' is not 0x and sixteen hex digits",
        ),
        (
            "back 0x+100000000000000",
            "'0x+100000000000000' is not 0x and sixteen hex digits",
        ),
        ("keep 0x6100000000000000 1", "'1' stands after the name"),
        ("keep\"a\"", "unknown keyword 'keep\"a\"'"),
    ] {
        let text = format!("unit\n\n{line}\nkeep \"later\"");
        assert_eq!(fault(&text), format!("line 3: {message}"));
    }
}

/// A name of bytes that are mostly special in text, or of any bytes.
fn random_name(source: &mut Source) -> [u8; 8] {
    let mut name = [0; 8];
    let any = source.chance(30);
    let length = source.below(9);
    for byte in &mut name[..length] {
        *byte = match any {
            true => source.below(256) as u8,
            false => source.pick(b"\"\\# \t\nax0~\x7f\0"),
        };
    }
    name
}

#[test]
fn journals_with_random_names_go_through_text() {
    let mut source = Source::new(1);
    let (mut quoted, mut in_hex) = (0, 0);
    for _ in 0..2000 {
        let mut journal = Vec::new();
        for _ in 0..10 {
            journal.extend(source.pick(&[b"KP", b"GB"]));
            journal.extend(random_name(&mut source));
        }
        let text = show(&journal).expect("the journal is well formed");
        quoted += text.matches(" \"").count();
        in_hex += text.matches(" 0x").count();
        assert_eq!(make(&text), Ok(journal));
    }
    assert!(quoted > 4000 && in_hex > 4000, "{quoted} {in_hex}");
}

#[test]
fn moving_windows_have_a_text() {
    for (line, journal) in [
        (
            "windows width=20 soil=8,1,10000 tenths=8000x2 tenths=8001 tenths=8000",
            &b"WI\x14\x01\x04\0\x08\x01\x10\x27\0\0\x40\x1f\x40\x1f\x41\x1f\x40\x1f"[..],
        ),
        ("windows width=0", b"WI\0\0\0\0"),
        (
            "windows width=255 soil=0,255,4294967295 soil=1,2,3",
            b"WI\xff\x02\0\0\0\xff\xff\xff\xff\xff\x01\x02\x03\0\0\0",
        ),
        (
            "windows width=1 tenths=65535 tenths=0",
            b"WI\x01\0\x02\0\xff\xff\0\0",
        ),
    ] {
        assert_eq!(make(line), Ok(journal.to_vec()), "{line}");
        assert_eq!(show(journal), Ok(format!("\n# calls\n{line}\n")));
    }
    let in_order = make("windows width=20 soil=8,1,5 soil=9,2,6 tenths=8000x3");
    for line in [
        "windows tenths=8000x2 soil=8,1,5 width=20 soil=9,2,6 tenths=8000",
        " windows\tsoil=8,1,5 tenths=8000 tenths=8000 tenths=8000 soil=9,2,6 width=20 # a comment",
        "windows soil=8,1,5 soil=9,2,6 tenths=8000x3 width=20#comment",
    ] {
        assert_eq!(make(line), in_order, "{line}");
    }
    assert_eq!(make("windows"), make("windows width=0"));
}

#[test]
fn faults_of_moving_windows_have_their_line() {
    let areas = "soil=8,1,5 ".repeat(256);
    let long = format!("windows {areas}");
    for (line, message) in [
        ("windows 20", "'20' is not name=value"),
        ("windows years=20", "'windows' has no field 'years'"),
        ("windows width=256", "256 does not fit in field 'width'"),
        ("windows width=1 width=1", "field 'width' stands twice"),
        ("windows soil=8,1", "'8,1' is not cover,soil,hectares"),
        (
            "windows soil=8,1,2,3",
            "'8,1,2,3' is not cover,soil,hectares",
        ),
        ("windows soil=256,1,2", "256 does not fit in field 'cover'"),
        ("windows soil=1,-1,2", "-1 does not fit in field 'soil'"),
        (
            "windows soil=1,1,4294967296",
            "4294967296 does not fit in field 'hectares'",
        ),
        (
            "windows tenths=65536",
            "65536 does not fit in field 'tenths'",
        ),
        ("windows tenths=8x0", "repetition is not 1 to 65536"),
        ("windows tenths=8x65537", "repetition is not 1 to 65536"),
        ("windows tenths=8x65536", "more than 65535 years"),
        ("windows tenths=8x65535 tenths=8", "more than 65535 years"),
        (&long, "more than 255 areas"),
        (
            "windows tenths=",
            "'' is not a whole number of fitting size",
        ),
    ] {
        let text = format!("unit\n\n{line}\nkeep \"later\"");
        assert_eq!(fault(&text), format!("line 3: {message}"));
    }
}

#[test]
fn random_windows_go_through_text() {
    let mut source = Source::new(2);
    for _ in 0..1000 {
        let request = reference::random_windows::request(&mut source);
        let journal = reference::journal::Own::Windows(request).bytes();
        let text = show(&journal).expect("the journal is well formed");
        assert_eq!(make(&text), Ok(journal));
    }
}

#[test]
fn a_journal_of_all_records_goes_through_text() {
    let lines = "unit\nkeep \"a\"\nrain 800 x20\nback \"b\"\naquifer natural=5\ncancel 1\nkeep 0x0100000000000000\nwindows width=20 tenths=8000x20\n";
    let journal = make(lines).expect("the text is well formed");
    let text = show(&journal).expect("the journal is well formed");
    assert_eq!(
        text,
        "\n# unit 1\nunit\n\n# calls\nkeep \"a\"\nrain 800 x20\nback \"b\"\n\
         \n# aquifer 1\naquifer natural=5\ncancel 1\nkeep 0x0100000000000000\n\
         windows width=20 tenths=8000x20\n"
    );
    assert_eq!(make(&text), Ok(journal));
}

#[test]
fn the_text_of_a_book() {
    let book = make("unit commitment=3\nsoil cover=8 soil=1 hectares=5\nrain 800 x20\nunit\naquifer\ncancel 1\ncancel 2")
        .expect("the text is well formed");
    assert_eq!(
        show(&book).as_deref(),
        Ok(
            "\n# unit 1\nunit commitment=3\nsoil cover=8 soil=1 hectares=5\nrain 800 x20\n\
            \n# unit 2\nunit\n\n# aquifer 1\naquifer\n\n# calls\ncancel 1\ncancel 2\n"
        )
    );
}

#[test]
fn own_records_with_a_short_body_have_their_offset() {
    for mark in [b"KP", b"GB"] {
        let journal = [b"CA\0\0", mark.as_slice(), b"1234567"].concat();
        let fault = show(&journal).expect_err("the journal has a fault");
        assert_eq!(
            fault.to_string(),
            "byte 4: fewer bytes left than the record has"
        );
    }
}
