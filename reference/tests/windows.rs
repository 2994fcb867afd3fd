//! The moving window: the appendix's years, books of just a window's years, limits, refusals, and the fast model.

mod common;

use common::{book, BASIN};
use reference::book::open;
use reference::journal::{self, Own};
use reference::random::Source;
use reference::record::{book_of, Record, SoilRecord, UnitRecord};
use reference::windows::{reply, runoffs, Reply, Request, MOST_RAIN_YEARS, PLACES};
use reference::{fast, random_windows, text};

/// An area of forest that gives 1540 in a year of 8000 tenths.
const WOOD: SoilRecord = SoilRecord {
    cover: 8,
    soil: 1,
    hectares: 10_000,
};

fn request(width: u8, areas: &[SoilRecord], years: &[u16]) -> Request {
    Request {
        width,
        areas: areas.to_vec(),
        years: years.to_vec(),
    }
}

/// What a window of forest in so many equal years gives.
fn of_wood(width: u8, years: usize) -> Result<Vec<i64>, u8> {
    runoffs(&request(width, &[WOOD], &vec![8000; years]))
}

/// The rain years and areas of the example from appendix D.
fn appendix_d() -> (Vec<SoilRecord>, Vec<u16>) {
    let text = include_str!("../../examples/tequisistlan.txt");
    let bytes = text::make(text).expect("the example is well formed");
    let records = reference::record::records_of(&bytes).expect("the records are whole");
    let areas = records.iter().filter_map(|record| match record {
        Record::Soil(area) => Some(*area),
        _ => None,
    });
    let years = records.iter().filter_map(|record| match record {
        Record::Tenths(tenths) => Some(*tenths),
        _ => None,
    });
    (areas.collect(), years.collect())
}

/// The sums of the appendix's rows, by its own formula for one basin with K 0.25, over the years of each window.
#[test]
fn windows_of_appendix_d() {
    let (areas, years) = appendix_d();
    for (width, expected) in [
        (20, vec![263_993, 261_136, 263_946]),
        (21, vec![265_202, 261_071]),
        (22, vec![264_955]),
    ] {
        assert_eq!(runoffs(&request(width, &areas, &years)), Ok(expected));
    }
    assert_eq!(runoffs(&request(23, &areas, &years)), Err(24));
}

#[test]
fn the_papers_cases_of_natural_runoff() {
    let area = |cover, soil, hectares| SoilRecord {
        cover,
        soil,
        hectares,
    };
    let only = |areas: &[SoilRecord], years: &[u16]| runoffs(&request(20, areas, years));
    assert_eq!(only(&[area(14, 2, 10_000)], &[8000; 20]), Ok(vec![10_080]));
    assert_eq!(only(&[WOOD], &[8000; 20]), Ok(vec![1540]));
    let two_rains = [[4000; 10], [12_000; 10]].concat();
    assert_eq!(only(&[WOOD], &two_rains), Ok(vec![2100]));
    let half = [area(8, 1, 8), area(9, 1, 2)];
    assert_eq!(only(&half, &[5000; 21]), Ok(vec![1, 1]));
    let mut less = [5000; 21];
    less[0] = 4999;
    assert_eq!(only(&half, &less), Ok(vec![0, 1]));
    assert_eq!(only(&[area(8, 1, 1)], &[3500; 22]), Ok(vec![0; 3]));
}

/// The natural runoff of the unit of a book with these areas and years.
fn of_book(areas: &[SoilRecord], years: &[u16]) -> i64 {
    let mut records = vec![Record::Unit(UnitRecord::default())];
    records.extend(areas.iter().map(|area| Record::Soil(*area)));
    records.extend(years.iter().map(|tenths| Record::Tenths(*tenths)));
    let opened = open(&book_of(&records)).expect("the book is accepted");
    opened.balance.units[0].runoff
}

#[test]
fn each_window_gives_what_a_book_of_just_its_years_gives() {
    let mut source = Source::new(5);
    let mut zeros = 0;
    for _ in 0..500 {
        let request = random_windows::sound(&mut source);
        let width = usize::from(request.width);
        let runoffs = runoffs(&request).expect("the request is sound");
        assert_eq!(runoffs.len(), request.years.len() - width + 1);
        for (first, runoff) in runoffs.iter().enumerate() {
            let years = &request.years[first..first + width];
            assert_eq!(*runoff, of_book(&request.areas, years));
            zeros += usize::from(*runoff == 0);
        }
    }
    assert!(zeros > 100, "{zeros}");
}

#[test]
fn widths_and_years_within_their_limits() {
    for (width, years, windows) in [
        (20, 20, 1),
        (20, 21, 2),
        (20, 199, 180),
        (20, 200, 181),
        (21, 200, 180),
        (49, 49, 1),
        (50, 50, 1),
        (50, 51, 2),
        (50, 200, 151),
    ] {
        assert_eq!(of_wood(width, years), Ok(vec![1540; windows]));
    }
    for (width, years) in [
        (0, 0),
        (0, 60),
        (1, 60),
        (19, 19),
        (19, 60),
        (51, 60),
        (51, 51),
        (255, 255),
        (20, 0),
        (20, 19),
        (50, 49),
        (20, 201),
        (50, 201),
        (20, 256),
        (20, 276),
        (20, 65_535),
    ] {
        assert_eq!(of_wood(width, years), Err(24), "{width} {years}");
    }
}

#[test]
fn areas_within_their_limits() {
    let small = SoilRecord {
        hectares: 1,
        ..WOOD
    };
    for (count, refused) in [(0, Some(3)), (1, None), (16, None), (17, Some(4))] {
        let areas = vec![WOOD; count];
        assert_eq!(reply(&request(20, &areas, &[8000; 20])).refused, refused);
    }
    for (change, refused) in [
        ((0, 1, 1), Some(5)),
        ((1, 1, 1), None),
        ((14, 1, 1), None),
        ((15, 1, 1), Some(5)),
        ((8, 0, 1), Some(5)),
        ((8, 3, 1), None),
        ((8, 4, 1), Some(5)),
        ((8, 1, 0), Some(5)),
        ((8, 1, 299_999), None),
        ((8, 1, 300_000), Some(7)),
        ((8, 1, 300_001), Some(5)),
        ((8, 1, u32::MAX), Some(5)),
    ] {
        let (cover, soil, hectares) = change;
        let changed = SoilRecord {
            cover,
            soil,
            hectares,
        };
        for areas in [[small, changed], [changed, small]] {
            let reply = reply(&request(20, &areas, &[8000; 20]));
            assert_eq!(reply.refused, refused, "{change:?}");
        }
    }
    let whole = SoilRecord {
        hectares: 300_000,
        ..WOOD
    };
    assert_eq!(reply(&request(20, &[whole], &[8000; 20])).refused, None);
}

#[test]
fn rain_within_its_limits() {
    for (tenths, refused) in [
        (0, Some(5)),
        (350, Some(5)),
        (3499, Some(5)),
        (3500, None),
        (21_500, None),
        (21_501, Some(5)),
        (65_535, Some(5)),
    ] {
        for place in [0, 10, 20, 39] {
            let mut years = [8000; 40];
            years[place] = tenths;
            let reply = reply(&request(20, &[WOOD], &years));
            assert_eq!(reply.refused, refused, "{tenths} at {place}");
        }
    }
}

/// Each list of faults has the refusal of the first: width and years, no areas, too many, an area, hectares, rain.
#[test]
fn the_first_refusal_in_order_is_given() {
    let wrong = SoilRecord { soil: 4, ..WOOD };
    let wide = SoilRecord {
        hectares: 300_000,
        ..WOOD
    };
    let over = [wide, wide];
    let too_many = [wrong, wide].repeat(9);
    for (areas, expected) in [
        (&[][..], 3),
        (&too_many, 4),
        (&[wide; 17], 4),
        (&[wide, wide, wrong], 5),
        (&[wrong, wide, wide], 5),
        (&over, 7),
        (&[WOOD], 5),
    ] {
        let of = |width, years| runoffs(&request(width, areas, &vec![0; years]));
        assert_eq!(of(20, 20), Err(expected));
        for (width, years) in [(19, 30), (51, 60), (21, 20), (20, 0), (20, 201)] {
            assert_eq!(of(width, years), Err(24));
        }
    }
}

#[test]
fn unused_places_are_0() {
    assert_eq!(PLACES, 181);
    let most = reply(&request(20, &[WOOD], &[8000; MOST_RAIN_YEARS]));
    assert_eq!((most.refused, most.windows), (None, 181));
    assert_eq!(most.places, [1540; 181]);
    let two = reply(&request(20, &[WOOD], &[8000; 21]));
    assert_eq!((two.refused, two.windows), (None, 2));
    assert_eq!(two.places[..2], [1540; 2]);
    assert_eq!(two.places[2..], [0; 179]);
    let refused = reply(&request(20, &[], &[8000; 21]));
    assert_eq!(refused, Reply::refused(3));
    assert_eq!(refused.places, [0; 181]);
}

#[test]
fn the_fast_windows_are_those_of_the_plain_model() {
    let mut source = Source::new(6);
    let mut accepted = 0;
    let mut refused = [0; 25];
    for _ in 0..20_000 {
        let request = random_windows::request(&mut source);
        let expected = reply(&request);
        let (width, areas, years) = (request.width.into(), &request.areas, &request.years);
        assert!(fast::windows(width, areas, years) == expected);
        assert!(fast::windows_anew(width, areas, years) == expected);
        match expected.refused {
            Some(number) => refused[usize::from(number)] += 1,
            None => accepted += 1,
        }
    }
    assert!(accepted > 13_000, "{accepted}");
    for number in [3, 4, 5, 7, 24] {
        assert!(refused[number] > 150, "{number}: {}", refused[number]);
    }
}

#[test]
fn the_fast_windows_of_any_width() {
    let years = [21_500; 200];
    let wide = SoilRecord {
        cover: 13,
        soil: 3,
        hectares: 300_000,
    };
    for width in 0..300 {
        let expected = reply(&request(width.min(255) as u8, &[wide], &years));
        assert!(fast::windows(width, &[wide], &years) == expected);
        assert!(fast::windows_anew(width, &[wide], &years) == expected);
    }
    for width in [256 + 20, 65_536 + 20, usize::MAX] {
        assert_eq!(fast::windows(width, &[wide], &years), Reply::refused(24));
    }
}

// The journal's record

fn printed(journal: &[u8]) -> String {
    String::from_utf8(journal::run(journal)).expect("the output is ASCII")
}

/// The bytes by hand: width 20, one area, 258 years, then cover 8, soil 1, 10,000 hectares and the years.
#[test]
fn the_bytes_of_the_record() {
    let record = Own::Windows(request(20, &[WOOD], &[8000; 258])).bytes();
    let start = b"WI\x14\x01\x02\x01\x08\x01\x10\x27\0\0\x40\x1f\x40\x1f";
    assert_eq!(record[..start.len()], start[..]);
    assert_eq!(record.len(), 2 + 4 + 6 + 2 * 258);
    let (read, end) = journal::record_at(&record, 0).expect("the record is whole");
    assert_eq!((read.bytes(), end), (record.clone(), record.len()));
}

#[test]
fn the_lines_of_the_reply() {
    let table = printed(&book(BASIN));
    let calls = "windows width=20 soil=8,1,10000 tenths=8000x21; pump aquifer=1 volume=7;
                 windows width=20 soil=8,1,10000 tenths=8000x19; keep \"a\"; back \"a\"; cancel 1;
                 windows width=20 soil=8,1,1 tenths=3500x20";
    let replies = "call 1 windows 2\nwindow 1 1540\nwindow 2 1540\ncall 2 given 1\n\
                   call 3 refused 24\ncall 4 kept\ncall 5 back\ncall 6 cancelled 1\n\
                   call 7 windows 1\nwindow 1 0\n";
    let journal = book(&format!("{BASIN}; {calls}"));
    assert_eq!(printed(&journal), format!("{replies}{table}"));
    let alone = &book(calls)[..2 + 4 + 6 + 42];
    assert_eq!(
        printed(alone),
        "call 1 windows 2\nwindow 1 1540\nwindow 2 1540\n"
    );
}

#[test]
fn a_record_cut_anywhere_ends_the_description_and_is_refused_with_1() {
    let record = Own::Windows(request(20, &[WOOD, WOOD], &[8000; 20])).bytes();
    let table = printed(&book(BASIN));
    let open = "unit; soil cover=8 soil=1 hectares=10000; rain 800 x19";
    for length in 2..record.len() {
        let short = &record[..length];
        assert_eq!(printed(short), "refused 1 at 0\n");
        let mut journal = book(BASIN);
        let end = journal.len();
        journal.extend(short);
        assert_eq!(printed(&journal), format!("refused 1 at {end}\n{table}"));
        let mut journal = book(open);
        journal.extend(short);
        assert_eq!(printed(&journal), "refused 6 at 0\n");
    }
}

#[test]
fn a_length_follows_from_the_counts() {
    for (areas, years) in [(0, 0), (1, 0), (0, 1), (255, 0), (0, 256), (255, 65_535)] {
        let none = SoilRecord::default();
        let own = Own::Windows(request(20, &vec![none; areas], &vec![0; years])).bytes();
        assert_eq!(own.len(), 6 + 6 * areas + 2 * years);
        assert_eq!(printed(&own), "call 1 refused 24\n");
        let more = [&own[..], b"CA\x01\0"].concat();
        assert_eq!(printed(&more), "call 1 refused 24\ncall 2 refused 19\n");
    }
}

/// No balance is asked for, so that a window is the same after any description and calls.
#[test]
fn the_state_is_neither_asked_nor_changed() {
    let window = Own::Windows(request(20, &[WOOD], &[8000; 20])).bytes();
    let example = include_bytes!("../../examples/year.journal");
    let (_, end) = journal::open(example).expect("the example is accepted");
    let with = [&example[..end], &window, &example[end..], &window].concat();
    let text = printed(&with);
    let calls = printed(example).lines().count();
    assert_eq!(text.lines().count(), calls + 4);
    assert!(text.starts_with("call 1 windows 1\nwindow 1 1540\n"));
    let table = |text: &str| -> Vec<String> {
        let lines = text.lines().filter(|line| !line.starts_with("call"));
        let lines = lines.filter(|line| !line.starts_with("window"));
        lines.map(str::to_string).collect()
    };
    assert_eq!(table(&text), table(&printed(example)));
}
