//! Journals with moving windows: each refusal and its order, each limit on both sides, values, cut records,
//! and where such a record stands.

use super::{join, t, List, BASIN, FOREST, GRANT, PAGE};
use crate::journal::{Own, LONGEST_JOURNAL};
use crate::record::SoilRecord;
use crate::windows::Request;

/// One window of 1540.
pub(super) const WINDOW: &str = "windows width=20 soil=8,1,10000 tenths=8000x20";
/// One that is refused.
const NO_WINDOW: &str = "windows width=20 soil=8,1,10000 tenths=8000x19";

/// An area as cover, soil and hectares.
type Area = (u8, u8, u32);

/// Forest that gives 1540 in a year of 8000 tenths.
const WOOD: [Area; 1] = [(8, 1, 10_000)];
/// Areas that give 0.5 in a year of 5000 tenths.
const HALF: [Area; 2] = [(8, 1, 8), (9, 1, 2)];

fn window(width: u8, areas: &[Area], years: &[u16]) -> Vec<u8> {
    let areas = areas.iter().map(|(cover, soil, hectares)| SoilRecord {
        cover: *cover,
        soil: *soil,
        hectares: *hectares,
    });
    let request = Request {
        width,
        areas: areas.collect(),
        years: years.to_vec(),
    };
    Own::Windows(request).bytes()
}

/// Years from 6000 tenths on, each 7 above the one before, from 12,993 on again from 6000.
fn years(count: usize) -> Vec<u16> {
    (0..count)
        .map(|place| 6000 + 7 * (place % 1000) as u16)
        .collect()
}

/// The same years with one put in.
fn years_with(count: usize, place: usize, tenths: u16) -> Vec<u16> {
    let mut years = years(count);
    years[place] = tenths;
    years
}

impl List {
    /// A journal of moving windows after one unit, and a grant after them.
    fn windows(&mut self, name: &str, windows: impl IntoIterator<Item = Vec<u8>>) {
        let mut journal = t(FOREST);
        windows.into_iter().for_each(|own| journal.extend(own));
        journal.extend(t(GRANT));
        self.add(name, journal);
    }
}

pub(super) fn windows(list: &mut List) {
    widths(list);
    areas(list);
    rain(list);
    order(list);
    values(list);
    halves(list);
    places(list);
    cut(list);
    counts(list);
    pages(list);
}

/// Journals of full length with large outputs.
pub(super) fn large(list: &mut List) {
    let most = window(20, &WOOD, &years(200));
    let fill = |own: &[u8]| super::filled(t(FOREST), LONGEST_JOURNAL, own);
    list.add("j-longest-wi", fill(&most));
    list.add("j-longest-wi-refused", fill(&window(20, &[], &[])));
}

fn widths(list: &mut List) {
    let widths = [0, 1, 19, 20, 21, 49, 50, 51, 60, 128, 255];
    list.windows(
        "j-wi-widths-of-60",
        widths.map(|width| window(width, &WOOD, &years(60))),
    );
    list.windows(
        "j-wi-widths-of-as-many",
        (19..=51).map(|width| window(width, &WOOD, &years(width.into()))),
    );
    list.windows(
        "j-wi-widths-of-one-fewer",
        (20..=51).map(|width| window(width, &WOOD, &years(usize::from(width) - 1))),
    );
    list.windows(
        "j-wi-widths-of-200",
        (20..=50).map(|width| window(width, &WOOD, &years(200))),
    );
    for width in [20, 35, 50] {
        let counts = [
            0, 1, 19, 20, 21, 34, 35, 36, 49, 50, 51, 199, 200, 201, 255, 256, 257, 456,
        ];
        list.windows(
            &format!("j-wi-years-of-{width}"),
            counts.map(|count| window(width, &WOOD, &years(count))),
        );
    }
    list.windows("j-wi-181", [window(20, &WOOD, &years(200))]);
    list.windows("j-wi-200-years-then-20", {
        let count = |count| window(20, &WOOD, &years(count));
        [count(200), count(20), count(201), count(21), count(200)]
    });
}

fn areas(list: &mut List) {
    let one = |area: Area| window(20, &[area], &years(21));
    let counted = [0, 1, 2, 15, 16, 17, 18, 255];
    list.windows(
        "j-wi-areas",
        counted.map(|count| window(20, &vec![(8, 1, 1000); count], &years(21))),
    );
    list.windows(
        "j-wi-covers",
        [0, 1, 14, 15, 255].map(|cover| one((cover, 2, 500))),
    );
    list.windows(
        "j-wi-soils",
        [0, 1, 2, 3, 4, 255].map(|soil| one((8, soil, 500))),
    );
    list.windows(
        "j-wi-hectares",
        [0, 1, 299_999, 300_000, 300_001, 1 << 31, u32::MAX].map(|hectares| one((8, 1, hectares))),
    );
    let pairs = (1..=14).flat_map(|cover| (1..=3).map(move |soil| (cover, soil, 1000)));
    list.windows("j-wi-pairs", pairs.map(one));
    let wrong = [
        (0, 1, 9),
        (15, 1, 9),
        (8, 0, 9),
        (8, 4, 9),
        (8, 1, 0),
        (8, 1, 300_001),
    ];
    let among = |place: usize, area: Area| {
        let mut areas = [(8, 1, 1000); 16];
        areas[place] = area;
        window(20, &areas, &years(20))
    };
    let all = [0, 7, 15].into_iter();
    list.windows(
        "j-wi-wrong-areas",
        all.flat_map(|place| wrong.map(|area| among(place, area))),
    );
    let full = |areas: &[u32]| {
        let areas: Vec<Area> = areas.iter().map(|hectares| (8, 1, *hectares)).collect();
        window(20, &areas, &years(20))
    };
    let with = |place: usize, hectares: u32| {
        let mut areas = [18_750; 16];
        areas[place] = hectares;
        areas
    };
    list.windows(
        "j-wi-hectares-in-all",
        [
            full(&[299_999, 1]),
            full(&[300_000, 1]),
            full(&[1, 300_000]),
            full(&[150_000, 150_000]),
            full(&[150_001, 150_000]),
            full(&[300_000, 300_000]),
            full(&[18_750; 16]),
            full(&with(0, 18_751)),
            full(&with(15, 18_751)),
            full(&with(8, 18_749)),
            full(&[300_000; 16]),
        ],
    );
}

fn rain(list: &mut List) {
    let limits = [0, 350, 2150, 3499, 3500, 21_500, 21_501, 32_768, 65_535];
    for (word, place) in [("first", 0), ("in-all", 12), ("entering", 20), ("last", 29)] {
        list.windows(
            &format!("j-wi-rain-{word}"),
            limits.map(|tenths| window(20, &WOOD, &years_with(30, place, tenths))),
        );
    }
    let out = |place, tenths| window(50, &WOOD, &years_with(200, place, tenths));
    list.windows("j-wi-rain-200", {
        let wet = [out(0, 21_501), out(199, 21_501), out(100, 21_501)];
        let dry = [out(0, 3499), out(199, 3499), out(199, 3500)];
        [wet, dry].concat()
    });
}

/// Every pair of a fault of the areas and one of the years, with a window that is and isn't 20 years wide.
fn order(list: &mut List) {
    let (fine, wrong, wide) = ((8, 1, 10), (15, 1, 10), (8, 1, 300_000));
    let areas: [&[Area]; 11] = [
        &[fine],
        &[],
        &[fine; 17],
        &[&[fine; 16][..], &[wrong]].concat(),
        &[&[wrong][..], &[fine; 16]].concat(),
        &[wide; 17],
        &[&[wrong][..], &[wide; 16]].concat(),
        &[wrong],
        &[wide, wide],
        &[wrong, wide, wide],
        &[wide, wide, wrong],
    ];
    let rain = [
        years(20),
        years_with(20, 0, 3499),
        years(201),
        years_with(201, 200, 21_501),
        years(19),
        vec![0; 19],
        Vec::new(),
    ];
    for width in [0, 19, 20, 51] {
        let pairs = areas
            .iter()
            .flat_map(|areas| rain.iter().map(move |rain| window(width, areas, rain)));
        list.windows(&format!("j-wi-order-{width}"), pairs);
    }
}

fn values(list: &mut List) {
    let small: [Area; 1] = [(8, 1, 1)];
    let largest: [Area; 1] = [(13, 3, 300_000)];
    list.windows(
        "j-wi-value-0",
        [
            window(20, &small, &[3500; 20]),
            window(50, &small, &[3500; 200]),
            window(50, &small, &years(60)),
        ],
    );
    let dry_then_wet = [[3500; 30], [21_500; 30]].concat();
    let wet_then_dry = [[21_500; 30], [3500; 30], [21_500; 30]].concat();
    list.windows(
        "j-wi-value-from-0",
        [
            window(20, &small, &dry_then_wet),
            window(20, &small, &wet_then_dry),
            window(30, &HALF, &dry_then_wet),
        ],
    );
    list.windows(
        "j-wi-largest",
        [20, 50].map(|width| window(width, &largest, &[21_500; 200])),
    );
    let mut one_wet_year = [3500; 100];
    one_wet_year[50] = 21_500;
    let mut one_dry_year = [21_500; 100];
    one_dry_year[50] = 3500;
    list.windows(
        "j-wi-one-year",
        [
            window(20, &WOOD, &one_wet_year),
            window(20, &WOOD, &one_dry_year),
            window(50, &largest, &one_wet_year),
            window(50, &largest, &one_dry_year),
        ],
    );
    let falling: Vec<u16> = years(90).into_iter().rev().collect();
    list.windows(
        "j-wi-rising-and-falling",
        [
            window(20, &WOOD, &years(90)),
            window(20, &WOOD, &falling),
            window(50, &largest, &falling),
        ],
    );
    let threshold = |low, high| window(20, &[(5, 1, low), (8, 2, high)], &years(24));
    list.windows(
        "j-wi-threshold",
        [
            threshold(5000, 5000),
            threshold(5000, 5001),
            threshold(5001, 5000),
            threshold(4000, 6000),
            threshold(6000, 4000),
            threshold(1, 1),
        ],
    );
    list.windows(
        "j-wi-first-year-and-last",
        [
            window(20, &WOOD, &years_with(21, 0, 21_500)),
            window(20, &WOOD, &years_with(21, 20, 21_500)),
        ],
    );
}

/// Windows whose mean is a half, a little less or a little more, in every place.
fn halves(list: &mut List) {
    let halves = |width, count, place: usize, tenths| {
        let mut years = vec![5000; count];
        years[place] = tenths;
        window(width, &HALF, &years)
    };
    let around =
        |width, count, place| [4999, 5000, 5001].map(|tenths| halves(width, count, place, tenths));
    list.windows(
        "j-wi-halves",
        [
            around(20, 41, 0),
            around(20, 41, 20),
            around(20, 41, 40),
            around(21, 41, 20),
            around(50, 99, 49),
        ]
        .concat(),
    );
    let double: [Area; 2] = [(8, 1, 24), (9, 1, 6)];
    list.windows(
        "j-wi-halves-above-1",
        [4999, 5000, 5001].map(|tenths| window(20, &double, &[tenths; 22])),
    );
}

/// Where a moving window can stand.
fn places(list: &mut List) {
    list.text("j-wi-alone", WINDOW);
    list.text("j-wi-refused-alone", NO_WINDOW);
    list.text("j-wi-first", &format!("{BASIN}; {WINDOW}"));
    list.text("j-wi-first-refused", &format!("{BASIN}; {NO_WINDOW}"));
    list.text(
        "j-wi-after-aquifers",
        &format!("aquifer natural=90; {WINDOW}; pump aquifer=1 volume=80"),
    );
    list.text(
        "j-wi-after-call",
        &format!("{BASIN}; {GRANT}; {WINDOW}; {GRANT}"),
    );
    list.text(
        "j-wi-thrice",
        &format!("{BASIN}; {WINDOW}; {WINDOW}; {NO_WINDOW}"),
    );
    list.text(
        "j-wi-between-all",
        &format!("{BASIN}; {WINDOW}; keep A; {WINDOW}; {GRANT}; {NO_WINDOW}; keep B; {WINDOW}; back A; {WINDOW}; cancel 1; {WINDOW}; back B; {NO_WINDOW}; cancel 1; {WINDOW}; {GRANT}"),
    );
    list.text(
        "j-wi-between-names",
        &format!("{BASIN}; keep A; {WINDOW}; keep B; {WINDOW}; keep C; {WINDOW}; keep D; {WINDOW}; keep E; {WINDOW}; keep B; {NO_WINDOW}; back E; {WINDOW}; back D"),
    );
    let refused = super::repeated("cancel 1", 8);
    list.text(
        "j-wi-counted",
        &format!("{BASIN}; {refused}; {WINDOW}; {NO_WINDOW}; {GRANT}; cancel 1"),
    );
    let marks = [b"KP", b"GB", b"UN", b"WI", b"CA", b"GU", b"AC"].map(|mark| {
        let years = [u16::from_le_bytes(*mark); 20];
        window(20, &WOOD, &years)
    });
    list.windows("j-wi-years-of-marks", marks);
    for (word, bytes) in [
        ("unit", t("unit")),
        ("soil", t("soil cover=8 soil=1 hectares=10000")),
        ("tenths", t("tenths 8000")),
        ("keep", t("keep A")),
        ("cancel", t("cancel 1")),
        ("unknown-mark", b"XX".to_vec()),
        ("lone-w", b"W".to_vec()),
    ] {
        list.add(
            &format!("j-wi-then-{word}"),
            join(&format!("{BASIN}; {WINDOW}"), &bytes),
        );
    }
}

/// Moving windows without their last bytes: in the counts, in the area and in the years.
fn cut(list: &mut List) {
    let whole = window(20, &WOOD, &years(20));
    let given = format!("{BASIN}; {GRANT}; {WINDOW}; {GRANT}");
    for length in (0..=13).chain([30, 48, 49]) {
        let short = &whole[..2 + length];
        list.add(&format!("j-wi-short-{length}"), join(FOREST, short));
        list.add(
            &format!("j-wi-short-{length}-after-calls"),
            join(&given, short),
        );
    }
    for length in [0, 3, 4, 9, 10, 49] {
        let short = &whole[..2 + length];
        list.add(&format!("j-wi-short-{length}-alone"), short.to_vec());
        list.add(&format!("j-wi-short-{length}-in-unit"), join("unit", short));
    }
    for (word, text) in [
        ("", ""),
        ("-in-unit", "unit"),
        ("-after-unit", FOREST),
        ("-after-calls", &given),
    ] {
        list.add(&format!("j-lone-w{word}"), join(text, b"W"));
    }
    let refused = window(19, &[(0, 0, 0)], &[0; 3]);
    list.add(
        "j-wi-short-of-a-refused",
        join(FOREST, &refused[..refused.len() - 1]),
    );
    list.add(
        "j-wi-inside-wi",
        join(FOREST, &[&whole[..20], &whole].concat()),
    );
    list.add(
        "j-wi-after-short-record",
        join(FOREST, &[&t("aquifer")[..7], &whole].concat()),
    );
}

/// Counts that say more or fewer areas and years than there are.
fn counts(list: &mut List) {
    let counted = |areas: u8, years: u16, left: usize| {
        let mut own = vec![b'W', b'I', 20, areas];
        own.extend(years.to_le_bytes());
        own.resize(6 + left, 0);
        own
    };
    for (areas, years) in [
        (0, 0),
        (1, 0),
        (0, 1),
        (255, 0),
        (0, 256),
        (17, 201),
        (255, 65_535),
    ] {
        let whole = 6 * usize::from(areas) + 2 * usize::from(years);
        let name = format!("j-wi-counts-{areas}-{years}");
        list.windows(&name, [counted(areas, years, whole)]);
        let mut short = vec![0, 1, whole.saturating_sub(1).min(1600), 60];
        short.retain(|left| *left < whole);
        short.dedup();
        for left in short {
            let own = counted(areas, years, left);
            list.add(&format!("{name}-left-{left}"), join(FOREST, &own));
        }
    }
    let mut swapped = window(20, &WOOD, &years(20));
    swapped.swap(4, 5);
    list.add("j-wi-count-of-5120", join(FOREST, &swapped));
    let mut fewer = window(20, &WOOD, &years(21));
    fewer[4] = 20;
    list.add("j-wi-one-year-too-many", join(FOREST, &fewer));
}

/// Moving windows where the program starts a page of replies, and many with long replies.
fn pages(list: &mut List) {
    let start = join(FOREST, &t("cancel 2").repeat(PAGE - 1));
    let most = window(20, &WOOD, &years(200));
    list.add(
        "j-wi-at-16384-and-16385",
        [&start[..], &most, &most, &t(GRANT)].concat(),
    );
    list.windows("j-wi-of-181-many", vec![most; 60]);
}
