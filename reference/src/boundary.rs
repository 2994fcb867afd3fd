//! Named books at the limits of the paper and at the places where each refusal can arise.

mod reservoirs;
mod returning;

use crate::record::{self, Mark, Record};
use crate::{random, text, LONGEST_BOOK};

/// A named book.
pub struct Named {
    pub name: String,
    pub book: Vec<u8>,
}

/// A unit of forest whose natural runoff is 1540.
const FOREST: &str = "unit; soil cover=8 soil=1 hectares=10000; rain 800 x20";
/// Areas and years that follow a unit line and give 1540.
const RAIN: &str = "soil cover=8 soil=1 hectares=10000; rain 800 x20";
/// A unit of forest whose natural runoff is 1541, and 1540 by its rain in whole millimetres.
const FOREST_IN_TENTHS: &str = "unit; soil cover=8 soil=1 hectares=10000; tenths 8002 x20";
/// A unit line with an area whose rain years follow.
const MEADOW: &str = "unit; soil cover=14 soil=2 hectares=10000";
/// An aquifer with a recharge of 90.
const AQUIFER: &str = "aquifer storage=-10 natural=60 pumped=40 extraction=20";

/// The bytes of a text whose lines are separated by semicolons.
fn b(text: &str) -> Vec<u8> {
    match text::make(&text.replace(';', "\n")) {
        Ok(book) => book,
        Err(fault) => panic!("{text}: {fault}"),
    }
}

/// All named books, in the order in which they are made.
pub fn books() -> Vec<Named> {
    let mut list = List(Vec::new());
    whole_books(&mut list);
    runoff_cases(&mut list);
    year_counts(&mut list);
    rain_values(&mut list);
    tenths_values(&mut list);
    tenths_year_counts(&mut list);
    tenths_sequence(&mut list);
    tenths_short(&mut list);
    tenths_runoff(&mut list);
    tenths_flows(&mut list);
    areas(&mut list);
    counts(&mut list);
    unit_fields(&mut list);
    gauge_fields(&mut list);
    aquifer_fields(&mut list);
    downstream_numbers(&mut list);
    flows(&mut list);
    sequence(&mut list);
    short_records(&mut list);
    unknown_marks(&mut list);
    call_marks(&mut list);
    cancellations(&mut list);
    cancelled_returns(&mut list);
    water_in_use(&mut list);
    title_numbers(&mut list);
    cut_calls(&mut list);
    returning::books(&mut list);
    reservoirs::books(&mut list);
    mixed_calls(&mut list);
    lengths(&mut list);
    list.0
}

struct List(Vec<Named>);

impl List {
    fn add(&mut self, name: &str, book: Vec<u8>) {
        self.0.push(Named {
            name: name.to_string(),
            book,
        });
    }

    fn text(&mut self, name: &str, text: &str) {
        self.add(name, b(text));
    }
}

fn whole_books(list: &mut List) {
    list.text("empty", "");
    for (name, text) in [
        ("listing", include_str!("../../examples/listing.txt")),
        ("rio-bravo", include_str!("../../examples/rio-bravo.txt")),
        ("cuenca", include_str!("../../examples/cuenca.txt")),
        (
            "tequisistlan",
            include_str!("../../examples/tequisistlan.txt"),
        ),
    ] {
        list.add(name, text::make(text).expect("the example is well formed"));
    }
    list.text("aquifer-alone", AQUIFER);
    list.text("calls-alone", "withdraw unit=1 use=1 volume=5; cancel 1");
}

/// The cases (a) to (e); (f) is the listing.
fn runoff_cases(list: &mut List) {
    list.text(
        "case-a",
        "unit; soil cover=14 soil=2 hectares=10000; rain 800 x20",
    );
    list.text("case-b", FOREST);
    list.text(
        "case-c",
        "unit; soil cover=8 soil=1 hectares=10000; rain 400 x10; rain 1200 x10",
    );
    list.text(
        "case-d",
        "unit; soil cover=8 soil=1 hectares=8; soil cover=9 soil=1 hectares=2; rain 500 x20",
    );
    list.text(
        "case-e",
        "unit; soil cover=8 soil=1 hectares=1; soil cover=9 soil=1 hectares=6; rain 500 x20",
    );
}

fn year_counts(list: &mut List) {
    for years in [19, 20, 50, 51] {
        let rain = format!("unit; soil cover=8 soil=1 hectares=10000; rain 800 x{years}");
        list.text(&format!("rain-years-{years}"), &rain);
        let gauged = format!("unit; gauge outflow=70 inflow=20 x{years}");
        list.text(&format!("gauged-years-{years}"), &gauged);
    }
    let few = "unit; soil cover=8 soil=1 hectares=10000; rain 800 x19";
    list.text("rain-years-19-second", &format!("{FOREST}; {few}"));
    list.text("rain-years-19-then-unit", &format!("{few}; {FOREST}"));
    list.text(
        "rain-years-19-then-bad-unit",
        &format!("{few}; unit exports=10000001"),
    );
    list.text("rain-years-19-then-aquifer", &format!("{few}; {AQUIFER}"));
    list.text(
        "rain-years-19-then-bad-aquifer",
        &format!("{few}; aquifer storage=-1"),
    );
    list.text("rain-years-19-then-call", &format!("{few}; cancel 1"));
    list.add("rain-years-19-then-short-unit", join(few, b"UN"));
    list.add("rain-years-19-then-short-call", join(few, b"GU"));
    list.add("rain-years-19-then-unknown", join(few, b"XX"));
    list.text(
        "rain-years-51-bad",
        &format!("{FOREST}; rain 800 x30; rain 349"),
    );
    list.text("unit-without-records", "unit");
    list.text("unit-without-years", "unit; soil cover=8 soil=1 hectares=5");
}

fn rain_values(list: &mut List) {
    for rain in [0, 349, 350, 2150, 2151, 3500, 21500] {
        let all = format!("unit; soil cover=14 soil=2 hectares=10000; rain {rain} x20");
        list.text(&format!("rain-{rain}"), &all);
    }
    for rain in [349, 2151] {
        let last = format!("unit; soil cover=14 soil=2 hectares=10000; rain 800 x19; rain {rain}");
        list.text(&format!("rain-{rain}-last"), &last);
    }
}

fn tenths_values(list: &mut List) {
    for tenths in [0, 349, 350, 3499, 3500, 21500, 21501, 65535] {
        list.text(
            &format!("tenths-{tenths}"),
            &format!("{MEADOW}; tenths {tenths} x20"),
        );
    }
    for tenths in [350, 3499, 21501] {
        list.text(
            &format!("tenths-{tenths}-last"),
            &format!("{MEADOW}; tenths 8000 x19; tenths {tenths}"),
        );
        list.text(
            &format!("tenths-{tenths}-after-rain"),
            &format!("{MEADOW}; rain 800 x19; tenths {tenths}"),
        );
    }
    for rain in [349, 2151, 3500, 21500] {
        list.text(
            &format!("rain-{rain}-after-tenths"),
            &format!("{MEADOW}; tenths 8000 x19; rain {rain}"),
        );
    }
    for (rain, tenths) in [(350, 21500), (2150, 3500)] {
        list.text(
            &format!("rain-{rain}-with-tenths-{tenths}"),
            &format!("{MEADOW}; rain {rain} x10; tenths {tenths} x10"),
        );
    }
}

/// Years of both marks count together.
fn tenths_year_counts(list: &mut List) {
    for years in [19, 20, 50, 51] {
        list.text(
            &format!("tenths-years-{years}"),
            &format!("{MEADOW}; tenths 8003 x{years}"),
        );
        let in_turn: Vec<&str> = ["rain 800", "tenths 8003"]
            .into_iter()
            .cycle()
            .take(years)
            .collect();
        list.text(
            &format!("years-in-turn-{years}"),
            &format!("{MEADOW}; {}", in_turn.join(";")),
        );
    }
    for (first, second) in [
        (10, 9),
        (18, 1),
        (10, 10),
        (19, 1),
        (25, 25),
        (49, 1),
        (50, 1),
        (30, 21),
    ] {
        list.text(
            &format!("years-rain-{first}-tenths-{second}"),
            &format!("{MEADOW}; rain 800 x{first}; tenths 8003 x{second}"),
        );
        list.text(
            &format!("years-tenths-{first}-rain-{second}"),
            &format!("{MEADOW}; tenths 8003 x{first}; rain 800 x{second}"),
        );
    }
    list.text(
        "tenths-years-51-bad",
        &format!("{MEADOW}; rain 800 x20; tenths 8003 x30; tenths 350"),
    );
    list.text(
        "rain-years-51-bad-after-tenths",
        &format!("{MEADOW}; tenths 8003 x50; rain 3500"),
    );
    let few = format!("{MEADOW}; rain 800 x10; tenths 8003 x9");
    list.text(
        "tenths-years-19-second",
        &format!("{FOREST_IN_TENTHS}; {few}"),
    );
    list.text(
        "tenths-years-19-then-unit",
        &format!("{few}; {FOREST_IN_TENTHS}"),
    );
    list.text("tenths-years-19-then-aquifer", &format!("{few}; {AQUIFER}"));
    list.text("tenths-years-19-then-call", &format!("{few}; cancel 1"));
    list.add("tenths-years-19-then-short-tenths", join(&few, b"PD"));
    list.add("tenths-years-19-then-unknown", join(&few, b"XX"));
}

/// Rain in tenths in every place where it is out of sequence, and what is out of sequence after it.
fn tenths_sequence(list: &mut List) {
    let soil = "soil cover=8 soil=1 hectares=100";
    for (name, tenths) in [("tenths", 8000), ("tenths-350", 350)] {
        for (place, before) in [
            ("first", String::new()),
            ("without-soil", "unit".to_string()),
            ("without-soil-second", format!("{FOREST}; unit")),
            ("after-gauge", "unit; gauge outflow=5 x20".to_string()),
            ("after-50-gauged", "unit; gauge outflow=5 x50".to_string()),
            ("after-aquifer", format!("{FOREST}; {AQUIFER}")),
            ("after-aquifer-alone", AQUIFER.to_string()),
            ("after-call", format!("{FOREST}; cancel 1")),
        ] {
            list.text(
                &format!("{name}-{place}"),
                &format!("{before}; tenths {tenths}"),
            );
        }
    }
    for (name, record) in [("soil", soil), ("gauge", "gauge outflow=5")] {
        for (place, years) in [
            ("first-tenths", "tenths 8000"),
            ("tenths", "tenths 8000 x20"),
            ("50-tenths", "tenths 8000 x50"),
            ("rain-and-tenths", "rain 800 x10; tenths 8000 x10"),
            ("tenths-and-rain", "tenths 8000 x10; rain 800 x10"),
        ] {
            list.text(
                &format!("{name}-after-{place}"),
                &format!("{MEADOW}; {years}; {record}"),
            );
        }
    }
    let areas = repeated("soil cover=8 soil=1 hectares=625", 16);
    list.text(
        "areas-17-after-tenths",
        &format!("unit; {areas}; tenths 8000; {soil}"),
    );
}

/// Two and three bytes of a record of four, and marks that resemble it.
fn tenths_short(list: &mut List) {
    for (place, before) in [
        ("first", String::new()),
        ("in-unit", "unit".to_string()),
        ("after-soil", MEADOW.to_string()),
        ("after-50", format!("{MEADOW}; tenths 8000 x50")),
        ("after-gauge", "unit; gauge outflow=5 x20".to_string()),
        ("after-aquifer", format!("{FOREST}; {AQUIFER}")),
        ("after-call", format!("{FOREST}; cancel 1")),
    ] {
        for bytes in [&b"PD"[..], b"PD\x40"] {
            list.add(
                &format!("short-tenths-{}-{place}", bytes.len()),
                join(&before, bytes),
            );
        }
    }
    for (name, letters) in [
        ("pd-lowercase", b"pd"),
        ("pd-turned", b"DP"),
        ("pc", b"PC"),
        ("pe", b"PE"),
    ] {
        let unknown = [letters, &8000_u16.to_le_bytes()[..]].concat();
        list.add(&format!("unknown-mark-{name}"), join(MEADOW, &unknown));
    }
}

/// A book with its rain years in tenths at ten times their numbers, if `wanted` holds of their place.
fn in_tenths(book: &[u8], wanted: fn(usize) -> bool) -> Vec<u8> {
    let records = record::records_of(book).expect("the book has whole records");
    let changed: Vec<Record> = records
        .into_iter()
        .enumerate()
        .map(|(place, record)| match record {
            Record::Rain(rain) if wanted(place) => Record::Tenths(10 * rain),
            other => other,
        })
        .collect();
    record::book_of(&changed)
}

/// Books that print the same in tenths, and books that print something else.
fn tenths_runoff(list: &mut List) {
    let in_millimetres = [
        "case-a", "case-b", "case-c", "case-d", "case-e", "listing", "cuenca",
    ];
    for name in in_millimetres {
        let named = list.0.iter().find(|named| named.name == name);
        let book = named.expect("the book is named above").book.clone();
        list.add(&format!("{name}-in-tenths"), in_tenths(&book, |_| true));
        list.add(
            &format!("{name}-half-in-tenths"),
            in_tenths(&book, |place| place % 2 == 0),
        );
    }
    let forest = "unit; soil cover=8 soil=1 hectares=10000";
    let ten_hectares = "unit; soil cover=8 soil=1 hectares=8; soil cover=9 soil=1 hectares=2";
    for tenths in [7995, 7998, 8001, 8002, 8004] {
        list.text(
            &format!("tenths-{tenths}-of-forest"),
            &format!("{forest}; tenths {tenths} x20"),
        );
    }
    for tenths in [4999, 5000, 5001] {
        list.text(
            &format!("tenths-{tenths}-of-ten-hectares"),
            &format!("{ten_hectares}; tenths {tenths} x20"),
        );
    }
    list.text(
        "tenths-4999-once-of-ten-hectares",
        &format!("{ten_hectares}; rain 500 x19; tenths 4999"),
    );
    list.text(
        "tenths-4999-and-5001-of-ten-hectares",
        &format!("{ten_hectares}; tenths 4999 x10; tenths 5001 x10"),
    );
    let largest = "unit; soil cover=13 soil=3 hectares=300000";
    for years in [20, 50] {
        list.text(
            &format!("tenths-largest-{years}"),
            &format!("{largest}; tenths 21500 x{years}"),
        );
    }
    list.text(
        "tenths-largest-mixed",
        &format!("{largest}; rain 2150 x25; tenths 21500 x25"),
    );
    list.text("tenths-least", &format!("{largest}; tenths 3500 x20"));
    for (name, pasture, wood, tenths) in [
        ("below", 500, 499, 7909),
        ("at", 500, 500, 7908),
        ("above", 499, 500, 7908),
    ] {
        let areas =
            format!("soil cover=5 soil=1 hectares={pasture}; soil cover=8 soil=2 hectares={wood}");
        list.text(
            &format!("tenths-k-{name}-15"),
            &format!("unit; {areas}; tenths {tenths} x20"),
        );
    }
    list.text("units-64-in-tenths", &repeated(FOREST_IN_TENTHS, 64));
}

/// The water that tenths of a millimetre bring decides flows and titles.
fn tenths_flows(list: &mut List) {
    let years = "soil cover=8 soil=1 hectares=10000; tenths 8002 x20";
    for extraction in [1541, 1542] {
        list.text(
            &format!("tenths-extraction-{extraction}"),
            &format!("unit extraction={extraction}; {years}"),
        );
    }
    for volume in [1926, 1927] {
        list.text(
            &format!("tenths-withdraw-{volume}"),
            &format!("{FOREST_IN_TENTHS}; withdraw unit=1 use=1 volume={volume}"),
        );
    }
    list.text(
        "tenths-shares",
        &format!(
            "unit downstream=3; {years}; unit downstream=3; {RAIN}; unit commitment=1000; {years}"
        ),
    );
}

fn areas(list: &mut List) {
    for hectares in [0, 300_000, 300_001, u32::MAX] {
        let book = format!("unit; soil cover=13 soil=3 hectares={hectares}; rain 2150 x20");
        list.text(&format!("hectares-{hectares}"), &book);
    }
    for second in [100_000, 100_001, 300_001] {
        let book = format!(
            "unit; soil cover=13 soil=3 hectares=200000; soil cover=8 soil=1 hectares={second}; rain 800 x20"
        );
        list.text(&format!("hectares-sum-200000-{second}"), &book);
    }
    for (cover, soil) in [(0, 1), (14, 3), (15, 1), (1, 0), (1, 4)] {
        let book = format!("unit; soil cover={cover} soil={soil} hectares=100; rain 800 x20");
        list.text(&format!("cover-{cover}-soil-{soil}"), &book);
    }
    for (name, pasture, forest) in [("below", 500, 400), ("at", 500, 500), ("above", 400, 500)] {
        let areas = format!(
            "soil cover=5 soil=1 hectares={pasture}; soil cover=8 soil=2 hectares={forest}"
        );
        list.text(
            &format!("k-{name}-15"),
            &format!("unit; {areas}; rain 800 x20"),
        );
    }
}

fn repeated(text: &str, times: usize) -> String {
    vec![text; times].join(";")
}

fn counts(list: &mut List) {
    let area = "soil cover=8 soil=1 hectares=625";
    for count in [16, 17] {
        let areas = repeated(area, count);
        list.text(
            &format!("areas-{count}"),
            &format!("unit; {areas}; rain 800 x20"),
        );
    }
    let areas = repeated(area, 16);
    list.text(
        "areas-17-bad",
        &format!("unit; {areas}; soil; rain 800 x20"),
    );
    list.text(
        "areas-17-after-year",
        &format!("unit; {areas}; rain 800; {area}"),
    );
    for count in [64, 65] {
        list.text(&format!("units-{count}"), &repeated(FOREST, count));
    }
    let full = repeated(FOREST, 64);
    list.text(
        "units-65-bad",
        &format!("{full}; unit downstream=1 storage=10000001"),
    );
    let mut river = String::new();
    for number in 1..=63 {
        river += &format!("unit downstream={}; {RAIN};", number + 1);
    }
    list.text(
        "units-64-river",
        &format!("{river} unit commitment=50000; {RAIN}"),
    );
    for count in [32, 33] {
        list.text(&format!("aquifers-{count}"), &repeated(AQUIFER, count));
    }
    let full = repeated(AQUIFER, 32);
    list.text(
        "aquifers-33-negative",
        &format!("{full}; aquifer storage=-1"),
    );
}

fn unit_fields(list: &mut List) {
    let at_limit = "extraction=10000000 exports=10000000 imports=10000000 returns=10000000 evaporation=10000000 storage=-10000000 commitment=10000000";
    list.text("unit-terms-largest", &format!("unit {at_limit}; {RAIN}"));
    list.text(
        "unit-storage-largest",
        &format!("unit storage=10000000 imports=10000000; {RAIN}"),
    );
    for entry in [
        "extraction",
        "exports",
        "imports",
        "returns",
        "evaporation",
        "storage",
        "commitment",
    ] {
        let book = format!("unit {entry}=10000001; {RAIN}");
        list.text(&format!("unit-{entry}-over"), &book);
    }
    list.text(
        "unit-storage-under",
        &format!("unit storage=-10000001; {RAIN}"),
    );
    list.text(
        "unit-storage-least",
        &format!("unit storage=-2147483648; {RAIN}"),
    );
    let inner = format!("unit downstream=2 commitment=1; {RAIN}; {FOREST}");
    list.text("commitment-inside", &inner);
    list.text(
        "commitment-inside-and-upward",
        &format!("unit downstream=1 commitment=1; {RAIN}"),
    );
    list.text("deficit", &format!("unit commitment=1541; {RAIN}"));
}

fn gauge_fields(list: &mut List) {
    list.text(
        "gauge-flows-largest",
        "unit; gauge outflow=2000000000 inflow=2000000000 x20",
    );
    list.text(
        "gauge-outflow-over",
        "unit; gauge outflow=2000000001 inflow=2000000000 x20",
    );
    list.text(
        "gauge-inflow-over",
        "unit; gauge outflow=2000000000 inflow=2000000001 x20",
    );
    list.text(
        "gauge-terms-largest",
        "unit; gauge outflow=5 extraction=10000000 exports=10000000 imports=10000000 returns=10000000 evaporation=10000000 storage=-10000000 x20",
    );
    for entry in [
        "extraction",
        "exports",
        "imports",
        "returns",
        "evaporation",
        "storage",
    ] {
        let book = format!("unit; gauge outflow=10000001 x19; gauge {entry}=10000001");
        list.text(&format!("gauge-{entry}-over"), &book);
    }
    list.text(
        "gauge-storage-under",
        "unit; gauge outflow=10000001 x19; gauge storage=-10000001",
    );
    for sum in [0, 9, 10] {
        let book = format!("unit; gauge x19; gauge outflow={sum}");
        list.text(&format!("gauged-sum-{sum}-of-20"), &book);
    }
    list.text(
        "gauged-sum-negative",
        "unit; gauge outflow=5 x19; gauge inflow=96",
    );
    list.text("gauged-sum-negative-19", "unit; gauge inflow=5 x19");
    list.text(
        "gauged-sum-negative-second",
        &format!("{FOREST}; unit; gauge inflow=1 x20; {AQUIFER}"),
    );
    list.text("gauged-sum-largest", "unit; gauge outflow=10000000 x20");
    list.text(
        "gauged-sum-over",
        "unit; gauge outflow=10000000 x19; gauge outflow=10000001",
    );
    list.text(
        "gauged-year-over",
        "unit; gauge x19; gauge outflow=200000000",
    );
}

fn aquifer_fields(list: &mut List) {
    let at_limit =
        "storage=10000000 natural=10000000 pumped=10000000 committed=10000000 extraction=10000000";
    list.text("aquifer-terms-largest", &format!("aquifer {at_limit}"));
    for entry in ["storage", "natural", "pumped", "committed", "extraction"] {
        list.text(
            &format!("aquifer-{entry}-over"),
            &format!("aquifer {entry}=10000001"),
        );
    }
    list.text(
        "aquifer-storage-least",
        "aquifer storage=-10000000 natural=10000000",
    );
    list.text(
        "aquifer-storage-under",
        "aquifer storage=-10000001 natural=10000000 pumped=5",
    );
    list.text("recharge-0", "aquifer storage=-7 natural=3 pumped=4");
    list.text("recharge-negative", "aquifer storage=-8 natural=3 pumped=4");
    list.text(
        "recharge-negative-second",
        &format!("{FOREST}; {AQUIFER}; aquifer storage=-1"),
    );
}

fn downstream_numbers(list: &mut List) {
    list.text("downstream-itself", &format!("unit downstream=1; {RAIN}"));
    list.text(
        "downstream-itself-second",
        &format!("{FOREST}; unit downstream=2; {RAIN}"),
    );
    list.text(
        "downstream-lower",
        &format!("{FOREST}; unit downstream=1; {RAIN}"),
    );
    list.text(
        "downstream-missing",
        &format!("{FOREST}; unit downstream=3; {RAIN}"),
    );
    list.text("downstream-255", &format!("unit downstream=255; {RAIN}"));
    list.text(
        "downstream-missing-twice",
        &format!("{FOREST}; unit downstream=9; {RAIN}; unit downstream=4; {RAIN}"),
    );
    list.text(
        "downstream-missing-and-flow-negative",
        &format!("unit exports=1541; {RAIN}; unit downstream=3; {RAIN}"),
    );
    list.text(
        "downstream-missing-then-recharge-negative",
        &format!("unit downstream=2; {RAIN}; aquifer storage=-1"),
    );
}

fn flows(list: &mut List) {
    list.text("flow-0", &format!("unit extraction=1540; {RAIN}"));
    list.text("flow-negative", &format!("unit extraction=1541; {RAIN}"));
    list.text(
        "flow-negative-above",
        &format!("unit downstream=2 exports=1541; {RAIN}; unit imports=100; {RAIN}"),
    );
    list.text(
        "flow-negative-below",
        &format!("unit downstream=2; {RAIN}; unit evaporation=3081; {RAIN}"),
    );
    list.text(
        "flow-negative-twice",
        &format!("{FOREST}; unit exports=2000; {RAIN}; unit exports=3000; {RAIN}"),
    );
    list.text(
        "flow-negative-then-call",
        &format!("unit extraction=1541; {RAIN}; cancel 1"),
    );
    list.text(
        "total-0",
        "unit storage=-100 extraction=30 commitment=20; gauge x20",
    );
    list.text(
        "total-0-above",
        "unit downstream=2; gauge x20; unit storage=-100 extraction=30 commitment=20; gauge x20",
    );
    list.text(
        "shares-thirds",
        "unit downstream=3; gauge outflow=1 x20; unit downstream=3; gauge outflow=1 x20; unit commitment=2; gauge outflow=1 x20",
    );
}

fn sequence(list: &mut List) {
    let soil = "soil cover=8 soil=1 hectares=100";
    for (name, record) in [
        ("soil", soil),
        ("rain", "rain 800"),
        ("gauge", "gauge outflow=5"),
    ] {
        list.text(&format!("{name}-first"), record);
        list.text(
            &format!("{name}-after-aquifer"),
            &format!("{FOREST}; {AQUIFER}; {record}"),
        );
    }
    list.text(
        "unit-after-aquifer",
        &format!("{FOREST}; {AQUIFER}; {FOREST}"),
    );
    list.text("unit-after-aquifer-alone", &format!("{AQUIFER}; {FOREST}"));
    list.text("soil-after-rain", &format!("{FOREST}; {soil}"));
    list.text(
        "soil-after-gauge",
        &format!("unit; gauge outflow=5 x20; {soil}"),
    );
    list.text("rain-without-soil", "unit; rain 800 x20");
    list.text("rain-after-gauge", "unit; gauge outflow=5 x20; rain 800");
    list.text(
        "gauge-after-soil",
        &format!("unit; {soil}; gauge outflow=5 x20"),
    );
    list.text("gauge-after-rain", &format!("{FOREST}; gauge outflow=5"));
    list.text(
        "unit-after-aquifer-bad",
        &format!("{AQUIFER}; unit exports=10000001"),
    );
}

/// The bytes of a text followed by other bytes.
fn join(text: &str, bytes: &[u8]) -> Vec<u8> {
    let mut book = b(text);
    book.extend(bytes);
    book
}

/// A record of zeros without its last `missing` bytes.
fn short(mark: Mark, missing: usize) -> Vec<u8> {
    let mut bytes = mark.letters().to_vec();
    bytes.resize(2 + mark.body_length() - missing, 0);
    bytes
}

const DESCRIPTION_MARKS: [(Mark, &str); 6] = [
    (Mark::Unit, "unit"),
    (Mark::Soil, "soil"),
    (Mark::Rain, "rain"),
    (Mark::Tenths, "tenths"),
    (Mark::Gauge, "gauge"),
    (Mark::Aquifer, "aquifer"),
];

const CALL_MARKS: [(Mark, &str); 6] = [
    (Mark::Withdraw, "withdraw"),
    (Mark::Pump, "pump"),
    (Mark::Transfer, "transfer"),
    (Mark::Bring, "bring"),
    (Mark::PumpReturning, "returning"),
    (Mark::Cancel, "cancel"),
];

fn short_records(list: &mut List) {
    for (mark, word) in DESCRIPTION_MARKS {
        let body = mark.body_length();
        list.add(&format!("short-{word}"), short(mark, body));
        list.add(
            &format!("short-{word}-after-unit"),
            join(FOREST, &short(mark, 1)),
        );
    }
    list.add("short-unit-after-aquifer", join(AQUIFER, b"UN"));
    list.add("short-aquifer-after-aquifer", join(AQUIFER, b"AC"));
    list.add("lone-byte", b"U".to_vec());
    list.add("lone-byte-of-call", b"G".to_vec());
    list.add("lone-byte-in-unit", join("unit", b"S"));
    list.add("lone-byte-after-unit", join(FOREST, b"U"));
    list.add("lone-byte-after-aquifer", join(AQUIFER, b"\0"));
    list.add(
        "lone-byte-after-call",
        join(&format!("{FOREST}; cancel 1"), b"C"),
    );
}

fn unknown_marks(list: &mut List) {
    list.add("unknown-mark", b"XX".to_vec());
    list.add("unknown-mark-lowercase", b"un".to_vec());
    list.add("unknown-mark-in-unit", join("unit", b"NU"));
    list.add("unknown-mark-after-unit", join(FOREST, b"UM"));
    list.add("unknown-mark-after-aquifer", join(AQUIFER, b"AA"));
    list.add(
        "unknown-mark-after-call",
        join(&format!("{FOREST}; cancel 1"), b"XX"),
    );
}

fn call_marks(list: &mut List) {
    for (mark, word) in CALL_MARKS {
        list.add(
            &format!("short-{word}-after-unit"),
            join(FOREST, &short(mark, 1)),
        );
    }
    list.add("short-withdraw-alone", b"GU".to_vec());
    list.add("short-cancel-alone", b"CA\x01".to_vec());
    list.add("short-call-after-bare-unit", join("unit", b"GU"));
    let negative = format!("unit extraction=1541; {RAIN}");
    list.add("short-call-after-negative-flow", join(&negative, b"CA"));
    list.text("unit-after-call", &format!("{FOREST}; cancel 1; {FOREST}"));
    list.text("aquifer-after-call", &format!("cancel 1; {AQUIFER}"));
    list.add(
        "short-unit-after-call",
        join(&format!("{FOREST}; cancel 1"), b"UN"),
    );
}

/// Units 1 and 2 of 1540 each drain to unit 3, an outlet with a commitment; the aquifer has 400 to spare.
const BASIN: &str = "unit downstream=3; soil cover=8 soil=1 hectares=10000; rain 800 x20; \
    unit downstream=3; soil cover=8 soil=1 hectares=10000; rain 800 x20; \
    unit commitment=100; soil cover=8 soil=1 hectares=10000; rain 800 x20; \
    aquifer natural=600 pumped=100 committed=200 extraction=100";

/// One grant of each kind.
const GRANTS: [(&str, &str); 5] = [
    ("withdraw", "withdraw unit=1 use=1 volume=99"),
    ("pump", "pump aquifer=1 volume=33"),
    ("transfer", "transfer from=2 to=1 volume=55"),
    ("bring", "bring aquifer=1 unit=2 volume=77"),
    (
        "returning",
        "pump-returning aquifer=1 unit=3 use=3 volume=88",
    ),
];

/// Numbers that are given, cancelled, never given, and at the ends of the field.
fn cancellations(list: &mut List) {
    for number in [0, 1, 2, 255, 256, 257, 65535] {
        list.text(
            &format!("cancel-{number}-of-none"),
            &format!("{BASIN}; cancel {number}"),
        );
    }
    for (word, grant) in GRANTS {
        let text =
            format!("{BASIN}; {grant}; cancel 1; cancel 1; {grant}; cancel 1; cancel 2; cancel 3");
        list.text(&format!("cancel-{word}"), &text);
        let refused = format!(
            "{BASIN}; {grant}; pump aquifer=1 volume=0; cancel 2; cancel 1; cancel 0; cancel 65535"
        );
        list.text(&format!("cancel-{word}-after-refusal"), &refused);
    }
    // The fifth kind is in the books `cancel-all-five-...`.
    for order in [[1, 2, 3, 4], [4, 3, 2, 1], [2, 4, 1, 3], [3, 1, 4, 2]] {
        cancelled_in_order(list, "cancel-all-from", &order);
    }
}

/// The first kinds of titles granted, cancelled in an order, and granted again.
fn cancelled_in_order(list: &mut List, name: &str, order: &[usize]) {
    let grants: Vec<&str> = GRANTS[..order.len()]
        .iter()
        .map(|(_, grant)| *grant)
        .collect();
    let grants = grants.join("; ");
    let cancels: Vec<String> = order.iter().map(|n| format!("cancel {n}")).collect();
    let text = format!("{BASIN}; {grants}; {}; {grants}", cancels.join("; "));
    list.text(&format!("{name}-{}", order[0]), &text);
}

/// A cancelled return is the one that was given, whatever was granted after it.
fn cancelled_returns(list: &mut List) {
    for volume in [3, 4, 7, 9] {
        let grant = format!("withdraw unit=1 use=1 volume={volume}");
        let five = [grant.as_str(); 5].join("; ");
        for first in [1, 3, 5] {
            let text = format!("{BASIN}; {five}; cancel {first}; cancel 2");
            list.text(&format!("cancelled-return-{volume}-from-{first}"), &text);
        }
    }
    let uses: Vec<String> = (1..=7)
        .map(|usage| format!("withdraw unit=2 use={usage} volume=7"))
        .collect();
    let cancels: Vec<String> = (1..=7).map(|number| format!("cancel {number}")).collect();
    list.text(
        "cancelled-return-of-each-use",
        &format!("{BASIN}; {}; {}", uses.join("; "), cancels.join("; ")),
    );
}

/// A transfer whose water is in use: 20 until what uses it is cancelled.
fn water_in_use(list: &mut List) {
    for (word, grant, spend) in [
        (
            "transfer",
            "transfer from=1 to=2 volume=500",
            "withdraw unit=2 use=6 volume=40; transfer from=2 to=1 volume=1900",
        ),
        (
            "bring",
            "bring aquifer=1 unit=2 volume=300",
            "transfer from=2 to=1 volume=1840",
        ),
    ] {
        let text =
            format!("{BASIN}; {grant}; {spend}; cancel 1; cancel 2; cancel 1; cancel 3; cancel 1");
        list.text(&format!("cancel-{word}-in-use"), &text);
    }
    for spent in [1539, 1540, 1541, 1639, 1640] {
        let text = format!("{BASIN}; bring aquifer=1 unit=2 volume=100; transfer from=2 to=1 volume={spent}; cancel 1; cancel 2; cancel 1");
        list.text(&format!("cancel-bring-spent-{spent}"), &text);
    }
    let below = format!("{BASIN}; bring aquifer=1 unit=1 volume=400; withdraw unit=3 use=5 volume=5500; withdraw unit=3 use=6 volume=1; cancel 1");
    list.text("cancel-bring-in-use-below", &below);
}

/// 256 numbers, none of them given twice.
fn title_numbers(list: &mut List) {
    let grant = "withdraw unit=3 use=6 volume=1";
    let pairs = |count: usize| -> String {
        let each: Vec<String> = (1..=count)
            .map(|number| format!("{grant}; cancel {number}"))
            .collect();
        each.join("; ")
    };
    list.text("grant-cancel-256", &format!("{BASIN}; {}", pairs(256)));
    list.text(
        "grant-cancel-257",
        &format!("{BASIN}; {}; {grant}; cancel 256; cancel 257", pairs(256)),
    );
    let all = [grant; 256].join("; ");
    list.text(
        "cancel-256-of-256",
        &format!("{BASIN}; {all}; cancel 256; {grant}; cancel 256; cancel 1; {grant}"),
    );
    let each: Vec<String> = (1..=256).map(|number| format!("cancel {number}")).collect();
    list.text(
        "cancel-all-256",
        &format!("{BASIN}; {all}; {}; {grant}", each.join("; ")),
    );
}

/// Books cut inside a call record, after a call that is given.
fn cut_calls(list: &mut List) {
    let given = format!("{BASIN}; withdraw unit=1 use=1 volume=10");
    for (mark, word) in CALL_MARKS {
        for missing in 1..=mark.body_length() {
            list.add(
                &format!("cut-{word}-by-{missing}"),
                join(&given, &short(mark, missing)),
            );
        }
    }
    for (mark, word) in DESCRIPTION_MARKS {
        list.add(
            &format!("{word}-after-given"),
            join(&given, &short(mark, 0)),
        );
        list.add(
            &format!("short-{word}-after-given"),
            join(&given, &short(mark, 1)),
        );
    }
    list.add(
        "call-after-failed",
        join(&given, &[b"XX", b("cancel 1").as_slice()].concat()),
    );
}

/// The calls of a book that the reader accepts, and how many of them are cancellations that are accepted.
fn calls_of(book: &[u8]) -> (usize, usize) {
    let printed = String::from_utf8(crate::run(book)).expect("what is printed is text");
    let calls: Vec<&str> = printed
        .lines()
        .filter(|line| line.starts_with("call"))
        .collect();
    let cancelled = calls
        .iter()
        .filter(|line| line.contains("cancelled"))
        .count();
    (calls.len(), cancelled)
}

/// Long mixed lists of calls: the first random books with 40 calls or more, eight of them accepted cancellations.
fn mixed_calls(list: &mut List) {
    let long = |book: &Vec<u8>| {
        let (calls, cancelled) = calls_of(book);
        book.len() < 8000 && calls >= 40 && cancelled >= 8
    };
    for (place, book) in (0..).map(random::book).filter(long).take(40).enumerate() {
        list.add(&format!("mixed-{}", place + 1), book);
    }
}

/// A book of exactly this length: a unit, an aquifer and refused calls.
fn book_of_length(length: usize) -> Vec<u8> {
    let mut book = join(FOREST, &b(AQUIFER));
    while !(length - book.len()).is_multiple_of(4) {
        book.extend(b("pump aquifer=2 volume=1"));
    }
    while book.len() < length {
        book.extend(b("cancel 1"));
    }
    book
}

fn lengths(list: &mut List) {
    list.add("bytes-65536", book_of_length(LONGEST_BOOK));
    list.add("bytes-65537", book_of_length(LONGEST_BOOK + 1));
}

/// Whether the bytes are whole records.
pub fn is_well_formed(book: &[u8]) -> bool {
    record::records_of(book).is_ok()
}
