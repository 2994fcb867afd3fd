//! Random and damaged books from a seed.
//!
//! Most books have a sound description and calls whose volumes lie near what the balance allows;
//! the others carry faults in records, in bytes or in their length.

use crate::basin::{self, Unit};
use crate::book::{self, FEWEST_YEARS, LARGEST_GAUGED, MOST_AREAS, MOST_HECTARES, MOST_YEARS};
use crate::book::{LEAST_TENTHS, MOST_TENTHS};
use crate::record::{self, AquiferRecord, Call, GaugeRecord, Record, SoilRecord, UnitRecord};
use crate::register::{self, Balance, Entry, Reply, RETURN_PERCENT};
use crate::runoff;
use crate::LONGEST_BOOK;

const TERM: i64 = basin::LARGEST_TERM;

/// A source of random numbers (SplitMix64).
pub struct Source {
    state: u64,
}

impl Source {
    pub fn new(seed: u64) -> Source {
        Source { state: seed }
    }

    /// The next 64 random bits.
    pub fn draw(&mut self) -> u64 {
        self.state = self.state.wrapping_add(0x9E37_79B9_7F4A_7C15);
        let mut mixed = self.state;
        mixed = (mixed ^ (mixed >> 30)).wrapping_mul(0xBF58_476D_1CE4_E5B9);
        mixed = (mixed ^ (mixed >> 27)).wrapping_mul(0x94D0_49BB_1331_11EB);
        mixed ^ (mixed >> 31)
    }

    /// A number from 0 to `limit` − 1.
    pub fn below(&mut self, limit: usize) -> usize {
        (self.draw() % limit as u64) as usize
    }

    /// A number from `least` to `most`, both included, or `least` if `most` is smaller.
    pub fn between(&mut self, least: i64, most: i64) -> i64 {
        if most <= least {
            return least;
        }
        least + (self.draw() % (most - least + 1) as u64) as i64
    }

    /// True in about `percent` of 100 cases.
    pub fn chance(&mut self, percent: usize) -> bool {
        self.below(100) < percent
    }

    pub fn pick<T: Copy>(&mut self, choices: &[T]) -> T {
        choices[self.below(choices.len())]
    }

    pub(crate) fn byte(&mut self) -> u8 {
        self.draw() as u8
    }
}

/// The book of a seed.
pub fn book(seed: u64) -> Vec<u8> {
    let s = &mut Source::new(seed);
    match s.below(200) {
        0..=127 => with_calls(s, sound_description),
        128..=159 => with_calls(s, faulty_description),
        160..=185 => damaged(s),
        186 => near_longest(s),
        187..=193 => record::book_of(&random_records(s)),
        194 => long_description(s),
        _ => random_bytes(s),
    }
}

/// A description by `describe` and calls that suit it.
fn with_calls(s: &mut Source, describe: fn(&mut Source) -> Vec<Record>) -> Vec<u8> {
    let mut records = describe(s);
    let opened = book::open(&record::book_of(&records));
    let balance = opened.map(|opened| opened.balance).unwrap_or_default();
    let calls = calls(s, balance);
    records.extend(calls.into_iter().map(Record::Call));
    record::book_of(&records)
}

// Descriptions

/// Units and aquifers that the reader accepts, save for rare reckless entries.
pub(crate) fn sound_description(s: &mut Source) -> Vec<Record> {
    let units = match s.below(100) {
        0..=2 => 0,
        3..=17 => 1,
        18..=54 => s.between(2, 4),
        55..=84 => s.between(5, 12),
        85..=95 => s.between(13, 40),
        96..=97 => 63,
        _ => 64,
    } as usize;
    let aquifers = match s.below(100) {
        0..=24 => 0,
        25..=79 => s.between(1, 3),
        80..=94 => s.between(4, 10),
        95..=96 => 31,
        _ => 32,
    } as usize;
    describe(s, units, aquifers)
}

/// Units, each with its areas and years, and aquifers.
pub(crate) fn describe(s: &mut Source, units: usize, aquifers: usize) -> Vec<Record> {
    let mut records = Vec::new();
    let mut flows: Vec<i64> = Vec::new();
    let downstream = tree(s, units);
    for number in 1..=units {
        let (years, runoff) = water_source(s, units);
        let from_above: i64 = (1..number)
            .filter(|other| downstream[other - 1] == number)
            .map(|other| flows[other - 1])
            .sum();
        let mut unit = entries(s, from_above + runoff);
        unit.downstream = downstream[number - 1] as u8;
        let flow = from_above + runoff + gain(&unit);
        if unit.downstream == 0 {
            unit.commitment = commitment(s, flow);
        }
        flows.push(flow);
        records.push(Record::Unit(unit));
        records.extend(years);
    }
    for _ in 0..aquifers {
        records.push(Record::Aquifer(aquifer(s)));
    }
    records
}

/// What a unit's entries add to its flow.
fn gain(unit: &UnitRecord) -> i64 {
    i64::from(unit.returns) + i64::from(unit.imports)
        - i64::from(unit.exports)
        - i64::from(unit.extraction)
        - i64::from(unit.evaporation)
        - i64::from(unit.storage)
}

/// Downstream numbers of a tree or of several.
fn tree(s: &mut Source, units: usize) -> Vec<usize> {
    let shape = s.below(9);
    let outlet_percent = s.pick(&[0, 5, 20, 50]);
    (1..=units)
        .map(|number| {
            if number == units {
                return 0;
            }
            match shape {
                // one river
                0 => number + 1,
                // all straight into the last
                1 => units,
                // outlets only
                2 => 0,
                // two by two
                3 => units - (units - number - 1) / 2,
                // two rivers side by side
                4 if number + 2 <= units => number + 2,
                4 => 0,
                // tributaries near each other
                5 | 6 => {
                    s.between(number as i64 + 1, (number as i64 + 4).min(units as i64)) as usize
                }
                // anywhere below
                _ if s.chance(outlet_percent) => 0,
                _ => s.between(number as i64 + 1, units as i64) as usize,
            }
        })
        .collect()
}

/// The areas and rain years, or the gauged years, of a unit, and its natural runoff.
fn water_source(s: &mut Source, units: usize) -> (Vec<Record>, i64) {
    if s.chance(60) {
        let areas = areas(s);
        let years = rain_years(s);
        let tenths: Vec<u32> = years.iter().filter_map(Record::tenths).collect();
        let runoff = runoff::rain_mean(&areas, &tenths).rounded() as i64;
        let areas = areas.into_iter().map(Record::Soil);
        (areas.chain(years).collect(), runoff)
    } else {
        let few = units > 20 && !s.chance(1);
        let years = gauged_years(s, few);
        let runoff = runoff::gauged_mean(&years).rounded() as i64;
        (years.into_iter().map(Record::Gauge).collect(), runoff)
    }
}

fn year_count(s: &mut Source) -> usize {
    match s.below(10) {
        0..=4 => FEWEST_YEARS,
        5 => FEWEST_YEARS + 1,
        6..=7 => s.between(FEWEST_YEARS as i64, MOST_YEARS as i64) as usize,
        8 => MOST_YEARS - 1,
        _ => MOST_YEARS,
    }
}

pub(crate) fn areas(s: &mut Source) -> Vec<SoilRecord> {
    let count = match s.below(10) {
        0..=4 => 1,
        5..=7 => s.between(2, 5) as usize,
        8 => MOST_AREAS - 1,
        _ => MOST_AREAS,
    };
    let total = match s.below(10) {
        0..=1 => s.between(count as i64, 40),
        2..=6 => s.between(100, 60_000),
        7..=8 => s.between(100, i64::from(MOST_HECTARES)),
        _ => i64::from(MOST_HECTARES),
    };
    let same_cover = s.chance(20).then(|| cover_and_soil(s));
    let mut left = total;
    (0..count)
        .map(|index| {
            let after = (count - index - 1) as i64;
            let hectares = match after {
                0 => left,
                _ => s.between(1, (left - after).min(2 * left / (after + 1))),
            };
            left -= hectares;
            let (cover, soil) = same_cover.unwrap_or_else(|| cover_and_soil(s));
            SoilRecord {
                cover,
                soil,
                hectares: hectares.max(1) as u32,
            }
        })
        .collect()
}

fn cover_and_soil(s: &mut Source) -> (u8, u8) {
    (s.between(1, 14) as u8, s.between(1, 3) as u8)
}

/// Rain years of a unit, all in millimetres, all in tenths or mixed.
fn rain_years(s: &mut Source) -> Vec<Record> {
    let count = year_count(s);
    let (least, most) = match s.below(6) {
        0 => (8000, 8000),
        1 => (LEAST_TENTHS, LEAST_TENTHS + 10),
        2 => (MOST_TENTHS - 10, MOST_TENTHS),
        3 => (4000, 12_000),
        _ => (LEAST_TENTHS, MOST_TENTHS),
    };
    let percent_in_tenths = s.pick(&[0, 0, 0, 5, 50, 95, 100, 100]);
    (0..count)
        .map(|_| rain_year(s, least, most, percent_in_tenths))
        .collect()
}

/// A rain year between two numbers of tenths that are whole millimetres.
fn rain_year(s: &mut Source, least: u16, most: u16, percent_in_tenths: usize) -> Record {
    let (least, most) = (i64::from(least), i64::from(most));
    match s.chance(percent_in_tenths) {
        true => Record::Tenths(s.between(least, most) as u16),
        false => Record::Rain(s.between(least / 10, most / 10) as u16),
    }
}

fn gauged_years(s: &mut Source, few: bool) -> Vec<GaugeRecord> {
    let count = match few {
        true => FEWEST_YEARS,
        false => year_count(s),
    };
    let scale = s.pick(&[0, 10, 1_000, 50_000, 1_000_000, TERM]);
    let gauged = match s.chance(10) {
        true => i64::from(LARGEST_GAUGED),
        false => scale,
    };
    let bare = s.chance(40);
    let equal = s.chance(20);
    let mut years: Vec<GaugeRecord> = Vec::new();
    for index in 0..count {
        let year = match (equal, index) {
            (true, 1..) => years[0],
            _ => gauged_year(s, gauged, scale, bare),
        };
        years.push(year);
    }
    let most = TERM * count as i64;
    let sum = runoff::gauged_sum(&years) as i64;
    let target = match s.below(12) {
        0 => 0,
        1 => most,
        2 => most - 1,
        3 => s.between(0, TERM) * count as i64 / 2 + count as i64 / 2,
        4 => s.between(0, most),
        _ if (0..=most).contains(&sum) => sum,
        _ => s.between(0, scale * count as i64),
    };
    set_sum(&mut years, target);
    years
}

fn gauged_year(s: &mut Source, gauged: i64, scale: i64, bare: bool) -> GaugeRecord {
    let mut part = |most: i64| match bare {
        true => 0,
        false => s.between(0, most),
    };
    GaugeRecord {
        extraction: part(scale) as u32,
        exports: part(scale / 2) as u32,
        imports: part(scale / 2) as u32,
        returns: part(scale) as u32,
        evaporation: part(scale / 4) as u32,
        storage: (part(scale) - part(scale)) as i32,
        inflow: s.between(0, gauged / 2) as u32,
        outflow: s.between(gauged / 3, gauged) as u32,
    }
}

/// Changes gauged outflows and inflows so that the runoff of all years has the given sum, as far
/// as the limits of the fields allow.
fn set_sum(years: &mut [GaugeRecord], target: i64) {
    let mut missing = target - runoff::gauged_sum(years) as i64;
    let share = missing / years.len() as i64;
    for round in [share, missing] {
        for year in years.iter_mut() {
            let step = match round.abs() < missing.abs() {
                true => round,
                false => missing,
            };
            let field = match step > 0 {
                true => &mut year.outflow,
                false => &mut year.inflow,
            };
            let room = i64::from(LARGEST_GAUGED.saturating_sub(*field));
            let taken = step.abs().min(room);
            *field += taken as u32;
            missing -= taken * step.signum();
        }
    }
}

/// Entries of a unit that leave a flow of at least 0 where `water` comes from above and from rain.
fn entries(s: &mut Source, water: i64) -> UnitRecord {
    let mut unit = UnitRecord::default();
    let style = s.below(100);
    if style < 25 {
        return unit;
    }
    if style < 26 {
        return reckless_entries(s);
    }
    if water == 0 && s.chance(40) {
        return entries_from_storage(s);
    }
    let scale = match style {
        26..=33 => TERM,
        _ => (water / 2).clamp(20, TERM),
    };
    unit.returns = s.between(0, scale / 4) as u32;
    unit.imports = s.between(0, scale / 4) as u32;
    if style < 33 {
        let near_limit = TERM - s.between(0, 300);
        match style % 3 {
            0 => unit.imports = near_limit as u32,
            1 => unit.returns = near_limit as u32,
            _ => unit.returns = 0,
        }
    }
    if s.chance(20) {
        unit.storage = -(s.between(0, scale) as i32);
    }
    let mut left = water + gain(&unit);
    let mut take = |s: &mut Source, percent: i64| {
        let most = (left * percent / 100).clamp(0, TERM);
        let taken = s.between(0, most);
        left -= taken;
        taken
    };
    let thirst = s.pick(&[10, 30, 60, 100]);
    unit.extraction = take(s, thirst) as u32;
    if s.chance(50) {
        unit.exports = take(s, thirst / 2) as u32;
    }
    if s.chance(50) {
        unit.evaporation = take(s, thirst / 2) as u32;
    }
    if s.chance(30) {
        let rise = take(s, thirst / 3);
        unit.storage = (i64::from(unit.storage) + rise) as i32;
    }
    if s.chance(8) {
        drain(&mut unit, left);
    }
    unit
}

/// Entries of a unit whose only water is falling storage, so that its contributions may be 0.
fn entries_from_storage(s: &mut Source) -> UnitRecord {
    let fall = s.between(0, 1000);
    UnitRecord {
        storage: -fall as i32,
        extraction: s.between(0, fall / 2) as u32,
        exports: s.between(0, fall / 4) as u32,
        evaporation: s.between(0, fall / 4) as u32,
        ..UnitRecord::default()
    }
}

/// Raises extraction, exports and evaporation until the flow is 0, as far as they go.
fn drain(unit: &mut UnitRecord, flow: i64) {
    let mut left = flow;
    for entry in [
        &mut unit.extraction,
        &mut unit.exports,
        &mut unit.evaporation,
    ] {
        let taken = left.min(TERM - i64::from(*entry)).max(0);
        *entry += taken as u32;
        left -= taken;
    }
}

/// Entries without regard to the water there is.
fn reckless_entries(s: &mut Source) -> UnitRecord {
    UnitRecord {
        downstream: 0,
        extraction: term(s),
        exports: term(s),
        imports: term(s),
        returns: term(s),
        evaporation: term(s),
        storage: s.between(-TERM, TERM) as i32,
        commitment: 0,
    }
}

fn term(s: &mut Source) -> u32 {
    match s.below(4) {
        0 => 0,
        1 => s.between(0, 1000) as u32,
        2 => s.between(0, TERM) as u32,
        _ => TERM as u32,
    }
}

fn commitment(s: &mut Source, flow: i64) -> u32 {
    let flow = flow.clamp(0, TERM);
    match s.below(20) {
        0..=5 => 0,
        6..=15 => s.between(0, flow / 2) as u32,
        16..=17 => s.between(0, flow) as u32,
        18 => flow as u32,
        _ => (flow + s.between(1, 3)).min(TERM) as u32,
    }
}

fn aquifer(s: &mut Source) -> AquiferRecord {
    let scale = s.pick(&[10, 1000, 100_000, TERM]);
    let natural = s.between(0, scale);
    let pumped = s.between(0, scale);
    let storage = match s.below(6) {
        0 => -(natural + pumped).min(TERM),
        1..=3 => 0,
        _ => s.between(-(natural + pumped).min(TERM), scale),
    };
    let recharge = (storage + natural + pumped).min(TERM);
    let committed = s.between(0, recharge / 2);
    let extraction = match s.below(8) {
        0 => recharge - committed,
        1 => (recharge - committed + s.between(1, 3)).min(TERM),
        2 => TERM - s.between(0, 5),
        _ => s.between(0, (recharge - committed) / 2),
    };
    AquiferRecord {
        storage: storage as i32,
        natural: natural as u32,
        pumped: pumped as u32,
        committed: committed as u32,
        extraction: extraction as u32,
    }
}

// Faults in a description

/// A sound description with one fault, or a value at its limit, and sometimes more than one.
pub(crate) fn faulty_description(s: &mut Source) -> Vec<Record> {
    let mut records = sound_description(s);
    let faults = match s.below(10) {
        0..=6 => 1,
        7..=8 => 2,
        _ => 3,
    };
    for _ in 0..faults {
        put_fault(s, &mut records);
    }
    records
}

fn put_fault(s: &mut Source, records: &mut Vec<Record>) {
    match s.below(15) {
        0 => change_year_count(s, records),
        1 => change_rain(s, records),
        2 => change_soil(s, records),
        3 => fill_hectares(s, records),
        4 => fill_areas(s, records),
        5 => fill_units(s, records),
        6 => fill_aquifers(s, records),
        7 => change_unit_entry(s, records),
        8 => change_downstream(s, records),
        9 => change_aquifer(s, records),
        10 => change_gauged_sum(s, records),
        11 => change_gauge(s, records),
        12 => change_flow(s, records),
        13 => insert_rain(s, records),
        _ => insert_out_of_sequence(s, records),
    }
}

/// The places of the records that `wanted` holds of.
fn places(records: &[Record], wanted: fn(&Record) -> bool) -> Vec<usize> {
    (0..records.len())
        .filter(|place| wanted(&records[*place]))
        .collect()
}

/// One of those places, if there are any.
fn place(s: &mut Source, records: &[Record], wanted: fn(&Record) -> bool) -> Option<usize> {
    let places = places(records, wanted);
    match places.is_empty() {
        true => None,
        false => Some(s.pick(&places)),
    }
}

fn is_unit(record: &Record) -> bool {
    matches!(record, Record::Unit(_))
}

fn is_rain(record: &Record) -> bool {
    matches!(record, Record::Rain(_) | Record::Tenths(_))
}

fn is_year(record: &Record) -> bool {
    is_rain(record) || matches!(record, Record::Gauge(_))
}

fn is_soil(record: &Record) -> bool {
    matches!(record, Record::Soil(_))
}

fn is_aquifer(record: &Record) -> bool {
    matches!(record, Record::Aquifer(_))
}

/// The places of the equal-kind records around a place: the years or the areas of one unit.
fn run_of(records: &[Record], place: usize, wanted: fn(&Record) -> bool) -> (usize, usize) {
    let mut first = place;
    while first > 0 && wanted(&records[first - 1]) {
        first -= 1;
    }
    let mut end = place;
    while end < records.len() && wanted(&records[end]) {
        end += 1;
    }
    (first, end)
}

/// Gives a unit 0, 1, 19, 20, 50 or 51 years.
fn change_year_count(s: &mut Source, records: &mut Vec<Record>) {
    if let Some(place) = place(s, records, is_year) {
        let (first, end) = run_of(records, place, is_year);
        let wanted = s.pick(&[0, 1, 18, 19, 19, 20, 50, 51, 51, 52]);
        resize(records, first, end, wanted);
    }
}

/// Shortens the records from `first` to `end`, or lengthens them by copies of them in turn.
fn resize(records: &mut Vec<Record>, first: usize, end: usize, wanted: usize) {
    let kept = end.min(first + wanted);
    let added = (first + wanted).saturating_sub(end);
    let copies: Vec<Record> = records[first..end]
        .iter()
        .copied()
        .cycle()
        .take(added)
        .collect();
    records.splice(kept..end, copies);
}

/// Gives a rain year a number at or past a limit of one of the two marks, or the other mark.
fn change_rain(s: &mut Source, records: &mut [Record]) {
    let Some(place) = place(s, records, is_rain) else {
        return;
    };
    records[place] = match (s.below(10), records[place]) {
        (0, Record::Rain(number)) => Record::Tenths(number),
        (0, Record::Tenths(number)) => Record::Rain(number),
        (1..=4, _) => Record::Rain(limit_rain(s)),
        _ => Record::Tenths(limit_tenths(s)),
    };
}

/// Millimetres at or past a limit.
fn limit_rain(s: &mut Source) -> u16 {
    s.pick(&[0, 349, 349, 350, 2150, 2151, 2151, 3500, 21_500, 65_535])
}

/// Tenths of a millimetre at or past a limit.
pub(crate) fn limit_tenths(s: &mut Source) -> u16 {
    s.pick(&[
        0, 349, 350, 3499, 3499, 3500, 21_500, 21_501, 21_501, 65_535,
    ])
}

fn change_soil(s: &mut Source, records: &mut [Record]) {
    let Some(place) = place(s, records, is_soil) else {
        return;
    };
    if let Record::Soil(area) = &mut records[place] {
        match s.below(3) {
            0 => area.cover = s.pick(&[0, 15, 255]),
            1 => area.soil = s.pick(&[0, 4, 255]),
            _ => area.hectares = s.pick(&[0, 299_999, 300_000, 300_001, 300_001, u32::MAX]),
        }
    }
}

/// Gives the areas of a unit together 300,000 or 300,001 hectares.
fn fill_hectares(s: &mut Source, records: &mut [Record]) {
    let Some(place) = place(s, records, is_soil) else {
        return;
    };
    let (first, end) = run_of(records, place, is_soil);
    let others: u32 = (first..end)
        .filter(|other| *other != place)
        .map(|other| match records[other] {
            Record::Soil(area) => area.hectares,
            _ => 0,
        })
        .fold(0, u32::saturating_add);
    let wanted = MOST_HECTARES + s.below(2) as u32;
    if let Record::Soil(area) = &mut records[place] {
        area.hectares = wanted.saturating_sub(others);
    }
}

/// Gives a unit 16, 17 or 18 areas.
fn fill_areas(s: &mut Source, records: &mut Vec<Record>) {
    let wanted = s.pick(&[16, 17, 17, 18]);
    if let Some(place) = place(s, records, is_soil) {
        let (first, end) = run_of(records, place, is_soil);
        for record in &mut records[first..end] {
            if let Record::Soil(area) = record {
                area.hectares = area.hectares.min(10_000);
            }
        }
        resize(records, first, end, wanted);
    }
}

/// Adds units until there are 64, 65 or 66.
fn fill_units(s: &mut Source, records: &mut Vec<Record>) {
    let wanted = s.pick(&[64, 65, 65, 66]);
    let have = places(records, is_unit).len();
    let end = places(records, is_aquifer)
        .first()
        .copied()
        .unwrap_or(records.len());
    let mut added = Vec::new();
    for _ in have..wanted {
        added.push(Record::Unit(UnitRecord::default()));
        added.push(Record::Soil(SoilRecord {
            cover: 8,
            soil: 1,
            hectares: 100,
        }));
        let year = s.pick(&[Record::Rain(800), Record::Tenths(8000)]);
        added.extend([year; FEWEST_YEARS]);
    }
    records.splice(end..end, added);
}

/// Adds aquifers until there are 32, 33 or 34.
fn fill_aquifers(s: &mut Source, records: &mut Vec<Record>) {
    let wanted = s.pick(&[32, 33, 33, 34]);
    for _ in places(records, is_aquifer).len()..wanted {
        let aquifer = aquifer(s);
        records.push(Record::Aquifer(aquifer));
    }
}

/// A term at or past a limit.
fn limit_term(s: &mut Source) -> u32 {
    s.pick(&[0, 9_999_999, 10_000_000, 10_000_001, 10_000_001, u32::MAX])
}

/// A storage change at or past a limit.
fn limit_storage(s: &mut Source) -> i32 {
    s.pick(&[
        10_000_000,
        10_000_001,
        -10_000_000,
        -10_000_001,
        i32::MIN,
        i32::MAX,
    ])
}

fn change_unit_entry(s: &mut Source, records: &mut [Record]) {
    let Some(place) = place(s, records, is_unit) else {
        return;
    };
    let value = limit_term(s);
    if let Record::Unit(unit) = &mut records[place] {
        match s.below(7) {
            0 => unit.extraction = value,
            1 => unit.exports = value,
            2 => unit.imports = value,
            3 => unit.returns = value,
            4 => unit.evaporation = value,
            5 => unit.storage = limit_storage(s),
            _ => unit.commitment = value,
        }
    }
}

fn change_downstream(s: &mut Source, records: &mut [Record]) {
    let units = places(records, is_unit);
    if units.is_empty() {
        return;
    }
    let index = s.below(units.len());
    let number = index + 1;
    let value = match s.below(7) {
        0 => number,
        1 => number.saturating_sub(1),
        2 => s.below(number),
        3 => units.len() + 1,
        4 => number + 1,
        5 => 65,
        _ => 255,
    };
    if let Record::Unit(unit) = &mut records[units[index]] {
        unit.downstream = value as u8;
        if s.chance(70) {
            unit.commitment = 0;
        }
    }
}

fn change_aquifer(s: &mut Source, records: &mut [Record]) {
    let Some(place) = place(s, records, is_aquifer) else {
        return;
    };
    let value = limit_term(s);
    if let Record::Aquifer(aquifer) = &mut records[place] {
        match s.below(7) {
            0 => aquifer.natural = value,
            1 => aquifer.pumped = value,
            2 => aquifer.committed = value,
            3 => aquifer.extraction = value,
            4 => aquifer.storage = limit_storage(s),
            _ => {
                aquifer.natural = aquifer.natural.min(4_000_000);
                aquifer.pumped = aquifer.pumped.min(4_000_000);
                let discharge = i64::from(aquifer.natural) + i64::from(aquifer.pumped);
                aquifer.storage = (s.between(-2, 1) - discharge) as i32;
            }
        }
    }
}

/// Sets the gauged sum of a unit at or past one of its limits.
fn change_gauged_sum(s: &mut Source, records: &mut [Record]) {
    let is_gauge = |record: &Record| matches!(record, Record::Gauge(_));
    let Some(place) = place(s, records, is_gauge) else {
        return;
    };
    let (first, end) = run_of(records, place, is_gauge);
    let mut years: Vec<GaugeRecord> = records[first..end]
        .iter()
        .filter_map(|record| match record {
            Record::Gauge(year) => Some(*year),
            _ => None,
        })
        .collect();
    let most = TERM * years.len() as i64;
    let target = s.pick(&[-1, -1, 0, most, most + 1, most + 1]);
    set_sum(&mut years, target);
    for (record, year) in records[first..end].iter_mut().zip(years) {
        *record = Record::Gauge(year);
    }
}

fn change_gauge(s: &mut Source, records: &mut [Record]) {
    let Some(place) = place(s, records, |record| matches!(record, Record::Gauge(_))) else {
        return;
    };
    let value = limit_term(s);
    let gauged = s.pick(&[0, 2_000_000_000, 2_000_000_001, u32::MAX]);
    if let Record::Gauge(year) = &mut records[place] {
        match s.below(8) {
            0 => year.outflow = gauged,
            1 => year.inflow = gauged,
            2 => year.extraction = value,
            3 => year.exports = value,
            4 => year.imports = value,
            5 => year.returns = value,
            6 => year.evaporation = value,
            _ => year.storage = limit_storage(s),
        }
    }
}

/// Makes the flow of a unit −1, 0 or 1 by its extraction.
pub(crate) fn change_flow(s: &mut Source, records: &mut [Record]) {
    let Ok(opened) = book::open(&record::book_of(records)) else {
        return;
    };
    let units = places(records, is_unit);
    if opened.balance.units.is_empty() {
        return;
    }
    let index = s.below(opened.balance.units.len());
    let flow = basin::flows(&opened.balance.units)[index] as i64;
    if let Record::Unit(unit) = &mut records[units[index]] {
        let wanted = i64::from(unit.extraction) + flow + s.between(-1, 1);
        unit.extraction = wanted.clamp(0, TERM) as u32;
    }
}

/// Puts a rain year at the start, after a unit, an area, a year or an aquifer, or at the end.
fn insert_rain(s: &mut Source, records: &mut Vec<Record>) {
    let percent_in_tenths = 70;
    let year = match s.chance(70) {
        true => rain_year(s, LEAST_TENTHS, MOST_TENTHS, percent_in_tenths),
        false if s.chance(percent_in_tenths) => Record::Tenths(limit_tenths(s)),
        false => Record::Rain(limit_rain(s)),
    };
    let wanted = s.pick(&[is_unit, is_soil, is_year, is_aquifer]);
    let after = match s.below(8) {
        0 => 0,
        1 => records.len(),
        _ => place(s, records, wanted).map_or(0, |place| place + 1),
    };
    records.insert(after, year);
}

fn insert_out_of_sequence(s: &mut Source, records: &mut Vec<Record>) {
    let place = match s.below(4) {
        0 => 0,
        1 => records.len(),
        _ => s.below(records.len() + 1),
    };
    let record = random_record(s, true);
    records.insert(place, record);
}

// Calls

/// A list of calls for a balance. The balance follows the calls, so that volumes and title numbers
/// suit it.
fn calls(s: &mut Source, balance: Balance) -> Vec<Call> {
    let count = match s.below(100) {
        0..=7 => 0,
        8..=44 => s.between(1, 5),
        45..=84 => s.between(6, 20),
        85..=97 => s.between(21, 60),
        _ => s.between(250, 340),
    } as usize;
    let modest = count > 200;
    let mut office = Office {
        balance,
        calls: Vec::new(),
    };
    while office.calls.len() < count {
        office.put_some(s, modest);
    }
    office.calls
}

/// The calls made so far and the balance after them.
pub(crate) struct Office {
    pub(crate) balance: Balance,
    pub(crate) calls: Vec<Call>,
}

impl Office {
    /// Makes a call, or several of which the last cancels the first.
    pub(crate) fn put_some(&mut self, s: &mut Source, modest: bool) {
        match s.below(100) {
            0..=5 if !modest => self.bring_and_spend(s),
            6..=9 if !modest => self.transfer_and_spend(s),
            10..=15 if !modest => self.return_and_spend(s),
            _ => {
                let call = match modest {
                    true => self.modest_call(s),
                    false => self.any_call(s, false),
                };
                self.put(call);
            }
        }
    }

    /// Makes a call and returns the title number if it is given.
    pub(crate) fn put(&mut self, call: Call) -> Option<usize> {
        let (reply, after) = register::apply(&self.balance, &call);
        self.balance = after;
        self.calls.push(call);
        match reply {
            Reply::Given(title) => Some(title),
            _ => None,
        }
    }

    fn unit(&self, s: &mut Source) -> u8 {
        number(s, self.balance.units.len())
    }

    fn aquifer(&self, s: &mut Source) -> u8 {
        number(s, self.balance.aquifers.len())
    }

    /// Where the titles in force go, one entry for each addition.
    fn entries_of_titles(&self) -> Vec<Entry> {
        let additions = register::in_force(&self.balance).flat_map(|title| title.additions());
        additions.map(|(entry, _)| entry).collect()
    }

    /// An aquifer that a title in force draws on, or any.
    fn shared_aquifer(&self, s: &mut Source) -> u8 {
        let entries = self.entries_of_titles();
        let drawn: Vec<usize> = entries.into_iter().filter_map(aquifer_of_entry).collect();
        match s.chance(40) && !drawn.is_empty() {
            true => s.pick(&drawn) as u8,
            false => self.aquifer(s),
        }
    }

    /// A unit for a return: one that a title in force names, one of a basin that none names, or any.
    fn return_unit(&self, s: &mut Source) -> u8 {
        let entries = self.entries_of_titles();
        let named: Vec<usize> = entries.into_iter().filter_map(unit_of_entry).collect();
        let wanted = match s.below(10) {
            0..=3 => named,
            4..=5 => self.units_of_other_basins(&named),
            _ => Vec::new(),
        };
        match wanted.is_empty() {
            true => self.unit(s),
            false => s.pick(&wanted) as u8,
        }
    }

    /// The units whose outlet is that of none of the units named.
    fn units_of_other_basins(&self, named: &[usize]) -> Vec<usize> {
        let units = &self.balance.units;
        let outlets: Vec<usize> = named.iter().map(|u| basin::outlet(units, *u)).collect();
        (1..=units.len())
            .filter(|unit| !outlets.contains(&basin::outlet(units, *unit)))
            .collect()
    }

    fn any_call(&self, s: &mut Source, modest: bool) -> Call {
        let cancel = match modest {
            true => 2,
            false => 20,
        };
        let kind = match s.below(100 + cancel) {
            0..=27 => Call::Withdraw {
                unit: self.unit(s),
                usage: usage(s),
                volume: 0,
            },
            28..=41 => Call::Pump {
                aquifer: self.aquifer(s),
                volume: 0,
            },
            42..=59 => Call::Transfer {
                from: self.unit(s),
                to: self.unit(s),
                volume: 0,
            },
            60..=75 => Call::Bring {
                aquifer: self.aquifer(s),
                unit: self.unit(s),
                volume: 0,
            },
            76..=99 => Call::PumpReturning {
                aquifer: self.shared_aquifer(s),
                unit: self.return_unit(s),
                usage: usage(s),
                volume: 0,
            },
            _ => Call::Cancel {
                title: self.title(s),
            },
        };
        if s.chance(8) && !modest {
            let volume = self.largest_given(&kind);
            return with_volume(&kind, volume + s.below(2) as u32);
        }
        let volume = self.volume(s, &kind, modest);
        with_volume(&kind, volume)
    }

    /// A call of small volume, mostly one that is given, so that all title numbers are given in time.
    pub(crate) fn modest_call(&self, s: &mut Source) -> Call {
        for _ in 0..6 {
            let call = self.any_call(s, true);
            if !matches!(register::apply(&self.balance, &call).0, Reply::Refused(_)) {
                return call;
            }
        }
        self.any_call(s, true)
    }

    /// A title number, mostly of a title in force.
    fn title(&self, s: &mut Source) -> u16 {
        let given = self.balance.titles.len();
        let in_force: Vec<usize> = (1..=given)
            .filter(|title| self.balance.titles[title - 1].in_force)
            .collect();
        match s.below(20) {
            0..=14 if !in_force.is_empty() => s.pick(&in_force) as u16,
            15..=17 => s.between(0, given as i64) as u16,
            18 => given as u16 + 1,
            _ => s.pick(&[0, 1, 255, 256, 257, 65_535]),
        }
    }

    fn volume(&self, s: &mut Source, kind: &Call, modest: bool) -> u32 {
        if modest {
            return s.between(1, 3) as u32;
        }
        let water = self.water(kind).clamp(0, 2 * TERM);
        if let Call::PumpReturning { unit, usage, .. } = *kind {
            match s.below(20) {
                0 => return s.between(1, 7) as u32,
                1..=3 => {
                    let filling = self.filling_returns(unit, usage) + s.between(-1, 1);
                    return filling.clamp(0, water) as u32;
                }
                _ => {}
            }
        }
        let volume = match s.below(40) {
            0 => 0,
            1 => TERM,
            2 => TERM + 1,
            3 => i64::from(u32::MAX),
            4..=9 => s.between(1, 10),
            10..=27 => s.between(1, water / 3),
            28..=33 => s.between(1, water),
            34..=36 => water + s.between(-1, 1),
            37..=38 => water * 5 / 4 + s.between(-1, 1),
            _ => s.between(0, TERM),
        };
        volume.max(0) as u32
    }

    /// The volume whose return fills the returns of a unit, 0 if there is no such unit or use.
    fn filling_returns(&self, unit: u8, usage: u8) -> i64 {
        let unit = self.balance.units.get(usize::from(unit).wrapping_sub(1));
        let percent = RETURN_PERCENT.get(usize::from(usage).wrapping_sub(1));
        match (unit, percent) {
            (Some(unit), Some(percent)) => (TERM - unit.returns) * 100 / percent,
            _ => 0,
        }
    }

    /// The availability of the unit or aquifer that a call draws on, 0 if there is none.
    fn water(&self, call: &Call) -> i64 {
        let results = basin::results(&self.balance.units);
        let unit = |number: u8| {
            let index = usize::from(number).wrapping_sub(1);
            results.get(index).map_or(0, |r| r.availability as i64)
        };
        let aquifer = |number: u8| {
            let index = usize::from(number).wrapping_sub(1);
            let aquifer = self.balance.aquifers.get(index);
            aquifer.map_or(0, |a| a.availability() as i64)
        };
        match *call {
            Call::Withdraw { unit: number, .. } => unit(number),
            Call::Transfer { from, .. } => unit(from),
            Call::Pump { aquifer: a, .. }
            | Call::Bring { aquifer: a, .. }
            | Call::PumpReturning { aquifer: a, .. } => aquifer(a),
            Call::Cancel { .. } => 0,
        }
    }

    /// A volume that is given where one more is refused, by halving; 0 if none was found.
    fn largest_given(&self, kind: &Call) -> u32 {
        let (mut given, mut refused) = (0, TERM as u32 + 1);
        while refused - given > 1 {
            let middle = given + (refused - given) / 2;
            match register::apply(&self.balance, &with_volume(kind, middle)).0 {
                Reply::Given(_) => given = middle,
                _ => refused = middle,
            }
        }
        given
    }

    /// Brings water from an aquifer, spends it, and cancels what brought it.
    fn bring_and_spend(&mut self, s: &mut Source) {
        let unit = self.unit(s);
        let kind = Call::Bring {
            aquifer: self.aquifer(s),
            unit,
            volume: 0,
        };
        self.spend(s, &kind, unit);
    }

    /// Transfers water from unit to unit, spends it, and cancels what transferred it.
    fn transfer_and_spend(&mut self, s: &mut Source) {
        let to = self.unit(s);
        let kind = Call::Transfer {
            from: self.unit(s),
            to,
            volume: 0,
        };
        self.spend(s, &kind, to);
    }

    /// Returns water of an aquifer to a unit, spends it, and cancels what returned it.
    fn return_and_spend(&mut self, s: &mut Source) {
        let unit = self.return_unit(s);
        let kind = Call::PumpReturning {
            aquifer: self.shared_aquifer(s),
            unit,
            usage: s.pick(&[2, 3, 6, 7]),
            volume: 0,
        };
        self.spend(s, &kind, unit);
    }

    /// Makes a call that gives a unit water, spends water there or below, and cancels the first
    /// title, sometimes once more after what spent it.
    fn spend(&mut self, s: &mut Source, kind: &Call, unit: u8) {
        let spender = self.spender(s, unit);
        let flow = self.flow(spender);
        let largest = self.largest_given(kind);
        let volume = s.between(1, i64::from(largest)) as u32;
        let title = self.put(with_volume(kind, volume));
        let spending = self.spending(s, spender);
        let volume = match s.chance(35) {
            true => (flow + s.between(-1, 1)).clamp(1, TERM) as u32,
            false => self
                .largest_given(&spending)
                .saturating_sub(s.below(3) as u32),
        };
        let spent = self.put(with_volume(&spending, volume));
        self.take_back(title);
        if s.chance(30) {
            self.take_back(spent);
            self.take_back(title);
        }
    }

    /// A unit or one below it.
    fn spender(&self, s: &mut Source, unit: u8) -> u8 {
        let found = self.balance.units.get(usize::from(unit).wrapping_sub(1));
        match found.map(|unit: &Unit| unit.downstream) {
            Some(downstream) if downstream > 0 && s.chance(30) => downstream as u8,
            _ => unit,
        }
    }

    /// The flow of a unit, 0 if there is none.
    fn flow(&self, unit: u8) -> i64 {
        let flows = basin::flows(&self.balance.units);
        let index = usize::from(unit).wrapping_sub(1);
        flows.get(index).map_or(0, |flow| *flow as i64)
    }

    /// A withdrawal from a unit or a transfer out of it, without its volume.
    fn spending(&self, s: &mut Source, unit: u8) -> Call {
        match s.chance(65) {
            true => Call::Withdraw {
                unit,
                usage: s.pick(&[1, 1, 3, 5]),
                volume: 0,
            },
            false => Call::Transfer {
                from: unit,
                to: self.unit(s),
                volume: 0,
            },
        }
    }

    /// Cancels a title that was given.
    fn take_back(&mut self, title: Option<usize>) {
        if let Some(title) = title {
            self.put(Call::Cancel {
                title: title as u16,
            });
        }
    }
}

fn unit_of_entry(entry: Entry) -> Option<usize> {
    match entry {
        Entry::Extraction(unit)
        | Entry::Exports(unit)
        | Entry::Imports(unit)
        | Entry::Returns(unit) => Some(unit),
        Entry::AquiferExtraction(_) => None,
    }
}

fn aquifer_of_entry(entry: Entry) -> Option<usize> {
    match entry {
        Entry::AquiferExtraction(aquifer) => Some(aquifer),
        _ => None,
    }
}

/// A unit or aquifer number, mostly of one that exists.
fn number(s: &mut Source, count: usize) -> u8 {
    match s.below(40) {
        0 => 0,
        1 => count as u8 + 1,
        2 if s.chance(30) => 255,
        _ => s.between(1, count as i64) as u8,
    }
}

fn usage(s: &mut Source) -> u8 {
    match s.below(40) {
        0 => 0,
        1 => 8,
        _ => s.between(1, 7) as u8,
    }
}

/// The call with another volume.
fn with_volume(call: &Call, volume: u32) -> Call {
    let mut call = *call;
    match &mut call {
        Call::Withdraw { volume: v, .. }
        | Call::Pump { volume: v, .. }
        | Call::Transfer { volume: v, .. }
        | Call::Bring { volume: v, .. }
        | Call::PumpReturning { volume: v, .. } => *v = volume,
        Call::Cancel { .. } => {}
    }
    call
}

// Damage

/// A book with damaged records or bytes.
fn damaged(s: &mut Source) -> Vec<u8> {
    let describe = match s.chance(80) {
        true => sound_description,
        false => faulty_description,
    };
    let mut book = with_calls(s, describe);
    let times = s.pick(&[1, 1, 1, 2, 3]);
    for _ in 0..times {
        book = match s.chance(35) {
            true => damage_records(s, &book),
            false => damage_bytes(s, book),
        };
    }
    book
}

/// Removes, repeats or exchanges records. A book of other bytes is left as it is.
fn damage_records(s: &mut Source, book: &[u8]) -> Vec<u8> {
    let Ok(mut records) = record::records_of(book) else {
        return book.to_vec();
    };
    if records.is_empty() {
        return book.to_vec();
    }
    let place = s.below(records.len());
    match s.below(5) {
        0 => {
            records.remove(place);
        }
        1 => records.insert(place, records[place]),
        2 => {
            let other = s.below(records.len());
            records.swap(place, other);
        }
        3 => {
            let record = random_record(s, true);
            records.insert(place, record);
        }
        _ => records.truncate(place),
    }
    record::book_of(&records)
}

pub(crate) fn damage_bytes(s: &mut Source, mut book: Vec<u8>) -> Vec<u8> {
    let place = s.below(book.len() + 1);
    match s.below(8) {
        0 => book.truncate(place),
        1 => book.truncate(book.len().saturating_sub(1 + s.below(12))),
        2 if place < book.len() => book[place] ^= 1 << s.below(8),
        3 if place < book.len() => book[place] = s.byte(),
        4 => book.insert(place, s.byte()),
        5 if place < book.len() => {
            book.remove(place);
        }
        6 => {
            let added: &[u8] = s.pick(&[
                b"U",
                b"G",
                b"XX",
                b"un",
                b"NU",
                b"UN",
                b"GU",
                b"CA\0",
                b"PD",
                b"PD\0",
                b"GW",
                b"GW\x01\x01\x01\x01\0\0",
                b"gw",
            ]);
            book.extend(added);
        }
        _ => {
            let added = s.between(1, 40);
            book.extend((0..added).map(|_| s.byte()));
        }
    }
    book
}

/// Records of any kind and order.
fn random_records(s: &mut Source) -> Vec<Record> {
    let count = s.between(1, 60);
    let within = s.chance(50);
    (0..count).map(|_| random_record(s, within)).collect()
}

/// A record of any kind. Its fields are within their values if `within` holds.
pub(crate) fn random_record(s: &mut Source, within: bool) -> Record {
    let mark = record::MARKS[s.below(record::MARKS.len())];
    let mut bytes = mark.1.to_vec();
    bytes.extend((0..mark.2).map(|_| s.byte()));
    let (record, _) = record::record_at(&bytes, 0).expect("the body has its length");
    match record {
        Record::Unit(_) if within => Record::Unit(reckless_entries(s)),
        Record::Soil(_) if within => Record::Soil(areas(s)[0]),
        Record::Rain(_) if within => rain_year(s, LEAST_TENTHS, MOST_TENTHS, 0),
        Record::Tenths(_) if within => rain_year(s, LEAST_TENTHS, MOST_TENTHS, 100),
        Record::Gauge(_) if within => Record::Gauge(gauged_year(s, 1000, 1000, false)),
        Record::Aquifer(_) if within => Record::Aquifer(aquifer(s)),
        other => other,
    }
}

pub(crate) fn random_bytes(s: &mut Source) -> Vec<u8> {
    let mut book = Vec::new();
    let parts = s.below(12);
    for _ in 0..parts {
        if s.chance(60) {
            book.extend(record::MARKS[s.below(record::MARKS.len())].1);
        }
        let added = s.below(40);
        book.extend((0..added).map(|_| s.byte()));
    }
    book
}

// Length

/// A book of about 65,536 bytes: a small description and many calls.
fn near_longest(s: &mut Source) -> Vec<u8> {
    let units = s.below(4);
    let aquifers = s.below(3);
    let mut book = record::book_of(&describe(s, units, aquifers));
    let wanted = (LONGEST_BOOK as i64 + s.pick(&[-2, -1, 0, 0, 1, 2, 9])) as usize;
    let calls: Vec<Vec<u8>> = [
        Call::Withdraw {
            unit: 1,
            usage: usage(s),
            volume: s.between(0, 3) as u32,
        },
        Call::Pump {
            aquifer: 1,
            volume: s.between(0, 3) as u32,
        },
        Call::Transfer {
            from: number(s, units),
            to: number(s, units),
            volume: 1,
        },
        Call::PumpReturning {
            aquifer: 1,
            unit: number(s, units),
            usage: usage(s),
            volume: s.between(0, 3) as u32,
        },
        Call::Cancel {
            title: s.between(1, 256) as u16,
        },
    ]
    .iter()
    .map(|call| Record::Call(*call).bytes())
    .collect();
    while book.len() < wanted {
        let call = &calls[s.below(calls.len())];
        book.extend(call);
    }
    if book.len() > wanted && s.chance(70) {
        book.truncate(wanted);
    }
    book
}

/// A description that is itself about as long as a book may be.
fn long_description(s: &mut Source) -> Vec<u8> {
    let mut records = Vec::new();
    let years = s.between(28, 30) as usize;
    for _ in 0..s.between(62, 64) {
        records.push(Record::Unit(UnitRecord::default()));
        let mut gauged = vec![GaugeRecord::default(); years];
        set_sum(&mut gauged, s.between(0, 10_000));
        records.extend(gauged.into_iter().map(Record::Gauge));
    }
    for _ in 0..s.below(33) {
        records.push(Record::Aquifer(aquifer(s)));
    }
    record::book_of(&records)
}
