//! Random moving windows: their areas and years, mostly sound, and faults in them.

use crate::book::{FEWEST_YEARS, LEAST_TENTHS, MOST_AREAS, MOST_HECTARES, MOST_TENTHS, MOST_YEARS};
use crate::random::{self, Source};
use crate::record::SoilRecord;
use crate::windows::{Request, MOST_RAIN_YEARS};

/// A moving window. Seven in ten are sound, two have one fault and one has several.
pub fn request(s: &mut Source) -> Request {
    let mut request = sound(s);
    let faults = match s.below(10) {
        0..=6 => 0,
        7..=8 => 1,
        _ => s.between(2, 4),
    };
    for _ in 0..faults {
        put_fault(s, &mut request);
    }
    request
}

/// A moving window that is not refused.
pub fn sound(s: &mut Source) -> Request {
    let width = width(s);
    let count = match s.below(20) {
        0..=2 => width,
        3..=15 => s.between(width as i64, 60) as usize,
        16..=17 => s.between(width as i64, MOST_RAIN_YEARS as i64) as usize,
        18 => MOST_RAIN_YEARS - 1,
        _ => MOST_RAIN_YEARS,
    };
    let (areas, years) = match s.chance(12) {
        true => (areas_of_halves(s), years_of_halves(s, count)),
        false => (random::areas(s), years(s, count)),
    };
    Request {
        width: width as u8,
        areas,
        years,
    }
}

fn width(s: &mut Source) -> usize {
    match s.below(10) {
        0..=3 => FEWEST_YEARS,
        4 => FEWEST_YEARS + 1,
        5 => MOST_YEARS - 1,
        6 => MOST_YEARS,
        _ => s.between(FEWEST_YEARS as i64, MOST_YEARS as i64) as usize,
    }
}

/// Rain years that are equal, near a limit, in order, in turn or of any kind.
fn years(s: &mut Source, count: usize) -> Vec<u16> {
    let (least, most) = (i64::from(LEAST_TENTHS), i64::from(MOST_TENTHS));
    let first = s.between(least, most) as u16;
    let second = s.pick(&[LEAST_TENTHS, MOST_TENTHS, first ^ 1]);
    let second = second.clamp(LEAST_TENTHS, MOST_TENTHS);
    match s.below(9) {
        0 => vec![first; count],
        1 => many(s, count, least, least + 10),
        2 => many(s, count, most - 10, most),
        3 => many(s, count, 4000, 12_000),
        4..=5 => {
            let mut years = many(s, count, least, most);
            years.sort();
            if s.chance(50) {
                years.reverse();
            }
            years
        }
        6 => (0..count).map(|_| s.pick(&[first, second])).collect(),
        _ => many(s, count, least, most),
    }
}

fn many(s: &mut Source, count: usize, least: i64, most: i64) -> Vec<u16> {
    (0..count).map(|_| s.between(least, most) as u16).collect()
}

/// Areas that give one half or several with years of 5000 tenths.
fn areas_of_halves(s: &mut Source) -> Vec<SoilRecord> {
    let area = |cover, hectares| SoilRecord {
        cover,
        soil: 1,
        hectares,
    };
    let times = s.pick(&[1, 1, 1, 2, 3, 9]);
    vec![area(8, 8 * times), area(9, 2 * times)]
}

/// Years of 5000 tenths, all of them or with some that differ by one.
fn years_of_halves(s: &mut Source, count: usize) -> Vec<u16> {
    let percent_other = s.pick(&[0, 3, 10, 50]);
    let year = |s: &mut Source| match s.chance(percent_other) {
        true => s.pick(&[4999, 5001]),
        false => 5000,
    };
    (0..count).map(|_| year(s)).collect()
}

// Faults

/// Changes a moving window so that it is mostly refused.
fn put_fault(s: &mut Source, request: &mut Request) {
    match s.below(12) {
        0..=1 => request.width = s.pick(&[0, 1, 19, 19, 51, 51, 128, 255]),
        2 => shorten(s, request),
        3 => lengthen(s, request),
        4 => request.areas.clear(),
        5 => put_more_areas(s, request),
        6..=7 => change_area(s, request),
        8..=9 => fill_hectares(s, request),
        _ => change_year(s, request),
    }
}

/// Leaves one year fewer than the window has, or none, or some.
fn shorten(s: &mut Source, request: &mut Request) {
    let width = usize::from(request.width);
    let count = s.pick(&[
        0,
        1,
        width.saturating_sub(1),
        width.saturating_sub(1),
        width,
    ]);
    request.years.truncate(count);
}

/// Makes the years 200 or 201, or more.
fn lengthen(s: &mut Source, request: &mut Request) {
    let count = match s.below(200) {
        0 => 65_535,
        _ => s.pick(&[200, 201, 201, 201, 202, 255, 256, 257, 300]),
    };
    let last = request.years.last().copied().unwrap_or(8000);
    request.years.resize(count, last);
}

/// Makes the areas 16, 17 or more.
fn put_more_areas(s: &mut Source, request: &mut Request) {
    let count = s.pick(&[MOST_AREAS, MOST_AREAS + 1, MOST_AREAS + 1, 18, 32, 255]);
    let hectares = s.pick(&[1, 100, MOST_HECTARES]);
    let area = SoilRecord {
        cover: 8,
        soil: 1,
        hectares,
    };
    request.areas.resize(count, area);
}

/// Puts one field of an area at or past a limit.
fn change_area(s: &mut Source, request: &mut Request) {
    if request.areas.is_empty() {
        return;
    }
    let place = s.below(request.areas.len());
    let area = &mut request.areas[place];
    match s.below(3) {
        0 => area.cover = s.pick(&[0, 14, 15, 15, 255]),
        1 => area.soil = s.pick(&[0, 3, 4, 4, 255]),
        _ => area.hectares = s.pick(&[0, 1, MOST_HECTARES, MOST_HECTARES + 1, 1 << 31, u32::MAX]),
    }
}

/// Gives the areas, two at least, together 300,000 hectares, or one more, or a number of 33 bits.
fn fill_hectares(s: &mut Source, request: &mut Request) {
    let Some(last) = request.areas.last().copied() else {
        return;
    };
    if request.areas.len() == 1 {
        request.areas.push(last);
    }
    let place = s.below(request.areas.len());
    request.areas[place].hectares = 0;
    let others: u64 = request
        .areas
        .iter()
        .map(|area| u64::from(area.hectares))
        .sum();
    let most = u64::from(MOST_HECTARES);
    let wanted = match s.below(8) {
        0..=2 => most,
        3..=6 => most + 1,
        _ => (1 << 32) + most,
    };
    request.areas[place].hectares = wanted.saturating_sub(others) as u32;
}

/// Puts a year at or past a limit.
fn change_year(s: &mut Source, request: &mut Request) {
    let last = request.years.len().saturating_sub(1);
    let place = match s.below(4) {
        0 => 0,
        1 => last,
        _ => s.below(last + 1),
    };
    if let Some(year) = request.years.get_mut(place) {
        *year = random::limit_tenths(s);
    }
}
