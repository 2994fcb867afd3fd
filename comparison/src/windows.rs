//! Moving windows: the reply to one request, repeated, by each contestant.

use crate::proved;
use reference::random::Source;
use reference::record::SoilRecord;
use reference::windows::{self, Reply, Request, MOST_RAIN_YEARS, PLACES};
use reference::{fast, runoff};
use std::hint::black_box;

/// The longest record of rain years, on 16 soil records, with windows of so many years.
pub fn longest(width: u8) -> Request {
    let s = &mut Source::new(1);
    let areas = (1..=14).chain([8, 9]).map(|cover| SoilRecord {
        cover,
        soil: s.between(1, 3) as u8,
        hectares: s.between(1, 18_000) as u32,
    });
    Request {
        width,
        areas: areas.collect(),
        years: (0..MOST_RAIN_YEARS)
            .map(|_| s.between(3_500, 21_500) as u16)
            .collect(),
    }
}

/// The proved library reads the record of a request and replies to it so many times. Returns how many windows it gave in all.
pub fn proved(record: &[u8], times: u64) -> u64 {
    proved::rewatch(
        record,
        times.try_into().expect("the repetitions have 32 bits"),
    )
}

/// The same by the plain model, which has the request as numbers, as do the others.
pub fn plain(request: &Request, times: u64) -> u64 {
    repeat(windows::reply, request, times)
}

/// The same by the fast model.
pub fn fast(request: &Request, times: u64) -> u64 {
    repeat(fast_reply, request, times)
}

/// The same with each window worked out afresh.
pub fn afresh(request: &Request, times: u64) -> u64 {
    repeat(afresh_reply, request, times)
}

fn repeat(reply: fn(&Request) -> Reply, request: &Request, times: u64) -> u64 {
    let given = (0..times).map(|_| black_box(reply(black_box(request))).windows as u64);
    given.sum()
}

/// The reply of the fast model.
pub fn fast_reply(request: &Request) -> Reply {
    fast::windows(usize::from(request.width), &request.areas, &request.years)
}

/// The reply to a request that isn't refused, each window from all of its years by the formula that the proved library
/// has for a year. Nothing is tested.
pub fn afresh_reply(request: &Request) -> Reply {
    let area = runoff::hectares(&request.areas) as u64;
    let weighted = runoff::weighted_hectares(&request.areas) as u64;
    let width = usize::from(request.width);
    let divisor = 6_000_000_000 * width as u64;
    let mut reply = Reply {
        refused: None,
        windows: request.years.len() - width + 1,
        places: [0; PLACES],
    };
    for (place, years) in reply.places.iter_mut().zip(request.years.windows(width)) {
        let sum: u64 = years
            .iter()
            .map(|tenths| rain_year(area, weighted, u64::from(*tenths)))
            .sum();
        *place = ((2 * sum + divisor) / (2 * divisor)) as i64;
    }
    reply
}

/// What a year gives, in 6,000,000,000ths.
fn rain_year(area: u64, weighted: u64, tenths: u64) -> u64 {
    let first = tenths * 3 * weighted * tenths.saturating_sub(2500);
    match 15 * area < weighted {
        true => first + tenths * 40_000 * (weighted - 15 * area),
        false => first,
    }
}
