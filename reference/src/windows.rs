//! The moving window: the natural runoff of every window of one unit's rain years.
//!
//! Each window is worked out by itself, as the unit of a book with just its years.

use crate::book::{self, FEWEST_YEARS, MOST_AREAS, MOST_HECTARES, MOST_YEARS};
use crate::record::{Record, SoilRecord};
use crate::register::refuse_if;
use crate::runoff;

/// The most rain years that are handed in.
pub const MOST_RAIN_YEARS: usize = 200;
/// The places of a reply: the windows of the least width in the most rain years.
pub const PLACES: usize = MOST_RAIN_YEARS - FEWEST_YEARS + 1;

/// What is handed in for one unit: how many years a window has, the areas, and the rain years in
/// tenths of a millimetre, the oldest first.
#[derive(Clone, Debug, Default, PartialEq, Eq)]
pub struct Request {
    pub width: u8,
    pub areas: Vec<SoilRecord>,
    pub years: Vec<u16>,
}

/// The reply with all its places. Those after the last window are 0, and all are 0 if it is refused.
#[derive(Clone, Copy, Debug, PartialEq, Eq)]
pub struct Reply {
    pub refused: Option<u8>,
    pub windows: usize,
    pub places: [i64; PLACES],
}

impl Reply {
    /// The reply of a refusal's number.
    pub fn refused(number: u8) -> Reply {
        Reply {
            refused: Some(number),
            windows: 0,
            places: [0; PLACES],
        }
    }
}

/// The natural runoff of each window, the first from the oldest years, or the number of the refusal.
pub fn runoffs(request: &Request) -> Result<Vec<i64>, u8> {
    check(request)?;
    let windows = request.years.windows(usize::from(request.width));
    Ok(windows
        .map(|years| natural_runoff(&request.areas, years))
        .collect())
}

/// The reply to a request.
pub fn reply(request: &Request) -> Reply {
    match runoffs(request) {
        Ok(runoffs) => {
            let mut places = [0; PLACES];
            places[..runoffs.len()].copy_from_slice(&runoffs);
            Reply {
                refused: None,
                windows: runoffs.len(),
                places,
            }
        }
        Err(number) => Reply::refused(number),
    }
}

/// The refusals in their order, each over all records before the next.
fn check(request: &Request) -> Result<(), u8> {
    let width = usize::from(request.width);
    let (areas, years) = (&request.areas, &request.years);
    refuse_if(!(FEWEST_YEARS..=MOST_YEARS).contains(&width), 24)?;
    refuse_if(width > years.len(), 24)?;
    refuse_if(years.len() > MOST_RAIN_YEARS, 24)?;
    refuse_if(areas.is_empty(), 3)?;
    refuse_if(areas.len() > MOST_AREAS, 4)?;
    let areas_within = areas.iter().all(|area| within_values(Record::Soil(*area)));
    refuse_if(!areas_within, 5)?;
    refuse_if(runoff::hectares(areas) > i128::from(MOST_HECTARES), 7)?;
    let years_within = years
        .iter()
        .all(|year| within_values(Record::Tenths(*year)));
    refuse_if(!years_within, 5)
}

fn within_values(record: Record) -> bool {
    book::fields_within_values(&record)
}

/// The mean of the years, rounded once.
fn natural_runoff(areas: &[SoilRecord], years: &[u16]) -> i64 {
    let years: Vec<u32> = years.iter().map(|tenths| u32::from(*tenths)).collect();
    let mean = runoff::rain_mean(areas, &years);
    i64::try_from(mean.rounded()).expect("the runoff of a window is a term")
}
