//! A moving window as text: its width, its areas and its rain years, in words without spaces.

use super::{number, within, MOST_REPETITIONS};
use crate::record::SoilRecord;
use crate::windows::Request;

/// The words after the keyword: `width=W`, then `soil=COVER,SOIL,HECTARES` for each area and
/// `tenths=TENTHS` for each year, with `xN` for N equal years.
pub fn show(request: &Request) -> String {
    let mut words = vec![format!("width={}", request.width)];
    for area in &request.areas {
        words.push(format!(
            "soil={},{},{}",
            area.cover, area.soil, area.hectares
        ));
    }
    for years in request.years.chunk_by(|one, other| one == other) {
        words.push(match years.len() {
            1 => format!("tenths={}", years[0]),
            times => format!("tenths={}x{times}", years[0]),
        });
    }
    words.join(" ")
}

/// The moving window of the words after a keyword, a comment apart. A width that is left out is 0.
pub fn read(rest: &str) -> Result<Request, String> {
    let mut request = Request::default();
    let mut width = None;
    for word in rest.split('#').next().unwrap_or("").split_whitespace() {
        match word.split_once('=') {
            Some(("width", value)) if width.is_none() => {
                width = Some(within(number(value)?, "width")?);
            }
            Some(("width", _)) => return Err("field 'width' stands twice".to_string()),
            Some(("soil", value)) => request.areas.push(read_area(value)?),
            Some(("tenths", value)) => request.years.extend(read_years(value)?),
            Some((name, _)) => return Err(format!("'windows' has no field '{name}'")),
            None => return Err(format!("'{word}' is not name=value")),
        }
    }
    request.width = width.unwrap_or(0);
    if request.areas.len() > usize::from(u8::MAX) {
        return Err("more than 255 areas".to_string());
    }
    if request.years.len() > usize::from(u16::MAX) {
        return Err("more than 65535 years".to_string());
    }
    Ok(request)
}

fn read_area(value: &str) -> Result<SoilRecord, String> {
    let numbers: Vec<&str> = value.split(',').collect();
    match numbers.as_slice() {
        [cover, soil, hectares] => Ok(SoilRecord {
            cover: within(number(cover)?, "cover")?,
            soil: within(number(soil)?, "soil")?,
            hectares: within(number(hectares)?, "hectares")?,
        }),
        _ => Err(format!("'{value}' is not cover,soil,hectares")),
    }
}

fn read_years(value: &str) -> Result<Vec<u16>, String> {
    let (tenths, times) = match value.split_once('x') {
        Some((tenths, times)) => (tenths, number(times)?),
        None => (value, 1),
    };
    let tenths = within(number(tenths)?, "tenths")?;
    match usize::try_from(times) {
        Ok(times) if (1..=MOST_REPETITIONS).contains(&times) => Ok(vec![tenths; times]),
        _ => Err(format!("repetition is not 1 to {MOST_REPETITIONS}")),
    }
}
