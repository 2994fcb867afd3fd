//! Natural runoff of a unit (NOM-011-CONAGUA-2015, appendix A).

use crate::record::{GaugeRecord, SoilRecord};

/// K in hundredths by cover (rows) and soil A, B, C (columns).
pub const K: [[i128; 3]; 14] = [
    [26, 28, 30], // fallow
    [24, 27, 30], // row crops
    [24, 27, 30], // legumes
    [24, 27, 30], // small grain
    [14, 20, 28], // pasture covered over 75%
    [20, 24, 30], // pasture covered 50 to 75%
    [24, 28, 30], // pasture covered under 50%
    [7, 16, 24],  // forest over 75%
    [12, 22, 26], // forest 50 to 75%
    [17, 26, 28], // forest 25 to 50%
    [22, 28, 30], // forest under 25%
    [26, 29, 32], // urban
    [27, 30, 33], // roads
    [18, 24, 30], // permanent meadow
];

/// The denominator of the runoff of a rain year.
pub const RAIN_DENOMINATOR: i128 = 6_000_000_000;

/// A fraction with a positive denominator.
#[derive(Clone, Copy, Debug, PartialEq, Eq)]
pub struct Fraction {
    pub numerator: i128,
    pub denominator: i128,
}

impl Fraction {
    /// The nearest whole number, halves up.
    pub fn rounded(self) -> i128 {
        (2 * self.numerator + self.denominator).div_euclid(2 * self.denominator)
    }
}

/// K in hundredths of an area. Its cover is 1 to 14 and its soil 1 to 3.
pub fn k_of(area: &SoilRecord) -> i128 {
    K[area.cover as usize - 1][area.soil as usize - 1]
}

/// The hectares of a unit.
pub fn hectares(areas: &[SoilRecord]) -> i128 {
    areas.iter().map(|area| i128::from(area.hectares)).sum()
}

/// The sum of hectares times K in hundredths.
pub fn weighted_hectares(areas: &[SoilRecord]) -> i128 {
    areas
        .iter()
        .map(|area| i128::from(area.hectares) * k_of(area))
        .sum()
}

/// The runoff of one rain year, given in tenths of a millimetre, over `RAIN_DENOMINATOR`.
pub fn rain_year(areas: &[SoilRecord], tenths: u32) -> i128 {
    let rain = i128::from(tenths);
    let weighted = weighted_hectares(areas);
    let threshold = 15 * hectares(areas);
    let first = rain * 3 * weighted * (rain - 2500);
    let second = if weighted > threshold {
        rain * 40_000 * (weighted - threshold)
    } else {
        0
    };
    first + second
}

/// The mean runoff of the rain years, given in tenths of a millimetre, unrounded.
pub fn rain_mean(areas: &[SoilRecord], years: &[u32]) -> Fraction {
    Fraction {
        numerator: years.iter().map(|tenths| rain_year(areas, *tenths)).sum(),
        denominator: RAIN_DENOMINATOR * years.len() as i128,
    }
}

/// The runoff of one gauged year.
pub fn gauged_year(year: &GaugeRecord) -> i128 {
    i128::from(year.outflow) - i128::from(year.inflow)
        + i128::from(year.extraction)
        + i128::from(year.exports)
        - i128::from(year.imports)
        - i128::from(year.returns)
        + i128::from(year.evaporation)
        + i128::from(year.storage)
}

/// The sum of the runoff of gauged years.
pub fn gauged_sum(years: &[GaugeRecord]) -> i128 {
    years.iter().map(gauged_year).sum()
}

/// The mean runoff of the gauged years, unrounded.
pub fn gauged_mean(years: &[GaugeRecord]) -> Fraction {
    Fraction {
        numerator: gauged_sum(years),
        denominator: years.len() as i128,
    }
}
