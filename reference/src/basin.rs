//! Flow, committed volume, own reserve and availability of units; recharge and availability of
//! aquifers.

/// The most units of one balance.
pub const MOST_UNITS: usize = 64;
/// The most aquifers of one balance.
pub const MOST_AQUIFERS: usize = 32;
/// The largest term.
pub const LARGEST_TERM: i64 = 10_000_000;

/// A unit with its entries, the titles in force included.
#[derive(Clone, Copy, Debug, Default, PartialEq, Eq)]
pub struct Unit {
    /// The number of the unit that it drains into, 0 for an outlet.
    pub downstream: usize,
    pub extraction: i64,
    pub exports: i64,
    pub imports: i64,
    pub returns: i64,
    pub evaporation: i64,
    pub storage: i64,
    pub commitment: i64,
    /// The natural runoff.
    pub runoff: i64,
}

/// An aquifer with its entries, the titles in force included in its extraction.
#[derive(Clone, Copy, Debug, Default, PartialEq, Eq)]
pub struct Aquifer {
    pub storage: i64,
    pub natural: i64,
    pub pumped: i64,
    pub committed: i64,
    pub extraction: i64,
}

/// The results of one unit.
#[derive(Clone, Copy, Debug, Default, PartialEq, Eq)]
pub struct UnitResult {
    pub flow: i128,
    pub committed: i128,
    pub reserve: i128,
    pub availability: i128,
}

/// Whether a number is a term.
pub fn is_term(volume: i64) -> bool {
    (0..=LARGEST_TERM).contains(&volume)
}

/// Whether a number is a storage change.
pub fn is_storage_change(volume: i64) -> bool {
    (-LARGEST_TERM..=LARGEST_TERM).contains(&volume)
}

impl Unit {
    /// Natural runoff, returns and imports: what the unit itself contributes to its demand.
    pub fn own_water(&self) -> i128 {
        i128::from(self.runoff) + i128::from(self.returns) + i128::from(self.imports)
    }

    /// Extraction, exports and evaporation: what the unit demands besides its committed volume.
    fn own_demand(&self) -> i128 {
        i128::from(self.extraction) + i128::from(self.exports) + i128::from(self.evaporation)
    }

    /// What the unit adds to the flows from above, negative if it takes more than it adds.
    fn own_flow(&self) -> i128 {
        self.own_water() - self.own_demand() - i128::from(self.storage)
    }
}

/// The numbers of the units that drain straight into a unit, in number order.
pub fn above(units: &[Unit], number: usize) -> Vec<usize> {
    (1..=units.len())
        .filter(|other| units[other - 1].downstream == number)
        .collect()
}

/// The flow of each unit, in number order. Every downstream number is 0, or above the unit's own
/// number and at most the number of units.
pub fn flows(units: &[Unit]) -> Vec<i128> {
    let mut flows: Vec<i128> = Vec::new();
    for number in 1..=units.len() {
        let from_above: i128 = above(units, number).iter().map(|v| flows[v - 1]).sum();
        flows.push(from_above + units[number - 1].own_flow());
    }
    flows
}

/// The shares of a demand that fall on contributors, by the floors of the running total. If the
/// contributions have no positive total the last contributor gets the whole demand.
pub fn shares(demand: i128, contributions: &[i128]) -> Vec<i128> {
    let total: i128 = contributions.iter().sum();
    let mut shares = Vec::new();
    let mut before = 0;
    for (place, contribution) in contributions.iter().enumerate() {
        let with = before + contribution;
        let is_last = place + 1 == contributions.len();
        shares.push(match total > 0 {
            true => (demand * with).div_euclid(total) - (demand * before).div_euclid(total),
            false if is_last => demand,
            false => 0,
        });
        before = with;
    }
    shares
}

/// The results of each unit, in number order. Downstream numbers are as for `flows`, so that a
/// unit's committed volume is known before that of the units above it.
pub fn results(units: &[Unit]) -> Vec<UnitResult> {
    let flows = flows(units);
    let mut results = vec![UnitResult::default(); units.len()];
    for number in (1..=units.len()).rev() {
        let unit = &units[number - 1];
        if unit.downstream == 0 {
            results[number - 1].committed = i128::from(unit.commitment);
        }
        let committed = results[number - 1].committed;
        let demand = unit.own_demand() + committed;
        let contributors = above(units, number);
        let mut contributions: Vec<i128> = contributors.iter().map(|v| flows[v - 1]).collect();
        contributions.push(unit.own_water());
        let shares = shares(demand, &contributions);
        for (contributor, share) in contributors.iter().zip(&shares) {
            results[contributor - 1].committed = *share;
        }
        let result = &mut results[number - 1];
        result.flow = flows[number - 1];
        result.reserve = shares[contributors.len()];
        result.availability = result.flow - committed;
    }
    results
}

/// The outlet that a unit drains to, itself if its downstream is 0.
pub fn outlet(units: &[Unit], number: usize) -> usize {
    match units[number - 1].downstream {
        0 => number,
        downstream => outlet(units, downstream),
    }
}

/// Whether unit `lower` lies below unit `upper`.
pub fn lies_below(units: &[Unit], lower: usize, upper: usize) -> bool {
    match units[upper - 1].downstream {
        0 => false,
        downstream => downstream == lower || lies_below(units, lower, downstream),
    }
}

impl Aquifer {
    /// The recharge (appendix B.1).
    pub fn recharge(&self) -> i128 {
        i128::from(self.storage) + i128::from(self.natural) + i128::from(self.pumped)
    }

    /// The availability, negative being a deficit.
    pub fn availability(&self) -> i128 {
        self.recharge() - i128::from(self.committed) - i128::from(self.extraction)
    }
}
