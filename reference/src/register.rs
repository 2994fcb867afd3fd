//! The register of titles: grants, transfers and cancellations on a balance.

use crate::basin::{self, Aquifer, Unit};
use crate::record::Call;
use std::collections::BTreeMap;

/// The most title numbers that a balance gives.
pub const MOST_TITLES: usize = 256;

/// Return in percent of the volume by use: agriculture, urban, industry, domestic, livestock,
/// aquaculture, power (NOM-011-CONAGUA-2015, 4.2.5).
pub const RETURN_PERCENT: [i64; 7] = [20, 75, 55, 75, 15, 100, 100];

/// A title: one of five kinds.
#[derive(Clone, Copy, Debug, PartialEq, Eq)]
pub enum Title {
    UnitWithdrawal {
        unit: usize,
        usage: usize,
        volume: i64,
    },
    AquiferWithdrawal {
        aquifer: usize,
        volume: i64,
    },
    UnitTransfer {
        from: usize,
        to: usize,
        volume: i64,
    },
    AquiferTransfer {
        aquifer: usize,
        unit: usize,
        volume: i64,
    },
    /// A withdrawal from an aquifer whose return goes to a unit.
    ReturningWithdrawal {
        aquifer: usize,
        unit: usize,
        usage: usize,
        volume: i64,
    },
}

/// A title with its standing. Its number is its place in the register from 1.
#[derive(Clone, Copy, Debug, PartialEq, Eq)]
pub struct Registered {
    pub title: Title,
    pub in_force: bool,
}

/// Units and aquifers with their entries, titles in force included, and the titles given.
#[derive(Clone, Debug, Default, PartialEq, Eq)]
pub struct Balance {
    pub units: Vec<Unit>,
    pub aquifers: Vec<Aquifer>,
    pub titles: Vec<Registered>,
}

/// The reply to a call.
#[derive(Clone, Copy, Debug, PartialEq, Eq)]
pub enum Reply {
    Given(usize),
    Cancelled(usize),
    Refused(u8),
}

/// An entry that a title goes into.
#[derive(Clone, Copy, Debug, PartialEq, Eq, PartialOrd, Ord)]
pub enum Entry {
    Extraction(usize),
    Exports(usize),
    Imports(usize),
    Returns(usize),
    AquiferExtraction(usize),
}

impl Title {
    /// What the title adds to which entries.
    pub fn additions(&self) -> Vec<(Entry, i64)> {
        match *self {
            Title::UnitWithdrawal {
                unit,
                usage,
                volume,
            } => vec![
                (Entry::Extraction(unit), volume),
                (Entry::Returns(unit), return_of(usage, volume)),
            ],
            Title::AquiferWithdrawal { aquifer, volume } => {
                vec![(Entry::AquiferExtraction(aquifer), volume)]
            }
            Title::UnitTransfer { from, to, volume } => {
                vec![(Entry::Exports(from), volume), (Entry::Imports(to), volume)]
            }
            Title::AquiferTransfer {
                aquifer,
                unit,
                volume,
            } => vec![
                (Entry::AquiferExtraction(aquifer), volume),
                (Entry::Imports(unit), volume),
            ],
            Title::ReturningWithdrawal {
                aquifer,
                unit,
                usage,
                volume,
            } => vec![
                (Entry::AquiferExtraction(aquifer), volume),
                (Entry::Returns(unit), return_of(usage, volume)),
            ],
        }
    }

    /// The volume of the title.
    pub fn volume(&self) -> i64 {
        match *self {
            Title::UnitWithdrawal { volume, .. }
            | Title::AquiferWithdrawal { volume, .. }
            | Title::UnitTransfer { volume, .. }
            | Title::AquiferTransfer { volume, .. }
            | Title::ReturningWithdrawal { volume, .. } => volume,
        }
    }
}

/// The return of a withdrawal, rounded down. The use is 1 to 7.
pub fn return_of(usage: usize, volume: i64) -> i64 {
    volume * RETURN_PERCENT[usage - 1] / 100
}

/// Applies a call. A refused call leaves the balance as it was.
pub fn apply(balance: &Balance, call: &Call) -> (Reply, Balance) {
    match accepted(balance, call) {
        Ok((reply, after)) => (reply, after),
        Err(number) => (Reply::Refused(number), balance.clone()),
    }
}

/// The reply and the new balance of an accepted call, or the number of the refusal.
fn accepted(balance: &Balance, call: &Call) -> Result<(Reply, Balance), u8> {
    refuse_if(is_faulty(balance), 0)?;
    accepted_after_0(balance, call)
}

/// The same of a balance that has passed the test for 0.
pub(crate) fn accepted_after_0(balance: &Balance, call: &Call) -> Result<(Reply, Balance), u8> {
    match *call {
        Call::Cancel { title } => cancel(balance, usize::from(title)),
        _ => grant(balance, title_of(call)),
    }
}

pub(crate) fn refuse_if(fault: bool, number: u8) -> Result<(), u8> {
    match fault {
        true => Err(number),
        false => Ok(()),
    }
}

/// The title that a call other than a cancellation asks for.
fn title_of(call: &Call) -> Title {
    match *call {
        Call::Withdraw {
            unit,
            usage,
            volume,
        } => Title::UnitWithdrawal {
            unit: usize::from(unit),
            usage: usize::from(usage),
            volume: i64::from(volume),
        },
        Call::Pump { aquifer, volume } => Title::AquiferWithdrawal {
            aquifer: usize::from(aquifer),
            volume: i64::from(volume),
        },
        Call::Transfer { from, to, volume } => Title::UnitTransfer {
            from: usize::from(from),
            to: usize::from(to),
            volume: i64::from(volume),
        },
        Call::Bring {
            aquifer,
            unit,
            volume,
        } => Title::AquiferTransfer {
            aquifer: usize::from(aquifer),
            unit: usize::from(unit),
            volume: i64::from(volume),
        },
        Call::PumpReturning {
            aquifer,
            unit,
            usage,
            volume,
        } => Title::ReturningWithdrawal {
            aquifer: usize::from(aquifer),
            unit: usize::from(unit),
            usage: usize::from(usage),
            volume: i64::from(volume),
        },
        Call::Cancel { .. } => unreachable!("a cancellation asks for no title"),
    }
}

/// Grants a title: the refusals in order, then the balance with the title in.
fn grant(balance: &Balance, title: Title) -> Result<(Reply, Balance), u8> {
    refuse_if(place_missing(balance, &title), 12)?;
    refuse_if(use_missing(&title), 13)?;
    refuse_if(transfer_downstream(balance, &title), 18)?;
    refuse_if(volume_outside(&title), 14)?;
    refuse_if(balance.titles.len() >= MOST_TITLES, 15)?;
    refuse_if(entry_would_overflow(balance, &title), 16)?;
    let mut after = balance.clone();
    for (entry, volume) in title.additions() {
        *entry_mut(&mut after, entry) += volume;
    }
    after.titles.push(Registered {
        title,
        in_force: true,
    });
    refuse_if(lacks_water(&after, &title), 17)?;
    Ok((Reply::Given(after.titles.len()), after))
}

/// Cancels a title: takes back what it added.
fn cancel(balance: &Balance, number: usize) -> Result<(Reply, Balance), u8> {
    let registered = number
        .checked_sub(1)
        .and_then(|index| balance.titles.get(index));
    let title = match registered {
        Some(registered) if registered.in_force => registered.title,
        _ => return Err(19),
    };
    let mut after = balance.clone();
    for (entry, volume) in title.additions() {
        *entry_mut(&mut after, entry) -= volume;
    }
    after.titles[number - 1].in_force = false;
    refuse_if(basin::flows(&after.units).iter().any(|flow| *flow < 0), 20)?;
    Ok((Reply::Cancelled(number), after))
}

/// The value of an entry of a unit or aquifer that exists.
fn entry(balance: &Balance, entry: Entry) -> i64 {
    match entry {
        Entry::Extraction(unit) => balance.units[unit - 1].extraction,
        Entry::Exports(unit) => balance.units[unit - 1].exports,
        Entry::Imports(unit) => balance.units[unit - 1].imports,
        Entry::Returns(unit) => balance.units[unit - 1].returns,
        Entry::AquiferExtraction(aquifer) => balance.aquifers[aquifer - 1].extraction,
    }
}

fn entry_mut(balance: &mut Balance, entry: Entry) -> &mut i64 {
    match entry {
        Entry::Extraction(unit) => &mut balance.units[unit - 1].extraction,
        Entry::Exports(unit) => &mut balance.units[unit - 1].exports,
        Entry::Imports(unit) => &mut balance.units[unit - 1].imports,
        Entry::Returns(unit) => &mut balance.units[unit - 1].returns,
        Entry::AquiferExtraction(aquifer) => &mut balance.aquifers[aquifer - 1].extraction,
    }
}

/// Whether the title names a unit or an aquifer that the balance doesn't have.
fn place_missing(balance: &Balance, title: &Title) -> bool {
    let no_unit = |number: usize| !(1..=balance.units.len()).contains(&number);
    let no_aquifer = |number: usize| !(1..=balance.aquifers.len()).contains(&number);
    match *title {
        Title::UnitWithdrawal { unit, .. } => no_unit(unit),
        Title::AquiferWithdrawal { aquifer, .. } => no_aquifer(aquifer),
        Title::UnitTransfer { from, to, .. } => no_unit(from) || no_unit(to),
        Title::AquiferTransfer { aquifer, unit, .. }
        | Title::ReturningWithdrawal { aquifer, unit, .. } => no_aquifer(aquifer) || no_unit(unit),
    }
}

fn use_missing(title: &Title) -> bool {
    match title {
        Title::UnitWithdrawal { usage, .. } | Title::ReturningWithdrawal { usage, .. } => {
            !(1..=RETURN_PERCENT.len()).contains(usage)
        }
        _ => false,
    }
}

/// Whether a transfer between units stays in its unit or goes to a unit below.
fn transfer_downstream(balance: &Balance, title: &Title) -> bool {
    match *title {
        Title::UnitTransfer { from, to, .. } => {
            from == to || basin::lies_below(&balance.units, to, from)
        }
        _ => false,
    }
}

fn volume_outside(title: &Title) -> bool {
    !(1..=basin::LARGEST_TERM).contains(&title.volume())
}

fn entry_would_overflow(balance: &Balance, title: &Title) -> bool {
    title
        .additions()
        .iter()
        .any(|(place, volume)| entry(balance, *place) + volume > basin::LARGEST_TERM)
}

/// Whether, with the title in, the outlet basin or the aquifer that it draws on lacks water.
fn lacks_water(after: &Balance, title: &Title) -> bool {
    match *title {
        Title::UnitWithdrawal { unit, .. } => outlet_basin_lacks_water(&after.units, unit),
        Title::UnitTransfer { from, .. } => outlet_basin_lacks_water(&after.units, from),
        Title::AquiferWithdrawal { aquifer, .. }
        | Title::AquiferTransfer { aquifer, .. }
        | Title::ReturningWithdrawal { aquifer, .. } => {
            after.aquifers[aquifer - 1].availability() < 0
        }
    }
}

/// Whether some unit with the same outlet has a negative flow or a negative availability.
fn outlet_basin_lacks_water(units: &[Unit], number: usize) -> bool {
    let outlet = basin::outlet(units, number);
    let members: Vec<usize> = (1..=units.len())
        .filter(|other| basin::outlet(units, *other) == outlet)
        .collect();
    let flows = basin::flows(units);
    if members.iter().any(|member| flows[member - 1] < 0) {
        return true;
    }
    let results = basin::results(units);
    members
        .iter()
        .any(|member| results[member - 1].availability < 0)
}

/// The test for refusal 0: whether a balance is one that opening and calls never hand out.
pub fn is_faulty(balance: &Balance) -> bool {
    count_above_limit(balance)
        || entry_outside_range(balance)
        || tree_faulty(&balance.units)
        || balance.aquifers.iter().any(|a| a.recharge() < 0)
        || basin::flows(&balance.units).iter().any(|flow| *flow < 0)
        || title_faulty(balance)
        || titles_exceed_entries(balance)
}

fn count_above_limit(balance: &Balance) -> bool {
    balance.units.len() > basin::MOST_UNITS
        || balance.aquifers.len() > basin::MOST_AQUIFERS
        || balance.titles.len() > MOST_TITLES
}

fn entry_outside_range(balance: &Balance) -> bool {
    balance.units.iter().any(unit_entry_outside_range)
        || balance.aquifers.iter().any(aquifer_entry_outside_range)
}

fn unit_entry_outside_range(unit: &Unit) -> bool {
    let terms = [
        unit.extraction,
        unit.exports,
        unit.imports,
        unit.returns,
        unit.evaporation,
        unit.commitment,
        unit.runoff,
    ];
    !terms.iter().all(|term| basin::is_term(*term)) || !basin::is_storage_change(unit.storage)
}

fn aquifer_entry_outside_range(aquifer: &Aquifer) -> bool {
    let terms = [
        aquifer.natural,
        aquifer.pumped,
        aquifer.committed,
        aquifer.extraction,
    ];
    !terms.iter().all(|term| basin::is_term(*term)) || !basin::is_storage_change(aquifer.storage)
}

/// Whether a downstream number is faulty, or a unit that isn't an outlet has a commitment.
fn tree_faulty(units: &[Unit]) -> bool {
    (1..=units.len()).any(|number| {
        let unit = &units[number - 1];
        let drains = unit.downstream != 0;
        drains
            && (unit.downstream <= number || unit.downstream > units.len() || unit.commitment != 0)
    })
}

/// The titles in force.
pub fn in_force(balance: &Balance) -> impl Iterator<Item = &Title> {
    balance
        .titles
        .iter()
        .filter(|registered| registered.in_force)
        .map(|registered| &registered.title)
}

fn title_faulty(balance: &Balance) -> bool {
    in_force(balance)
        .any(|title| place_missing(balance, title) || use_missing(title) || volume_outside(title))
}

/// Whether the titles in force together exceed an entry that they went into. Every title in force
/// names places and a use that exist.
fn titles_exceed_entries(balance: &Balance) -> bool {
    let mut together: BTreeMap<Entry, i64> = BTreeMap::new();
    for (place, volume) in in_force(balance).flat_map(Title::additions) {
        *together.entry(place).or_insert(0) += volume;
    }
    together
        .iter()
        .any(|(place, volume)| *volume > entry(balance, *place))
}
