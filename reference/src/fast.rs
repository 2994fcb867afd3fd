//! The same model made for speed: one state of fixed size, which calls change in place.
//!
//! Flows take one pass over the units from the first on, committed volumes one pass back from the
//! last, and the sums of the titles one pass over the register. A demand times a contribution stays
//! below 5·10^18 and the sum of 50 rain years below 10^18, so that 64 bits hold every product.

use crate::basin::{is_storage_change, is_term, Aquifer, Unit};
use crate::basin::{LARGEST_TERM, MOST_AQUIFERS, MOST_UNITS};
use crate::book::{Refusal, FEWEST_YEARS, MOST_AREAS, MOST_HECTARES, MOST_YEARS};
use crate::book::{LARGEST_GAUGED, LEAST_RAIN, LEAST_TENTHS, MOST_RAIN, MOST_TENTHS};
use crate::planning::{self, Name, MOST_KEPT};
use crate::record::{Call, SoilRecord};
use crate::register::{return_of, Registered, Reply, Title, MOST_TITLES, RETURN_PERCENT};
use crate::windows::{self, MOST_RAIN_YEARS, PLACES};
use crate::{report, LONGEST_BOOK};
use std::ops::RangeInclusive;

/// Units and aquifers with their entries, titles in force included, and the titles given. Number n
/// stands at index n − 1; places from a count on are unused.
#[derive(Clone, Debug, PartialEq, Eq)]
pub struct State {
    pub unit_count: usize,
    pub aquifer_count: usize,
    pub title_count: usize,
    pub units: [Unit; MOST_UNITS],
    pub aquifers: [Aquifer; MOST_AQUIFERS],
    pub titles: [Registered; MOST_TITLES],
}

/// The four figures of a unit.
#[derive(Clone, Copy, Debug, Default, PartialEq, Eq)]
pub struct UnitFigures {
    pub flow: i64,
    pub committed: i64,
    pub reserve: i64,
    pub availability: i64,
}

/// The two figures of an aquifer.
#[derive(Clone, Copy, Debug, Default, PartialEq, Eq)]
pub struct AquiferFigures {
    pub recharge: i64,
    pub availability: i64,
}

/// The figures of all units and aquifers, with 0 in the unused places.
pub type Figures = ([UnitFigures; MOST_UNITS], [AquiferFigures; MOST_AQUIFERS]);

/// A unit with 0 in every entry.
const NO_UNIT: Unit = Unit {
    downstream: 0,
    extraction: 0,
    exports: 0,
    imports: 0,
    returns: 0,
    evaporation: 0,
    storage: 0,
    commitment: 0,
    runoff: 0,
};

/// An aquifer with 0 in every entry.
const NO_AQUIFER: Aquifer = Aquifer {
    storage: 0,
    natural: 0,
    pumped: 0,
    committed: 0,
    extraction: 0,
};

/// A place of the register that holds no title.
const NO_TITLE: Registered = Registered {
    title: Title::AquiferWithdrawal {
        aquifer: 0,
        volume: 0,
    },
    in_force: false,
};

impl State {
    /// The state without units, aquifers and titles.
    pub fn empty() -> State {
        State {
            unit_count: 0,
            aquifer_count: 0,
            title_count: 0,
            units: [NO_UNIT; MOST_UNITS],
            aquifers: [NO_AQUIFER; MOST_AQUIFERS],
            titles: [NO_TITLE; MOST_TITLES],
        }
    }

    /// The units in use.
    pub fn units(&self) -> &[Unit] {
        &self.units[..self.unit_count]
    }

    /// The aquifers in use.
    pub fn aquifers(&self) -> &[Aquifer] {
        &self.aquifers[..self.aquifer_count]
    }

    /// The titles given.
    pub fn titles(&self) -> &[Registered] {
        &self.titles[..self.title_count]
    }

    fn has_unit(&self, number: usize) -> bool {
        (1..=self.unit_count).contains(&number)
    }

    fn has_aquifer(&self, number: usize) -> bool {
        (1..=self.aquifer_count).contains(&number)
    }
}

// Flows and figures

/// What a unit itself contributes to its demand: natural runoff, returns and imports.
fn own_water(unit: &Unit) -> i64 {
    unit.runoff + unit.returns + unit.imports
}

/// What a unit adds to the flows from above.
fn own_flow(unit: &Unit) -> i64 {
    own_water(unit) - unit.exports - unit.extraction - unit.evaporation - unit.storage
}

/// The index of the first unit with a negative flow, if there is one. Every downstream number is
/// 0, or above the unit's own number and at most the number of units.
fn first_negative(units: &[Unit]) -> Option<usize> {
    let mut arrived = [0; MOST_UNITS + 1];
    units.iter().enumerate().position(|(index, unit)| {
        let flow = arrived[index + 1] + own_flow(unit);
        arrived[unit.downstream] += flow;
        flow < 0
    })
}

/// The forward pass over the units.
struct Flows {
    flow: [i64; MOST_UNITS],
    /// What has arrived at the unit's downstream before its own flow.
    before: [i64; MOST_UNITS],
    /// What arrives at each number from the units that drain straight into it; at number 0 what
    /// leaves by the outlets.
    arrived: [i64; MOST_UNITS + 1],
}

impl Flows {
    /// The pass over units whose downstream numbers are as for `first_negative`.
    fn of(units: &[Unit]) -> Flows {
        let mut flow = [0; MOST_UNITS];
        let mut before = [0; MOST_UNITS];
        let mut arrived = [0; MOST_UNITS + 1];
        for (index, unit) in units.iter().enumerate() {
            flow[index] = arrived[index + 1] + own_flow(unit);
            before[index] = arrived[unit.downstream];
            arrived[unit.downstream] += flow[index];
        }
        Flows {
            flow,
            before,
            arrived,
        }
    }

    /// The contributions at a unit that come from above it.
    fn arrived_at(&self, index: usize) -> i64 {
        self.arrived[index + 1]
    }
}

/// The part of a demand that falls on some of its contributions, rounded down; 0 if they are 0.
fn part(demand: i64, contributions: i64, total: i64) -> i64 {
    match contributions {
        0 => 0,
        _ => (demand as u64 * contributions as u64 / total as u64) as i64,
    }
}

/// The backward pass over units whose flows are not negative.
struct Demands<'a> {
    units: &'a [Unit],
    flows: &'a Flows,
    committed: [i64; MOST_UNITS],
    demand: [i64; MOST_UNITS],
    total: [i64; MOST_UNITS],
    /// The part of each unit's demand that falls on the units above it not yet met.
    above: [i64; MOST_UNITS],
}

impl Demands<'_> {
    fn of<'a>(units: &'a [Unit], flows: &'a Flows) -> Demands<'a> {
        Demands {
            units,
            flows,
            committed: [0; MOST_UNITS],
            demand: [0; MOST_UNITS],
            total: [0; MOST_UNITS],
            above: [0; MOST_UNITS],
        }
    }

    /// Meets a unit after all units with higher numbers that it drains to.
    fn meet(&mut self, index: usize) {
        let unit = &self.units[index];
        let committed = match unit.downstream {
            0 => unit.commitment,
            downstream => self.share(index, downstream - 1),
        };
        let demand = unit.extraction + unit.exports + unit.evaporation + committed;
        let from_above = self.flows.arrived_at(index);
        let total = from_above + own_water(unit);
        self.committed[index] = committed;
        self.demand[index] = demand;
        self.total[index] = total;
        self.above[index] = part(demand, from_above, total);
    }

    /// The share of a unit in the demand of the unit below it: the floor of the running total with
    /// it, less the floor without it.
    fn share(&mut self, index: usize, below: usize) -> i64 {
        let before = self.flows.before[index];
        let without = part(self.demand[below], before, self.total[below]);
        let with = std::mem::replace(&mut self.above[below], without);
        with - without
    }

    fn availability(&self, index: usize) -> i64 {
        self.flows.flow[index] - self.committed[index]
    }

    /// The figures of a unit that has just been met.
    fn figures(&self, index: usize) -> UnitFigures {
        UnitFigures {
            flow: self.flows.flow[index],
            committed: self.committed[index],
            reserve: self.demand[index] - self.above[index],
            availability: self.availability(index),
        }
    }
}

fn recharge(aquifer: &Aquifer) -> i64 {
    aquifer.storage + aquifer.natural + aquifer.pumped
}

fn aquifer_availability(aquifer: &Aquifer) -> i64 {
    recharge(aquifer) - aquifer.committed - aquifer.extraction
}

/// The figures of a state that isn't faulty.
pub fn figures(state: &State) -> Figures {
    let mut units = [UnitFigures::default(); MOST_UNITS];
    let flows = Flows::of(state.units());
    let mut demands = Demands::of(state.units(), &flows);
    for index in (0..state.unit_count).rev() {
        demands.meet(index);
        units[index] = demands.figures(index);
    }
    let mut aquifers = [AquiferFigures::default(); MOST_AQUIFERS];
    for (figures, aquifer) in aquifers.iter_mut().zip(state.aquifers()) {
        figures.recharge = recharge(aquifer);
        figures.availability = aquifer_availability(aquifer);
    }
    (units, aquifers)
}

// The test for refusal 0

/// Whether a state is one that opening and calls never hand out.
pub fn is_faulty(state: &State) -> bool {
    state.unit_count > MOST_UNITS
        || state.aquifer_count > MOST_AQUIFERS
        || state.title_count > MOST_TITLES
        || units_faulty(state.units())
        || state.aquifers().iter().any(aquifer_faulty)
        || titles_faulty(state)
}

/// Whether a unit has a faulty entry or a negative flow. The flow of a unit is worked out after
/// its downstream number has been tested.
fn units_faulty(units: &[Unit]) -> bool {
    let mut arrived = [0; MOST_UNITS + 1];
    units.iter().enumerate().any(|(index, unit)| {
        if unit_faulty(unit, index + 1, units.len()) {
            return true;
        }
        let flow = arrived[index + 1] + own_flow(unit);
        arrived[unit.downstream] += flow;
        flow < 0
    })
}

fn unit_faulty(unit: &Unit, number: usize, last: usize) -> bool {
    let in_range = is_term(unit.extraction)
        && is_term(unit.exports)
        && is_term(unit.imports)
        && is_term(unit.returns)
        && is_term(unit.evaporation)
        && is_term(unit.commitment)
        && is_term(unit.runoff)
        && is_storage_change(unit.storage);
    let drains = unit.downstream != 0;
    !in_range
        || drains && (unit.downstream <= number || unit.downstream > last || unit.commitment != 0)
}

fn aquifer_faulty(aquifer: &Aquifer) -> bool {
    let in_range = is_term(aquifer.natural)
        && is_term(aquifer.pumped)
        && is_term(aquifer.committed)
        && is_term(aquifer.extraction)
        && is_storage_change(aquifer.storage);
    !in_range || recharge(aquifer) < 0
}

/// What titles add to the entries of one unit.
#[derive(Clone, Copy, Default)]
struct Added {
    extraction: i64,
    exports: i64,
    imports: i64,
    returns: i64,
}

/// What titles add to the entries of each unit and to the extraction of each aquifer that exists.
struct Sums<'a> {
    units: &'a mut [Added],
    aquifers: &'a mut [i64],
}

impl Sums<'_> {
    /// Adds a title, or returns nothing if it names a place or a use that doesn't exist or its
    /// volume is outside its range.
    fn add(&mut self, title: &Title) -> Option<()> {
        match *title {
            Title::UnitWithdrawal {
                unit,
                usage,
                volume,
            } => {
                let unit = self.units.get_mut(unit.wrapping_sub(1))?;
                let percent = RETURN_PERCENT.get(usage.wrapping_sub(1))?;
                unit.extraction += in_range(volume)?;
                unit.returns += volume * percent / 100;
            }
            Title::AquiferWithdrawal { aquifer, volume } => {
                *self.aquifers.get_mut(aquifer.wrapping_sub(1))? += in_range(volume)?;
            }
            Title::UnitTransfer { from, to, volume } => {
                self.units.get_mut(from.wrapping_sub(1))?.exports += in_range(volume)?;
                self.units.get_mut(to.wrapping_sub(1))?.imports += volume;
            }
            Title::AquiferTransfer {
                aquifer,
                unit,
                volume,
            } => {
                *self.aquifers.get_mut(aquifer.wrapping_sub(1))? += in_range(volume)?;
                self.units.get_mut(unit.wrapping_sub(1))?.imports += volume;
            }
            Title::ReturningWithdrawal {
                aquifer,
                unit,
                usage,
                volume,
            } => {
                let percent = RETURN_PERCENT.get(usage.wrapping_sub(1))?;
                *self.aquifers.get_mut(aquifer.wrapping_sub(1))? += in_range(volume)?;
                self.units.get_mut(unit.wrapping_sub(1))?.returns += volume * percent / 100;
            }
        }
        Some(())
    }
}

/// A title's volume, if it is in its range.
fn in_range(volume: i64) -> Option<i64> {
    match is_volume(volume) {
        true => Some(volume),
        false => None,
    }
}

/// Whether a title in force is faulty, or those in force together exceed an entry.
fn titles_faulty(state: &State) -> bool {
    let mut units = [Added::default(); MOST_UNITS];
    let mut aquifers = [0; MOST_AQUIFERS];
    let mut sums = Sums {
        units: &mut units[..state.unit_count],
        aquifers: &mut aquifers[..state.aquifer_count],
    };
    for registered in state.titles() {
        if registered.in_force && sums.add(&registered.title).is_none() {
            return true;
        }
    }
    let mut units = state.units().iter().zip(&units);
    let mut aquifers = state.aquifers().iter().zip(&aquifers);
    units.any(|(unit, added)| exceeds(added, unit))
        || aquifers.any(|(aquifer, added)| *added > aquifer.extraction)
}

fn exceeds(added: &Added, unit: &Unit) -> bool {
    added.extraction > unit.extraction
        || added.exports > unit.exports
        || added.imports > unit.imports
        || added.returns > unit.returns
}

// Calls

/// Applies a call. A refused call leaves the state as it was.
pub fn apply(state: &mut State, call: &Call) -> Reply {
    if is_faulty(state) {
        return Reply::Refused(0);
    }
    apply_untested(state, call)
}

/// Applies a call to a state that isn't faulty.
pub fn apply_untested(state: &mut State, call: &Call) -> Reply {
    match title_of(call) {
        Ok(title) => grant(state, title),
        Err(number) => cancel(state, number),
    }
}

/// The title that a call asks for, or the number that it cancels.
fn title_of(call: &Call) -> Result<Title, usize> {
    match *call {
        Call::Withdraw {
            unit,
            usage,
            volume,
        } => Ok(Title::UnitWithdrawal {
            unit: usize::from(unit),
            usage: usize::from(usage),
            volume: i64::from(volume),
        }),
        Call::Pump { aquifer, volume } => Ok(Title::AquiferWithdrawal {
            aquifer: usize::from(aquifer),
            volume: i64::from(volume),
        }),
        Call::Transfer { from, to, volume } => Ok(Title::UnitTransfer {
            from: usize::from(from),
            to: usize::from(to),
            volume: i64::from(volume),
        }),
        Call::Bring {
            aquifer,
            unit,
            volume,
        } => Ok(Title::AquiferTransfer {
            aquifer: usize::from(aquifer),
            unit: usize::from(unit),
            volume: i64::from(volume),
        }),
        Call::PumpReturning {
            aquifer,
            unit,
            usage,
            volume,
        } => Ok(Title::ReturningWithdrawal {
            aquifer: usize::from(aquifer),
            unit: usize::from(unit),
            usage: usize::from(usage),
            volume: i64::from(volume),
        }),
        Call::Cancel { title } => Err(usize::from(title)),
    }
}

/// Grants a title on a state that isn't faulty.
fn grant(state: &mut State, title: Title) -> Reply {
    if let Some(number) = early_refusal(state, &title) {
        return Reply::Refused(number);
    }
    put(state, &title, 1);
    if let Some(number) = late_refusal(state, &title) {
        put(state, &title, -1);
        return Reply::Refused(number);
    }
    state.titles[state.title_count] = Registered {
        title,
        in_force: true,
    };
    state.title_count += 1;
    Reply::Given(state.title_count)
}

/// Cancels a title on a state that isn't faulty.
fn cancel(state: &mut State, number: usize) -> Reply {
    let index = number.wrapping_sub(1);
    let title = match state.titles().get(index) {
        Some(registered) if registered.in_force => registered.title,
        _ => return Reply::Refused(19),
    };
    put(state, &title, -1);
    if first_negative(state.units()).is_some() {
        put(state, &title, 1);
        return Reply::Refused(20);
    }
    state.titles[index].in_force = false;
    Reply::Cancelled(number)
}

/// Adds a title to the entries that it goes into, or takes it back with a sign of −1.
fn put(state: &mut State, title: &Title, sign: i64) {
    match *title {
        Title::UnitWithdrawal {
            unit,
            usage,
            volume,
        } => {
            state.units[unit - 1].extraction += sign * volume;
            state.units[unit - 1].returns += sign * return_of(usage, volume);
        }
        Title::AquiferWithdrawal { aquifer, volume } => {
            state.aquifers[aquifer - 1].extraction += sign * volume;
        }
        Title::UnitTransfer { from, to, volume } => {
            state.units[from - 1].exports += sign * volume;
            state.units[to - 1].imports += sign * volume;
        }
        Title::AquiferTransfer {
            aquifer,
            unit,
            volume,
        } => {
            state.aquifers[aquifer - 1].extraction += sign * volume;
            state.units[unit - 1].imports += sign * volume;
        }
        Title::ReturningWithdrawal {
            aquifer,
            unit,
            usage,
            volume,
        } => {
            state.aquifers[aquifer - 1].extraction += sign * volume;
            state.units[unit - 1].returns += sign * return_of(usage, volume);
        }
    }
}

/// The refusal that a title meets before it is put in.
fn early_refusal(state: &State, title: &Title) -> Option<u8> {
    if place_missing(state, title) {
        Some(12)
    } else if use_missing(title) {
        Some(13)
    } else if transfer_downstream(state.units(), title) {
        Some(18)
    } else if !is_volume(title.volume()) {
        Some(14)
    } else if state.title_count >= MOST_TITLES {
        Some(15)
    } else {
        None
    }
}

/// The refusal that a title meets once it is in.
fn late_refusal(state: &State, title: &Title) -> Option<u8> {
    if entry_too_large(state, title) {
        Some(16)
    } else if lacks_water(state, title) {
        Some(17)
    } else {
        None
    }
}

/// Whether the title names a unit or an aquifer that the state doesn't have.
fn place_missing(state: &State, title: &Title) -> bool {
    match *title {
        Title::UnitWithdrawal { unit, .. } => !state.has_unit(unit),
        Title::AquiferWithdrawal { aquifer, .. } => !state.has_aquifer(aquifer),
        Title::UnitTransfer { from, to, .. } => !state.has_unit(from) || !state.has_unit(to),
        Title::AquiferTransfer { aquifer, unit, .. }
        | Title::ReturningWithdrawal { aquifer, unit, .. } => {
            !state.has_aquifer(aquifer) || !state.has_unit(unit)
        }
    }
}

fn use_missing(title: &Title) -> bool {
    match title {
        Title::UnitWithdrawal { usage, .. } | Title::ReturningWithdrawal { usage, .. } => {
            !(1..=RETURN_PERCENT.len()).contains(usage)
        }
        _ => false,
    }
}

/// Whether a transfer between units stays in its unit or goes to a unit below.
fn transfer_downstream(units: &[Unit], title: &Title) -> bool {
    match *title {
        Title::UnitTransfer { from, to, .. } => from == to || lies_below(units, to, from),
        _ => false,
    }
}

fn lies_below(units: &[Unit], lower: usize, upper: usize) -> bool {
    let mut number = units[upper - 1].downstream;
    while number != 0 && number != lower {
        number = units[number - 1].downstream;
    }
    number == lower
}

fn is_volume(volume: i64) -> bool {
    (1..=LARGEST_TERM).contains(&volume)
}

/// Whether a unit or an aquifer that a title has been put into has an entry above the largest term.
fn entry_too_large(state: &State, title: &Title) -> bool {
    let unit_over = |number: usize| {
        let unit = &state.units[number - 1];
        unit.extraction > LARGEST_TERM
            || unit.exports > LARGEST_TERM
            || unit.imports > LARGEST_TERM
            || unit.returns > LARGEST_TERM
    };
    let aquifer_over = |number: usize| state.aquifers[number - 1].extraction > LARGEST_TERM;
    match *title {
        Title::UnitWithdrawal { unit, .. } => unit_over(unit),
        Title::AquiferWithdrawal { aquifer, .. } => aquifer_over(aquifer),
        Title::UnitTransfer { from, to, .. } => unit_over(from) || unit_over(to),
        Title::AquiferTransfer { aquifer, unit, .. }
        | Title::ReturningWithdrawal { aquifer, unit, .. } => {
            aquifer_over(aquifer) || unit_over(unit)
        }
    }
}

/// Whether the outlet basin or the aquifer that a title draws on lacks water now that it is in.
fn lacks_water(state: &State, title: &Title) -> bool {
    match *title {
        Title::UnitWithdrawal { unit, .. } => outlet_basin_lacks_water(state.units(), unit),
        Title::UnitTransfer { from, .. } => outlet_basin_lacks_water(state.units(), from),
        Title::AquiferWithdrawal { aquifer, .. }
        | Title::AquiferTransfer { aquifer, .. }
        | Title::ReturningWithdrawal { aquifer, .. } => {
            aquifer_availability(&state.aquifers[aquifer - 1]) < 0
        }
    }
}

/// Whether some unit with the same outlet has a negative flow or a negative availability, where
/// only the flows of a unit and of those below it can have fallen below 0.
fn outlet_basin_lacks_water(units: &[Unit], number: usize) -> bool {
    let flows = Flows::of(units);
    match outlet_without_deficit(units, &flows, number) {
        Some(outlet) => some_availability_negative(units, &flows, outlet),
        None => true,
    }
}

/// The outlet that a unit drains to, or nothing if a flow on the way there is negative.
fn outlet_without_deficit(units: &[Unit], flows: &Flows, number: usize) -> Option<usize> {
    let mut number = number;
    loop {
        if flows.flow[number - 1] < 0 {
            return None;
        }
        match units[number - 1].downstream {
            0 => return Some(number),
            downstream => number = downstream,
        }
    }
}

/// Whether an outlet or a unit that drains to it has a negative availability. Other units are
/// passed over.
fn some_availability_negative(units: &[Unit], flows: &Flows, outlet: usize) -> bool {
    let mut drains_there = [false; MOST_UNITS + 1];
    let mut demands = Demands::of(units, flows);
    (0..outlet).rev().any(|index| {
        let number = index + 1;
        drains_there[number] = number == outlet || drains_there[units[index].downstream];
        if !drains_there[number] {
            return false;
        }
        demands.meet(index);
        demands.availability(index) < 0
    })
}

// Planning states

/// The current state, and those kept under names. Places from the count on are unused.
#[derive(Clone, Debug)]
pub struct Plans {
    pub current: State,
    pub count: usize,
    pub names: [Name; MOST_KEPT],
    pub kept: [State; MOST_KEPT],
}

impl Plans {
    /// A current state with nothing kept.
    pub fn of(current: State) -> Plans {
        Plans {
            current,
            count: 0,
            names: [[0; 8]; MOST_KEPT],
            kept: [(); MOST_KEPT].map(|_| State::empty()),
        }
    }

    fn place_of(&self, name: Name) -> Option<usize> {
        let mut names = self.names[..self.count].iter();
        names.position(|kept| *kept == name)
    }

    /// The place of a name, or the next one, which takes it; nothing if no place is left.
    fn place_for(&mut self, name: Name) -> Option<usize> {
        let place = self.place_of(name).unwrap_or(self.count);
        *self.names.get_mut(place)? = name;
        self.count = self.count.max(place + 1);
        Some(place)
    }
}

/// Keeps the current state under a name. A refused call changes nothing.
pub fn keep(plans: &mut Plans, name: Name) -> planning::Reply {
    if plans_faulty(plans) {
        return planning::Reply::Refused(0);
    }
    match plans.place_for(name) {
        Some(place) => {
            copy(&plans.current, &mut plans.kept[place]);
            planning::Reply::Kept
        }
        None => planning::Reply::Refused(22),
    }
}

/// Makes the state kept under a name the current one. A refused call changes nothing.
pub fn back(plans: &mut Plans, name: Name) -> planning::Reply {
    if plans_faulty(plans) {
        return planning::Reply::Refused(0);
    }
    match plans.place_of(name) {
        Some(place) => {
            copy(&plans.kept[place], &mut plans.current);
            planning::Reply::Back
        }
        None => planning::Reply::Refused(23),
    }
}

/// Copies what a state that isn't faulty has in use.
fn copy(from: &State, to: &mut State) {
    to.unit_count = from.unit_count;
    to.aquifer_count = from.aquifer_count;
    to.title_count = from.title_count;
    to.units[..from.unit_count].copy_from_slice(from.units());
    to.aquifers[..from.aquifer_count].copy_from_slice(from.aquifers());
    to.titles[..from.title_count].copy_from_slice(from.titles());
}

/// The test for refusal 0 of keeping and going back.
pub fn plans_faulty(plans: &Plans) -> bool {
    plans.count > MOST_KEPT
        || is_faulty(&plans.current)
        || plans.kept[..plans.count].iter().any(is_faulty)
        || some_twice(&plans.names[..plans.count])
}

fn some_twice(names: &[Name]) -> bool {
    (1..names.len()).any(|place| names[..place].contains(&names[place]))
}

// Reading

fn refuse<T>(number: u8, place: usize) -> Result<T, Refusal> {
    Err(Refusal { number, place })
}

fn refuse_if(fault: bool, number: u8, place: usize) -> Result<(), Refusal> {
    match fault {
        true => refuse(number, place),
        false => Ok(()),
    }
}

/// The two bytes of the mark at an offset before the end of the book.
fn mark(book: &[u8], at: usize) -> Result<&[u8; 2], Refusal> {
    match book[at..].first_chunk() {
        Some(letters) => Ok(letters),
        None => refuse(1, at),
    }
}

/// The body of N bytes after the mark at an offset.
fn body<const N: usize>(book: &[u8], at: usize) -> Result<&[u8; N], Refusal> {
    match book[at + 2..].first_chunk() {
        Some(body) => Ok(body),
        None => refuse(1, at),
    }
}

/// The 16 bits at an offset of a body.
fn short<const N: usize>(body: &[u8; N], at: usize) -> u16 {
    u16::from_le_bytes([body[at], body[at + 1]])
}

/// The 32 bits at an offset of a body.
fn word<const N: usize>(body: &[u8; N], at: usize) -> u32 {
    u32::from_le_bytes([body[at], body[at + 1], body[at + 2], body[at + 3]])
}

fn volume<const N: usize>(body: &[u8; N], at: usize) -> i64 {
    i64::from(word(body, at))
}

fn signed<const N: usize>(body: &[u8; N], at: usize) -> i64 {
    i64::from(word(body, at) as i32)
}

/// Whether all numbers are terms.
fn are_terms(volumes: &[i64]) -> bool {
    volumes.iter().all(|volume| is_term(*volume))
}

/// Reads the description of a book: the state without titles, and the offset where it ends.
pub fn open(book: &[u8]) -> Result<(State, usize), Refusal> {
    let mut state = State::empty();
    let mut reading = Reading {
        state: &mut state,
        unit: None,
    };
    let end = reading.description(book)?;
    Ok((state, end))
}

/// What has been read of the areas and years of a unit.
#[derive(Default)]
struct OpenUnit {
    place: usize,
    areas: usize,
    hectares: i64,
    /// Hectares times K in hundredths.
    weighted: i64,
    years: usize,
    /// The sum of the years' rain in tenths of a millimetre.
    rain: i64,
    /// The sum of the squares of the years' rain in tenths.
    rain_squared: i64,
    /// The sum of the gauged years.
    gauged: i64,
}

/// A description that is being read. The open unit stands in the first unused place of the state.
struct Reading<'a> {
    state: &'a mut State,
    unit: Option<OpenUnit>,
}

impl Reading<'_> {
    /// Reads a description and returns the offset where it ends.
    fn description(&mut self, book: &[u8]) -> Result<usize, Refusal> {
        let mut at = 0;
        while at < book.len() {
            at += match mark(book, at)? {
                b"PR" => self.rain(body(book, at)?, LEAST_RAIN..=MOST_RAIN, 10, at)?,
                b"PD" => self.rain(body(book, at)?, LEAST_TENTHS..=MOST_TENTHS, 1, at)?,
                b"AF" => self.gauge(body(book, at)?, at)?,
                b"SU" => self.area(body(book, at)?, at)?,
                b"UN" => self.unit(body(book, at)?, at)?,
                b"AC" => self.aquifer(body(book, at)?, at)?,
                b"GU" | b"GA" | b"TU" | b"TA" | b"GW" | b"CA" => break,
                _ => return refuse(2, at),
            };
        }
        self.end()?;
        Ok(at)
    }

    /// Takes a unit and returns the length of its record, as the following functions do.
    fn unit(&mut self, body: &[u8; 29], at: usize) -> Result<usize, Refusal> {
        self.close()?;
        let count = self.state.unit_count;
        refuse_if(self.state.aquifer_count > 0, 3, at)?;
        refuse_if(count >= MOST_UNITS, 4, at)?;
        let unit = unit_of(body);
        refuse_if(!unit_within_values(&unit), 5, at)?;
        refuse_if(unit.downstream != 0 && unit.downstream <= count + 1, 8, at)?;
        self.state.units[count] = unit;
        self.unit = Some(OpenUnit {
            place: at,
            ..OpenUnit::default()
        });
        Ok(31)
    }

    /// The open unit. There is none before the first unit and after the first aquifer.
    fn open_unit(&mut self, at: usize) -> Result<&mut OpenUnit, Refusal> {
        match &mut self.unit {
            Some(unit) => Ok(unit),
            None => refuse(3, at),
        }
    }

    fn area(&mut self, body: &[u8; 6], at: usize) -> Result<usize, Refusal> {
        let unit = self.open_unit(at)?;
        let (cover, soil) = (usize::from(body[0]), usize::from(body[1]));
        let hectares = volume(body, 2);
        let most = i64::from(MOST_HECTARES);
        refuse_if(unit.years > 0, 3, at)?;
        refuse_if(unit.areas >= MOST_AREAS, 4, at)?;
        refuse_if(!(1..=K.len()).contains(&cover), 5, at)?;
        refuse_if(!(1..=3).contains(&soil), 5, at)?;
        refuse_if(!(1..=most).contains(&hectares), 5, at)?;
        refuse_if(unit.hectares + hectares > most, 7, at)?;
        unit.areas += 1;
        unit.hectares += hectares;
        unit.weighted += hectares * K[cover - 1][soil - 1];
        Ok(8)
    }

    /// Takes a rain year. Its number is one of `values`, in units of so many `tenths` of a millimetre.
    fn rain(
        &mut self,
        body: &[u8; 2],
        values: RangeInclusive<u16>,
        tenths: i64,
        at: usize,
    ) -> Result<usize, Refusal> {
        let unit = self.open_unit(at)?;
        let rain = short(body, 0);
        refuse_if(unit.areas == 0, 3, at)?;
        refuse_if(unit.years >= MOST_YEARS, 4, at)?;
        refuse_if(!values.contains(&rain), 5, at)?;
        let rain = tenths * i64::from(rain);
        unit.years += 1;
        unit.rain += rain;
        unit.rain_squared += rain * rain;
        Ok(4)
    }

    fn gauge(&mut self, body: &[u8; 32], at: usize) -> Result<usize, Refusal> {
        let unit = self.open_unit(at)?;
        refuse_if(unit.areas > 0, 3, at)?;
        refuse_if(unit.years >= MOST_YEARS, 4, at)?;
        refuse_if(!gauge_within_values(body), 5, at)?;
        unit.years += 1;
        unit.gauged += gauged_year(body);
        Ok(34)
    }

    fn aquifer(&mut self, body: &[u8; 20], at: usize) -> Result<usize, Refusal> {
        self.close()?;
        let count = self.state.aquifer_count;
        refuse_if(count >= MOST_AQUIFERS, 4, at)?;
        let aquifer = aquifer_of(body);
        refuse_if(!aquifer_within_values(&aquifer), 5, at)?;
        refuse_if(recharge(&aquifer) < 0, 11, at)?;
        self.state.aquifers[count] = aquifer;
        self.state.aquifer_count += 1;
        Ok(22)
    }

    /// Closes the open unit, if there is one, with the tests on its years.
    fn close(&mut self) -> Result<(), Refusal> {
        if let Some(unit) = self.unit.take() {
            let most = LARGEST_TERM * unit.years as i64;
            refuse_if(unit.years < FEWEST_YEARS, 6, unit.place)?;
            refuse_if(!(0..=most).contains(&unit.gauged), 9, unit.place)?;
            self.state.units[self.state.unit_count].runoff = unit.runoff();
            self.state.unit_count += 1;
        }
        Ok(())
    }

    /// Ends the description with the tests on the whole tree.
    fn end(&mut self) -> Result<(), Refusal> {
        self.close()?;
        let units = self.state.units();
        let missing = units.iter().position(|unit| unit.downstream > units.len());
        if let Some(index) = missing {
            return refuse(8, index + 1);
        }
        match first_negative(units) {
            Some(index) => refuse(10, index + 1),
            None => Ok(()),
        }
    }
}

/// K in hundredths by cover (rows) and soil A, B, C (columns).
const K: [[i64; 3]; 14] = [
    [26, 28, 30],
    [24, 27, 30],
    [24, 27, 30],
    [24, 27, 30],
    [14, 20, 28],
    [20, 24, 30],
    [24, 28, 30],
    [7, 16, 24],
    [12, 22, 26],
    [17, 26, 28],
    [22, 28, 30],
    [26, 29, 32],
    [27, 30, 33],
    [18, 24, 30],
];

impl OpenUnit {
    /// The natural runoff: the mean of the years, rounded once, halves up.
    fn runoff(&self) -> i64 {
        let years = self.years as i64;
        match self.areas {
            0 => rounded(self.gauged, years),
            _ => rounded(self.rain_sum(), 6_000_000_000 * years),
        }
    }

    fn rain_sum(&self) -> i64 {
        let above_threshold = above_threshold(self.weighted, self.hectares);
        rain_sum(self.weighted, above_threshold, self.rain, self.rain_squared)
    }
}

/// The weighted hectares less 15 for each hectare, if that is positive, or else 0.
fn above_threshold(weighted: i64, hectares: i64) -> i64 {
    (weighted - 15 * hectares).max(0)
}

/// The sum of rain years in 6,000,000,000ths, from the sums of their tenths and of the squares. With S for
/// the weighted hectares and A for the hectares a year of p tenths gives 3·S·p·(p − 2500), and
/// 40,000·p·(S − 15·A) if that is positive.
fn rain_sum(weighted: i64, above_threshold: i64, rain: i64, squared: i64) -> i64 {
    3 * weighted * (squared - 2500 * rain) + 40_000 * above_threshold * rain
}

/// The whole number nearest to a fraction of numbers that are not negative, halves up.
fn rounded(numerator: i64, denominator: i64) -> i64 {
    (2 * numerator + denominator) / (2 * denominator)
}

fn unit_of(body: &[u8; 29]) -> Unit {
    Unit {
        downstream: usize::from(body[0]),
        extraction: volume(body, 1),
        exports: volume(body, 5),
        imports: volume(body, 9),
        returns: volume(body, 13),
        evaporation: volume(body, 17),
        storage: signed(body, 21),
        commitment: volume(body, 25),
        runoff: 0,
    }
}

fn unit_within_values(unit: &Unit) -> bool {
    are_terms(&[unit.extraction, unit.exports, unit.imports])
        && are_terms(&[unit.returns, unit.evaporation, unit.commitment])
        && is_storage_change(unit.storage)
        && (unit.downstream == 0 || unit.commitment == 0)
}

fn aquifer_of(body: &[u8; 20]) -> Aquifer {
    Aquifer {
        storage: signed(body, 0),
        natural: volume(body, 4),
        pumped: volume(body, 8),
        committed: volume(body, 12),
        extraction: volume(body, 16),
    }
}

fn aquifer_within_values(aquifer: &Aquifer) -> bool {
    are_terms(&[aquifer.natural, aquifer.pumped])
        && are_terms(&[aquifer.committed, aquifer.extraction])
        && is_storage_change(aquifer.storage)
}

/// Whether outflow and inflow, then the five terms, then the storage change are within their values.
fn gauge_within_values(body: &[u8; 32]) -> bool {
    word(body, 0) <= LARGEST_GAUGED
        && word(body, 4) <= LARGEST_GAUGED
        && are_terms(&[volume(body, 8), volume(body, 12), volume(body, 16)])
        && are_terms(&[volume(body, 20), volume(body, 24)])
        && is_storage_change(signed(body, 28))
}

/// Outflow − inflow + extraction + exports − imports − returns + evaporation + storage change.
fn gauged_year(body: &[u8; 32]) -> i64 {
    volume(body, 0) - volume(body, 4) + volume(body, 8) + volume(body, 12)
        - volume(body, 16)
        - volume(body, 20)
        + volume(body, 24)
        + signed(body, 28)
}

/// The call at an offset before the end of the book, and the offset after it.
pub fn next_call(book: &[u8], at: usize) -> Result<(Call, usize), Refusal> {
    Ok(match mark(book, at)? {
        b"GU" => (withdrawal(body(book, at)?), at + 8),
        b"GA" => (pumping(body(book, at)?), at + 7),
        b"TU" => (transfer(body(book, at)?), at + 8),
        b"TA" => (bringing(body(book, at)?), at + 8),
        b"GW" => (returning(body(book, at)?), at + 9),
        b"CA" => (cancellation(body(book, at)?), at + 4),
        _ => return refuse(2, at),
    })
}

fn withdrawal(body: &[u8; 6]) -> Call {
    Call::Withdraw {
        unit: body[0],
        usage: body[1],
        volume: word(body, 2),
    }
}

fn pumping(body: &[u8; 5]) -> Call {
    Call::Pump {
        aquifer: body[0],
        volume: word(body, 1),
    }
}

fn transfer(body: &[u8; 6]) -> Call {
    Call::Transfer {
        from: body[0],
        to: body[1],
        volume: word(body, 2),
    }
}

fn bringing(body: &[u8; 6]) -> Call {
    Call::Bring {
        aquifer: body[0],
        unit: body[1],
        volume: word(body, 2),
    }
}

fn returning(body: &[u8; 7]) -> Call {
    Call::PumpReturning {
        aquifer: body[0],
        unit: body[1],
        usage: body[2],
        volume: word(body, 3),
    }
}

fn cancellation(body: &[u8; 2]) -> Call {
    Call::Cancel {
        title: short(body, 0),
    }
}

/// Applies the calls of a book from an offset on, hands each reply on, and returns the refusal of a
/// call record that fails.
pub fn run_calls(
    state: &mut State,
    book: &[u8],
    from: usize,
    each: impl FnMut(Reply),
) -> Result<(), Refusal> {
    run_by(apply, state, book, from, each)
}

/// The same, each call applied by `apply` or, for a state that isn't faulty and on trust that no call
/// makes it so, by `apply_untested`.
pub fn run_by(
    apply: impl Fn(&mut State, &Call) -> Reply,
    state: &mut State,
    book: &[u8],
    from: usize,
    mut each: impl FnMut(Reply),
) -> Result<(), Refusal> {
    let mut at = from;
    while at < book.len() {
        let (call, next) = next_call(book, at)?;
        each(apply(state, &call));
        at = next;
    }
    Ok(())
}

// The moving window

/// The natural runoff of each window of so many rain years. From one window to the next the year that
/// enters is added to two sums and the year that leaves is taken off, so that a year is read twice.
pub fn windows(width: usize, areas: &[SoilRecord], years: &[u16]) -> windows::Reply {
    let sums = match checked(width, areas, years) {
        Ok(sums) => sums,
        Err(number) => return windows::Reply::refused(number),
    };
    let (first, entering) = years.split_at(width);
    let mut rain = RainSums::of(first);
    let mut reply = reply_of(entering.len() + 1);
    reply.places[0] = sums.runoff(&rain, width);
    let moved = entering.iter().zip(years);
    for (place, (entering, leaving)) in reply.places[1..].iter_mut().zip(moved) {
        rain.add(*entering);
        rain.take_off(*leaving);
        *place = sums.runoff(&rain, width);
    }
    reply
}

/// The same, each window from all of its years anew.
pub fn windows_anew(width: usize, areas: &[SoilRecord], years: &[u16]) -> windows::Reply {
    let sums = match checked(width, areas, years) {
        Ok(sums) => sums,
        Err(number) => return windows::Reply::refused(number),
    };
    let mut reply = reply_of(years.len() - width + 1);
    for (place, years) in reply.places.iter_mut().zip(years.windows(width)) {
        *place = sums.runoff(&RainSums::of(years), width);
    }
    reply
}

/// An accepted reply of so many windows, with 0 in its places.
fn reply_of(windows: usize) -> windows::Reply {
    windows::Reply {
        refused: None,
        windows,
        places: [0; PLACES],
    }
}

/// The sums of a unit's areas.
struct AreaSums {
    /// Hectares times K in hundredths.
    weighted: i64,
    above_threshold: i64,
}

impl AreaSums {
    /// The natural runoff of so many years with these sums.
    fn runoff(&self, rain: &RainSums, years: usize) -> i64 {
        let sum = rain_sum(
            self.weighted,
            self.above_threshold,
            rain.tenths,
            rain.squared,
        );
        rounded(sum, 6_000_000_000 * years as i64)
    }
}

/// The sums of some years' rain in tenths of a millimetre and of its squares.
#[derive(Default)]
struct RainSums {
    tenths: i64,
    squared: i64,
}

impl RainSums {
    fn of(years: &[u16]) -> RainSums {
        let mut sums = RainSums::default();
        years.iter().for_each(|tenths| sums.add(*tenths));
        sums
    }

    fn add(&mut self, tenths: u16) {
        let rain = i64::from(tenths);
        self.tenths += rain;
        self.squared += rain * rain;
    }

    fn take_off(&mut self, tenths: u16) {
        let rain = i64::from(tenths);
        self.tenths -= rain;
        self.squared -= rain * rain;
    }
}

/// The sums of the areas, or the number of the refusal.
fn checked(width: usize, areas: &[SoilRecord], years: &[u16]) -> Result<AreaSums, u8> {
    let wide = (FEWEST_YEARS..=MOST_YEARS).contains(&width);
    if !wide || width > years.len() || years.len() > MOST_RAIN_YEARS {
        return Err(24);
    }
    if areas.is_empty() {
        return Err(3);
    }
    if areas.len() > MOST_AREAS {
        return Err(4);
    }
    let sums = area_sums(areas)?;
    let tenths = LEAST_TENTHS..=MOST_TENTHS;
    match years.iter().all(|year| tenths.contains(year)) {
        true => Ok(sums),
        false => Err(5),
    }
}

/// The sums of the areas. One that is out of range is refused at once, before the hectares in all.
fn area_sums(areas: &[SoilRecord]) -> Result<AreaSums, u8> {
    let (mut hectares, mut weighted) = (0, 0);
    for area in areas {
        let column = usize::from(area.soil).wrapping_sub(1);
        let row = K.get(usize::from(area.cover).wrapping_sub(1)).ok_or(5)?;
        let k = row.get(column).ok_or(5)?;
        if !(1..=MOST_HECTARES).contains(&area.hectares) {
            return Err(5);
        }
        hectares += i64::from(area.hectares);
        weighted += i64::from(area.hectares) * k;
    }
    match hectares > i64::from(MOST_HECTARES) {
        true => Err(7),
        false => Ok(AreaSums {
            weighted,
            above_threshold: above_threshold(weighted, hectares),
        }),
    }
}

// Printing

/// What the program `balance` prints for a book on standard input.
pub fn run(book: &[u8]) -> Vec<u8> {
    let opened = match book.len() > LONGEST_BOOK {
        true => refuse(21, LONGEST_BOOK),
        false => open(book),
    };
    match opened {
        Ok((mut state, end)) => run_opened(book, &mut state, end),
        Err(refusal) => report::refused(&refusal).into_bytes(),
    }
}

/// The call lines, the line of a failing call record, and the table after the calls.
fn run_opened(book: &[u8], state: &mut State, end: usize) -> Vec<u8> {
    let mut text = Vec::new();
    let mut count = 0;
    let ran = run_calls(state, book, end, |reply| {
        count += 1;
        text.extend(report::call(count, &reply).bytes());
    });
    if let Err(refusal) = ran {
        text.extend(report::refused(&refusal).bytes());
    }
    print_table(&mut text, state);
    text
}

/// The lines of all units, then of all aquifers.
fn print_table(text: &mut Vec<u8>, state: &State) {
    let (units, aquifers) = figures(state);
    for (number, unit) in (1..).zip(&units[..state.unit_count]) {
        let (flow, committed) = (unit.flow, unit.committed);
        let (reserve, availability) = (unit.reserve, unit.availability);
        let line = format!("unit {number} {flow} {committed} {reserve} {availability}\n");
        text.extend(line.bytes());
    }
    for (number, aquifer) in (1..).zip(&aquifers[..state.aquifer_count]) {
        let (recharge, availability) = (aquifer.recharge, aquifer.availability);
        let line = format!("aquifer {number} {recharge} {availability}\n");
        text.extend(line.bytes());
    }
}
