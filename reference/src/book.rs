//! Reading a book: its description and its calls.

use crate::basin::{self, Aquifer, Unit};
use crate::record::{self, AquiferRecord, Call, GaugeRecord, Record, SoilRecord, UnitRecord};
use crate::record::{Mark, Unreadable};
use crate::register::Balance;
use crate::runoff;

/// The fewest years of a unit.
pub const FEWEST_YEARS: usize = 20;
/// The most years of a unit.
pub const MOST_YEARS: usize = 50;
/// The most areas (SU) of a unit.
pub const MOST_AREAS: usize = 16;
/// The most hectares of a unit.
pub const MOST_HECTARES: u32 = 300_000;
/// The largest gauged outflow or inflow.
pub const LARGEST_GAUGED: u32 = 2_000_000_000;
/// The least rain of a year in millimetres.
pub const LEAST_RAIN: u16 = 350;
/// The most rain of a year in millimetres.
pub const MOST_RAIN: u16 = 2150;
/// The least rain of a year in tenths of a millimetre.
pub const LEAST_TENTHS: u16 = 3500;
/// The most rain of a year in tenths of a millimetre.
pub const MOST_TENTHS: u16 = 21_500;

/// A refusal and its place: the byte offset of a record, or the number of a unit.
#[derive(Clone, Copy, Debug, PartialEq, Eq)]
pub struct Refusal {
    pub number: u8,
    pub place: usize,
}

/// An accepted description and the offset where it ends.
#[derive(Clone, Debug, PartialEq, Eq)]
pub struct Opened {
    pub balance: Balance,
    pub end: usize,
}

/// A unit whose records are being read.
struct OpenUnit {
    place: usize,
    record: UnitRecord,
    areas: Vec<SoilRecord>,
    /// The rain years in tenths of a millimetre, of either mark.
    rain: Vec<u32>,
    gauged: Vec<GaugeRecord>,
}

/// What has been read of a description.
#[derive(Default)]
struct Reading {
    units: Vec<Unit>,
    open: Option<OpenUnit>,
    aquifers: Vec<Aquifer>,
}

/// Reads the description of a book.
pub fn open(book: &[u8]) -> Result<Opened, Refusal> {
    open_until(book, |at| is_call_mark(book, at))
}

/// Reads a description that ends before the first record at whose offset the test holds.
pub(crate) fn open_until(book: &[u8], ends: impl Fn(usize) -> bool) -> Result<Opened, Refusal> {
    let mut reading = Reading::default();
    let mut at = 0;
    while at < book.len() && !ends(at) {
        let (record, next) = record::record_at(book, at).map_err(|why| unreadable(why, at))?;
        reading.accept(record, at)?;
        at = next;
    }
    let balance = reading.finish()?;
    Ok(Opened { balance, end: at })
}

/// The call at an offset before the end of the book, and the offset after it.
pub fn next_call(book: &[u8], at: usize) -> Result<(Call, usize), Refusal> {
    let mark = record::mark_at(book, at).map_err(|why| unreadable(why, at))?;
    if !mark.is_call() {
        return Err(unreadable(Unreadable::Unknown, at));
    }
    match record::record_at(book, at) {
        Ok((Record::Call(call), next)) => Ok((call, next)),
        Ok(_) => Err(unreadable(Unreadable::Unknown, at)),
        Err(why) => Err(unreadable(why, at)),
    }
}

/// Whether the mark of a call stands at an offset.
pub(crate) fn is_call_mark(book: &[u8], at: usize) -> bool {
    record::mark_at(book, at).is_ok_and(Mark::is_call)
}

/// The refusal of bytes at an offset that are no record.
pub(crate) fn unreadable(why: Unreadable, place: usize) -> Refusal {
    let number = match why {
        Unreadable::Short => 1,
        Unreadable::Unknown => 2,
    };
    Refusal { number, place }
}

fn refuse_if(fault: bool, number: u8, place: usize) -> Result<(), Refusal> {
    match fault {
        true => Err(Refusal { number, place }),
        false => Ok(()),
    }
}

impl Reading {
    /// Takes one whole record of the description.
    fn accept(&mut self, record: Record, place: usize) -> Result<(), Refusal> {
        if matches!(record, Record::Unit(_) | Record::Aquifer(_)) {
            self.close_unit()?;
        }
        refuse_if(self.out_of_sequence(&record), 3, place)?;
        refuse_if(self.is_full_for(&record), 4, place)?;
        refuse_if(!fields_within_values(&record), 5, place)?;
        refuse_if(self.too_many_hectares(&record), 7, place)?;
        refuse_if(self.drains_upward(&record), 8, place)?;
        refuse_if(recharge_negative(&record), 11, place)?;
        self.add(record, place);
        Ok(())
    }

    /// Closes the open unit, if there is one, with the tests on its years.
    fn close_unit(&mut self) -> Result<(), Refusal> {
        if let Some(open) = self.open.take() {
            refuse_if(open.years() < FEWEST_YEARS, 6, open.place)?;
            refuse_if(open.gauged_sum_outside(), 9, open.place)?;
            self.units.push(open.unit());
        }
        Ok(())
    }

    fn out_of_sequence(&self, record: &Record) -> bool {
        if matches!(record, Record::Aquifer(_)) {
            return false;
        }
        if !self.aquifers.is_empty() {
            return true;
        }
        match (record, &self.open) {
            (Record::Soil(_), Some(open)) => open.years() > 0,
            (Record::Rain(_) | Record::Tenths(_), Some(open)) => open.areas.is_empty(),
            (Record::Gauge(_), Some(open)) => !open.areas.is_empty(),
            (Record::Unit(_) | Record::Aquifer(_) | Record::Call(_), _) => false,
            (_, None) => true,
        }
    }

    /// Whether the record is one unit, aquifer, area or year too many.
    fn is_full_for(&self, record: &Record) -> bool {
        match (record, &self.open) {
            (Record::Unit(_), _) => self.units.len() >= basin::MOST_UNITS,
            (Record::Aquifer(_), _) => self.aquifers.len() >= basin::MOST_AQUIFERS,
            (Record::Soil(_), Some(open)) => open.areas.len() >= MOST_AREAS,
            (Record::Rain(_) | Record::Tenths(_) | Record::Gauge(_), Some(open)) => {
                open.years() >= MOST_YEARS
            }
            _ => false,
        }
    }

    fn too_many_hectares(&self, record: &Record) -> bool {
        match (record, &self.open) {
            (Record::Soil(area), Some(open)) => {
                runoff::hectares(&open.areas) + i128::from(area.hectares)
                    > i128::from(MOST_HECTARES)
            }
            _ => false,
        }
    }

    /// Whether a unit's downstream is not 0 and not above its own number.
    fn drains_upward(&self, record: &Record) -> bool {
        match record {
            Record::Unit(unit) => {
                let number = self.units.len() + 1;
                unit.downstream != 0 && usize::from(unit.downstream) <= number
            }
            _ => false,
        }
    }

    /// Adds a record that has passed every test.
    fn add(&mut self, record: Record, place: usize) {
        match (record, &mut self.open) {
            (Record::Unit(record), _) => self.open = Some(OpenUnit::new(record, place)),
            (Record::Aquifer(record), _) => self.aquifers.push(aquifer_of(&record)),
            (Record::Soil(area), Some(open)) => open.areas.push(area),
            (Record::Rain(_) | Record::Tenths(_), Some(open)) => open.rain.extend(record.tenths()),
            (Record::Gauge(year), Some(open)) => open.gauged.push(year),
            _ => unreachable!("the sequence has been tested, and calls end the description"),
        }
    }

    /// Ends the description with the tests on the whole tree.
    fn finish(mut self) -> Result<Balance, Refusal> {
        self.close_unit()?;
        let last = self.units.len();
        let missing = self.units.iter().position(|unit| unit.downstream > last);
        if let Some(index) = missing {
            return refuse_unit(8, index);
        }
        let negative = basin::flows(&self.units).iter().position(|flow| *flow < 0);
        if let Some(index) = negative {
            return refuse_unit(10, index);
        }
        Ok(Balance {
            units: self.units,
            aquifers: self.aquifers,
            titles: Vec::new(),
        })
    }
}

/// A refusal whose place is the number of a unit.
fn refuse_unit(number: u8, index: usize) -> Result<Balance, Refusal> {
    Err(Refusal {
        number,
        place: index + 1,
    })
}

impl OpenUnit {
    fn new(record: UnitRecord, place: usize) -> OpenUnit {
        OpenUnit {
            place,
            record,
            areas: Vec::new(),
            rain: Vec::new(),
            gauged: Vec::new(),
        }
    }

    fn years(&self) -> usize {
        self.rain.len() + self.gauged.len()
    }

    fn gauged_sum_outside(&self) -> bool {
        let most = i128::from(basin::LARGEST_TERM) * self.gauged.len() as i128;
        !(0..=most).contains(&runoff::gauged_sum(&self.gauged))
    }

    /// The natural runoff: the mean of the years, rounded once.
    fn natural_runoff(&self) -> i64 {
        let mean = match self.areas.is_empty() {
            true => runoff::gauged_mean(&self.gauged),
            false => runoff::rain_mean(&self.areas, &self.rain),
        };
        i64::try_from(mean.rounded()).expect("the runoff of an accepted unit is a term")
    }

    fn unit(&self) -> Unit {
        Unit {
            downstream: usize::from(self.record.downstream),
            extraction: i64::from(self.record.extraction),
            exports: i64::from(self.record.exports),
            imports: i64::from(self.record.imports),
            returns: i64::from(self.record.returns),
            evaporation: i64::from(self.record.evaporation),
            storage: i64::from(self.record.storage),
            commitment: i64::from(self.record.commitment),
            runoff: self.natural_runoff(),
        }
    }
}

fn aquifer_of(record: &AquiferRecord) -> Aquifer {
    Aquifer {
        storage: i64::from(record.storage),
        natural: i64::from(record.natural),
        pumped: i64::from(record.pumped),
        committed: i64::from(record.committed),
        extraction: i64::from(record.extraction),
    }
}

fn recharge_negative(record: &Record) -> bool {
    match record {
        Record::Aquifer(record) => aquifer_of(record).recharge() < 0,
        _ => false,
    }
}

fn are_terms(volumes: &[u32]) -> bool {
    volumes
        .iter()
        .all(|volume| basin::is_term(i64::from(*volume)))
}

/// Whether every field of a record is within its values. A downstream number always is.
pub(crate) fn fields_within_values(record: &Record) -> bool {
    match record {
        Record::Unit(unit) => unit_within_values(unit),
        Record::Soil(area) => {
            (1..=14).contains(&area.cover)
                && (1..=3).contains(&area.soil)
                && (1..=MOST_HECTARES).contains(&area.hectares)
        }
        Record::Rain(rain) => (LEAST_RAIN..=MOST_RAIN).contains(rain),
        Record::Tenths(rain) => (LEAST_TENTHS..=MOST_TENTHS).contains(rain),
        Record::Gauge(year) => gauge_within_values(year),
        Record::Aquifer(aquifer) => {
            basin::is_storage_change(i64::from(aquifer.storage))
                && are_terms(&[aquifer.natural, aquifer.pumped])
                && are_terms(&[aquifer.committed, aquifer.extraction])
        }
        Record::Call(_) => true,
    }
}

fn unit_within_values(unit: &UnitRecord) -> bool {
    are_terms(&[unit.extraction, unit.exports, unit.imports])
        && are_terms(&[unit.returns, unit.evaporation, unit.commitment])
        && basin::is_storage_change(i64::from(unit.storage))
        && (unit.downstream == 0 || unit.commitment == 0)
}

fn gauge_within_values(year: &GaugeRecord) -> bool {
    year.outflow <= LARGEST_GAUGED
        && year.inflow <= LARGEST_GAUGED
        && are_terms(&[year.extraction, year.exports, year.imports])
        && are_terms(&[year.returns, year.evaporation])
        && basin::is_storage_change(i64::from(year.storage))
}
