//! The records of a book: a two-byte mark, then little-endian fields.

/// A basin unit (UN).
#[derive(Clone, Copy, Debug, Default, PartialEq, Eq)]
pub struct UnitRecord {
    pub downstream: u8,
    pub extraction: u32,
    pub exports: u32,
    pub imports: u32,
    pub returns: u32,
    pub evaporation: u32,
    pub storage: i32,
    pub commitment: u32,
}

/// An area of one cover and one soil (SU).
#[derive(Clone, Copy, Debug, Default, PartialEq, Eq)]
pub struct SoilRecord {
    pub cover: u8,
    pub soil: u8,
    pub hectares: u32,
}

/// One gauged year (AF).
#[derive(Clone, Copy, Debug, Default, PartialEq, Eq)]
pub struct GaugeRecord {
    pub outflow: u32,
    pub inflow: u32,
    pub extraction: u32,
    pub exports: u32,
    pub imports: u32,
    pub returns: u32,
    pub evaporation: u32,
    pub storage: i32,
}

/// An aquifer (AC).
#[derive(Clone, Copy, Debug, Default, PartialEq, Eq)]
pub struct AquiferRecord {
    pub storage: i32,
    pub natural: u32,
    pub pumped: u32,
    pub committed: u32,
    pub extraction: u32,
}

/// What a call asks of the register.
#[derive(Clone, Copy, Debug, PartialEq, Eq)]
pub enum Call {
    /// Withdrawal from a unit (GU).
    Withdraw { unit: u8, usage: u8, volume: u32 },
    /// Withdrawal from an aquifer (GA).
    Pump { aquifer: u8, volume: u32 },
    /// Transfer from a unit to a unit (TU).
    Transfer { from: u8, to: u8, volume: u32 },
    /// Transfer from an aquifer to a unit (TA).
    Bring { aquifer: u8, unit: u8, volume: u32 },
    /// Withdrawal from an aquifer whose return goes to a unit (GW).
    PumpReturning {
        aquifer: u8,
        unit: u8,
        usage: u8,
        volume: u32,
    },
    /// Cancellation of a title (CA).
    Cancel { title: u16 },
}

/// One whole record of a book, whatever values its fields have.
#[derive(Clone, Copy, Debug, PartialEq, Eq)]
pub enum Record {
    Unit(UnitRecord),
    Soil(SoilRecord),
    /// One year's rain in millimetres (PR).
    Rain(u16),
    /// One year's rain in tenths of a millimetre (PD).
    Tenths(u16),
    Gauge(GaugeRecord),
    Aquifer(AquiferRecord),
    Call(Call),
}

/// What a mark stands for.
#[derive(Clone, Copy, Debug, PartialEq, Eq)]
pub enum Mark {
    Unit,
    Soil,
    Rain,
    Tenths,
    Gauge,
    Aquifer,
    Withdraw,
    Pump,
    Transfer,
    Bring,
    PumpReturning,
    Cancel,
}

/// All marks with their two bytes and the length of the body that follows.
pub const MARKS: [(Mark, &[u8; 2], usize); 12] = [
    (Mark::Unit, b"UN", 29),
    (Mark::Soil, b"SU", 6),
    (Mark::Rain, b"PR", 2),
    (Mark::Tenths, b"PD", 2),
    (Mark::Gauge, b"AF", 32),
    (Mark::Aquifer, b"AC", 20),
    (Mark::Withdraw, b"GU", 6),
    (Mark::Pump, b"GA", 5),
    (Mark::Transfer, b"TU", 6),
    (Mark::Bring, b"TA", 6),
    (Mark::PumpReturning, b"GW", 7),
    (Mark::Cancel, b"CA", 2),
];

impl Mark {
    /// The mark that two bytes stand for, if any.
    pub fn of(bytes: &[u8]) -> Option<Mark> {
        MARKS
            .iter()
            .find(|(_, letters, _)| bytes == letters.as_slice())
            .map(|(mark, _, _)| *mark)
    }

    /// Whether a record with this mark is a call.
    pub fn is_call(self) -> bool {
        use Mark::*;
        matches!(
            self,
            Withdraw | Pump | Transfer | Bring | PumpReturning | Cancel
        )
    }

    /// The two bytes of the mark.
    pub fn letters(self) -> &'static [u8; 2] {
        MARKS[self as usize].1
    }

    /// The number of bytes after the mark.
    pub fn body_length(self) -> usize {
        MARKS[self as usize].2
    }
}

/// Why no record can be read at an offset.
#[derive(Clone, Copy, Debug, PartialEq, Eq)]
pub enum Unreadable {
    /// Fewer bytes are left than the mark or the body has.
    Short,
    /// The mark is unknown.
    Unknown,
}

/// The mark at an offset.
pub fn mark_at(book: &[u8], at: usize) -> Result<Mark, Unreadable> {
    let letters = book.get(at..at + 2).ok_or(Unreadable::Short)?;
    Mark::of(letters).ok_or(Unreadable::Unknown)
}

/// The record at an offset, and the offset after it.
pub fn record_at(book: &[u8], at: usize) -> Result<(Record, usize), Unreadable> {
    let mark = mark_at(book, at)?;
    let end = at + 2 + mark.body_length();
    let body = book.get(at + 2..end).ok_or(Unreadable::Short)?;
    Ok((decode(mark, body), end))
}

/// Takes little-endian fields from a body of sufficient length.
struct Fields<'a> {
    body: &'a [u8],
}

impl Fields<'_> {
    fn take<const N: usize>(&mut self) -> [u8; N] {
        let (field, rest) = self.body.split_at(N);
        self.body = rest;
        field.try_into().expect("the slice has N bytes")
    }

    fn byte(&mut self) -> u8 {
        self.take::<1>()[0]
    }

    fn short(&mut self) -> u16 {
        u16::from_le_bytes(self.take())
    }

    fn volume(&mut self) -> u32 {
        u32::from_le_bytes(self.take())
    }

    fn signed(&mut self) -> i32 {
        i32::from_le_bytes(self.take())
    }
}

/// The record with this mark and body. The body has the mark's length, and fields are taken in
/// the order in which they are written here.
fn decode(mark: Mark, body: &[u8]) -> Record {
    let mut fields = Fields { body };
    let f = &mut fields;
    match mark {
        Mark::Unit => Record::Unit(UnitRecord {
            downstream: f.byte(),
            extraction: f.volume(),
            exports: f.volume(),
            imports: f.volume(),
            returns: f.volume(),
            evaporation: f.volume(),
            storage: f.signed(),
            commitment: f.volume(),
        }),
        Mark::Soil => Record::Soil(SoilRecord {
            cover: f.byte(),
            soil: f.byte(),
            hectares: f.volume(),
        }),
        Mark::Rain => Record::Rain(f.short()),
        Mark::Tenths => Record::Tenths(f.short()),
        Mark::Gauge => Record::Gauge(GaugeRecord {
            outflow: f.volume(),
            inflow: f.volume(),
            extraction: f.volume(),
            exports: f.volume(),
            imports: f.volume(),
            returns: f.volume(),
            evaporation: f.volume(),
            storage: f.signed(),
        }),
        Mark::Aquifer => Record::Aquifer(AquiferRecord {
            storage: f.signed(),
            natural: f.volume(),
            pumped: f.volume(),
            committed: f.volume(),
            extraction: f.volume(),
        }),
        Mark::Withdraw => Record::Call(Call::Withdraw {
            unit: f.byte(),
            usage: f.byte(),
            volume: f.volume(),
        }),
        Mark::Pump => Record::Call(Call::Pump {
            aquifer: f.byte(),
            volume: f.volume(),
        }),
        Mark::Transfer => Record::Call(Call::Transfer {
            from: f.byte(),
            to: f.byte(),
            volume: f.volume(),
        }),
        Mark::Bring => Record::Call(Call::Bring {
            aquifer: f.byte(),
            unit: f.byte(),
            volume: f.volume(),
        }),
        Mark::PumpReturning => Record::Call(Call::PumpReturning {
            aquifer: f.byte(),
            unit: f.byte(),
            usage: f.byte(),
            volume: f.volume(),
        }),
        Mark::Cancel => Record::Call(Call::Cancel { title: f.short() }),
    }
}

impl Record {
    /// The mark of the record.
    pub fn mark(&self) -> Mark {
        match self {
            Record::Unit(_) => Mark::Unit,
            Record::Soil(_) => Mark::Soil,
            Record::Rain(_) => Mark::Rain,
            Record::Tenths(_) => Mark::Tenths,
            Record::Gauge(_) => Mark::Gauge,
            Record::Aquifer(_) => Mark::Aquifer,
            Record::Call(Call::Withdraw { .. }) => Mark::Withdraw,
            Record::Call(Call::Pump { .. }) => Mark::Pump,
            Record::Call(Call::Transfer { .. }) => Mark::Transfer,
            Record::Call(Call::Bring { .. }) => Mark::Bring,
            Record::Call(Call::PumpReturning { .. }) => Mark::PumpReturning,
            Record::Call(Call::Cancel { .. }) => Mark::Cancel,
        }
    }

    /// The rain of a rain year of either mark, in tenths of a millimetre.
    pub fn tenths(&self) -> Option<u32> {
        match *self {
            Record::Rain(millimetres) => Some(10 * u32::from(millimetres)),
            Record::Tenths(tenths) => Some(u32::from(tenths)),
            _ => None,
        }
    }

    /// The bytes of the record, mark and body.
    pub fn bytes(&self) -> Vec<u8> {
        let mut bytes = self.mark().letters().to_vec();
        match *self {
            Record::Unit(unit) => {
                bytes.push(unit.downstream);
                put_volumes(&mut bytes, &[unit.extraction, unit.exports]);
                put_volumes(&mut bytes, &[unit.imports, unit.returns]);
                put_volumes(&mut bytes, &[unit.evaporation]);
                put_signed(&mut bytes, unit.storage);
                put_volumes(&mut bytes, &[unit.commitment]);
            }
            Record::Soil(soil) => {
                bytes.extend([soil.cover, soil.soil]);
                put_volumes(&mut bytes, &[soil.hectares]);
            }
            Record::Rain(rain) | Record::Tenths(rain) => bytes.extend(rain.to_le_bytes()),
            Record::Gauge(year) => {
                put_volumes(&mut bytes, &[year.outflow, year.inflow]);
                put_volumes(&mut bytes, &[year.extraction, year.exports]);
                put_volumes(&mut bytes, &[year.imports, year.returns]);
                put_volumes(&mut bytes, &[year.evaporation]);
                put_signed(&mut bytes, year.storage);
            }
            Record::Aquifer(aquifer) => {
                put_signed(&mut bytes, aquifer.storage);
                put_volumes(&mut bytes, &[aquifer.natural, aquifer.pumped]);
                put_volumes(&mut bytes, &[aquifer.committed, aquifer.extraction]);
            }
            Record::Call(call) => put_call(&mut bytes, &call),
        }
        bytes
    }
}

fn put_call(bytes: &mut Vec<u8>, call: &Call) {
    match *call {
        Call::Withdraw {
            unit,
            usage,
            volume,
        } => {
            bytes.extend([unit, usage]);
            put_volumes(bytes, &[volume]);
        }
        Call::Pump { aquifer, volume } => {
            bytes.push(aquifer);
            put_volumes(bytes, &[volume]);
        }
        Call::Transfer { from, to, volume } => {
            bytes.extend([from, to]);
            put_volumes(bytes, &[volume]);
        }
        Call::Bring {
            aquifer,
            unit,
            volume,
        } => {
            bytes.extend([aquifer, unit]);
            put_volumes(bytes, &[volume]);
        }
        Call::PumpReturning {
            aquifer,
            unit,
            usage,
            volume,
        } => {
            bytes.extend([aquifer, unit, usage]);
            put_volumes(bytes, &[volume]);
        }
        Call::Cancel { title } => bytes.extend(title.to_le_bytes()),
    }
}

fn put_volumes(bytes: &mut Vec<u8>, volumes: &[u32]) {
    for volume in volumes {
        bytes.extend(volume.to_le_bytes());
    }
}

fn put_signed(bytes: &mut Vec<u8>, value: i32) {
    bytes.extend(value.to_le_bytes());
}

/// The bytes of a list of records.
pub fn book_of(records: &[Record]) -> Vec<u8> {
    records.iter().flat_map(Record::bytes).collect()
}

/// The records of a book of whole records, or the offset at which no record can be read and why.
pub fn records_of(book: &[u8]) -> Result<Vec<Record>, (usize, Unreadable)> {
    let mut records = Vec::new();
    let mut at = 0;
    while at < book.len() {
        let (record, next) = record_at(book, at).map_err(|reason| (at, reason))?;
        records.push(record);
        at = next;
    }
    Ok(records)
}
