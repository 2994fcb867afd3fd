//! Books and journals as text: one record per line, with a keyword and named fields.
//!
//! Fields that are left out are 0, `#` starts a comment, and a year that ends with `xN` stands for
//! N equal years.

mod name;
mod window;

use crate::journal::{self, JournalRecord, Own};
use crate::record::{self, AquiferRecord, Call, GaugeRecord, Record, SoilRecord, UnitRecord};
use crate::record::{Mark, Unreadable};
use std::fmt;

/// The most equal years that one line, or one word of a moving window, stands for.
const MOST_REPETITIONS: usize = 65_536;

/// A fault in a text, with its line counted from 1.
#[derive(Clone, Debug, PartialEq, Eq)]
pub struct TextFault {
    pub line: usize,
    pub message: String,
}

impl fmt::Display for TextFault {
    fn fmt(&self, out: &mut fmt::Formatter) -> fmt::Result {
        write!(out, "line {}: {}", self.line, self.message)
    }
}

/// The offset of bytes that are no whole record, and why.
#[derive(Clone, Copy, Debug, PartialEq, Eq)]
pub struct BookFault {
    pub offset: usize,
    pub why: Unreadable,
}

impl fmt::Display for BookFault {
    fn fmt(&self, out: &mut fmt::Formatter) -> fmt::Result {
        let why = match self.why {
            Unreadable::Short => "fewer bytes left than the record has",
            Unreadable::Unknown => "unknown mark",
        };
        write!(out, "byte {}: {why}", self.offset)
    }
}

/// The keyword of each mark.
fn keyword(mark: Mark) -> &'static str {
    match mark {
        Mark::Unit => "unit",
        Mark::Soil => "soil",
        Mark::Rain => "rain",
        Mark::Tenths => "tenths",
        Mark::Gauge => "gauge",
        Mark::Aquifer => "aquifer",
        Mark::Withdraw => "withdraw",
        Mark::Pump => "pump",
        Mark::Transfer => "transfer",
        Mark::Bring => "bring",
        Mark::PumpReturning => "pump-returning",
        Mark::Cancel => "cancel",
    }
}

/// Reads what follows the keyword of an own record of a journal.
type OwnReader = fn(&str) -> Result<Own, String>;

/// The keywords of a journal's own records, each with the reader of what follows it.
const OWN_KEYWORDS: [(&str, OwnReader); 3] = [
    ("keep", |rest| name::read(rest).map(Own::Keep)),
    ("back", |rest| name::read(rest).map(Own::Back)),
    ("windows", |rest| window::read(rest).map(Own::Windows)),
];

/// The line of an own record of a journal.
fn show_own(own: &Own) -> String {
    match own {
        Own::Keep(name) => format!("keep {}", name::show(name)),
        Own::Back(name) => format!("back {}", name::show(name)),
        Own::Windows(request) => format!("windows {}", window::show(request)),
    }
}

/// The book or journal of a text.
pub fn make(text: &str) -> Result<Vec<u8>, TextFault> {
    let mut book = Vec::new();
    for (index, line) in text.lines().enumerate() {
        let read = read_line(line).map_err(|message| TextFault {
            line: index + 1,
            message,
        })?;
        if let Some((record, times)) = read {
            book.extend(record.bytes().repeat(times));
        }
    }
    Ok(book)
}

/// The record of a line and how often it stands there, or nothing for an empty line.
fn read_line(line: &str) -> Result<Option<(JournalRecord, usize)>, String> {
    let content = line.split('#').next().unwrap_or("");
    let mut words: Vec<&str> = content.split_whitespace().collect();
    if words.is_empty() {
        return Ok(None);
    }
    let word = words.remove(0);
    if let Some((_, read)) = OWN_KEYWORDS.iter().find(|(own, _)| *own == word) {
        let own = read(&line.trim_start()[word.len()..])?;
        return Ok(Some((JournalRecord::Own(own), 1)));
    }
    let (record, times) = read_book_record(word, words)?;
    Ok(Some((JournalRecord::Book(record), times)))
}

/// The record of a keyword and the words after it, and how often it stands there.
fn read_book_record(word: &str, mut words: Vec<&str>) -> Result<(Record, usize), String> {
    let mark = record::MARKS
        .iter()
        .map(|(mark, _, _)| *mark)
        .find(|mark| keyword(*mark) == word)
        .ok_or_else(|| format!("unknown keyword '{word}'"))?;
    let times = match mark {
        Mark::Rain | Mark::Tenths | Mark::Gauge => take_repetition(&mut words)?,
        _ => 1,
    };
    let record = match mark {
        Mark::Rain => Record::Rain(within(sole_number(&words)?, "rain")?),
        Mark::Tenths => Record::Tenths(within(sole_number(&words)?, "tenths")?),
        Mark::Cancel => Record::Call(Call::Cancel {
            title: within(sole_number(&words)?, "title")?,
        }),
        _ => read_named(mark, &words)?,
    };
    Ok((record, times))
}

/// Takes a last word `xN`, if there is one, and returns N.
fn take_repetition(words: &mut Vec<&str>) -> Result<usize, String> {
    let Some(count) = words.last().and_then(|word| word.strip_prefix('x')) else {
        return Ok(1);
    };
    let times = number(count)?;
    words.pop();
    match usize::try_from(times) {
        Ok(times) if (1..=MOST_REPETITIONS).contains(&times) => Ok(times),
        _ => Err(format!("repetition is not 1 to {MOST_REPETITIONS}")),
    }
}

/// The number that is all that follows a keyword.
fn sole_number(words: &[&str]) -> Result<i64, String> {
    match words {
        [word] => number(word),
        _ => Err("one number is wanted after the keyword".to_string()),
    }
}

/// A whole number in decimal digits, with a minus sign if negative.
fn number(word: &str) -> Result<i64, String> {
    let digits = word.strip_prefix('-').unwrap_or(word);
    let all_digits = !digits.is_empty() && digits.bytes().all(|byte| byte.is_ascii_digit());
    match word.parse() {
        Ok(value) if all_digits => Ok(value),
        _ => Err(format!("'{word}' is not a whole number of fitting size")),
    }
}

/// A value in the width of its field.
fn within<T: TryFrom<i64>>(value: i64, name: &str) -> Result<T, String> {
    T::try_from(value).map_err(|_| format!("{value} does not fit in field '{name}'"))
}

/// The named fields of one line that no record has taken yet.
struct NamedFields<'a> {
    fields: Vec<(&'a str, i64)>,
}

impl<'a> NamedFields<'a> {
    fn read(words: &[&'a str]) -> Result<NamedFields<'a>, String> {
        let mut fields: Vec<(&str, i64)> = Vec::new();
        for word in words {
            let Some((name, value)) = word.split_once('=') else {
                return Err(format!("'{word}' is not name=value"));
            };
            if fields.iter().any(|(other, _)| *other == name) {
                return Err(format!("field '{name}' stands twice"));
            }
            fields.push((name, number(value)?));
        }
        Ok(NamedFields { fields })
    }

    /// Takes a field, 0 if it was left out.
    fn take<T: TryFrom<i64>>(&mut self, name: &str) -> Result<T, String> {
        let place = self.fields.iter().position(|(other, _)| *other == name);
        let value = match place {
            Some(place) => self.fields.remove(place).1,
            None => 0,
        };
        within(value, name)
    }
}

/// The record of a mark whose fields are all named.
fn read_named(mark: Mark, words: &[&str]) -> Result<Record, String> {
    let mut fields = NamedFields::read(words)?;
    let f = &mut fields;
    let record = match mark {
        Mark::Unit => Record::Unit(UnitRecord {
            downstream: f.take("downstream")?,
            extraction: f.take("extraction")?,
            exports: f.take("exports")?,
            imports: f.take("imports")?,
            returns: f.take("returns")?,
            evaporation: f.take("evaporation")?,
            storage: f.take("storage")?,
            commitment: f.take("commitment")?,
        }),
        Mark::Soil => Record::Soil(SoilRecord {
            cover: f.take("cover")?,
            soil: f.take("soil")?,
            hectares: f.take("hectares")?,
        }),
        Mark::Gauge => Record::Gauge(GaugeRecord {
            outflow: f.take("outflow")?,
            inflow: f.take("inflow")?,
            extraction: f.take("extraction")?,
            exports: f.take("exports")?,
            imports: f.take("imports")?,
            returns: f.take("returns")?,
            evaporation: f.take("evaporation")?,
            storage: f.take("storage")?,
        }),
        Mark::Aquifer => Record::Aquifer(AquiferRecord {
            storage: f.take("storage")?,
            natural: f.take("natural")?,
            pumped: f.take("pumped")?,
            committed: f.take("committed")?,
            extraction: f.take("extraction")?,
        }),
        _ => Record::Call(read_call(mark, f)?),
    };
    match fields.fields.first() {
        Some((name, _)) => Err(format!("'{}' has no field '{name}'", keyword(mark))),
        None => Ok(record),
    }
}

fn read_call(mark: Mark, fields: &mut NamedFields) -> Result<Call, String> {
    Ok(match mark {
        Mark::Withdraw => Call::Withdraw {
            unit: fields.take("unit")?,
            usage: fields.take("use")?,
            volume: fields.take("volume")?,
        },
        Mark::Pump => Call::Pump {
            aquifer: fields.take("aquifer")?,
            volume: fields.take("volume")?,
        },
        Mark::Transfer => Call::Transfer {
            from: fields.take("from")?,
            to: fields.take("to")?,
            volume: fields.take("volume")?,
        },
        Mark::Bring => Call::Bring {
            aquifer: fields.take("aquifer")?,
            unit: fields.take("unit")?,
            volume: fields.take("volume")?,
        },
        Mark::PumpReturning => Call::PumpReturning {
            aquifer: fields.take("aquifer")?,
            unit: fields.take("unit")?,
            usage: fields.take("use")?,
            volume: fields.take("volume")?,
        },
        _ => return Err(format!("'{}' has no named fields", keyword(mark))),
    })
}

/// The text of a book or journal of whole records. Equal consecutive years stand on one line, and
/// comments give the numbers of units and aquifers.
pub fn show(book: &[u8]) -> Result<String, BookFault> {
    let records = journal::records_of(book).map_err(|(offset, why)| BookFault { offset, why })?;
    let mut text = String::new();
    let mut headings = Headings::default();
    let mut rest = records.as_slice();
    while let [first, ..] = rest {
        let times = match first {
            JournalRecord::Book(Record::Rain(_) | Record::Tenths(_) | Record::Gauge(_)) => {
                rest.iter().take_while(|record| *record == first).count()
            }
            _ => 1,
        }
        .min(MOST_REPETITIONS);
        text += &headings.before(first);
        text += &match first {
            JournalRecord::Book(record) => show_record(record),
            JournalRecord::Own(own) => show_own(own),
        };
        if times > 1 {
            text += &format!(" x{times}");
        }
        text += "\n";
        rest = &rest[times..];
    }
    Ok(text)
}

/// Counts the records that get a comment line of their own.
#[derive(Default)]
struct Headings {
    units: usize,
    aquifers: usize,
    calls: usize,
}

impl Headings {
    fn before(&mut self, record: &JournalRecord) -> String {
        match record {
            JournalRecord::Book(Record::Unit(_)) => {
                self.units += 1;
                format!("\n# unit {}\n", self.units)
            }
            JournalRecord::Book(Record::Aquifer(_)) => {
                self.aquifers += 1;
                format!("\n# aquifer {}\n", self.aquifers)
            }
            JournalRecord::Book(Record::Call(_)) | JournalRecord::Own(_) => {
                self.calls += 1;
                match self.calls {
                    1 => "\n# calls\n".to_string(),
                    _ => String::new(),
                }
            }
            _ => String::new(),
        }
    }
}

/// The line of one record.
fn show_record(record: &Record) -> String {
    let word = keyword(record.mark());
    match *record {
        Record::Rain(rain) | Record::Tenths(rain) => format!("{word} {rain}"),
        Record::Call(Call::Cancel { title }) => format!("{word} {title}"),
        Record::Unit(unit) => named(
            word,
            &[
                ("downstream", i64::from(unit.downstream)),
                ("extraction", i64::from(unit.extraction)),
                ("exports", i64::from(unit.exports)),
                ("imports", i64::from(unit.imports)),
                ("returns", i64::from(unit.returns)),
                ("evaporation", i64::from(unit.evaporation)),
                ("storage", i64::from(unit.storage)),
                ("commitment", i64::from(unit.commitment)),
            ],
        ),
        Record::Soil(area) => named(
            word,
            &[
                ("cover", i64::from(area.cover)),
                ("soil", i64::from(area.soil)),
                ("hectares", i64::from(area.hectares)),
            ],
        ),
        Record::Gauge(year) => named(
            word,
            &[
                ("outflow", i64::from(year.outflow)),
                ("inflow", i64::from(year.inflow)),
                ("extraction", i64::from(year.extraction)),
                ("exports", i64::from(year.exports)),
                ("imports", i64::from(year.imports)),
                ("returns", i64::from(year.returns)),
                ("evaporation", i64::from(year.evaporation)),
                ("storage", i64::from(year.storage)),
            ],
        ),
        Record::Aquifer(aquifer) => named(
            word,
            &[
                ("storage", i64::from(aquifer.storage)),
                ("natural", i64::from(aquifer.natural)),
                ("pumped", i64::from(aquifer.pumped)),
                ("committed", i64::from(aquifer.committed)),
                ("extraction", i64::from(aquifer.extraction)),
            ],
        ),
        Record::Call(call) => show_call(word, &call),
    }
}

fn show_call(word: &str, call: &Call) -> String {
    match *call {
        Call::Withdraw {
            unit,
            usage,
            volume,
        } => named(
            word,
            &[
                ("unit", i64::from(unit)),
                ("use", i64::from(usage)),
                ("volume", i64::from(volume)),
            ],
        ),
        Call::Pump { aquifer, volume } => named(
            word,
            &[
                ("aquifer", i64::from(aquifer)),
                ("volume", i64::from(volume)),
            ],
        ),
        Call::Transfer { from, to, volume } => named(
            word,
            &[
                ("from", i64::from(from)),
                ("to", i64::from(to)),
                ("volume", i64::from(volume)),
            ],
        ),
        Call::Bring {
            aquifer,
            unit,
            volume,
        } => named(
            word,
            &[
                ("aquifer", i64::from(aquifer)),
                ("unit", i64::from(unit)),
                ("volume", i64::from(volume)),
            ],
        ),
        Call::PumpReturning {
            aquifer,
            unit,
            usage,
            volume,
        } => named(
            word,
            &[
                ("aquifer", i64::from(aquifer)),
                ("unit", i64::from(unit)),
                ("use", i64::from(usage)),
                ("volume", i64::from(volume)),
            ],
        ),
        Call::Cancel { title } => format!("{word} {title}"),
    }
}

/// A keyword and the fields that are not 0.
fn named(word: &str, fields: &[(&str, i64)]) -> String {
    let mut line = word.to_string();
    for (name, value) in fields.iter().filter(|(_, value)| *value != 0) {
        line += &format!(" {name}={value}");
    }
    line
}
