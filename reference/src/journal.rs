//! The journal: a book's description, then the book's calls and records of the journal's own.
//!
//! A mark of the journal's own has its place in `Own`, `OWN_MARKS` and the two functions after them.

use crate::book::{self, Refusal};
use crate::planning::{self, Name, State};
use crate::record::{self, Call, Record, SoilRecord, Unreadable};
use crate::register::{self, refuse_if, Reply};
use crate::report;
use crate::windows::{self, Request};

/// The longest journal that the program reads, in bytes.
pub const LONGEST_JOURNAL: usize = 1_048_576;

/// A record that only a journal has.
#[derive(Clone, Debug, PartialEq, Eq)]
pub enum Own {
    /// Keeps the current balance under a name (KP).
    Keep(Name),
    /// Goes back to what is kept under a name (GB).
    Back(Name),
    /// Asks for the natural runoff of each window (WI).
    Windows(Request),
}

/// Reads the body that follows an own mark.
type Reader = fn(&mut Body) -> Result<Own, Unreadable>;

/// The own marks, each with the reader of its body.
const OWN_MARKS: [(&[u8; 2], Reader); 3] = [
    (b"KP", |body| Ok(Own::Keep(body.take()?))),
    (b"GB", |body| Ok(Own::Back(body.take()?))),
    (b"WI", |body| Ok(Own::Windows(body.request()?))),
];

impl Own {
    /// The bytes of the record, mark and body.
    pub fn bytes(&self) -> Vec<u8> {
        match self {
            Own::Keep(name) => [b"KP", name.as_slice()].concat(),
            Own::Back(name) => [b"GB", name.as_slice()].concat(),
            Own::Windows(request) => [b"WI", request_bytes(request).as_slice()].concat(),
        }
    }

    /// Does what the record asks, and gives its reply: the words after `call K ` and the lines
    /// after that line, or the number of the refusal.
    fn answer(&self, ledger: &mut Ledger) -> Result<String, u8> {
        match self {
            Own::Keep(name) => ledger.keep(*name).map(|()| "kept\n".to_string()),
            Own::Back(name) => ledger.back(*name).map(|()| "back\n".to_string()),
            Own::Windows(request) => {
                windows::runoffs(request).map(|runoffs| report::windows(&runoffs))
            }
        }
    }
}

/// The body of a moving window: its width, the counts of areas and years, the areas, the years.
fn request_bytes(request: &Request) -> Vec<u8> {
    let areas = u8::try_from(request.areas.len()).expect("the count of areas has 8 bits");
    let years = u16::try_from(request.years.len()).expect("the count of years has 16 bits");
    let mut bytes = vec![request.width, areas];
    bytes.extend(years.to_le_bytes());
    for area in &request.areas {
        bytes.extend([area.cover, area.soil]);
        bytes.extend(area.hectares.to_le_bytes());
    }
    for tenths in &request.years {
        bytes.extend(tenths.to_le_bytes());
    }
    bytes
}

/// One whole record of a journal.
#[derive(Clone, Debug, PartialEq, Eq)]
pub enum JournalRecord {
    Book(Record),
    Own(Own),
}

/// What a record after the description asks.
#[derive(Clone, Debug, PartialEq, Eq)]
pub enum Asked {
    Call(Call),
    Own(Own),
}

impl JournalRecord {
    /// The bytes of the record, mark and body.
    pub fn bytes(&self) -> Vec<u8> {
        match self {
            JournalRecord::Book(record) => record.bytes(),
            JournalRecord::Own(own) => own.bytes(),
        }
    }
}

/// The bytes after an own mark, read from an offset on.
struct Body<'a> {
    journal: &'a [u8],
    at: usize,
}

impl Body<'_> {
    /// Takes the next bytes.
    fn take<const N: usize>(&mut self) -> Result<[u8; N], Unreadable> {
        let field = self.journal.get(self.at..self.at + N);
        let field = field.ok_or(Unreadable::Short)?;
        self.at += N;
        Ok(field.try_into().expect("the slice has N bytes"))
    }

    fn short(&mut self) -> Result<u16, Unreadable> {
        Ok(u16::from_le_bytes(self.take()?))
    }

    fn area(&mut self) -> Result<SoilRecord, Unreadable> {
        let [cover, soil] = self.take()?;
        let hectares = u32::from_le_bytes(self.take()?);
        Ok(SoilRecord {
            cover,
            soil,
            hectares,
        })
    }

    /// Takes the body of a moving window, whose length follows from its counts.
    fn request(&mut self) -> Result<Request, Unreadable> {
        let [width, areas] = self.take()?;
        let years = self.short()?;
        let areas = (0..areas).map(|_| self.area()).collect::<Result<_, _>>()?;
        let years = (0..years).map(|_| self.short()).collect::<Result<_, _>>()?;
        Ok(Request {
            width,
            areas,
            years,
        })
    }
}

/// The reader of the own mark at an offset, if there is one.
fn own_reader(journal: &[u8], at: usize) -> Option<Reader> {
    let letters = journal.get(at..at + 2)?;
    let known = OWN_MARKS.iter().find(|(own, _)| letters == own.as_slice());
    known.map(|(_, reader)| *reader)
}

/// Whether an own mark stands at an offset, whatever follows it.
pub fn is_own_mark(journal: &[u8], at: usize) -> bool {
    own_reader(journal, at).is_some()
}

/// The own record at an offset and the offset after it, if an own mark stands there.
fn own_at(journal: &[u8], at: usize) -> Option<Result<(Own, usize), Unreadable>> {
    let reader = own_reader(journal, at)?;
    let mut body = Body {
        journal,
        at: at + 2,
    };
    Some(reader(&mut body).map(|own| (own, body.at)))
}

/// The record of a journal at an offset, and the offset after it.
pub fn record_at(journal: &[u8], at: usize) -> Result<(JournalRecord, usize), Unreadable> {
    match own_at(journal, at) {
        Some(read) => read.map(|(own, next)| (JournalRecord::Own(own), next)),
        None => {
            record::record_at(journal, at).map(|(record, next)| (JournalRecord::Book(record), next))
        }
    }
}

/// The records of a journal of whole records, or the offset at which none can be read and why.
pub fn records_of(journal: &[u8]) -> Result<Vec<JournalRecord>, (usize, Unreadable)> {
    let mut records = Vec::new();
    let mut at = 0;
    while at < journal.len() {
        let (record, next) = record_at(journal, at).map_err(|why| (at, why))?;
        records.push(record);
        at = next;
    }
    Ok(records)
}

/// The current balance of a journal and what is kept. Each balance is tested for 0 once, when it
/// is made.
pub struct Ledger {
    pub state: State,
    /// Whether every balance in the state has passed the test for 0.
    sound: bool,
}

impl Ledger {
    pub fn of(state: State) -> Ledger {
        let sound = !planning::is_faulty(&state);
        Ledger { state, sound }
    }

    /// Makes a call of a book's kinds.
    fn call(&mut self, call: &Call) -> Result<Reply, u8> {
        refuse_if(!self.sound && register::is_faulty(&self.state.balance), 0)?;
        let (reply, after) = register::accepted_after_0(&self.state.balance, call)?;
        self.sound = self.sound && !register::is_faulty(&after);
        self.state.balance = after;
        Ok(reply)
    }

    fn keep(&mut self, name: Name) -> Result<(), u8> {
        self.test_whole_state()?;
        planning::keep_after_0(&mut self.state, name)
    }

    fn back(&mut self, name: Name) -> Result<(), u8> {
        self.test_whole_state()?;
        planning::back_after_0(&mut self.state, name)
    }

    /// The test for 0 of keeping and going back. Keeping itself leaves at most four balances, no
    /// two under one name.
    fn test_whole_state(&self) -> Result<(), u8> {
        refuse_if(!self.sound && planning::is_faulty(&self.state), 0)
    }
}

/// Opens a journal: its ledger and the offset where its description ends, at the first mark of a
/// call or of the journal's own.
pub fn open(journal: &[u8]) -> Result<(Ledger, usize), Refusal> {
    let ends = |at: usize| book::is_call_mark(journal, at) || is_own_mark(journal, at);
    let opened = book::open_until(journal, ends)?;
    let state = State {
        balance: opened.balance,
        kept: Vec::new(),
    };
    Ok((Ledger::of(state), opened.end))
}

/// What the record at an offset after the description asks, and the offset after it.
pub fn next_asked(journal: &[u8], at: usize) -> Result<(Asked, usize), Refusal> {
    match own_at(journal, at) {
        Some(Ok((own, next))) => Ok((Asked::Own(own), next)),
        Some(Err(why)) => Err(book::unreadable(why, at)),
        None => book::next_call(journal, at).map(|(call, next)| (Asked::Call(call), next)),
    }
}

/// Does what a record asks and gives the lines of its reply. Its place among the records after the
/// description counts from 1.
pub fn answer(ledger: &mut Ledger, place: usize, asked: &Asked) -> String {
    let done = match asked {
        Asked::Call(call) => ledger.call(call).map(|reply| report::call(place, &reply)),
        Asked::Own(own) => own
            .answer(ledger)
            .map(|lines| format!("call {place} {lines}")),
    };
    done.unwrap_or_else(|number| report::call(place, &Reply::Refused(number)))
}

/// What the program `journal` prints for a journal on standard input.
pub fn run(journal: &[u8]) -> Vec<u8> {
    let text = match open_for_program(journal) {
        Ok((ledger, end)) => run_records(journal, ledger, end),
        Err(refusal) => report::refused(&refusal),
    };
    text.into_bytes()
}

/// Opens a journal with the program's own limit on its length.
fn open_for_program(journal: &[u8]) -> Result<(Ledger, usize), Refusal> {
    if journal.len() > LONGEST_JOURNAL {
        return Err(Refusal {
            number: 21,
            place: LONGEST_JOURNAL,
        });
    }
    open(journal)
}

/// The replies, the line of a failing record, and the table of the current balance in the end.
fn run_records(journal: &[u8], mut ledger: Ledger, end: usize) -> String {
    let mut text = String::new();
    let mut at = end;
    let mut place = 0;
    while at < journal.len() {
        match next_asked(journal, at) {
            Ok((asked, next)) => {
                place += 1;
                text += &answer(&mut ledger, place, &asked);
                at = next;
            }
            Err(refusal) => {
                text += &report::refused(&refusal);
                break;
            }
        }
    }
    text + &report::table(&ledger.state.balance)
}
