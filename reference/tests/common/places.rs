//! The balances of `register_runs` with all their places, and its files.

use super::of_crate;
use reference::basin::{Aquifer, Unit, MOST_AQUIFERS, MOST_UNITS};
use reference::book::{next_call, open};
use reference::record::Call;
use reference::register::{apply, Balance, Registered, Reply, Title, MOST_TITLES};

/// A place without a title.
const EMPTY: Registered = Registered {
    title: Title::AquiferWithdrawal {
        aquifer: 0,
        volume: 0,
    },
    in_force: false,
};

/// Every place of a balance, and how many units, aquifers and titles are in use.
#[derive(Clone)]
pub struct Places {
    pub all: Balance,
    pub counts: [usize; 3],
}

/// The balance of the book `broken-base` after its calls.
pub fn base() -> Places {
    let book = of_crate("register_runs", "data/broken-base");
    let opened = open(&book).expect("the description is accepted");
    let (mut balance, mut at) = (opened.balance, opened.end);
    while at < book.len() {
        let (call, next) = next_call(&book, at).expect("the call is whole");
        (_, balance) = apply(&balance, &call);
        at = next;
    }
    let mut places = fresh();
    places.take(balance);
    places
}

/// The balance without units, aquifers and titles.
pub fn fresh() -> Places {
    let mut all = Balance::default();
    resize(&mut all, [MOST_UNITS, MOST_AQUIFERS, MOST_TITLES]);
    Places {
        all,
        counts: [0; 3],
    }
}

fn resize(balance: &mut Balance, counts: [usize; 3]) {
    let [units, aquifers, titles] = counts;
    balance.units.resize(units, Unit::default());
    balance.aquifers.resize(aquifers, Aquifer::default());
    balance.titles.resize(titles, EMPTY);
}

impl Places {
    /// The balance of the places in use. A count above its limit is a fault, however large.
    pub fn balance(&self) -> Balance {
        let mut balance = self.all.clone();
        resize(&mut balance, self.counts.map(|count| count.min(1000)));
        balance
    }

    /// Puts a balance into the first places. The others stay as they are.
    fn take(&mut self, balance: Balance) {
        let (units, aquifers, titles) = (balance.units, balance.aquifers, balance.titles);
        self.counts = [units.len(), aquifers.len(), titles.len()];
        self.all.units.splice(..units.len(), units);
        self.all.aquifers.splice(..aquifers.len(), aquifers);
        self.all.titles.splice(..titles.len(), titles);
    }

    /// Makes a call. What it hands back goes into the places.
    pub fn call(&mut self, call: &Call) -> Reply {
        let (reply, after) = apply(&self.balance(), call);
        if !matches!(reply, Reply::Refused(_)) {
            self.take(after);
        }
        reply
    }

    /// Makes a change as the file has it: two letters and numbers.
    pub fn change(&mut self, text: &str) {
        let (letters, numbers) = letters_and_numbers(text);
        let index = (numbers[0] as usize).wrapping_sub(1);
        match letters.split_at(1) {
            ("b", "u") => self.counts[0] = numbers[0] as usize,
            ("b", "a") => self.counts[1] = numbers[0] as usize,
            ("b", "g") => self.counts[2] = numbers[0] as usize,
            ("u", "d") => self.all.units[index].downstream = numbers[1] as usize,
            ("u", field) => *entry(&mut self.all.units[index], field) = numbers[1] as i64,
            ("a", field) => *figure(&mut self.all.aquifers[index], field) = numbers[1] as i64,
            ("c", "t") => self.all.titles[index].in_force = false,
            _ => {
                self.all.titles[4] = Registered {
                    title: title(letters, &numbers),
                    in_force: true,
                }
            }
        }
    }
}

/// The letters of a command and its numbers.
pub fn letters_and_numbers(text: &str) -> (&str, Vec<i128>) {
    let mut words = text.split_whitespace();
    let letters = words.next().expect("a command has letters");
    let numbers = words.map(|word| word.parse().expect("a number"));
    (letters, numbers.collect())
}

fn entry<'a>(unit: &'a mut Unit, field: &str) -> &'a mut i64 {
    match field {
        "s" => &mut unit.storage,
        "e" => &mut unit.extraction,
        "x" => &mut unit.exports,
        "i" => &mut unit.imports,
        "r" => &mut unit.returns,
        "v" => &mut unit.evaporation,
        "c" => &mut unit.commitment,
        "f" => &mut unit.runoff,
        _ => panic!("no entry {field}"),
    }
}

fn figure<'a>(aquifer: &'a mut Aquifer, field: &str) -> &'a mut i64 {
    match field {
        "s" => &mut aquifer.storage,
        "n" => &mut aquifer.natural,
        "p" => &mut aquifer.pumped,
        "c" => &mut aquifer.committed,
        "e" => &mut aquifer.extraction,
        _ => panic!("no figure {field}"),
    }
}

fn title(letters: &str, numbers: &[i128]) -> Title {
    let at = |k: usize| numbers[k] as usize;
    let volume = numbers[numbers.len() - 1] as i64;
    match letters {
        "gu" => Title::UnitWithdrawal {
            unit: at(0),
            usage: at(1),
            volume,
        },
        "ga" => Title::AquiferWithdrawal {
            aquifer: at(0),
            volume,
        },
        "tu" => Title::UnitTransfer {
            from: at(0),
            to: at(1),
            volume,
        },
        "ta" => Title::AquiferTransfer {
            aquifer: at(0),
            unit: at(1),
            volume,
        },
        "gw" => Title::ReturningWithdrawal {
            aquifer: at(0),
            unit: at(1),
            usage: at(2),
            volume,
        },
        _ => panic!("no change {letters}"),
    }
}

/// A reply as the program prints it.
pub fn shown(reply: Reply) -> String {
    match reply {
        Reply::Given(number) => format!(" given:{number}"),
        Reply::Cancelled(number) => format!(" cancelled:{number}"),
        Reply::Refused(number) => format!(" {number}:0"),
    }
}

fn text_of(name: &str) -> String {
    String::from_utf8(of_crate("register_runs", name)).expect("the file is text")
}

/// The lines of a file of `register_runs`.
pub fn lines_of(name: &str) -> Vec<String> {
    text_of(name).lines().map(str::to_string).collect()
}

/// The lines of such a file that are no comments, each as its name and its commands.
pub fn named_commands(name: &str) -> Vec<(String, Vec<String>)> {
    let lines = lines_of(name);
    let lines = lines.iter().filter(|line| !line.starts_with('#'));
    lines.map(|line| name_and_commands(line)).collect()
}

fn name_and_commands(line: &str) -> (String, Vec<String>) {
    let mut parts = line.split(';').map(|part| part.trim().to_string());
    let name = parts.next().expect("a line has a name");
    (name, parts.collect())
}
