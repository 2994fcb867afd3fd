//! The planning states of `register_runs`: the replies to the commands of each line, and the state that they end in.

mod common;

use common::places::{base, fresh, letters_and_numbers, lines_of, named_commands};
use common::places::{shown, Places};
use reference::planning::{self, Reply, State, MOST_KEPT};
use reference::random_states;
use reference::record::Call;

/// Every place of a state, and how many places for kept balances are in use.
struct StatePlaces {
    current: Places,
    count: usize,
    names: [u64; MOST_KEPT],
    kept: [Places; MOST_KEPT],
}

impl StatePlaces {
    /// The base with nothing kept.
    fn new() -> StatePlaces {
        StatePlaces {
            current: base(),
            count: 0,
            names: [0; MOST_KEPT],
            kept: [(); MOST_KEPT].map(|_| fresh()),
        }
    }

    /// The state of the places in use. More than four kept are a fault, however many.
    fn state(&self) -> State {
        let names = self.names.iter().map(|name| name.to_le_bytes());
        let balances = self.kept.iter().map(Places::balance);
        let mut kept: Vec<_> = names.zip(balances).collect();
        kept.resize(self.count.min(MOST_KEPT + 1), Default::default());
        State {
            balance: self.current.balance(),
            kept,
        }
    }

    /// Does a command, and returns what is printed for it.
    fn command(&mut self, text: &str) -> String {
        let (letters, numbers) = letters_and_numbers(text);
        match letters {
            "kn" => return self.keep(numbers[0] as u64),
            "kb" => return self.back(numbers[0] as u64),
            "kg" => return self.grant(numbers[0] as u8, numbers[1] as u32),
            "kc" => return self.cancel(numbers[0] as u16),
            "ks" => self.count = numbers[0] as usize,
            "kw" => self.names[numbers[0] as usize - 1] = numbers[1] as u64,
            "kk" => self.kept[numbers[0] as usize - 1] = self.current.clone(),
            _ => self.current.change(text),
        }
        String::new()
    }

    /// Keeps as the model does: all places of the current balance go where it has put the name.
    fn keep(&mut self, name: u64) -> String {
        let (reply, after) = planning::keep(&self.state(), name.to_le_bytes());
        if reply == Reply::Kept {
            let place = place_of(&after, name);
            self.count = after.kept.len();
            self.names[place] = name;
            self.kept[place] = self.current.clone();
        }
        assert!(self.state() == after);
        shown_reply(reply)
    }

    fn back(&mut self, name: u64) -> String {
        let (reply, after) = planning::back(&self.state(), name.to_le_bytes());
        if reply == Reply::Back {
            self.current = self.kept[place_of(&after, name)].clone();
        }
        assert!(self.state() == after);
        shown_reply(reply)
    }

    fn grant(&mut self, unit: u8, volume: u32) -> String {
        let usage = 1;
        shown(self.current.call(&Call::Withdraw {
            unit,
            usage,
            volume,
        }))
    }

    fn cancel(&mut self, title: u16) -> String {
        shown(self.current.call(&Call::Cancel { title }))
    }

    /// The state as it is printed.
    fn shown(&self) -> String {
        let current = numbers_of(&self.current);
        let kept = self.names.iter().zip(&self.kept);
        let kept = kept.map(|(name, places)| format!(" / {name}{}", numbers_of(places)));
        format!(" = {}{current}{}", self.count, kept.collect::<String>())
    }
}

/// The place of a name that is kept.
fn place_of(state: &State, name: u64) -> usize {
    let mut names = state.kept.iter().map(|(name, _)| *name);
    let place = names.position(|kept| kept == name.to_le_bytes());
    place.expect("the name is kept")
}

fn shown_reply(reply: Reply) -> String {
    match reply {
        Reply::Kept => " kept:0".to_string(),
        Reply::Back => " back:0".to_string(),
        Reply::Refused(number) => format!(" {number}:0"),
    }
}

/// The numbers that are printed of a balance, each after a space.
fn numbers_of(places: &Places) -> String {
    let counts = places.counts.iter().map(|count| count.to_string());
    let units = places.all.units[..4].iter();
    let units = units.map(|unit| format!("{} {}", unit.extraction, unit.returns));
    let aquifers = places.all.aquifers[..2].iter();
    let aquifers = aquifers.map(|aquifer| aquifer.extraction.to_string());
    let titles = places.all.titles[..8].iter();
    let titles = titles.map(|registered| u8::from(registered.in_force).to_string());
    let numbers = counts.chain(units).chain(aquifers).chain(titles);
    numbers.map(|number| format!(" {number}")).collect()
}

/// What is printed for a line of the file.
fn printed(name: &str, commands: &[String]) -> String {
    let mut places = StatePlaces::new();
    let replies = commands.iter().map(|command| places.command(command));
    let replies = replies.collect::<String>();
    format!("{name}{replies}{}", places.shown())
}

/// What is printed for every line of the file.
fn all_printed() -> Vec<String> {
    let lines = named_commands("data/states");
    let lines = lines.iter();
    lines
        .map(|(name, commands)| printed(name, commands))
        .collect()
}

/// What is printed for the line of a name, after the name.
fn printed_of(name: &str) -> String {
    let lines = named_commands("data/states");
    let line = lines.iter().find(|(other, _)| other == name);
    let (_, commands) = line.expect(name);
    printed("", commands)
}

#[test]
fn the_commands_of_each_line_have_the_expected_replies_and_end() {
    let before = named_commands("data/balances").len();
    let expected = lines_of("stdout");
    let expected = &expected[before..];
    let printed = all_printed();
    for (printed, expected) in printed.iter().zip(expected) {
        assert_eq!(printed, expected);
    }
    assert_eq!(printed.len(), expected.len());
}

/// Writes what is printed for the lines of the file into the file that the environment names.
#[test]
#[ignore = "writes a file"]
fn write_the_expected_lines() {
    let file = std::env::var("STATES_EXPECTED").expect("STATES_EXPECTED names a file");
    let text: String = all_printed().iter().map(|l| format!("{l}\n")).collect();
    std::fs::write(file, text).expect("the file is written");
}

#[test]
fn the_random_lines_are_those_of_their_seeds() {
    let lines = lines_of("data/states").into_iter();
    let random: Vec<String> = lines.filter(|l| l.starts_with("random-")).collect();
    let made: Vec<String> = (1..=400).map(random_states::line).collect();
    assert_eq!(random, made);
}

#[test]
fn the_names_of_the_lines_are_different() {
    let lines = named_commands("data/states");
    let mut names: Vec<&str> = lines.iter().map(|(name, _)| &**name).collect();
    names.sort_unstable();
    names.dedup();
    assert_eq!(names.len(), lines.len());
}

#[test]
fn replies_worked_by_hand() {
    for (name, replies) in BY_HAND {
        let printed = printed_of(name);
        let (shown, _) = printed.split_once(" = ").expect("the state follows");
        assert_eq!(shown.trim(), replies, "{name}");
    }
}

/// The replies that the paper asks for.
const BY_HAND: [(&str, &str); 20] = [
    (
        "keep-fifth",
        "kept:0 given:5 kept:0 given:6 kept:0 given:7 kept:0 given:8 22:0",
    ),
    (
        "replace-after-fifth",
        "kept:0 kept:0 kept:0 kept:0 given:5 22:0 kept:0 22:0",
    ),
    ("zero-fifth", "kept:0 kept:0 kept:0 kept:0 22:0 23:0"),
    ("byte-8", "kept:0 23:0 given:5 kept:0 back:0"),
    ("back-twice", "kept:0 given:5 back:0 given:5 back:0"),
    ("none-back-zero", "23:0"),
    (
        "none-refused-before",
        "kept:0 kept:0 kept:0 kept:0 22:0 23:0",
    ),
    (
        "title-number-again",
        "kept:0 given:5 given:6 back:0 given:5",
    ),
    ("title-abandoned", "kept:0 given:5 back:0 19:0"),
    (
        "title-in-force-and-not",
        "kept:0 cancelled:4 kept:0 back:0 back:0 19:0 back:0 cancelled:4",
    ),
    ("title-stays-cancelled", "cancelled:1 kept:0 back:0 19:0"),
    (
        "title-last-number",
        "kept:0 given:256 15:0 back:0 given:256 15:0",
    ),
    // 125,100 with a return of 25,020 takes all of unit 2's 100,080, of which titles 2 and 3 bring 80.
    (
        "title-water-spent",
        "given:5 kept:0 20:0 cancelled:5 cancelled:2 back:0 20:0 20:0",
    ),
    ("fault-units", "kept:0 0:0 0:0 0:0 0:0 0:0 back:0"),
    (
        "fault-four-kept",
        "kept:0 kept:0 kept:0 kept:0 0:0 0:0 0:0 0:0 22:0 23:0 kept:0 back:0",
    ),
    ("kept-fault-only", "kept:0 0:0 0:0 0:0 0:0 kept:0 back:0"),
    ("count-1-fresh", "back:0 12:0 19:0 kept:0 back:0"),
    ("count-2-zeros", "0:0 0:0 0:0 0:0"),
    ("twice-beyond", "kept:0 kept:0 given:5 kept:0 back:0 back:0"),
    ("call-count-5", "given:5 cancelled:1 19:0 12:0 0:0"),
];

/// The base as it is printed, and the fresh balance.
const BASE: &str = " 4 2 4 100 75 0 0 0 0 1000 9000000 100 70 1 1 1 1 0 0 0 0";
const FRESH: &str = " 0 0 0 0 0 0 0 0 0 0 0 0 0 0 0 0 0 0 0 0 0";

#[test]
fn states_worked_by_hand() {
    let granted = BASE
        .replace("4 2 4 100 75", "4 2 5 110 77")
        .replace("1 1 1 1 0", "1 1 1 1 1");
    let unused = format!(" / 0{FRESH}");
    for (name, replies, state) in [
        ("nothing", "", format!("0{BASE}{}", unused.repeat(4))),
        (
            "replace-only",
            " kept:0 given:5 kept:0",
            format!("1{granted} / 1{granted}{}", unused.repeat(3)),
        ),
        (
            "back-once",
            " kept:0 given:5 back:0",
            format!("1{BASE} / 1{BASE}{}", unused.repeat(3)),
        ),
        (
            "back-swaps",
            " kept:0 given:5 kept:0 kept:0 back:0 kept:0 back:0 kept:0",
            format!("3{granted} / 1{granted} / 2{BASE} / 3{granted}{unused}"),
        ),
        (
            "bytes-turned",
            " kept:0 23:0 given:5 kept:0 back:0",
            format!("2{BASE} / 258{BASE} / 513{granted}{}", unused.repeat(2)),
        ),
    ] {
        assert_eq!(printed_of(name), format!("{replies} = {state}"), "{name}");
    }
}

/// The current balance that a line ends in.
fn current_of(name: &str) -> String {
    let printed = printed_of(name);
    let (_, state) = printed.split_once(" = ").expect("the state follows");
    let (current, _) = state.split_once(" / ").expect("what is kept follows");
    let (_, balance) = current.split_once(' ').expect("the count comes first");
    balance.to_string()
}

#[test]
fn the_calls_are_those_up_to_the_keeping_and_after_the_return() {
    for number in 1..=6 {
        let (long, short) = (format!("list-{number}"), format!("list-{number}-short"));
        assert_eq!(current_of(&long), current_of(&short), "{long}");
    }
}

#[test]
fn opening_keeps_nothing() {
    let (state, end) = planning::open(&common::book(common::BASIN));
    assert!(end.is_ok() && state.balance.units.len() == 3 && state.kept.is_empty());
    let (state, end) = planning::open(b"UN");
    assert!(end.is_err() && state == State::default());
}
