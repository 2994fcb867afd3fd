//! Random lines for the file `states` of `register_runs`: keepings, returns, calls and changes from a seed.

use crate::planning::MOST_KEPT;
use crate::random::Source;

/// The names that a line keeps and asks for.
const NAMES: [u64; 7] = [
    0,
    1,
    2,
    256,
    1 << 56,
    (1 << 56) + 1,
    18_446_744_073_709_551_615,
];

/// Changes that make any balance of a line faulty, each with the change that mends it.
const FAULTS: [(&str, &str); 9] = [
    ("bu 65", "bu 4"),
    ("ba 33", "ba 2"),
    ("bg 257", "bg 8"),
    ("uv 4 10000001", "uv 4 0"),
    ("uv 3 10000000", "uv 3 0"),
    ("us 3 -10000001", "us 3 0"),
    ("uc 1 1", "uc 1 0"),
    ("ud 2 1", "ud 2 3"),
    ("as 1 -10001", "as 1 0"),
];

/// The line of a seed, with 5 to 25 commands.
pub fn line(seed: u64) -> String {
    let s = &mut Source::new(seed);
    let count = s.between(5, 25) as usize;
    let mut line = Line::default();
    while line.commands.len() < count {
        line.write_some(s);
    }
    line.commands.truncate(count);
    format!("random-{seed}; {}", line.commands.join("; "))
}

/// A line that is being written. No command so far leaves a fault behind.
#[derive(Default)]
struct Line {
    commands: Vec<String>,
    /// The names that are kept, by their places.
    names: Vec<u64>,
}

impl Line {
    fn write(&mut self, command: impl Into<String>) {
        self.commands.push(command.into());
    }

    fn write_some(&mut self, s: &mut Source) {
        match s.below(100) {
            0..=35 => self.keep(s),
            36..=61 => self.back(s),
            62..=90 => self.write(call(s)),
            91..=95 => self.change(s),
            _ => self.break_and_mend(s),
        }
    }

    fn keep(&mut self, s: &mut Source) {
        let name = s.pick(&NAMES);
        self.write(format!("kn {name}"));
        if self.names.len() < MOST_KEPT && !self.names.contains(&name) {
            self.names.push(name);
        }
    }

    /// Goes back, mostly to a name that is kept.
    fn back(&mut self, s: &mut Source) {
        let name = match self.names.is_empty() || s.chance(40) {
            true => s.pick(&NAMES),
            false => s.pick(&self.names),
        };
        self.write(format!("kb {name}"));
    }

    /// A change that is no fault.
    fn change(&mut self, s: &mut Source) {
        let place = 1 + s.below(MOST_KEPT);
        match s.below(5) {
            0 => self.write(format!("ue 4 {}", s.between(5000, 9000))),
            1 => self.write(format!("ct {}", s.between(1, 8))),
            2 => self.write(format!("kk {place}")),
            3 => self.rename(s, place),
            _ => self.forget(s),
        }
    }

    /// Another name for a place. In a place that is in use it is one that no other has.
    fn rename(&mut self, s: &mut Source, place: usize) {
        let name = s.pick(&NAMES);
        if place <= self.names.len() {
            if self.names.contains(&name) {
                return;
            }
            self.names[place - 1] = name;
        }
        self.write(format!("kw {place} {name}"));
    }

    /// A smaller count of places in use.
    fn forget(&mut self, s: &mut Source) {
        let count = s.below(self.names.len() + 1);
        self.names.truncate(count);
        self.write(format!("ks {count}"));
    }

    /// A fault, some commands while it lasts, and what mends it.
    fn break_and_mend(&mut self, s: &mut Source) {
        match (s.below(4), self.names.len()) {
            (0, 1..) => self.break_kept(s),
            (1, 2..) => self.keep_twice(s),
            (2, _) => self.keep_too_many(s),
            _ => self.break_current(s),
        }
    }

    fn break_current(&mut self, s: &mut Source) {
        let (fault, mended) = s.pick(&FAULTS);
        self.write(fault);
        self.ask_in_vain(s);
        self.write(mended);
    }

    /// The faulty balance goes into a place in use, which takes a sound one again in the end.
    fn break_kept(&mut self, s: &mut Source) {
        let (fault, mended) = s.pick(&FAULTS);
        let place = 1 + s.below(self.names.len());
        self.write(fault);
        self.write(format!("kk {place}"));
        self.write(mended);
        self.ask_in_vain(s);
        self.write(format!("kk {place}"));
    }

    fn keep_twice(&mut self, s: &mut Source) {
        let place = s.below(self.names.len());
        let other = (place + 1 + s.below(self.names.len() - 1)) % self.names.len();
        let (own, others) = (self.names[place], self.names[other]);
        self.write(format!("kw {} {others}", place + 1));
        self.ask_in_vain(s);
        self.write(format!("kw {} {own}", place + 1));
    }

    fn keep_too_many(&mut self, s: &mut Source) {
        let count = s.pick(&[5, 6, 260, 1 << 32, u64::MAX]);
        self.write(format!("ks {count}"));
        self.ask_in_vain(s);
        self.write(format!("ks {}", self.names.len()));
    }

    /// Commands of which keeping and going back are refused with 0.
    fn ask_in_vain(&mut self, s: &mut Source) {
        for _ in 0..s.between(1, 3) {
            let command = match s.below(3) {
                0 => format!("kn {}", s.pick(&NAMES)),
                1 => format!("kb {}", s.pick(&NAMES)),
                _ => call(s),
            };
            self.write(command);
        }
    }
}

/// A grant or a cancellation.
fn call(s: &mut Source) -> String {
    match s.chance(65) {
        true => grant(s),
        false => format!("kc {}", title(s)),
    }
}

/// A small grant, or one that is refused.
fn grant(s: &mut Source) -> String {
    let unit = match s.chance(8) {
        true => s.pick(&[0, 5, 255]),
        false => s.between(1, 4),
    };
    let volume = match s.chance(8) {
        true => s.pick(&[0, 10_000_000, 10_000_001, 4_294_967_295]),
        false => s.between(1, 50),
    };
    format!("kg {unit} {volume}")
}

fn title(s: &mut Source) -> i64 {
    match s.chance(10) {
        true => s.pick(&[0, 9, 256, 65_535]),
        false => s.between(1, 8),
    }
}
