//! Times the proved library beside the plain and the fast reference model.
//!
//!     bench [REPETITIONS]          all tables, in Markdown
//!     bench --rows                 the rows: table, name, two numbers of operations, meaning
//!     bench --only ROW WHO TIMES   one row by one contestant (proved, plain, fast, untested or afresh), once

use comparison::rows::{self, Contestant, Row, Work, CONTESTANTS};
use comparison::times::{machine, Times};
use std::hint::black_box;
use std::process::ExitCode;
use std::time::Instant;

/// How often each row is timed if nothing else is asked for.
const REPETITIONS: usize = 25;
/// How long the work that is timed at once takes at least, in seconds.
const LEAST_TIME: f64 = 0.004;

fn main() -> ExitCode {
    let words: Vec<String> = std::env::args().skip(1).collect();
    let words: Vec<&str> = words.iter().map(String::as_str).collect();
    match words[..] {
        [] => print_tables(REPETITIONS),
        ["--rows"] => print_rows(),
        ["--only", row, who, times] => perform_once(row, who, times),
        [repetitions] => match repetitions.parse() {
            Ok(repetitions @ 1..) => print_tables(repetitions),
            _ => usage(),
        },
        _ => usage(),
    }
}

fn usage() -> ExitCode {
    eprintln!("usage: bench [REPETITIONS] | bench --rows | bench --only ROW WHO TIMES");
    ExitCode::from(2)
}

fn print_rows() -> ExitCode {
    for (title, table) in rows::tables() {
        for planned in table {
            let row = (planned.make)();
            let (few, more) = row.counted;
            println!("{title}\t{}\t{few}\t{more}\t{}", row.name, row.meaning);
        }
    }
    ExitCode::SUCCESS
}

fn perform_once(name: &str, who: &str, times: &str) -> ExitCode {
    let planned = rows::tables()
        .into_iter()
        .flat_map(|(_, table)| table)
        .find(|planned| planned.name == name);
    let who = CONTESTANTS.into_iter().find(|c| c.name() == who);
    match (planned, who, times.parse()) {
        (Some(planned), Some(who), Ok(times)) => {
            println!("{}", (planned.make)().perform(who, times));
            ExitCode::SUCCESS
        }
        _ => usage(),
    }
}

/// The seconds that a row's work takes, done so many times over.
fn time(row: &Row, who: Contestant, operations: usize, rounds: usize) -> f64 {
    let start = Instant::now();
    for _ in 0..rounds {
        black_box(row.perform(who, operations));
    }
    start.elapsed().as_secs_f64()
}

/// How often the work of a row has to be done to take long enough.
fn rounds(row: &Row, who: Contestant) -> usize {
    let mut rounds = 1;
    while time(row, who, row.most, rounds) < LEAST_TIME {
        rounds *= 2;
    }
    rounds
}

/// Times a row: in each repetition every contestant in turn, each time with another one first.
/// What is done before the first operation is timed by itself and taken off.
fn measure(row: &Row, repetitions: usize) -> Vec<Times> {
    let contestants = row.contestants();
    let rounds: Vec<usize> = contestants.iter().map(|who| rounds(row, *who)).collect();
    let mut times = vec![Vec::new(); contestants.len()];
    for repetition in 0..repetitions {
        for place in 0..contestants.len() {
            let place = (place + repetition) % contestants.len();
            let (who, rounds) = (contestants[place], rounds[place]);
            let all = time(row, who, row.most, rounds);
            let before = time(row, who, 0, rounds);
            times[place].push((all - before) / (row.most * rounds) as f64);
        }
    }
    times.into_iter().map(Times::of).collect()
}

fn print_tables(repetitions: usize) -> ExitCode {
    println!("{repetitions} repetitions, {}.", machine());
    println!("Microseconds for one operation: median (lower quartile–upper quartile).");
    for (title, table) in rows::tables() {
        println!("\n### {title}\n");
        print_head(title);
        let mut medians = Vec::new();
        for planned in table {
            let row = (planned.make)();
            let times = measure(&row, repetitions);
            print_row(&row, &times);
            medians.push([0, 1, 2].map(|place| times[place].median()));
        }
        if title.starts_with("Growth") {
            print_growth(&medians);
        }
    }
    ExitCode::SUCCESS
}

/// How much the medians of a table of growth rise from the fewest units or titles to the most.
fn print_growth(medians: &[[f64; 3]]) {
    let (units, titles) = (rows::UNIT_COUNTS, rows::TITLE_COUNTS);
    let place = |unit: usize, title: usize| unit * titles.len() + title;
    let (last_unit, last_title) = (units.len() - 1, titles.len() - 1);
    println!("\n| Step | linear growth would be | proved | plain | fast |");
    println!("|---|---:|---:|---:|---:|");
    for (title, count) in titles.iter().enumerate() {
        let [few, many] = [units[0], units[last_unit]];
        let step = format!("{few} to {many} units, {count} titles");
        let (from, to) = (place(0, title), place(last_unit, title));
        print_step(&step, many / few, medians[from], medians[to]);
    }
    for (unit, count) in units.iter().enumerate() {
        let [few, many] = [titles[0], titles[last_title]];
        let step = format!("{few} to {many} titles, {count} units");
        let (from, to) = (place(unit, 0), place(unit, last_title));
        print_step(&step, many / few, medians[from], medians[to]);
    }
}

fn print_step(step: &str, linear: usize, from: [f64; 3], to: [f64; 3]) {
    let [proved, plain, fast] = [0, 1, 2].map(|place| to[place] / from[place]);
    println!("| {step} | {linear} | {proved:.2} | {plain:.2} | {fast:.2} |");
}

/// The head of a table; where calls are made it has a column for the model without the test, and of windows one for
/// each of them afresh.
fn print_head(title: &str) {
    let line = "---:|---:|";
    let (more, line) = match title {
        "Windows" => (" afresh | afresh / proved |", line),
        _ if title.ends_with("alls") => (" untested | proved / untested |", line),
        _ => ("", ""),
    };
    println!("| Row | Meaning | proved | plain | fast | proved per second | proved / plain | proved / fast |{more}");
    println!("|---|---|---:|---:|---:|---:|---:|---:|{line}");
}

fn print_row(row: &Row, times: &[Times]) {
    let [proved, plain, fast] = [0, 1, 2].map(|place| &times[place]);
    print!(
        "| {} | {} | {} | {} | {} | {:.0} | {:.3} | {:.2} |",
        row.name,
        row.meaning,
        proved.shown(),
        plain.shown(),
        fast.shown(),
        1.0 / proved.median(),
        proved.median() / plain.median(),
        proved.median() / fast.median()
    );
    if let Some(fourth) = times.get(3) {
        let ratio = match row.work {
            Work::Windows(_) => fourth.median() / proved.median(),
            _ => proved.median() / fourth.median(),
        };
        print!(" {} | {ratio:.2} |", fourth.shown());
    }
    println!();
}
