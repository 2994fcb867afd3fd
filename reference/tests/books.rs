//! Random and boundary books, and what holds after every list of calls.

mod common;

use common::of_crate;
use reference::basin::{self, Aquifer, Unit};
use reference::book::{next_call, open};
use reference::random;
use reference::record::{book_of, records_of, Call, Record};
use reference::register::{apply, return_of, Balance, Reply};

#[test]
fn a_seed_gives_one_book_and_most_descriptions_are_accepted() {
    let books: Vec<Vec<u8>> = (0..2000).map(random::book).collect();
    assert!(books[..200] == (0..200).map(random::book).collect::<Vec<_>>()[..]);
    let accepted = books.iter().filter(|book| open(book).is_ok()).count();
    assert!(accepted > 1000, "{accepted}");
}

#[test]
fn the_books_of_the_gate_have_the_expected_output() {
    let names = String::from_utf8(of_crate("book_runs", "args")).expect("the names are text");
    let mut text = Vec::new();
    for name in names.lines() {
        text.extend(format!("{name}\n").bytes());
        text.extend(reference::run(&of_crate(
            "book_runs",
            &format!("data/{name}"),
        )));
    }
    assert!(text == of_crate("book_runs", "stdout"));
}

#[test]
fn the_boundary_books_are_books_of_the_gate() {
    for named in reference::boundary::books() {
        assert!(
            named.book == of_crate("book_runs", &format!("data/{}", named.name)),
            "{}",
            named.name
        );
    }
}

/// The book with every rain year in tenths at ten times its number, where all of these fit.
fn in_tenths(book: &[u8]) -> Option<Vec<u8>> {
    let mut records = records_of(book).ok()?;
    for record in &mut records {
        if let Record::Rain(rain) = record {
            *record = Record::Tenths(rain.checked_mul(10)?);
        }
    }
    Some(book_of(&records))
}

#[test]
fn a_book_in_millimetres_prints_the_same_in_tenths() {
    let mut books = 0;
    for seed in 0..4000 {
        let book = random::book(seed);
        if let Some(in_tenths) = in_tenths(&book).filter(|changed| *changed != book) {
            assert!(
                reference::run(&in_tenths) == reference::run(&book),
                "{seed}"
            );
            books += 1;
        }
    }
    assert!(books > 1000, "{books}");
}

/// What the calls given and not cancelled add, worked from the calls alone: units and aquifers with
/// their entries, and the water brought from aquifers.
fn entries_after(base: &Balance, given: &[(Call, bool)]) -> (Vec<Unit>, Vec<Aquifer>, i64) {
    let mut units = base.units.clone();
    let mut aquifers = base.aquifers.clone();
    let mut brought = 0;
    for (call, _) in given.iter().filter(|(_, in_force)| *in_force) {
        match *call {
            Call::Withdraw {
                unit,
                usage,
                volume,
            } => {
                let unit = &mut units[usize::from(unit) - 1];
                unit.extraction += i64::from(volume);
                unit.returns += return_of(usize::from(usage), i64::from(volume));
            }
            Call::Transfer { from, to, volume } => {
                units[usize::from(from) - 1].exports += i64::from(volume);
                units[usize::from(to) - 1].imports += i64::from(volume);
            }
            Call::Bring {
                aquifer,
                unit,
                volume,
            } => {
                aquifers[usize::from(aquifer) - 1].extraction += i64::from(volume);
                units[usize::from(unit) - 1].imports += i64::from(volume);
                brought += i64::from(volume);
            }
            Call::PumpReturning {
                aquifer,
                unit,
                usage,
                volume,
            } => {
                aquifers[usize::from(aquifer) - 1].extraction += i64::from(volume);
                units[usize::from(unit) - 1].returns +=
                    return_of(usize::from(usage), i64::from(volume));
            }
            Call::Pump { aquifer, volume } => {
                aquifers[usize::from(aquifer) - 1].extraction += i64::from(volume);
            }
            Call::Cancel { .. } => {}
        }
    }
    (units, aquifers, brought)
}

fn sum(units: &[Unit], entry: fn(&Unit) -> i64) -> i128 {
    units.iter().map(|unit| i128::from(entry(unit))).sum()
}

/// Water is conserved, and the reserves add up to the demands.
fn assert_conserved(base: &Balance, given: &[(Call, bool)], balance: &Balance) {
    let (units, aquifers, brought) = entries_after(base, given);
    assert_eq!(units, balance.units);
    assert_eq!(aquifers, balance.aquifers);
    let base = &base.units;
    let results = basin::results(&balance.units);
    let outlets: i128 = units
        .iter()
        .zip(&results)
        .filter(|(unit, _)| unit.downstream == 0)
        .map(|(_, result)| result.flow)
        .sum();
    let used = sum(&units, |u| u.extraction + u.evaporation + u.storage);
    let gained = sum(&units, |u| u.runoff + u.returns);
    assert_eq!(
        outlets + used + sum(base, |u| u.exports),
        gained + sum(base, |u| u.imports) + i128::from(brought)
    );
    let reserves: i128 = results.iter().map(|result| result.reserve).sum();
    assert_eq!(
        reserves,
        sum(&units, |u| u.extraction
            + u.exports
            + u.evaporation
            + u.commitment)
    );
    assert!(results.iter().all(|result| result.flow >= 0));
}

#[test]
fn water_is_conserved_after_every_call() {
    let mut calls = 0;
    let mut returning = 0;
    for seed in 0..2000 {
        let book = random::book(seed);
        let Ok(opened) = open(&book) else {
            continue;
        };
        let base = opened.balance.clone();
        let mut balance = opened.balance;
        let mut given: Vec<(Call, bool)> = Vec::new();
        let mut at = opened.end;
        assert_conserved(&base, &given, &balance);
        while at < book.len() && calls < 1_000_000 {
            let Ok((call, next)) = next_call(&book, at) else {
                break;
            };
            at = next;
            calls += 1;
            let (reply, after) = apply(&balance, &call);
            match reply {
                Reply::Given(title) => {
                    returning += usize::from(matches!(call, Call::PumpReturning { .. }));
                    given.push((call, true));
                    assert_eq!(title, given.len());
                }
                Reply::Cancelled(title) => given[title - 1].1 = false,
                Reply::Refused(number) => {
                    assert_ne!(number, 0);
                    assert_eq!(after, balance);
                    continue;
                }
            }
            balance = after;
            assert_conserved(&base, &given, &balance);
        }
    }
    assert!(calls > 10_000 && returning > 1000, "{calls} {returning}");
}
