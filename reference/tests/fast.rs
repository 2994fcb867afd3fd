//! The fast model against the plain one.

use reference::book;
use reference::planning::{self, Name, MOST_KEPT};
use reference::random::{self, Source};
use reference::record::Call;
use reference::register::{self, Balance, Registered, Reply, Title};
use reference::{basin, boundary, fast, run};

/// The state with what a balance holds, as far as it fits, and its counts.
fn state_of(balance: &Balance) -> fast::State {
    let mut state = fast::State::empty();
    state.unit_count = balance.units.len();
    state.aquifer_count = balance.aquifers.len();
    state.title_count = balance.titles.len();
    for (place, unit) in state.units.iter_mut().zip(&balance.units) {
        *place = *unit;
    }
    for (place, aquifer) in state.aquifers.iter_mut().zip(&balance.aquifers) {
        *place = *aquifer;
    }
    for (place, title) in state.titles.iter_mut().zip(&balance.titles) {
        *place = *title;
    }
    state
}

fn assert_same_figures(state: &fast::State, balance: &Balance) {
    let (units, aquifers) = fast::figures(state);
    for (fast, plain) in units.iter().zip(basin::results(&balance.units)) {
        assert_eq!(i128::from(fast.flow), plain.flow);
        assert_eq!(i128::from(fast.committed), plain.committed);
        assert_eq!(i128::from(fast.reserve), plain.reserve);
        assert_eq!(i128::from(fast.availability), plain.availability);
    }
    for (fast, plain) in aquifers.iter().zip(&balance.aquifers) {
        assert_eq!(i128::from(fast.recharge), plain.recharge());
        assert_eq!(i128::from(fast.availability), plain.availability());
    }
    let none = fast::UnitFigures::default();
    assert!(units[state.unit_count..].iter().all(|unit| *unit == none));
    let none = fast::AquiferFigures::default();
    assert!(aquifers[state.aquifer_count..].iter().all(|a| *a == none));
}

#[test]
fn random_books_print_the_same() {
    for seed in 0..6000 {
        let book = random::book(seed);
        assert!(fast::run(&book) == run(&book), "{seed}");
    }
}

#[test]
fn boundary_books_print_the_same() {
    for named in boundary::books() {
        assert!(fast::run(&named.book) == run(&named.book), "{}", named.name);
    }
}

#[test]
fn descriptions_open_the_same() {
    for seed in 10_000..13_000 {
        let book = random::book(seed);
        match (fast::open(&book), book::open(&book)) {
            (Ok((state, end)), Ok(opened)) => {
                assert_eq!(end, opened.end);
                assert!(state == state_of(&opened.balance), "{seed}");
                assert_same_figures(&state, &opened.balance);
            }
            (Err(fast), Err(plain)) => assert_eq!(fast, plain),
            _ => panic!("{seed}"),
        }
    }
}

/// The balances of a book after its calls, each with the next call.
fn balances(book: &[u8]) -> Vec<(Balance, Call)> {
    let Ok(opened) = book::open(book) else {
        return Vec::new();
    };
    let mut balance = opened.balance;
    let mut at = opened.end;
    let mut list = Vec::new();
    while at < book.len() {
        let Ok((call, next)) = book::next_call(book, at) else {
            break;
        };
        let (_, after) = register::apply(&balance, &call);
        list.push((balance, call));
        balance = after;
        at = next;
    }
    list
}

/// Checks one call, and returns the reply.
fn assert_same_reply(balance: &Balance, call: &Call) -> Reply {
    let mut state = state_of(balance);
    let reply = fast::apply(&mut state, call);
    let (expected, after) = register::apply(balance, call);
    assert_eq!(reply, expected);
    assert!(state == state_of(&after));
    reply
}

#[test]
fn calls_change_the_same() {
    let mut accepted = 0;
    for seed in 20_000..20_400 {
        for (balance, call) in balances(&random::book(seed)).iter().take(300) {
            if !matches!(assert_same_reply(balance, call), Reply::Refused(_)) {
                accepted += 1;
            }
        }
    }
    assert!(accepted > 1000, "{accepted}");
}

/// A number near a limit of the entries.
fn edge(s: &mut Source) -> i64 {
    let term = basin::LARGEST_TERM;
    let edges = [0, 1, -1, term, term + 1, -term, -term - 1];
    match s.below(10) {
        0 => i64::MAX,
        1 => i64::MIN,
        _ => s.pick(&edges),
    }
}

/// Changes a number to an edge, or by a little.
fn change(s: &mut Source, number: &mut i64) {
    *number = match s.chance(50) {
        true => edge(s),
        false => number.saturating_add(s.between(-3, 3)),
    };
}

fn change_unit(s: &mut Source, balance: &mut Balance) {
    if balance.units.is_empty() {
        return;
    }
    let index = s.below(balance.units.len());
    let unit = &mut balance.units[index];
    match s.below(9) {
        0 => unit.downstream = s.pick(&[0, 1, index, index + 1, index + 2, 64, 65, usize::MAX]),
        1 => change(s, &mut unit.extraction),
        2 => change(s, &mut unit.exports),
        3 => change(s, &mut unit.imports),
        4 => change(s, &mut unit.returns),
        5 => change(s, &mut unit.evaporation),
        6 => change(s, &mut unit.storage),
        7 => change(s, &mut unit.commitment),
        _ => change(s, &mut unit.runoff),
    }
}

fn change_aquifer(s: &mut Source, balance: &mut Balance) {
    if balance.aquifers.is_empty() {
        return;
    }
    let index = s.below(balance.aquifers.len());
    let aquifer = &mut balance.aquifers[index];
    match s.below(5) {
        0 => change(s, &mut aquifer.storage),
        1 => change(s, &mut aquifer.natural),
        2 => change(s, &mut aquifer.pumped),
        3 => change(s, &mut aquifer.committed),
        _ => change(s, &mut aquifer.extraction),
    }
}

fn random_title(s: &mut Source) -> Title {
    let mut number = || s.pick(&[0, 1, 2, 3, 7, 8, 32, 33, 64, 65, usize::MAX]);
    let (first, second, third) = (number(), number(), number());
    let volume = match s.chance(50) {
        true => edge(s),
        false => s.between(1, 50),
    };
    match s.below(5) {
        0 => Title::UnitWithdrawal {
            unit: first,
            usage: second,
            volume,
        },
        1 => Title::AquiferWithdrawal {
            aquifer: first,
            volume,
        },
        2 => Title::UnitTransfer {
            from: first,
            to: second,
            volume,
        },
        3 => Title::AquiferTransfer {
            aquifer: first,
            unit: second,
            volume,
        },
        _ => Title::ReturningWithdrawal {
            aquifer: first,
            unit: second,
            usage: third,
            volume,
        },
    }
}

fn change_title(s: &mut Source, balance: &mut Balance) {
    let registered = Registered {
        title: random_title(s),
        in_force: s.chance(70),
    };
    match balance.titles.is_empty() || s.chance(50) {
        true => balance.titles.push(registered),
        false => {
            let index = s.below(balance.titles.len());
            match s.chance(50) {
                true => balance.titles[index] = registered,
                false => balance.titles[index].in_force ^= true,
            }
        }
    }
}

fn change_count(s: &mut Source, balance: &mut Balance) {
    match s.below(3) {
        0 => balance
            .units
            .resize(s.pick(&[0, 63, 64, 65, 80]), Default::default()),
        1 => balance
            .aquifers
            .resize(s.pick(&[0, 31, 32, 33, 40]), Default::default()),
        _ => {
            let title = Registered {
                title: random_title(s),
                in_force: false,
            };
            balance.titles.resize(s.pick(&[0, 255, 256, 257]), title);
        }
    }
}

fn change_balance(s: &mut Source, balance: &mut Balance) {
    match s.below(10) {
        0..=3 => change_unit(s, balance),
        4..=5 => change_aquifer(s, balance),
        6..=8 => change_title(s, balance),
        _ => change_count(s, balance),
    }
}

/// Changes a place, the use or the volume of a returning withdrawal, or an entry that it went into.
fn change_returning(s: &mut Source, balance: &mut Balance) {
    let (units, aquifers) = (balance.units.len(), balance.aquifers.len());
    let Some(place) = returning_in_force(balance).last().copied() else {
        return;
    };
    if let Title::ReturningWithdrawal {
        aquifer,
        unit,
        usage,
        volume,
    } = &mut balance.titles[place].title
    {
        let (aquifer_index, unit_index) = (*aquifer - 1, *unit - 1);
        match s.below(6) {
            0 => *aquifer = s.pick(&[0, 1, aquifers, aquifers + 1, usize::MAX]),
            1 => *unit = s.pick(&[0, 1, units, units + 1, usize::MAX]),
            2 => *usage = s.pick(&[0, 1, 5, 7, 8, usize::MAX]),
            3 => change(s, volume),
            4 => change(s, &mut balance.units[unit_index].returns),
            _ => change(s, &mut balance.aquifers[aquifer_index].extraction),
        }
    }
}

/// The places of the returning withdrawals in force.
fn returning_in_force(balance: &Balance) -> Vec<usize> {
    (0..balance.titles.len())
        .filter(|place| {
            let registered = &balance.titles[*place];
            registered.in_force && matches!(registered.title, Title::ReturningWithdrawal { .. })
        })
        .collect()
}

#[test]
fn balances_with_a_changed_returning_withdrawal_are_refused_the_same() {
    let s = &mut Source::new(2);
    let (mut faulty, mut sound) = (0, 0);
    for seed in 40_000..42_000 {
        for (balance, call) in balances(&random::book(seed)).into_iter().take(60) {
            if returning_in_force(&balance).is_empty() {
                continue;
            }
            let mut changed = balance;
            change_returning(s, &mut changed);
            match assert_same_reply(&changed, &call) {
                Reply::Refused(0) => faulty += 1,
                _ => sound += 1,
            }
        }
    }
    assert!(faulty > 1000 && sound > 1000, "{faulty} {sound}");
}

#[test]
fn changed_balances_are_refused_the_same() {
    let s = &mut Source::new(1);
    let (mut faulty, mut sound) = (0, 0);
    for seed in 30_000..31_000 {
        for (balance, call) in balances(&random::book(seed)).into_iter().take(60) {
            let mut changed = balance;
            change_balance(s, &mut changed);
            match assert_same_reply(&changed, &call) {
                Reply::Refused(0) => faulty += 1,
                _ => sound += 1,
            }
        }
    }
    assert!(faulty > 3000 && sound > 3000, "{faulty} {sound}");
}

// Planning states

/// The plans with what a state holds, as far as it fits, and its counts.
fn plans_of(state: &planning::State) -> fast::Plans {
    let mut plans = fast::Plans::of(state_of(&state.balance));
    plans.count = state.kept.len();
    for (place, (name, balance)) in state.kept.iter().take(MOST_KEPT).enumerate() {
        plans.names[place] = *name;
        plans.kept[place] = state_of(balance);
    }
    plans
}

/// Checks the counts, and what is in use as far as it fits.
fn assert_same_state(state: &fast::State, balance: &Balance) {
    assert_eq!(state.unit_count, balance.units.len());
    assert_eq!(state.aquifer_count, balance.aquifers.len());
    assert_eq!(state.title_count, balance.titles.len());
    assert!(state.units.iter().zip(&balance.units).all(|(f, p)| f == p));
    let mut aquifers = state.aquifers.iter().zip(&balance.aquifers);
    assert!(aquifers.all(|(fast, plain)| fast == plain));
    let mut titles = state.titles.iter().zip(&balance.titles);
    assert!(titles.all(|(fast, plain)| fast == plain));
}

fn assert_same_plans(plans: &fast::Plans, state: &planning::State) {
    assert_same_state(&plans.current, &state.balance);
    assert_eq!(plans.count, state.kept.len());
    let places = plans.names.iter().zip(&plans.kept);
    for ((name, kept), (plain_name, balance)) in places.zip(&state.kept) {
        assert_eq!(name, plain_name);
        assert_same_state(kept, balance);
    }
}

/// Both models of a planning state.
struct Both {
    plans: fast::Plans,
    state: planning::State,
}

impl Both {
    fn of(state: planning::State) -> Both {
        let plans = plans_of(&state);
        Both { plans, state }
    }

    fn keep(&mut self, name: Name) -> planning::Reply {
        let (reply, after) = planning::keep(&self.state, name);
        self.state = after;
        assert_eq!(fast::keep(&mut self.plans, name), reply);
        assert_same_plans(&self.plans, &self.state);
        reply
    }

    fn back(&mut self, name: Name) -> planning::Reply {
        let (reply, after) = planning::back(&self.state, name);
        self.state = after;
        assert_eq!(fast::back(&mut self.plans, name), reply);
        assert_same_plans(&self.plans, &self.state);
        reply
    }

    fn call(&mut self, call: &Call) {
        let (reply, after) = register::apply(&self.state.balance, call);
        self.state.balance = after;
        assert_eq!(fast::apply(&mut self.plans.current, call), reply);
        assert_same_plans(&self.plans, &self.state);
    }
}

/// One of six names: zeros, others that differ in the first or the last byte, and all ones.
fn name(s: &mut Source) -> Name {
    let numbers = [0, 1, 2, 1 << 56, (1 << 56) + 1, u64::MAX];
    s.pick(&numbers).to_le_bytes()
}

/// Changes the current balance, a kept one, a name or how many are kept.
fn change_state(s: &mut Source, state: &mut planning::State) {
    let place = s.below(MOST_KEPT);
    match (s.below(4), state.kept.get_mut(place)) {
        (0, _) => change_balance(s, &mut state.balance),
        (1, Some((_, kept))) => change_balance(s, kept),
        (2, Some((other, _))) => *other = name(s),
        _ => state.kept.resize(s.below(7), Default::default()),
    }
}

/// Keeps, goes back, makes the next call, or keeps and goes back in a changed copy. Returns the replies.
fn step(s: &mut Source, both: &mut Both, call: &Call) -> Vec<planning::Reply> {
    match s.below(8) {
        0..=1 => vec![both.keep(name(s))],
        2..=3 => vec![both.back(name(s))],
        4..=5 => {
            both.call(call);
            Vec::new()
        }
        _ => {
            let mut changed = both.state.clone();
            change_state(s, &mut changed);
            let mut changed = Both::of(changed);
            vec![changed.back(name(s)), changed.keep(name(s))]
        }
    }
}

#[test]
fn keeping_and_going_back_change_the_same() {
    let s = &mut Source::new(3);
    let mut replies = Vec::new();
    for seed in 50_000..51_600 {
        let book = random::book(seed);
        let (state, _) = planning::open(&book);
        let mut both = Both::of(state);
        for (_, call) in balances(&book).iter().take(60) {
            replies.extend(step(s, &mut both, call));
        }
    }
    for reply in [
        planning::Reply::Kept,
        planning::Reply::Back,
        planning::Reply::Refused(0),
        planning::Reply::Refused(22),
        planning::Reply::Refused(23),
    ] {
        let count = replies.iter().filter(|other| **other == reply).count();
        assert!(count > 300, "{reply:?} {count}");
    }
}
