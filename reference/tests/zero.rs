//! The test for refusal 0 on balances that opening and calls never hand out.

mod common;

use common::{book, BASIN};
use reference::record::Call;
use reference::register::{apply, is_faulty, Balance, Registered, Reply, Title};

fn basin() -> Balance {
    let opened = reference::book::open(&book(BASIN)).expect("the description is accepted");
    opened.balance
}

/// A balance with one title of each kind in force.
fn with_titles() -> Balance {
    let calls = [
        Call::Withdraw {
            unit: 3,
            usage: 1,
            volume: 2000,
        },
        Call::Pump {
            aquifer: 1,
            volume: 50,
        },
        Call::Transfer {
            from: 3,
            to: 1,
            volume: 10,
        },
        Call::Bring {
            aquifer: 1,
            unit: 1,
            volume: 20,
        },
        Call::PumpReturning {
            aquifer: 1,
            unit: 3,
            usage: 2,
            volume: 40,
        },
    ];
    calls.iter().fold(basin(), |balance, call| {
        let (reply, after) = apply(&balance, call);
        assert!(matches!(reply, Reply::Given(_)));
        after
    })
}

/// Every call on a changed balance is refused with 0 and hands it back.
fn assert_faulty(change: fn(&mut Balance)) {
    let mut balance = with_titles();
    change(&mut balance);
    assert!(is_faulty(&balance));
    for call in [
        Call::Withdraw {
            unit: 0,
            usage: 0,
            volume: 0,
        },
        Call::Pump {
            aquifer: 0,
            volume: 0,
        },
        Call::Transfer {
            from: 0,
            to: 0,
            volume: 0,
        },
        Call::Bring {
            aquifer: 0,
            unit: 0,
            volume: 0,
        },
        Call::PumpReturning {
            aquifer: 0,
            unit: 0,
            usage: 0,
            volume: 0,
        },
        Call::Cancel { title: 0 },
    ] {
        assert_eq!(apply(&balance, &call), (Reply::Refused(0), balance.clone()));
    }
}

fn assert_sound(change: fn(&mut Balance)) {
    let mut balance = with_titles();
    change(&mut balance);
    assert!(!is_faulty(&balance));
}

#[test]
fn counts() {
    assert_faulty(|b| b.units.resize(65, Default::default()));
    assert_sound(|b| b.units.resize(64, Default::default()));
    assert_faulty(|b| b.aquifers.resize(33, Default::default()));
    assert_sound(|b| b.aquifers.resize(32, Default::default()));
    let cancelled = Registered {
        title: Title::AquiferWithdrawal {
            aquifer: 9,
            volume: 0,
        },
        in_force: false,
    };
    let mut balance = with_titles();
    balance.titles.resize(256, cancelled);
    assert!(!is_faulty(&balance));
    balance.titles.resize(257, cancelled);
    assert!(is_faulty(&balance));
}

#[test]
fn entries_outside_their_range() {
    assert_faulty(|b| b.units[2].extraction = 10_000_001);
    assert_faulty(|b| b.units[0].exports = -1);
    assert_faulty(|b| b.units[0].imports = i64::MAX);
    assert_faulty(|b| b.units[0].returns = 10_000_001);
    assert_faulty(|b| b.units[0].evaporation = i64::MIN);
    assert_faulty(|b| b.units[0].storage = -10_000_001);
    assert_sound(|b| b.units[0].storage = -10_000_000);
    assert_faulty(|b| b.units[2].commitment = 10_000_001);
    assert_faulty(|b| b.units[0].runoff = 10_000_001);
    assert_faulty(|b| b.aquifers[0].storage = 10_000_001);
    assert_faulty(|b| b.aquifers[0].natural = 10_000_001);
    assert_faulty(|b| b.aquifers[0].pumped = -1);
    assert_faulty(|b| b.aquifers[0].committed = 10_000_001);
    assert_faulty(|b| b.aquifers[0].extraction = 10_000_001);
}

#[test]
fn tree_flow_and_recharge() {
    assert_faulty(|b| b.units[1].downstream = 2);
    assert_faulty(|b| b.units[1].downstream = 1);
    assert_faulty(|b| b.units[1].downstream = 4);
    assert_faulty(|b| b.units[1].downstream = usize::MAX);
    assert_sound(|b| b.units[1].downstream = 0);
    assert_faulty(|b| b.units[0].commitment = 1);
    assert_faulty(|b| b.units[1].evaporation = 1541);
    assert_sound(|b| b.units[1].evaporation = 1540);
    assert_faulty(|b| b.aquifers[0].storage = -2201);
    assert_sound(|b| b.aquifers[0].storage = -2200);
    assert_sound(|b| b.aquifers[0].committed = 10_000_000);
}

fn title(balance: &mut Balance, number: usize, title: Title) {
    balance.titles[number - 1].title = title;
}

#[test]
fn titles_in_force() {
    assert_faulty(|b| {
        title(
            b,
            1,
            Title::UnitWithdrawal {
                unit: 4,
                usage: 1,
                volume: 5,
            },
        )
    });
    assert_faulty(|b| {
        title(
            b,
            1,
            Title::UnitWithdrawal {
                unit: 0,
                usage: 1,
                volume: 5,
            },
        )
    });
    assert_faulty(|b| {
        title(
            b,
            1,
            Title::UnitWithdrawal {
                unit: 3,
                usage: 0,
                volume: 5,
            },
        )
    });
    assert_faulty(|b| {
        title(
            b,
            1,
            Title::UnitWithdrawal {
                unit: 3,
                usage: 8,
                volume: 5,
            },
        )
    });
    assert_faulty(|b| {
        title(
            b,
            1,
            Title::UnitWithdrawal {
                unit: 3,
                usage: 1,
                volume: 0,
            },
        )
    });
    assert_faulty(|b| {
        title(
            b,
            1,
            Title::UnitWithdrawal {
                unit: 3,
                usage: 1,
                volume: -5,
            },
        )
    });
    assert_faulty(|b| {
        title(
            b,
            2,
            Title::AquiferWithdrawal {
                aquifer: 2,
                volume: 5,
            },
        )
    });
    assert_faulty(|b| {
        title(
            b,
            3,
            Title::UnitTransfer {
                from: 3,
                to: 4,
                volume: 5,
            },
        )
    });
    assert_faulty(|b| {
        title(
            b,
            4,
            Title::AquiferTransfer {
                aquifer: 2,
                unit: 1,
                volume: 5,
            },
        )
    });
    assert_faulty(|b| {
        title(
            b,
            4,
            Title::AquiferTransfer {
                aquifer: 1,
                unit: 0,
                volume: 5,
            },
        )
    });
    assert_sound(|b| {
        title(
            b,
            4,
            Title::AquiferTransfer {
                aquifer: 7,
                unit: 9,
                volume: 0,
            },
        );
        b.titles[3].in_force = false;
    });
}

#[test]
fn titles_beyond_their_entries() {
    // Extraction of unit 3 is 5000 with the title. Its returns are 400 of that title and 30 of well water.
    assert_sound(|b| b.units[2].extraction = 2000);
    assert_faulty(|b| b.units[2].extraction = 1999);
    assert_sound(|b| b.units[2].returns = 430);
    assert_faulty(|b| b.units[2].returns = 429);
    assert_faulty(|b| b.units[2].exports = 9);
    // Unit 1 imports 10 from unit 3 and 20 from the aquifer.
    assert_sound(|b| b.units[0].imports = 30);
    assert_faulty(|b| b.units[0].imports = 29);
    // The aquifer gives 50, 20 and 40.
    assert_sound(|b| b.aquifers[0].extraction = 110);
    assert_faulty(|b| b.aquifers[0].extraction = 109);
}

/// The balance with its fifth title changed: aquifer, unit, use and volume.
fn with_fifth(fields: (usize, usize, usize, i64)) -> Balance {
    let (aquifer, unit, usage, volume) = fields;
    let mut balance = with_titles();
    let changed = Title::ReturningWithdrawal {
        aquifer,
        unit,
        usage,
        volume,
    };
    title(&mut balance, 5, changed);
    balance
}

#[test]
fn the_fifth_kind_in_force() {
    assert_eq!(with_fifth((1, 3, 2, 40)), with_titles());
    for fields in [
        (0, 3, 2, 40),
        (2, 3, 2, 40),
        (3, 1, 2, 40),
        (usize::MAX, 3, 2, 40),
        (1, 0, 2, 40),
        (1, 4, 2, 40),
        (1, usize::MAX, 2, 40),
        (1, 3, 0, 40),
        (1, 3, 8, 40),
        (1, 3, usize::MAX, 40),
        (1, 3, 2, 0),
        (1, 3, 2, -40),
        (1, 3, 2, 10_000_001),
        (1, 3, 2, i64::MAX),
        // Returns of 31 and of 40 beside the other title's 400, and of 30 in another unit.
        (1, 3, 2, 42),
        (1, 3, 6, 40),
        (1, 1, 2, 40),
    ] {
        let balance = with_fifth(fields);
        assert!(is_faulty(&balance), "{fields:?}");
        let call = Call::Cancel { title: 5 };
        assert_eq!(apply(&balance, &call), (Reply::Refused(0), balance.clone()));
        let mut cancelled = balance;
        cancelled.titles[4].in_force = false;
        assert!(!is_faulty(&cancelled), "{fields:?}");
    }
    for fields in [(1, 3, 2, 41), (1, 3, 1, 40), (1, 1, 2, 1), (1, 2, 5, 6)] {
        assert!(!is_faulty(&with_fifth(fields)), "{fields:?}");
    }
}

#[test]
fn the_fifth_kind_beyond_its_entries() {
    let alone = |returns: i64, extraction: i64| {
        let mut balance = with_titles();
        for registered in &mut balance.titles[..4] {
            registered.in_force = false;
        }
        balance.units[2].returns = returns;
        balance.aquifers[0].extraction = extraction;
        is_faulty(&balance)
    };
    assert!(!alone(30, 40));
    assert!(alone(29, 40));
    assert!(alone(30, 39));
}

#[test]
fn a_cancelled_fifth_kind_takes_both_back() {
    let (reply, after) = apply(&with_titles(), &Call::Cancel { title: 5 });
    assert_eq!(reply, Reply::Cancelled(5));
    assert_eq!(after.units[2].returns, 400);
    assert_eq!(after.aquifers[0].extraction, 1370);
    assert!(!after.titles[4].in_force);
}

#[test]
fn a_transfer_downstream_in_force_is_no_fault_and_can_be_cancelled() {
    let mut balance = basin();
    balance.units[0].exports = 5;
    balance.units[2].imports = 5;
    balance.titles.push(Registered {
        title: Title::UnitTransfer {
            from: 1,
            to: 3,
            volume: 5,
        },
        in_force: true,
    });
    let (reply, after) = apply(&balance, &Call::Cancel { title: 1 });
    assert_eq!(reply, Reply::Cancelled(1));
    assert_eq!(after.units, basin().units);
    assert!(!after.titles[0].in_force);
}
