//! The balances of `register_runs`, sound and broken, and the replies to the calls that are made on each.

mod common;

use common::places::{base, lines_of, named_commands, shown};
use reference::record::Call;
use reference::register::{apply, is_faulty};

/// The calls that are made on every balance.
fn calls() -> Vec<Call> {
    let grants = |from: u8, to: u8, volume: u32| {
        [
            Call::Withdraw {
                unit: from,
                usage: from,
                volume,
            },
            Call::Pump {
                aquifer: from,
                volume,
            },
            Call::Transfer { from, to, volume },
            Call::Bring {
                aquifer: from,
                unit: to,
                volume,
            },
            Call::PumpReturning {
                aquifer: from,
                unit: to,
                usage: from,
                volume,
            },
        ]
    };
    let returning = [6, 8].map(|usage| Call::PumpReturning {
        aquifer: 1,
        unit: 4,
        usage,
        volume: 1,
    });
    let cancels = [3, 4, 0, 5].map(|title| Call::Cancel { title });
    [&grants(1, 2, 1)[..], &grants(0, 0, 0), &returning, &cancels].concat()
}

#[test]
fn the_calls_on_each_balance_have_the_expected_replies() {
    let base = base();
    let mut expected = lines_of("stdout").into_iter();
    for (name, changes) in named_commands("data/balances") {
        let mut places = base.clone();
        changes.iter().for_each(|change| places.change(change));
        let balance = places.balance();
        let broken = name.starts_with("broken ");
        assert_eq!(broken, is_faulty(&balance), "{name} {changes:?}");
        let replies = calls()
            .iter()
            .map(|call| shown(apply(&balance, call).0))
            .collect::<String>();
        assert_eq!(Some(format!("{name}{replies}")), expected.next());
    }
}
