//! Books about withdrawals from an aquifer whose return goes to a unit (GW).

use super::{
    cancelled_in_order, join, repeated, short, List, AQUIFER, BASIN, DESCRIPTION_MARKS, FOREST,
    RAIN,
};
use crate::record::Mark;

/// A unit without water, and one whose natural runoff is 50.
const DRY: &str = "unit; gauge x20";
const STREAM: &str = "unit; gauge outflow=50 x20";
/// An aquifer whose extraction meets its limit before its recharge does.
const WIDE: &str = "aquifer natural=10000000 pumped=10000000";
/// An aquifer of the same recharge whose extraction may rise by 1000.
const NEARLY_FULL: &str = "aquifer natural=10000000 pumped=10000000 extraction=9999000";

pub fn books(list: &mut List) {
    short_records(list);
    records_after(list);
    uses_and_volumes(list);
    missing_places(list);
    first_match(list);
    entries_full(list);
    entries_filled_together(list);
    aquifer_water(list);
    unit_in_deficit(list);
    floors(list);
    cancelled_returns(list);
    spent(list);
    spent_below(list);
    covered(list);
    basins(list);
    same_unit(list);
    title_numbers(list);
    five_kinds(list);
}

/// A withdrawal from an aquifer whose return goes to a unit.
fn gw(aquifer: usize, unit: usize, usage: usize, volume: u32) -> String {
    format!("pump-returning aquifer={aquifer} unit={unit} use={usage} volume={volume}")
}

/// Parts of a text, one after the other.
fn lines(parts: &[&str]) -> String {
    parts.join("; ")
}

/// Records cut short where a book has no accepted description before them, or no call.
fn short_records(list: &mut List) {
    let mark = Mark::PumpReturning;
    list.add("short-returning-alone", short(mark, 7));
    list.add("short-returning-8-alone", short(mark, 1));
    let bare = "unit";
    let few = "unit; soil cover=8 soil=1 hectares=10000; rain 800 x19";
    let negative = format!("unit extraction=1541; {RAIN}");
    for (place, before) in [
        ("bare-unit", bare),
        ("19-years", few),
        ("negative-flow", &negative),
        ("aquifer", AQUIFER),
    ] {
        list.add(
            &format!("short-returning-after-{place}"),
            join(before, &short(mark, 4)),
        );
    }
    for (name, letters) in [
        ("gw-lowercase", b"gw"),
        ("gw-turned", b"WG"),
        ("gv", b"GV"),
        ("gx", b"GX"),
    ] {
        let unknown = [&letters[..], &[1, 1, 1, 5, 0, 0, 0]].concat();
        list.add(&format!("unknown-mark-{name}"), join(BASIN, &unknown));
    }
}

/// Records of a description after the call, and the call without a description.
fn records_after(list: &mut List) {
    let given = lines(&[BASIN, &gw(1, 1, 2, 100)]);
    for (mark, word) in DESCRIPTION_MARKS {
        list.add(
            &format!("{word}-after-returning"),
            join(&given, &short(mark, 0)),
        );
    }
    for (mark, word) in [(Mark::Unit, "unit"), (Mark::Tenths, "tenths")] {
        list.add(
            &format!("short-{word}-after-returning"),
            join(&given, &short(mark, 1)),
        );
    }
    let call = gw(1, 1, 1, 5);
    list.text("returning-alone", &call);
    list.text("returning-without-units", &lines(&[AQUIFER, &call]));
    list.text("returning-without-aquifers", &lines(&[FOREST, &call]));
}

fn uses_and_volumes(list: &mut List) {
    for usage in [0, 1, 2, 3, 4, 5, 6, 7, 8, 255] {
        list.text(
            &format!("returning-use-{usage}"),
            &lines(&[BASIN, &gw(1, 2, usage, 100)]),
        );
    }
    for volume in [0, 1, 10_000_000, 10_000_001, u32::MAX] {
        list.text(
            &format!("returning-volume-{volume}"),
            &lines(&[FOREST, WIDE, &gw(1, 1, 1, volume)]),
        );
    }
}

fn missing_places(list: &mut List) {
    for aquifer in [0, 2, 255] {
        list.text(
            &format!("returning-aquifer-{aquifer}"),
            &lines(&[BASIN, &gw(aquifer, 1, 1, 5)]),
        );
    }
    for unit in [0, 4, 255] {
        list.text(
            &format!("returning-unit-{unit}"),
            &lines(&[BASIN, &gw(1, unit, 1, 5)]),
        );
    }
    list.text(
        "returning-aquifer-numbered-like-a-unit",
        &lines(&[BASIN, &gw(3, 1, 1, 5)]),
    );
    list.text(
        "returning-unit-numbered-like-an-aquifer",
        &lines(&[FOREST, AQUIFER, AQUIFER, AQUIFER, &gw(1, 3, 1, 5)]),
    );
}

/// Two refusals at once, of which the first is given.
fn first_match(list: &mut List) {
    list.text(
        "returning-12-before-13",
        &lines(&[BASIN, &gw(2, 1, 0, 5), &gw(1, 4, 8, 5)]),
    );
    list.text(
        "returning-13-before-14",
        &lines(&[BASIN, &gw(1, 1, 0, 0), &gw(1, 1, 8, 10_000_001)]),
    );
    let all = repeated(&gw(1, 1, 1, 1), 256);
    list.text(
        "returning-14-before-15",
        &lines(&[BASIN, &all, &gw(1, 1, 1, 0), &gw(1, 1, 1, 10_000_001)]),
    );
    list.text(
        "returning-15-before-16",
        &lines(&[FOREST, WIDE, &all, &gw(1, 1, 6, 10_000_000)]),
    );
    let at_recharge = "aquifer natural=9999999 extraction=9999999";
    list.text(
        "returning-16-before-17",
        &lines(&[FOREST, at_recharge, &gw(1, 1, 1, 2), &gw(1, 1, 1, 1)]),
    );
}

/// 16 by the aquifer's extraction or by the unit's returns, and by no other entry.
fn entries_full(list: &mut List) {
    for volume in [1000, 1001] {
        list.text(
            &format!("returning-16-aquifer-{volume}"),
            &lines(&[FOREST, NEARLY_FULL, &gw(1, 1, 1, volume)]),
        );
    }
    let returning = format!("unit returns=9999000; {RAIN}");
    for (usage, volume) in [(6, 1000), (6, 1001), (1, 5004), (1, 5005)] {
        list.text(
            &format!("returning-16-returns-use-{usage}-{volume}"),
            &lines(&[&returning, WIDE, &gw(1, 1, usage, volume)]),
        );
    }
    let full = format!("unit returns=10000000; {RAIN}");
    for volume in [4, 5] {
        list.text(
            &format!("returning-16-returns-full-{volume}"),
            &lines(&[&full, WIDE, &gw(1, 1, 1, volume)]),
        );
    }
    list.text(
        "returning-16-other-unit-full",
        &lines(&[&full, FOREST, WIDE, &gw(1, 2, 6, 100), &gw(1, 1, 6, 100)]),
    );
    let others =
        format!("unit extraction=10000000 exports=10000000 imports=10000000 storage=-10000000 evaporation=1540; {RAIN}");
    list.text(
        "returning-16-other-entries-full",
        &lines(&[&others, WIDE, &gw(1, 1, 6, 100)]),
    );
    let full = format!("{NEARLY_FULL}; {WIDE}");
    list.text(
        "returning-16-other-aquifer-full",
        &lines(&[FOREST, &full, &gw(2, 1, 1, 1001), &gw(1, 1, 1, 1001)]),
    );
}

/// Entries that titles of several kinds fill to the limit.
fn entries_filled_together(list: &mut List) {
    let unit = format!("unit returns=9999000; {RAIN}");
    let (pumped, drawn) = (gw(1, 1, 6, 600), "withdraw unit=1 use=6 volume=400");
    let more = format!("{}; withdraw unit=1 use=6 volume=1", gw(1, 1, 6, 1));
    for (name, first, second, over) in [
        ("returning", pumped.as_str(), drawn, gw(1, 1, 6, 601)),
        (
            "withdraw",
            drawn,
            pumped.as_str(),
            "withdraw unit=1 use=6 volume=401".to_string(),
        ),
    ] {
        let text = lines(&[
            &unit, WIDE, first, second, &more, "cancel 1", &over, first, &more, "cancel 2", second,
            &more,
        ]);
        list.text(&format!("returns-filled-from-{name}"), &text);
    }
    let grants = lines(&[
        "pump aquifer=1 volume=300",
        "bring aquifer=1 unit=1 volume=300",
        &gw(1, 1, 1, 400),
    ]);
    let more = lines(&[
        "pump aquifer=1 volume=1",
        "bring aquifer=1 unit=1 volume=1",
        &gw(1, 1, 1, 1),
    ]);
    let again = lines(&["cancel 3", &gw(1, 1, 1, 401), &gw(1, 1, 1, 400)]);
    let others = lines(&["cancel 1", "cancel 2", &gw(1, 1, 1, 600)]);
    list.text(
        "aquifer-filled-by-three-kinds",
        &lines(&[FOREST, NEARLY_FULL, &grants, &more, &again, &others, &more]),
    );
}

/// 17 by the aquifer's availability.
fn aquifer_water(list: &mut List) {
    for volume in [400, 401] {
        list.text(
            &format!("returning-17-{volume}"),
            &lines(&[BASIN, &gw(1, 3, 6, volume)]),
        );
    }
    let deficit = "aquifer natural=100 extraction=101";
    list.text(
        "returning-17-aquifer-in-deficit",
        &lines(&[FOREST, deficit, &gw(1, 1, 6, 1)]),
    );
    list.text(
        "returning-17-other-aquifer-in-deficit",
        &lines(&[BASIN, deficit, &gw(1, 2, 1, 5), &gw(2, 2, 1, 5)]),
    );
    let grants = "pump aquifer=1 volume=100; bring aquifer=1 unit=2 volume=100";
    list.text(
        "returning-17-among-pump-and-bring",
        &lines(&[
            BASIN,
            grants,
            &gw(1, 2, 2, 201),
            &gw(1, 2, 2, 200),
            &gw(1, 2, 2, 1),
            "cancel 1",
            &gw(1, 2, 2, 101),
            &gw(1, 2, 2, 100),
            "cancel 3; pump aquifer=1 volume=200; bring aquifer=1 unit=1 volume=1",
        ]),
    );
}

/// A deficit in the unit's basin refuses nothing, and the return can end it.
fn unit_in_deficit(list: &mut List) {
    let withdraw = |volume: u32| format!("withdraw unit=1 use=1 volume={volume}");
    let deficit = format!("unit commitment=5000; {RAIN}");
    list.text(
        "returning-to-deficit",
        &lines(&[&deficit, WIDE, &gw(1, 1, 6, 100), &withdraw(1)]),
    );
    let small = format!("unit commitment=1600; {RAIN}");
    list.text(
        "returning-ends-deficit",
        &lines(&[
            &small,
            WIDE,
            &withdraw(1),
            &gw(1, 1, 6, 100),
            &withdraw(50),
            &withdraw(1),
            "cancel 1",
            &withdraw(1),
        ]),
    );
}

/// Returns that are rounded down, to 0 and to 1. One of two equal titles stays in force.
fn floors(list: &mut List) {
    for (usage, volume) in [
        (1, 1),
        (1, 4),
        (1, 5),
        (2, 1),
        (3, 2),
        (5, 6),
        (5, 7),
        (7, 1),
    ] {
        let grant = gw(1, 1, usage, volume);
        list.text(
            &format!("returning-floor-use-{usage}-volume-{volume}"),
            &lines(&[DRY, WIDE, &grant, &grant, "cancel 1"]),
        );
    }
}

/// A cancelled return is the one that was given, whatever was granted after it.
fn cancelled_returns(list: &mut List) {
    for volume in [4, 9] {
        let five = repeated(&gw(1, 1, 1, volume), 5);
        list.text(
            &format!("cancelled-returning-{volume}"),
            &lines(&[BASIN, &five, "cancel 3; cancel 2"]),
        );
    }
    let uses: Vec<String> = (1..=7).map(|usage| gw(1, 2, usage, 7)).collect();
    let cancels: Vec<String> = (1..=7).map(|number| format!("cancel {number}")).collect();
    list.text(
        "cancelled-returning-of-each-use",
        &lines(&[BASIN, &uses.join("; "), &cancels.join("; ")]),
    );
}

/// A return of 100 beside 50 of the unit's own, of which a withdrawal or a transfer takes so much.
fn spent(list: &mut List) {
    let cancels = "cancel 1; cancel 2; cancel 1";
    for volume in [61, 62, 63, 187, 188] {
        let spend = format!("withdraw unit=1 use=1 volume={volume}");
        list.text(
            &format!("cancel-returning-spent-{volume}"),
            &lines(&[STREAM, WIDE, &gw(1, 1, 6, 100), &spend, cancels]),
        );
    }
    for volume in [49, 50, 51, 150, 151] {
        let export = format!("transfer from=1 to=2 volume={volume}");
        list.text(
            &format!("cancel-returning-exported-{volume}"),
            &lines(&[STREAM, DRY, WIDE, &gw(1, 1, 6, 100), &export, cancels]),
        );
    }
}

/// The returned water is used in a unit below, or only a flow between there and the outlet lacks it.
fn spent_below(list: &mut List) {
    let cancels = "cancel 1; cancel 2; cancel 1";
    let dry = "unit downstream=2; gauge x20; unit downstream=3; gauge x20";
    for volume in [62, 63] {
        let spend = format!("withdraw unit=3 use=1 volume={volume}");
        list.text(
            &format!("cancel-returning-spent-below-{volume}"),
            &lines(&[dry, STREAM, WIDE, &gw(1, 1, 6, 100), &spend, cancels]),
        );
    }
    let export = "transfer from=2 to=4 volume=100";
    list.text(
        "cancel-returning-exported-midway",
        &lines(&[
            dry,
            FOREST,
            DRY,
            WIDE,
            &gw(1, 1, 6, 100),
            export,
            "cancel 1",
        ]),
    );
}

/// Water in use that another title still covers, and a title that stays in force after 20.
fn covered(list: &mut List) {
    let spend = "withdraw unit=1 use=1 volume=125";
    let cancels = "cancel 1; cancel 2; cancel 3; cancel 2";
    for (name, second) in [
        ("returning", gw(1, 1, 7, 100)),
        ("bring", "bring aquifer=1 unit=1 volume=100".to_string()),
    ] {
        list.text(
            &format!("cancel-returning-covered-by-{name}"),
            &lines(&[DRY, WIDE, &gw(1, 1, 6, 100), &second, spend, cancels]),
        );
    }
    list.text(
        "cancel-returning-refused-keeps-aquifer",
        &lines(&[
            DRY,
            "aquifer natural=100",
            &gw(1, 1, 6, 100),
            "withdraw unit=1 use=1 volume=10; cancel 1; pump aquifer=1 volume=1",
            "cancel 2; cancel 1; pump aquifer=1 volume=100",
        ]),
    );
}

/// Basins of units 1 and 2, of 3 and 4, and of 5, each with a commitment, and three aquifers.
fn rivers() -> String {
    let upper = |below: usize| format!("unit downstream={below}; {RAIN}");
    let outlet = |commitment: usize| format!("unit commitment={commitment}; {RAIN}");
    lines(&[
        &upper(2),
        &outlet(500),
        &upper(4),
        &outlet(700),
        &outlet(900),
        "aquifer natural=500; aquifer natural=600; aquifer natural=700",
    ])
}

/// Numbers of aquifer and unit that are equal or not, and a return in a basin without other titles.
fn basins(list: &mut List) {
    let rivers = rivers();
    for (aquifer, unit) in [
        (1, 1),
        (1, 2),
        (1, 3),
        (2, 1),
        (2, 2),
        (2, 5),
        (3, 3),
        (3, 4),
    ] {
        list.text(
            &format!("returning-from-{aquifer}-to-{unit}"),
            &lines(&[&rivers, &gw(aquifer, unit, 2, 100)]),
        );
    }
    let others = "withdraw unit=1 use=1 volume=200; transfer from=2 to=3 volume=300; \
        bring aquifer=3 unit=4 volume=400";
    list.text(
        "returning-to-other-basin",
        &lines(&[&rivers, others, &gw(3, 5, 3, 300)]),
    );
    list.text(
        "returning-to-other-basin-alone-in-force",
        &lines(&[
            &rivers,
            others,
            &gw(3, 5, 3, 300),
            "cancel 1; cancel 3; cancel 2",
        ]),
    );
}

/// Withdrawals from the unit and from the aquifer with equal returns to one unit.
fn same_unit(list: &mut List) {
    for number in [1, 2] {
        list.text(
            &format!("returning-beside-withdraw-cancel-{number}"),
            &lines(&[
                BASIN,
                &gw(1, 2, 2, 100),
                "withdraw unit=2 use=2 volume=100",
                &format!("cancel {number}"),
            ]),
        );
    }
}

/// 256 numbers, and calls that take none.
fn title_numbers(list: &mut List) {
    let grant = gw(1, 2, 6, 1);
    let all = repeated(&grant, 256);
    list.text(
        "returning-257",
        &lines(&[BASIN, &all, &grant, "cancel 257"]),
    );
    let cancels: Vec<String> = (1..=256).map(|number| format!("cancel {number}")).collect();
    let turned: Vec<String> = cancels.iter().rev().cloned().collect();
    for (end, order) in [("first", &cancels), ("last", &turned)] {
        list.text(
            &format!("cancel-all-256-returning-from-{end}"),
            &lines(&[BASIN, &all, &order.join("; "), &grant]),
        );
    }
    let pairs: Vec<String> = cancels
        .iter()
        .map(|cancel| format!("{grant}; {cancel}"))
        .collect();
    list.text(
        "grant-cancel-returning-257",
        &lines(&[BASIN, &pairs.join("; "), &grant]),
    );
    list.text(
        "returning-refused-between",
        &lines(&[
            BASIN,
            &grant,
            &gw(1, 2, 8, 1),
            &gw(2, 2, 6, 1),
            &gw(1, 2, 6, 400),
            &gw(1, 2, 6, 0),
            &grant,
            "cancel 3; cancel 2; cancel 1",
        ]),
    );
}

/// Titles of all kinds cancelled in several orders, and granted again.
fn five_kinds(list: &mut List) {
    for order in [
        [1, 2, 3, 4, 5],
        [2, 4, 1, 5, 3],
        [3, 5, 1, 4, 2],
        [4, 1, 5, 2, 3],
        [5, 4, 3, 2, 1],
    ] {
        cancelled_in_order(list, "cancel-all-five-from", &order);
    }
}
