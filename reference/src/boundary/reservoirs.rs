//! Books about reservoirs, whose evaporation is demanded of the units above them.

use super::{List, AQUIFER, FOREST, RAIN};

/// Units 1 and 2 above an outlet, each with 1540 of its own.
const BRANCHES: &str = "unit downstream=3; soil cover=8 soil=1 hectares=10000; rain 800 x20; unit downstream=3; soil cover=8 soil=1 hectares=10000; rain 800 x20";
/// Years without water.
const DRY: &str = "gauge x20";

pub fn books(list: &mut List) {
    places(list);
    totals_of_0(list);
    as_extraction(list);
    availability_signs(list);
    grants_above(list);
    grants_elsewhere(list);
    cancellations(list);
    limits(list);
    trees(list);
}

/// A unit that drains to the next, with 1540 of its own, above a reservoir.
fn above(rest: &str) -> String {
    format!("unit downstream=2; {RAIN}; {rest}")
}

/// A reservoir at the outlet that falls by 1000, which it evaporates, with a commitment.
fn falling(commitment: u32) -> String {
    format!("unit storage=-1000 evaporation=1000 commitment={commitment}; {RAIN}")
}

/// Evaporation at an outlet, inside the tree and at its head.
fn places(list: &mut List) {
    list.text(
        "reservoir-at-the-outlet",
        &above(&format!("unit evaporation=1000 commitment=500; {RAIN}")),
    );
    list.text("reservoir-alone", &format!("unit evaporation=1000; {RAIN}"));
    list.text(
        "reservoir-alone-all-evaporates",
        &format!("unit evaporation=1540; {RAIN}"),
    );
    list.text(
        "reservoir-alone-more-evaporates",
        &format!("unit evaporation=1541; {RAIN}"),
    );
    list.text(
        "reservoir-inside",
        &above(&format!(
            "unit downstream=3 evaporation=700; {RAIN}; unit commitment=900; {RAIN}"
        )),
    );
    list.text(
        "reservoir-at-the-head",
        &format!("unit downstream=2 evaporation=700; {RAIN}; unit commitment=900; {RAIN}"),
    );
    list.text(
        "reservoir-on-each-unit",
        &format!("unit downstream=2 evaporation=300; {RAIN}; unit downstream=3 evaporation=200; {RAIN}; unit evaporation=100; {RAIN}"),
    );
    list.text(
        "reservoir-with-every-demand",
        &above(&format!(
            "unit extraction=30 exports=20 evaporation=10 commitment=5; {RAIN}"
        )),
    );
}

/// Reservoirs without any contribution: all of what they evaporate is their own reserve.
fn totals_of_0(list: &mut List) {
    list.text(
        "reservoir-total-0",
        &format!("unit storage=-100 evaporation=30 commitment=20; {DRY}"),
    );
    list.text(
        "reservoir-total-0-nothing-else",
        &format!("unit storage=-100 evaporation=100; {DRY}"),
    );
    list.text(
        "reservoir-total-0-above",
        &format!("unit downstream=2; {DRY}; unit storage=-100 evaporation=30 commitment=20; {DRY}"),
    );
    list.text(
        "reservoir-total-0-inside",
        &format!("unit downstream=2 storage=-100 evaporation=100; {DRY}; unit evaporation=400 commitment=100; {RAIN}"),
    );
    list.text(
        "reservoir-total-1",
        &format!("unit storage=-100 evaporation=30 commitment=20 returns=1; {DRY}"),
    );
    list.text(
        "reservoir-total-0-then-1",
        &format!(
            "unit storage=-100 evaporation=30 commitment=20; {DRY}; withdraw unit=1 use=6 volume=1"
        ),
    );
}

/// Books that are alike but for what is evaporated in the one and extracted in the other.
fn as_extraction(list: &mut List) {
    for (name, evaporation) in [
        ("extracted", 0),
        ("half-evaporated", 900),
        ("evaporated", 1800),
    ] {
        let extraction = 1800 - evaporation;
        list.text(
            &format!("reservoir-{name}"),
            &format!("{BRANCHES}; unit extraction={extraction} evaporation={evaporation} commitment=1000; {RAIN}; withdraw unit=1 use=1 volume=700; withdraw unit=3 use=3 volume=900; withdraw unit=2 use=4 volume=600"),
        );
    }
}

/// The availability above is 1540 less what the reservoir demands of it: 1540 of every 3080.
fn availability_signs(list: &mut List) {
    for commitment in [0, 2079, 2080, 2081, 2082, 2083, 2400] {
        list.text(
            &format!("reservoir-availability-{commitment}"),
            &above(&falling(commitment)),
        );
        list.text(
            &format!("reservoir-availability-{commitment}-without"),
            &above(&format!("unit commitment={commitment}; {RAIN}")),
        );
    }
    list.text(
        "reservoir-availability-two-above",
        &format!("{BRANCHES}; unit storage=-3000 evaporation=3000 commitment=2000; {RAIN}"),
    );
    list.text(
        "reservoir-availability-far-above",
        &above(&format!("unit downstream=3; {RAIN}; unit downstream=4; {RAIN}; unit storage=-6000 evaporation=6000 commitment=300; {RAIN}")),
    );
}

/// Grants to units above a reservoir, and at it.
fn grants_above(list: &mut List) {
    for volume in [700, 725, 726, 727, 728, 729, 800] {
        for (name, below) in [
            ("17", falling(1500)),
            ("without", format!("unit commitment=1500; {RAIN}")),
        ] {
            list.text(
                &format!("reservoir-{name}-above-{volume}"),
                &format!("{}; withdraw unit=1 use=1 volume={volume}", above(&below)),
            );
        }
    }
    for volume in [724, 725, 726, 727, 728] {
        list.text(
            &format!("reservoir-17-at-it-{volume}"),
            &format!(
                "{}; withdraw unit=2 use=1 volume={volume}",
                above(&falling(1500))
            ),
        );
    }
    for (name, call) in [
        ("transfer", "transfer from=1 to=3 volume=800"),
        ("transfer-upstream", "transfer from=2 to=1 volume=800"),
        ("withdraw-all-returns", "withdraw unit=1 use=7 volume=1500"),
        ("bring", "bring aquifer=1 unit=1 volume=50"),
        ("pump", "pump aquifer=1 volume=50"),
    ] {
        list.text(
            &format!("reservoir-17-{name}"),
            &format!("{}; {FOREST}; {AQUIFER}; {call}", above(&falling(1500))),
        );
    }
    list.text(
        "reservoir-17-deficit-already",
        &format!(
            "{}; {AQUIFER}; withdraw unit=1 use=7 volume=1; bring aquifer=1 unit=1 volume=50; withdraw unit=1 use=7 volume=1",
            above(&falling(2400))
        ),
    );
}

/// Grants on another branch of the reservoir's basin, and in another basin.
fn grants_elsewhere(list: &mut List) {
    let lake = format!("unit storage=-2000 evaporation=2000 commitment=1400; {RAIN}");
    for volume in [1525, 1526, 1527, 1528, 1529, 1530] {
        list.text(
            &format!("reservoir-17-branch-{volume}"),
            &format!("{BRANCHES}; {lake}; withdraw unit=2 use=1 volume={volume}"),
        );
    }
    list.text(
        "reservoir-17-other-branch-short",
        &format!("unit downstream=3 extraction=1500; {RAIN}; unit downstream=3; {RAIN}; unit storage=-2000 evaporation=2000 commitment=1000; {RAIN}; withdraw unit=2 use=5 volume=100; withdraw unit=2 use=5 volume=200"),
    );
    list.text(
        "reservoir-17-other-basin",
        &format!(
            "{}; {FOREST}; withdraw unit=3 use=1 volume=1500; withdraw unit=1 use=1 volume=800",
            above(&falling(1500))
        ),
    );
}

/// Titles cancelled where a reservoir leaves a deficit: availability is not asked.
fn cancellations(list: &mut List) {
    list.text(
        "reservoir-cancel-into-deficit",
        &format!(
            "{}; {AQUIFER}; bring aquifer=1 unit=1 volume=60; withdraw unit=1 use=1 volume=60; cancel 1; withdraw unit=1 use=7 volume=1; cancel 2",
            above(&falling(2080))
        ),
    );
    list.text(
        "reservoir-cancel-20",
        &format!("unit evaporation=1540; {RAIN}; {AQUIFER}; bring aquifer=1 unit=1 volume=60; withdraw unit=1 use=3 volume=60; cancel 1; cancel 2; cancel 1"),
    );
}

/// Entries at their limits, and the largest demands.
fn limits(list: &mut List) {
    let full = "extraction=10000000 exports=10000000 evaporation=10000000 imports=10000000 returns=10000000 storage=-10000000";
    list.text(
        "reservoir-all-entries-full",
        &format!("unit {full} commitment=10000000; gauge outflow=10000000 x20"),
    );
    list.text(
        "reservoir-all-entries-full-dry",
        &format!("unit {full} commitment=10000000; {DRY}"),
    );
    list.text(
        "reservoir-evaporation-10000000",
        &format!("unit evaporation=10000000 storage=-10000000 commitment=1540; {RAIN}"),
    );
    let chain = |entries: &str, years: &str| {
        let units = (1..=64).map(|number| {
            let end = match number {
                64 => "downstream=0 commitment=10000000".to_string(),
                _ => format!("downstream={}", number + 1),
            };
            format!("unit {end} {entries}; {years}")
        });
        units.collect::<Vec<_>>().join("; ")
    };
    list.text(
        "reservoir-64-units-full",
        &chain(full, "gauge outflow=10000000 x20"),
    );
    list.text("reservoir-64-units-full-dry", &chain(full, DRY));
    list.text(
        "reservoir-64-units-storage",
        &chain("storage=-10000000 evaporation=10000000", DRY),
    );
    list.text(
        "reservoir-64-units-water-above",
        &format!(
            "unit downstream=2 returns=10000000; gauge outflow=10000000 x20; {}",
            (2..=64)
                .map(|number| format!(
                    "unit downstream={} storage=-10000000 evaporation=10000000; {DRY}",
                    (number + 1) % 65
                ))
                .collect::<Vec<_>>()
                .join("; ")
        ),
    );
    list.text(
        "reservoir-64-units-star",
        &format!(
            "{}; unit evaporation=10000000 storage=-10000000 commitment=10000000; gauge outflow=10000000 x20",
            (1..=63)
                .map(|number| format!("unit downstream=64 evaporation={number}; gauge outflow={} x20", 10_000_000 - number))
                .collect::<Vec<_>>()
                .join("; ")
        ),
    );
}

/// Shares whose floors differ, over several reservoirs.
fn trees(list: &mut List) {
    list.text(
        "reservoir-shares-thirds",
        "unit downstream=3; gauge outflow=1 x20; unit downstream=3; gauge outflow=1 x20; unit evaporation=2; gauge outflow=1 x20",
    );
    list.text(
        "reservoir-shares-sevenths",
        "unit downstream=4; gauge outflow=1 x20; unit downstream=4; gauge outflow=2 x20; unit downstream=4; gauge outflow=3 x20; unit evaporation=5 commitment=1; gauge outflow=1 x20",
    );
    list.text(
        "reservoir-two-rivers",
        &format!("{BRANCHES}; unit downstream=5 evaporation=777; {RAIN}; unit downstream=5 evaporation=333; {RAIN}; unit evaporation=111 commitment=1234; {RAIN}; unit evaporation=1000 commitment=17; {RAIN}; withdraw unit=3 use=3 volume=500; withdraw unit=6 use=1 volume=500; transfer from=6 to=5 volume=20"),
    );
    list.text(
        "reservoir-in-a-book-of-tenths",
        "unit downstream=2 evaporation=5; soil cover=8 soil=1 hectares=10000; tenths 8002 x20; unit evaporation=1500; soil cover=8 soil=1 hectares=10000; tenths 8002 x20",
    );
}
