//! The cases that the bench measures polishing on: each is some two million candidates, or fewer where it finishes.

use crate::cases::polish::{Case, RESULT_PLACES};
use crate::draw::{capped, plane};
use crate::random::Random;
use crate::tables::Tables;

pub const CANDIDATES: u64 = 2_000_000;
pub const SIZES: [usize; 4] = [20, 64, 128, 512];
/// *service* has deadlines too, and a time spent at each stop; the others have none.
pub const KINDS: [&str; 4] = ["quiet", "busy", "deadlines", "service"];

/// As *deadlines*, but one stop is late when the route is handed in: by a second, or in every order.
pub const LATE_KINDS: [&str; 4] = ["late", "never first", "never middle", "never last"];
pub const LATE_SIZES: [usize; 3] = [64, 128, 512];

/// Every case with its k, its stops and its kind of table.
pub fn each(visit: &mut dyn FnMut(usize, usize, &'static str)) {
    for k in 2..=5 {
        for stops in SIZES {
            for kind in KINDS {
                visit(k, stops, kind);
            }
        }
        for stops in LATE_SIZES {
            for kind in LATE_KINDS {
                visit(k, stops, kind);
            }
        }
    }
}

/// A depot and `stops` other locations, in a random order; the seed is the same in every run.
pub fn case(kind: &str, k: usize, stops: usize) -> Case {
    let mut random = Random::new(1958);
    let locations = stops + 1;
    let legs = match kind {
        "quiet" => vec![100; locations * locations],
        "busy" => busy(&mut random, locations),
        _ => plane(&mut random, locations),
    };
    let mut case = Case {
        k,
        allowance: CANDIDATES,
        tables: Tables::of_legs(locations, legs),
        depot: 0,
        route: (1..locations as u32).collect(),
        room: RESULT_PLACES,
    };
    if kind == "service" {
        set_service(&mut random, &mut case);
    }
    if kind != "quiet" && kind != "busy" {
        set_deadlines(&mut random, &mut case);
    }
    match kind {
        "late" => late(&mut case, stops / 2),
        "never first" => never(&mut case, 0),
        "never middle" => never(&mut case, stops / 2),
        "never last" => never(&mut case, stops - 1),
        _ => {}
    }
    case
}

/// The stop at a position is late by a second as the route stands.
pub fn late(case: &mut Case, position: usize) {
    let seconds = case.arrivals()[position];
    case.tables.latest[case.route[position] as usize] = capped(seconds.saturating_sub(1));
}

/// The stop at a position is late in every order, unless a leg takes no time.
pub fn never(case: &mut Case, position: usize) {
    case.tables.latest[case.route[position] as usize] = 0;
}

fn busy(random: &mut Random, locations: usize) -> Vec<u32> {
    (0..locations * locations)
        .map(|_| 1 + random.below(1000) as u32)
        .collect()
}

/// At each location up to a minute is spent, so that some orders are on time and some are not.
pub fn set_service(random: &mut Random, case: &mut Case) {
    for seconds in &mut case.tables.service {
        *seconds = random.below(60) as u32;
    }
}

/// Each stop is due some seconds, up to one long leg, after the given order reaches it.
pub fn set_deadlines(random: &mut Random, case: &mut Case) {
    for (position, seconds) in case.arrivals().into_iter().enumerate() {
        let due = seconds + random.below(300);
        case.tables.latest[case.route[position] as usize] = capped(due);
    }
}
