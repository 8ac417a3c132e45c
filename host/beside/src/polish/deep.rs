//! Long routes whose scan leaves the first cut 0, which random cases above 64 stops do not: the cases of the bench, and routes that are
//! good already. A route that k - 1 cuts cannot improve is often improved by k cuts only after several first cuts, one that k cuts cannot
//! improve never.

use super::measured;
use crate::cases::polish::{Case, RESULT_PLACES};
use crate::draw::plane;
use crate::ffi;
use crate::random::Random;
use crate::rules::pattern_count;
use crate::tables::Tables;
use crate::trial::Visit;

/// For k and so many stops, the allowance in percent of what the first cut 0 has: as much as the Rust examines in a second or two.
const GOOD: [(usize, usize, u64); 5] = [
    (3, 65, 1000),
    (3, 128, 1000),
    (3, 512, 250),
    (4, 65, 250),
    (4, 128, 104),
];

pub fn each(random: &mut Random, visit: Visit) {
    measured::each(&mut |k, stops, kind| visit(Box::new(measured::case(kind, k, stops))));
    for (k, stops, percent) in GOOD {
        let allowance = candidates_at_first_cut_0(k, stops) * percent / 100;
        for (polished_by, uneven) in [(k - 1, false), (k, true)] {
            let legs = legs(random, stops + 1, uneven);
            let mut case = good(random, polished_by, stops, legs);
            (case.k, case.allowance) = (k, allowance);
            visit(Box::new(case));
        }
    }
}

/// The candidates of the cut sets that begin with 0: patterns(k) × C(n, k - 1).
pub fn candidates_at_first_cut_0(k: usize, stops: usize) -> u64 {
    let sets = (0..k as u64 - 1).fold(1, |sets, chosen| {
        sets * (stops as u64 - chosen) / (chosen + 1)
    });
    pattern_count(k) as u64 * sets
}

/// Stops in a plane; uneven, where the way back takes up to a tenth longer or less.
fn legs(random: &mut Random, locations: usize, uneven: bool) -> Vec<u32> {
    let mut legs = plane(random, locations);
    if uneven {
        for leg in &mut legs {
            *leg += random.below(u64::from(*leg / 10 + 2)) as u32;
        }
    }
    legs
}

/// A route that k cuts cannot improve, or not soon. The library makes it; any route would do, and both sides are handed the same.
fn good(random: &mut Random, k: usize, stops: usize, legs: Vec<u32>) -> Case {
    let locations = stops + 1;
    let mut case = Case {
        k,
        allowance: 1 << 32,
        tables: Tables::of_legs(locations, legs),
        depot: random.index(locations) as u32,
        route: Vec::new(),
        room: RESULT_PLACES,
    };
    case.route = (0..locations as u32)
        .filter(|&place| place != case.depot)
        .collect();
    random.shuffle(&mut case.route);
    let refused = ffi::polish_route(
        k,
        case.allowance,
        locations,
        &case.tables.legs,
        &case.tables.latest,
        &case.tables.service,
        case.depot,
        &mut case.route,
        &mut [0; RESULT_PLACES],
    );
    assert_eq!(refused, 0);
    if random.one_in(2) {
        measured::set_service(random, &mut case);
    }
    if random.one_in(2) {
        measured::set_deadlines(random, &mut case);
    }
    case
}
