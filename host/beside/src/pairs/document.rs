//! The pair case of document 01, and tables on which the loop makes a round longer or never ends.

use crate::cases::pairs::Case;
use crate::cases::polish::{Case as Asked, RESULT_PLACES};
use crate::random::Random;
use crate::tables::Tables;
use crate::trial::Visit;

/// Depot, A, B, C, E: round A B C E examines 18, accepts 3 and ends as B A C E.
const DOCUMENT: [u32; 25] = [
    0, 10, 1, 5, 1, //
    10, 0, 1, 1, 1, //
    1, 1, 0, 10, 10, //
    5, 1, 10, 0, 1, //
    1, 1, 10, 1, 0,
];

/// The loop over round 1, 2, 3 comes back to where it was, and so with a fourth stop that changes nothing.
const ENDLESS: [u32; 16] = [0, 2, 0, 0, 1, 0, 1, 3, 3, 0, 0, 0, 0, 0, 3, 0];

/// Round 1, 2 ends longer: from 15 to 17.
const LONGER: [u32; 9] = [0, 9, 1, 7, 0, 2, 4, 9, 0];

fn case(locations: usize, legs: &[u32], route: &[u32], allowance: u64) -> Case {
    Case::new(Asked {
        k: 2,
        allowance,
        tables: Tables::of_legs(locations, legs.to_vec()),
        depot: 0,
        route: route.to_vec(),
        room: RESULT_PLACES,
    })
}

pub fn document_case(allowance: u64) -> Case {
    case(5, &DOCUMENT, &[1, 2, 3, 4], allowance)
}

pub fn each(_random: &mut Random, visit: Visit) {
    for allowance in 0..=20 {
        visit(Box::new(document_case(allowance)));
    }
    for allowance in 0..=4 {
        visit(Box::new(case(3, &LONGER, &[1, 2], allowance)));
    }
    for stops in [&[1, 2, 3][..], &[1, 2, 3, 0]] {
        for order in orders(stops) {
            for allowance in (0..60).chain([999, 1000, 100_000]) {
                visit(Box::new(case(4, &ENDLESS, &order, allowance)));
            }
        }
    }
}

/// Every order of a few stops.
fn orders(stops: &[u32]) -> Vec<Vec<u32>> {
    if stops.is_empty() {
        return vec![Vec::new()];
    }
    let mut all = Vec::new();
    for (place, &stop) in stops.iter().enumerate() {
        let rest = [&stops[..place], &stops[place + 1..]].concat();
        for order in orders(&rest) {
            all.push([&[stop], &order[..]].concat());
        }
    }
    all
}
