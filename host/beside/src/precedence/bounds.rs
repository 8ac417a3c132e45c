//! The most pairs with the most stops and locations, one more of each, and the members that are at their bounds.

use super::lists::kept_by;
use crate::cases::polish::{self, RESULT_PLACES};
use crate::cases::{ends, run};
use crate::draw::plane;
use crate::random::Random;
use crate::rules::{MOST_LOCATIONS, MOST_PAIRS, MOST_STOPS};
use crate::tables::Tables;
use crate::trial::Visit;

pub fn each(random: &mut Random, visit: Visit) {
    let tables = Tables::of_legs(MOST_LOCATIONS, plane(random, MOST_LOCATIONS));
    for (pairs, stops) in lists(random) {
        for k in 2..=5 {
            let closed = polish::Case {
                k,
                allowance: 600,
                tables: with(&tables, &pairs),
                depot: MOST_LOCATIONS as u32 - 1,
                route: (0..stops as u32).collect(),
                room: RESULT_PLACES,
            };
            visit(Box::new(ends::Case { closed, end: 7 }));
        }
    }
}

/// One full round, and a short one that is never reached.
pub fn each_run(random: &mut Random, visit: Visit) {
    let tables = Tables::of_legs(MOST_LOCATIONS, plane(random, MOST_LOCATIONS));
    for (pairs, stops) in lists(random) {
        let rounds = [(0, (0..stops as u32).collect()), (5, vec![1, 2, 3, 4])];
        for k in 2..=5 {
            let mut case = run::Case::of_rounds(k, with(&tables, &pairs), &rounds);
            case.allowance = 600;
            case.ends = Some(vec![3, 5]);
            visit(Box::new(case));
        }
    }
}

fn with(tables: &Tables, pairs: &[u32]) -> Tables {
    Tables {
        pairs: Some(pairs.to_vec()),
        ..tables.clone()
    }
}

/// Lists of pairs, each with a number of stops, which are 0, 1 and so on.
fn lists(random: &mut Random) -> Vec<(Vec<u32>, usize)> {
    let route: Vec<u32> = (0..MOST_STOPS as u32).collect();
    let kept = kept_by(random, &route, MOST_PAIRS).concat();
    let turned: Vec<u32> = kept.iter().rev().copied().collect();
    let last = MOST_LOCATIONS as u32 - 1;
    let one_more = [&kept[..], &[0, 1]].concat();
    vec![
        (kept[..32].to_vec(), MOST_STOPS),
        (kept.clone(), MOST_STOPS),
        (turned, MOST_STOPS),
        ([&kept[..126], &[last, 0]].concat(), MOST_STOPS),
        ([&kept[..126], &[last + 1, 0]].concat(), MOST_STOPS),
        (kept[..127].to_vec(), MOST_STOPS),
        (kept, MOST_STOPS + 1),
        (one_more.clone(), MOST_STOPS),
        (one_more, MOST_STOPS + 1),
    ]
}
