//! Longer routes with many pairs, whose scan leaves the first cut 0: the cases of the bench, with fewer candidates.

use super::lists::{broken_for_good, kept_by};
use crate::cases::ends;
use crate::polish::measured;
use crate::random::Random;
use crate::rules::MOST_PAIRS;
use crate::trial::Visit;

const STOPS: usize = 64;
const CANDIDATES: u64 = 300_000;

pub fn each(random: &mut Random, visit: Visit) {
    for k in 2..=5 {
        for kind in ["busy", "deadlines"] {
            let mut closed = measured::case(kind, k, STOPS);
            closed.allowance = CANDIDATES;
            let route = &closed.route;
            let lists = [
                kept_by(random, route, 16),
                kept_by(random, route, MOST_PAIRS),
                broken_for_good(random, route, MOST_PAIRS, [0, STOPS - 1]),
                broken_for_good(random, route, MOST_PAIRS, [STOPS / 2, STOPS / 2 + 1]),
            ];
            for pairs in lists {
                closed.tables.pairs = Some(pairs.concat());
                let end = closed.depot;
                let closed = closed.clone();
                visit(Box::new(ends::Case { closed, end }));
            }
        }
    }
}
