//! Allowances around the end of each cut set, with pairs that the route keeps, that it breaks at one place as it stands, or that contradict each other there: cut
//! sets whose candidates all break a pair are counted at once, and a scan must be spent inside them at exactly the allowance.

use super::lists::{broken_for_good, kept_by};
use crate::cases::ends;
use crate::polish::stretches::{at_allowances, route_of, KINDS};
use crate::random::Random;
use crate::trial::Visit;

/// Pairs in a list.
const COUNT: usize = 8;

pub fn each(random: &mut Random, visit: Visit) {
    for (k, patterns, stops) in KINDS {
        for pairs in 0..8 {
            let mut closed = route_of(random, k, stops);
            closed.tables.pairs = Some(list(random, pairs, &closed.route).concat());
            for closed in at_allowances(&closed, patterns) {
                let end = closed.depot;
                visit(Box::new(ends::Case { closed, end }));
            }
        }
    }
}

/// The first two lists are kept; three are broken in front, in the middle and at the last stops, and three for good.
fn list(random: &mut Random, number: usize, route: &[u32]) -> Vec<[u32; 2]> {
    let last = route.len() - 1;
    let places = [[0, 1], [last / 2, last / 2 + 1], [last - 1, last]];
    let [one, other] = places[number % 3];
    let different = route[one] != route[other];
    match number {
        2..=4 if different => vec![[route[other], route[one]]],
        5..=7 if different => broken_for_good(random, route, COUNT, [one, other]),
        _ => kept_by(random, route, COUNT),
    }
}
