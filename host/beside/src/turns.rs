//! Calls of polishing that are timed in turn, so that other work on the machine falls on all sides alike; the best of each side counts.

use crate::cases::polish::Case;
use crate::lists::rows::Rows;
use crate::one_route::{polish, Slices};
use std::time::{Duration, Instant};

/// Six numbers of a call that is not refused, of a closed tour, with the case's pairs if it has a list of them. The route handed back is left in `route`.
pub fn polished(case: &Case, rows: Option<&Rows>, route: &mut Vec<u32>) -> [u64; 6] {
    let mut result = [0; 6];
    route.clone_from(&case.route);
    let tables = &case.tables;
    let lent = Slices {
        legs: &tables.legs,
        latest: &tables.latest,
        service: &tables.service,
        pairs: tables.pairs(),
        route,
        result: &mut result,
    };
    let rows = rows.map(|rows| (&rows.orders[..], &rows.masks[..]));
    assert_eq!(polish(case, case.depot, rows, lent), 0);
    result
}

/// Best times of a call of each side, in so many turns of so many calls.
pub fn timed<const N: usize>(
    turns: usize,
    calls: u32,
    sides: [&mut dyn FnMut(); N],
) -> [Duration; N] {
    let mut sides = sides;
    let mut best = [Duration::MAX; N];
    for _ in 0..turns {
        for (best, side) in best.iter_mut().zip(&mut sides) {
            let start = Instant::now();
            (0..calls).for_each(|_| side());
            *best = start.elapsed().min(*best);
        }
    }
    best.map(|time| time / calls)
}

pub fn ratio(one: Duration, other: Duration) -> f64 {
    one.as_secs_f64() / other.as_secs_f64()
}
