//! Random lists of pairs that are not refused.

use crate::draw::{another_order, some_place};
use crate::in_order::keeps_pairs;
use crate::random::Random;
use crate::rules::MOST_PAIRS;
use crate::tables::Tables;

type Pair = [u32; 2];

/// Pairs of one kind, drawn for one route: kept as the route stands, kept by an order near it, broken as it stands, of any locations, or one alone that
/// matters. Then seldom one of them again, or turned round, or one with the depot.
pub fn set_pairs(random: &mut Random, tables: &mut Tables, depot: u32, route: &[u32]) {
    let any = random.within(0, MOST_PAIRS);
    let count = random.pick([0, 1, 1, 2, 3, 16, 16, MOST_PAIRS, any]);
    let mut pairs = match random.below(6) {
        0 | 1 => kept_by(random, route, count),
        2 => {
            let other = another_order(random, route);
            kept_by(random, &other, count)
        }
        3 => broken_by(random, route, count),
        4 => one_that_matters(random, tables, route, count),
        _ => of_any(random, tables, count),
    };
    if pairs.len() < MOST_PAIRS && random.one_in(4) {
        pairs.extend(another(random, tables, depot, &pairs));
    }
    tables.pairs = Some(pairs.concat());
}

/// So many pairs that a route keeps, if it has two stops that make one.
pub fn kept_by(random: &mut Random, route: &[u32], count: usize) -> Vec<Pair> {
    let kept = |pair: &Pair| pair[0] != pair[1] && keeps_pairs(pair, route);
    drawn(count, || two_in_order(random, route).filter(kept))
}

/// So many pairs that a route breaks, likewise.
fn broken_by(random: &mut Random, route: &[u32], count: usize) -> Vec<Pair> {
    let turned = |[first, second]: Pair| [second, first];
    let broken = |pair: &Pair| pair[0] != pair[1];
    drawn(count, || {
        two_in_order(random, route).map(turned).filter(broken)
    })
}

/// So many pairs of which two contradict each other, at each of these two positions; the others are kept as the route stands.
pub fn broken_for_good(
    random: &mut Random,
    route: &[u32],
    count: usize,
    at: [usize; 2],
) -> Vec<Pair> {
    let [one, other] = at.map(|position| route[position]);
    let mut pairs = vec![[one, other], [other, one]];
    pairs.extend(kept_by(random, route, count - 2));
    pairs
}

/// Members may be no stops.
fn of_any(random: &mut Random, tables: &Tables, count: usize) -> Vec<Pair> {
    drawn(count, || {
        let pair = [(); 2].map(|_| random.index(tables.locations) as u32);
        Some(pair).filter(|pair| pair[0] != pair[1])
    })
}

/// One that the route keeps, at some place among pairs with a member that is no stop.
fn one_that_matters(
    random: &mut Random,
    tables: &Tables,
    route: &[u32],
    count: usize,
) -> Vec<Pair> {
    let mut places = 0..tables.locations as u32;
    let Some(absent) = places.find(|place| !route.contains(place)) else {
        return kept_by(random, route, count);
    };
    let mut pairs = drawn(count, || {
        let place = random.index(tables.locations) as u32;
        let pair = random.pick([[absent, place], [place, absent]]);
        Some(pair).filter(|_| place != absent)
    });
    let chosen = some_place(random, pairs.len());
    for (place, pair) in pairs.iter_mut().skip(chosen).zip(kept_by(random, route, 1)) {
        *place = pair;
    }
    pairs
}

/// Some draws give none.
fn drawn(count: usize, mut draw: impl FnMut() -> Option<Pair>) -> Vec<Pair> {
    (0..4 * count).filter_map(|_| draw()).take(count).collect()
}

/// Stops of two positions, the lower first.
fn two_in_order(random: &mut Random, route: &[u32]) -> Option<Pair> {
    let last = route.len().checked_sub(1)?;
    let one = random.index(route.len());
    let other = random.within(one, last);
    Some([route[one], route[other]])
}

/// One of them again, one turned round, so that the two contradict each other, or one with the depot.
fn another(random: &mut Random, tables: &Tables, depot: u32, pairs: &[Pair]) -> Option<Pair> {
    let place = random.index(tables.locations) as u32;
    let with_depot = random.pick([[depot, place], [place, depot]]);
    let pair = match pairs.get(random.index(pairs.len())) {
        Some(&[first, second]) => random.pick([[first, second], [second, first], with_depot]),
        None => with_depot,
    };
    Some(pair).filter(|pair| pair[0] != pair[1])
}
