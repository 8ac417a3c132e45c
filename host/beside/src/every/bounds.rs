//! Listings at the bounds, and tables of the most positions whose cuts end in nothing.

use super::generate::ahead;
use super::Every;
use crate::cases::nearby::Case;
use crate::nearby::bounds::each_case;
use crate::random::Random;
use crate::rules::{MOST_NEIGHBOURS, MOST_STOPS};
use crate::trial::Visit;

const QUARTER: usize = MOST_STOPS / 4;

pub fn each(random: &mut Random, visit: Visit) {
    each_case(random, &mut |case| visit(Box::new(Every(case))));
    for k in 2..=5 {
        each_longest_segment(random, k, visit);
    }
    for table in DEAD_ENDS {
        visit(Box::new(Every(of_most(table.1(random), 10))));
        let mut one = table.1(random);
        let last = MOST_STOPS - 2;
        near(&mut one, last - 1, last);
        near(&mut one, last, last + 1);
        for k in 3..=5 {
            let case = of_most(one.clone(), 1);
            visit(Box::new(Every(Case { k, ..case })));
        }
    }
}

/// m as long as it can be where there is a set, and beyond.
fn each_longest_segment(random: &mut Random, k: usize, visit: Visit) {
    let longest = MOST_STOPS / (k + 1);
    for m in [longest - 1, longest, longest + 1] {
        visit(Box::new(Every(Case {
            k,
            min_segment_len: m,
            ..of_most(ahead(random, MOST_STOPS, m), 300)
        })));
    }
}

/// The most positions, cuts and neighbours.
pub fn of_most(distances: Vec<f64>, sets: usize) -> Case {
    Case {
        n: MOST_STOPS,
        distances,
        k: 5,
        min_segment_len: 1,
        max_nearby: MOST_NEIGHBOURS,
        sets_room: sets * 5,
        room: 2,
    }
}

type Table = fn(&mut Random) -> Vec<f64>;

/// Tables of the most positions in which no five cuts are a set.
pub const DEAD_ENDS: [(&str, Table); 3] = [
    ("quarters", quarters),
    ("quarters, falling", falling_quarters),
    ("falling to the end", falling_to_the_end),
];

/// From a quarter of the positions only the next one is near, so that four cuts are found and never the fifth.
fn quarters(random: &mut Random) -> Vec<f64> {
    each_entry(|from, to| {
        let next = from / QUARTER + 1 == to / QUARTER;
        let back = from / QUARTER == 3 && to < QUARTER;
        random.below(50) as f64 + if next || back { 0.0 } else { 100.0 }
    })
}

fn falling_quarters(_random: &mut Random) -> Vec<f64> {
    falling(|from| {
        let next = (from / QUARTER + 1) * QUARTER;
        let ahead = from * 37 % (QUARTER - MOST_NEIGHBOURS);
        (next < MOST_STOPS).then_some(next + ahead + MOST_NEIGHBOURS)
    })
}

/// From all but the last positions these are near, and from them the ones before.
fn falling_to_the_end(_random: &mut Random) -> Vec<f64> {
    falling(|from| (from + MOST_NEIGHBOURS < MOST_STOPS).then_some(MOST_STOPS))
}

/// Each row falls up to its neighbours, which end at the place that is given, or before the row's own position: on the way each position is nearer than
/// all before it, so that they are the dearest to find.
fn falling(end: impl Fn(usize) -> Option<usize>) -> Vec<f64> {
    each_entry(|from, to| {
        if to < end(from).unwrap_or(from) {
            (MOST_STOPS - to) as f64
        } else {
            (MOST_STOPS + to) as f64
        }
    })
}

fn each_entry(mut entry: impl FnMut(usize, usize) -> f64) -> Vec<f64> {
    let places = 0..MOST_STOPS * MOST_STOPS;
    places
        .map(|place| entry(place / MOST_STOPS, place % MOST_STOPS))
        .collect()
}

fn near(distances: &mut [f64], from: usize, to: usize) {
    distances[from * MOST_STOPS + to] = -1.0;
}
