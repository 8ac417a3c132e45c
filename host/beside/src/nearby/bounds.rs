//! Listings at the bounds of document 01.

use super::generate::table;
use crate::cases::nearby::Case;
use crate::random::Random;
use crate::rules::{LONGEST_PIECE, MOST_NEIGHBOURS, MOST_STOPS};
use crate::trial::Visit;

pub fn each(random: &mut Random, visit: Visit) {
    each_case(random, &mut |case| visit(Box::new(case)));
}

pub fn each_case(random: &mut Random, visit: &mut dyn FnMut(Case)) {
    visit(widest(random, 2000));
    for k in 2..=5 {
        each_least_length(random, k, visit);
        each_neighbours(random, k, visit);
        for n in [MOST_STOPS - 1, MOST_STOPS, MOST_STOPS + 1] {
            let m = random.pick([1, 2, 60]);
            visit(of(random, n, k, m, 8, 60));
        }
    }
    let longest = LONGEST_PIECE;
    for m in [0, 1, longest - 1, longest, longest + 1, usize::MAX, 1 << 62] {
        for n in [0, 1, 5, 40] {
            visit(of(random, n, 3, m, 5, 9));
        }
    }
}

/// n from two below (k + 1) · m to two above.
fn each_least_length(random: &mut Random, k: usize, visit: &mut dyn FnMut(Case)) {
    for m in [1, 2, 3, 7, 80, 85] {
        for n in (k + 1) * m - 2..=(k + 1) * m + 2 {
            for max_nearby in [1, 4, 32] {
                visit(of(random, n, k, m, max_nearby, 100));
            }
        }
    }
}

/// 0 to 32 neighbours, and more than are allowed.
fn each_neighbours(random: &mut Random, k: usize, visit: &mut dyn FnMut(Case)) {
    for max_nearby in (0..=MOST_NEIGHBOURS + 2).chain([usize::MAX, 1 << 32]) {
        for n in [12, 34, 40] {
            visit(of(random, n, k, 1, max_nearby, 300));
        }
    }
}

fn of(random: &mut Random, n: usize, k: usize, m: usize, max_nearby: usize, sets: usize) -> Case {
    Case {
        n,
        distances: table(random, n),
        k,
        min_segment_len: m,
        max_nearby,
        sets_room: sets * k + random.index(k),
        room: 2,
    }
}

/// The most positions, cuts and neighbours, near by position so that there are many sets.
pub fn widest(random: &mut Random, sets: usize) -> Case {
    let n = MOST_STOPS;
    let near = |place: usize| {
        let apart = (place / n).abs_diff(place % n) as f64;
        apart + random.below(8) as f64
    };
    Case {
        n,
        distances: (0..n * n).map(near).collect(),
        k: 5,
        min_segment_len: 1,
        max_nearby: MOST_NEIGHBOURS,
        sets_room: sets * 5,
        room: 2,
    }
}
