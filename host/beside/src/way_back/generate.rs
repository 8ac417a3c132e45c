//! Moves, every short one and others.

use super::case::Case;
use crate::damage::{wrong_k, wrong_pattern};
use crate::moves::generate::{cut_sets, random_cuts, random_length};
use crate::parts::cut_sets::damage_cuts;
use crate::random::Random;
use crate::rules::{pattern_count, MOST_STOPS};
use crate::trial::{damaged, Drawn, Visit};

/// Every pattern at every cut set of rounds of up to k + 2 stops.
pub fn each_short(_random: &mut Random, visit: Visit) {
    for k in 2..=5 {
        for n in k - 1..=k + 2 {
            for cuts in cut_sets(k, n) {
                for pattern in 0..pattern_count(k) {
                    visit(Box::new(Case {
                        k,
                        pattern,
                        n,
                        cuts: cuts.clone(),
                        room: k + 1 + pattern % 3,
                    }));
                }
            }
        }
    }
}

/// The longest rounds and those beyond, cut at the first places, the last and between, and every room.
pub fn each_bound(random: &mut Random, visit: Visit) {
    for k in 2..=5 {
        for n in [MOST_STOPS - 1, MOST_STOPS, MOST_STOPS + 1] {
            let last: Vec<usize> = (n + 1 - k..=n).collect();
            for cuts in [(0..k).collect(), last, random_cuts(random, k, n)] {
                for room in 0..=k + 3 {
                    visit(Box::new(Case {
                        k,
                        pattern: random.index(pattern_count(k)),
                        n,
                        cuts: cuts.clone(),
                        room,
                    }));
                }
            }
        }
    }
}

fn random_case(random: &mut Random) -> Case {
    let n = random_length(random);
    let k = random.within(2, 5.min(n + 1));
    Case {
        k,
        pattern: random.index(pattern_count(k)),
        n,
        cuts: random_cuts(random, k, n),
        room: k + 1 + random.pick([0, 0, 1, 9]),
    }
}

pub fn draw(random: &mut Random, _index: u64) -> Drawn {
    (Box::new(random_case(random)), None)
}

const NUMBERS: [u32; 5] = [21, 7, 6, 5, 1];
pub const SETS: u64 = 1 << NUMBERS.len();

pub fn draw_damaged(random: &mut Random, index: u64) -> Drawn {
    let case = random_case(random);
    damaged(case, &NUMBERS, index, |case, number| match number {
        1 => case.k = wrong_k(random),
        5 => case.n = random.pick([MOST_STOPS + 1, 1 << 32, usize::MAX]),
        6 => case.pattern = wrong_pattern(random, case.k),
        7 => damage_cuts(random, &mut case.cuts, case.n),
        _ => case.room = random.index(case.k + 1),
    })
}
