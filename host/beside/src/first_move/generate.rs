//! Rounds and what became of them.

use super::by_rust::LONGEST;
use super::case::Case;
use crate::damage::wrong_k;
use crate::moves::generate::random_cuts;
use crate::oracle::moves::do_move;
use crate::random::Random;
use crate::rules::{pattern_count, LONGEST_MOVED, MOST_STOPS};
use crate::trial::{damaged, Drawn};

/// Distinct stops, a few values, a period, or all alike.
fn stops(random: &mut Random, n: usize) -> Vec<u32> {
    let base = random.pick([0, 1, u32::MAX - 100]);
    let values = random.pick([2, 2, 3, 4, 8]);
    let place: Box<dyn FnMut(u64) -> u64> = match random.below(4) {
        0 => Box::new(|place| place),
        1 => Box::new(|_| random.below(values)),
        2 => Box::new(|place| place % values),
        _ => Box::new(|_| 0),
    };
    let places = (0..n as u64).map(place);
    places.map(|value| base + value as u32).collect()
}

/// The same stops after a few stretches have been turned around or moved.
fn disturbed(random: &mut Random, old: &[u32]) -> Vec<u32> {
    let mut wanted = old.to_vec();
    for _ in 0..random.within(1, 4) {
        let from = random.index(wanted.len());
        let to = random.within(from, wanted.len());
        let turned = random.one_in(2);
        let part = &mut wanted[from..to];
        match turned {
            true => part.reverse(),
            false => part.rotate_left(random.index(part.len())),
        }
    }
    wanted
}

/// Equal, turned by a move, disturbed, in any order, or of other stops.
fn wanted(random: &mut Random, k: usize, old: &[u32]) -> Vec<u32> {
    let mut wanted = old.to_vec();
    match random.below(8) {
        0 => {}
        1 | 2 if k <= old.len() + 1 => {
            let cuts = random_cuts(random, k, old.len());
            return do_move(k, random.index(pattern_count(k)), 0, &cuts, old).0;
        }
        3 => random.shuffle(&mut wanted),
        4 if !old.is_empty() => {
            let (place, other) = (random.index(old.len()), random.index(old.len()));
            wanted[place] = random.pick([old[other], 9, u32::MAX]);
        }
        _ => return disturbed(random, old),
    }
    wanted
}

fn random_case(random: &mut Random, k: usize, n: usize) -> Case {
    let old = stops(random, n);
    let wanted = wanted(random, k, &old);
    Case {
        room: k + 2 + random.pick([0, 0, 1, 9]),
        ..Case::new(k, old, wanted)
    }
}

pub fn draw_short(random: &mut Random, _index: u64) -> Drawn {
    let (k, n) = (random.within(2, 5), random.within(0, LONGEST));
    (Box::new(random_case(random, k, n)), None)
}

/// As long as the plain scan passes in some hundredths of a second, whatever the rounds hold.
pub fn draw_long(random: &mut Random, _index: u64) -> Drawn {
    let k = random.within(2, 5);
    let n = random.within(LONGEST + 1, [LONGEST_MOVED, LONGEST_MOVED, 30, 15][k - 2]);
    (Box::new(random_case(random, k, n)), None)
}

/// The longest rounds, of distinct stops or a value here and there: a move at the first cuts, the last or anywhere, and sometimes one more on top of
/// it, so that there may be none. What the plain scan leaves out makes it quick enough here.
pub fn draw_planted(random: &mut Random, _index: u64) -> Drawn {
    let (k, n) = (random.within(2, 5), random.within(24, LONGEST_MOVED));
    let mut old: Vec<u32> = (0..n as u32).collect();
    for _ in 0..random.pick([0, 0, 2, 6]) {
        let (place, other) = (random.index(n), random.index(n));
        old[place] = old[other];
    }
    let mut wanted = old.clone();
    for _ in 0..random.pick([1, 1, 2]) {
        let cuts = match random.below(4) {
            0 => (0..k).collect(),
            1 => (n + 1 - k..=n).collect(),
            _ => random_cuts(random, k, n),
        };
        wanted = do_move(k, random.index(pattern_count(k)), 0, &cuts, &wanted).0;
    }
    (Box::new(Case::new(k, old, wanted)), None)
}

const NUMBERS: [u32; 4] = [21, 25, 5, 1];
pub const SETS: u64 = 1 << NUMBERS.len();

pub fn draw_damaged(random: &mut Random, index: u64) -> Drawn {
    let (k, n) = (random.within(2, 5), random.within(1, LONGEST));
    let case = random_case(random, k, n);
    damaged(case, &NUMBERS, index, |case, number| match number {
        1 => case.k = wrong_k(random),
        5 => {
            let stops = MOST_STOPS + random.within(1, 90);
            let one = random.below(3);
            if one != 0 {
                case.old.resize(stops, 5);
            }
            if one != 1 {
                case.wanted.resize(stops, 5);
            }
        }
        25 => match random.below(3) {
            0 => case.old.push(7),
            1 => case.wanted.truncate(case.wanted.len() - 1),
            _ => {
                let stops = random.pick([LONGEST_MOVED + 1, 64, MOST_STOPS]);
                case.old.resize(stops, 5);
                case.wanted.resize(stops, 5);
            }
        },
        _ => case.room = random.index(case.k + 2),
    })
}
