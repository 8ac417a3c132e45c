//! Random listings, sound and damaged.

use super::Every;
use crate::cases::nearby::Case;
use crate::nearby::damage::{damage, NUMBERS};
use crate::nearby::generate::{self, long_case, table};
use crate::random::Random;
use crate::trial::{damaged, Drawn};

pub const SETS: u64 = 1 << NUMBERS.len();

pub fn draw(random: &mut Random, _index: u64) -> Drawn {
    (Box::new(Every(random_case(random))), None)
}

pub fn draw_damaged(random: &mut Random, index: u64) -> Drawn {
    let case = Every(random_case(random));
    damaged(case, &NUMBERS, index, |case, number| {
        damage(random, &mut case.0, number)
    })
}

/// Often with few neighbours, or with positions that lead on to a few others only, so that many cuts end in nothing.
pub fn random_case(random: &mut Random) -> Case {
    let mut case = generate::random_case(random);
    if random.one_in(4) {
        return case;
    }
    let least = (case.k + 1) * case.min_segment_len;
    case.n = least.min(60) + random.index(12);
    case.max_nearby = random.within(1, 6);
    case.distances = any_table(random, case.n, case.min_segment_len);
    case
}

pub fn draw_long(random: &mut Random, _index: u64) -> Drawn {
    let mut case = long_case(random);
    if random.one_in(2) {
        case.max_nearby = random.within(2, 6);
        case.distances = any_table(random, case.n, case.min_segment_len);
    }
    (Box::new(Every(case)), None)
}

fn any_table(random: &mut Random, n: usize, m: usize) -> Vec<f64> {
    match random.below(4) {
        0 => layers(random, n),
        1 => ahead(random, n, m),
        _ => table(random, n),
    }
}

/// Each position is in one of a few layers, and only those of the next layer are near.
fn layers(random: &mut Random, n: usize) -> Vec<f64> {
    let count = random.within(2, 6);
    let layer: Vec<usize> = (0..n).map(|_| random.index(count)).collect();
    let mut entry = |place: usize| {
        let next = (layer[place / n] + 1) % count == layer[place % n];
        random.below(3) as f64 + if next { 0.0 } else { 10.0 }
    };
    (0..n * n).map(&mut entry).collect()
}

/// The nearest lie a shortest segment ahead.
pub fn ahead(random: &mut Random, n: usize, m: usize) -> Vec<f64> {
    let noise = random.below(6);
    let mut entry = |place: usize| {
        let apart = (place / n + m).abs_diff(place % n);
        (apart as u64 + random.below(noise + 1)) as f64
    };
    (0..n * n).map(&mut entry).collect()
}
