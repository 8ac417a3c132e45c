//! A search for pairs of rounds that take the library long: many are drawn, and the slowest is changed a little as long as that makes it slower.

use super::case::Case;
use crate::random::Random;
use crate::rules::LONGEST_MOVED as N;
use std::time::{Duration, Instant};

/// The slowest pair found in a time, by a measure of one call; half of the time is for drawing.
pub fn slowest(k: usize, time: Duration, measure: &dyn Fn(&Case) -> Duration) -> (Duration, Case) {
    let (start, mut random) = (Instant::now(), Random::new(1958));
    let mut worst = (Duration::ZERO, drawn(&mut random, k));
    while start.elapsed() < time {
        let case = if start.elapsed() < time / 2 {
            drawn(&mut random, k)
        } else {
            changed(&mut random, &worst.1)
        };
        let taken = measure(&case);
        if taken > worst.0 {
            worst = (taken, case);
        }
    }
    worst
}

fn drawn(random: &mut Random, k: usize) -> Case {
    let old = stops(random);
    let mut wanted = old.clone();
    let (mut from, mut to) = (0, N);
    if !random.one_in(3) {
        (from, to) = (random.index(N / 2), N - random.index(N / 2));
    }
    if from + 2 > to {
        (from, to) = (0, N);
    }
    for _ in 0..random.within(1, 6) {
        disturb(random, &mut wanted[from..to]);
    }
    Case::new(k, old, wanted)
}

fn stops(random: &mut Random) -> Vec<u32> {
    let values = random.pick([2, 2, 3, 4]);
    let mut round: Vec<u64> = match random.below(6) {
        0 => (0..N).map(|_| random.below(values)).collect(),
        1 => {
            let part: Vec<u64> = (0..random.within(1, 6))
                .map(|_| random.below(values))
                .collect();
            part.iter().copied().cycle().take(N).collect()
        }
        2 => {
            let mut runs = Vec::new();
            while runs.len() < N {
                let value = random.below(values);
                runs.extend(vec![value; random.within(1, 10)]);
            }
            runs
        }
        3 => (0..N as u32)
            .map(|place| u64::from(place.count_ones() % 2))
            .collect(),
        4 => vec![0; N],
        _ => (0..N as u64).map(|place| place % 2).collect(),
    };
    for _ in 0..random.within(0, 8) {
        round[random.index(N)] = random.below(values);
    }
    round
        .into_iter()
        .take(N)
        .map(|value| value as u32)
        .collect()
}

/// A stretch turned around, or its two parts exchanged.
fn disturb(random: &mut Random, round: &mut [u32]) {
    let from = random.index(round.len());
    let to = random.within(from + 1, round.len());
    let part = &mut round[from..to];
    if random.one_in(2) {
        part.reverse();
    } else {
        part.rotate_left(random.index(part.len()));
    }
}

fn changed(random: &mut Random, case: &Case) -> Case {
    let Case {
        k,
        mut old,
        mut wanted,
        ..
    } = case.clone();
    let (one, other) = (random.index(N), random.index(N));
    match random.below(4) {
        0 => {
            let (before, value) = (old[one], random.below(3) as u32);
            old[one] = value;
            let same = (0..N)
                .map(|step| (other + step) % N)
                .find(|&place| wanted[place] == before);
            wanted[same.unwrap_or(other)] = value;
        }
        1 => disturb(random, &mut wanted),
        2 => wanted.swap(one, other),
        _ => {
            old.swap(one, other);
            wanted.swap(one, other);
        }
    }
    Case::new(k, old, wanted)
}
