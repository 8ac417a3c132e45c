//! Random listings that document 01 does not refuse.

use crate::cases::nearby::Case;
use crate::random::Random;
use crate::trial::Drawn;

pub fn draw(random: &mut Random, _index: u64) -> Drawn {
    (Box::new(random_case(random)), None)
}

/// Often n is near (k + 1) · m, where the first sets appear.
pub fn random_case(random: &mut Random) -> Case {
    let k = random.within(2, 5);
    let min_segment_len = shortest_piece(random);
    let least = (k + 1) * min_segment_len;
    let n = match random.below(20) {
        0 => random.index(60),
        1..=3 => least.saturating_sub(1).min(60) + random.index(3),
        4 => least.min(60) + random.index(40),
        _ => least.min(60) + random.index(8),
    };
    let max_nearby = match random.below(10) {
        0 => random.index(3),
        1 => 32,
        2 => random.index(33),
        3 => n.saturating_sub(1).min(32),
        _ => random.within(3, 20),
    };
    let sets = random.pick([1, 2, 3, 10, 30, 60]);
    Case {
        n,
        distances: table(random, n),
        k,
        min_segment_len,
        max_nearby,
        sets_room: k * random.within(1, sets) + random.index(k),
        room: random.pick([2, 2, 2, 3, 9]),
    }
}

pub fn draw_long(random: &mut Random, _index: u64) -> Drawn {
    (Box::new(long_case(random)), None)
}

/// Walks of thousands of sets, often whole ones, so that each position is reached from many others and at every level.
pub fn long_case(random: &mut Random) -> Case {
    let k = random.within(2, 5);
    let min_segment_len = random.pick([1, 1, 2, 3]);
    let least = (k + 1) * min_segment_len;
    let n = least
        + match random.below(30) {
            0 => 400,
            1..=4 => random.within(30, 150),
            _ => random.within(4, 30),
        };
    let max_nearby = random.pick([3, 6, 12, 20, 31, 32]);
    let sets = random.pick([500, 2000, 6000]);
    Case {
        n,
        distances: table(random, n),
        k,
        min_segment_len,
        max_nearby,
        sets_room: sets * k + random.index(k),
        room: 2,
    }
}

fn shortest_piece(random: &mut Random) -> usize {
    match random.below(40) {
        0 => random.pick([9, 100, 511, 512]),
        1..=8 => random.within(2, 4),
        _ => 1,
    }
}

/// Distances of many kinds: few values, so that many are equal; both zeros; infinities; negative; anything that is a number.
pub fn table(random: &mut Random, n: usize) -> Vec<f64> {
    let places = n * n;
    match random.below(8) {
        0 => vec![2.0; places],
        1 => drawn(random, places, |random| random.pick([0.0, -0.0])),
        2 => drawn(random, places, |random| random.pick([1.0, 2.0, 3.0])),
        3 => drawn(random, places, edge),
        4 => drawn(random, places, any_number),
        5 => on_a_line(random, n),
        _ => drawn(random, places, |random| random.below(50) as f64 / 8.0),
    }
}

fn drawn(random: &mut Random, places: usize, entry: fn(&mut Random) -> f64) -> Vec<f64> {
    (0..places).map(|_| entry(random)).collect()
}

fn edge(random: &mut Random) -> f64 {
    random.pick([
        f64::INFINITY,
        f64::NEG_INFINITY,
        0.0,
        -0.0,
        f64::MIN_POSITIVE,
        5e-324,
        -5e-324,
        f64::MAX,
        f64::MIN,
        1.0,
        1.0 + f64::EPSILON,
    ])
}

/// Any bits that are a number.
pub fn any_number(random: &mut Random) -> f64 {
    loop {
        let number = f64::from_bits(random.draw());
        if !number.is_nan() {
            return number;
        }
    }
}

/// Nearness by position, which lists many sets.
fn on_a_line(random: &mut Random, n: usize) -> Vec<f64> {
    let noise = random.below(4);
    let mut entry = |place: usize| {
        let apart = (place / n).abs_diff(place % n);
        (apart as u64 + random.below(noise + 1)) as f64
    };
    (0..n * n).map(&mut entry).collect()
}
