//! Moves, good ones and others.

use super::apply::Apply;
use super::case::Cutting;
use super::doable::Doable;
use crate::random::Random;
use crate::rules::{pattern_count, MOST_STOPS};
use crate::trial::{Drawn, Visit};

/// Every cut set and pattern of routes of up to five stops, applied, and applied and undone.
pub fn each_short(_random: &mut Random, visit: Visit) {
    each_short_move(5, &mut |cutting, n| {
        let route: Vec<u32> = (0..n as u32).map(|stop| 100 + stop).collect();
        for undone in [false, true] {
            visit(Box::new(Apply {
                cutting: cutting.clone(),
                route: route.clone(),
                room: n + cutting.pattern % 3,
                undone,
            }));
        }
    });
}

/// Every cut set and pattern of routes of up to `longest` stops.
pub fn each_short_move(longest: usize, visit: &mut dyn FnMut(Cutting, usize)) {
    for k in 2..=5 {
        for n in 0..=longest {
            for cuts in cut_sets(k, n) {
                for pattern in 0..pattern_count(k) {
                    visit(Cutting::within(k, pattern, 3, &cuts), n);
                }
            }
        }
    }
}

/// The rising lists of k numbers up to n, by which bits of a number are set.
pub fn cut_sets(k: usize, n: usize) -> Vec<Vec<usize>> {
    (0..1usize << (n + 1))
        .filter(|set| set.count_ones() as usize == k)
        .map(|set| (0..=n).filter(|cut| (set >> cut) & 1 == 1).collect())
        .collect()
}

/// Every list of up to three cut points of two rounds, right or wrong, on a route of two stops.
fn each_few_cuts(visit: &mut dyn FnMut(Cutting)) {
    for count in 0..=3 {
        for code in 0..8usize.pow(count) {
            let digits = (0..count).map(|place| code / 8usize.pow(place) % 8);
            let (cut_rounds, cut_positions): (Vec<usize>, Vec<usize>) =
                digits.map(|digit| (digit % 2, digit / 2)).unzip();
            for (k, pattern) in [(2, 0), (2, 1), (3, 0)] {
                visit(Cutting {
                    k,
                    pattern,
                    round: 0,
                    cut_rounds: cut_rounds.clone(),
                    cut_positions: cut_positions.clone(),
                });
            }
        }
    }
}

pub fn each_few_cuts_applied(_random: &mut Random, visit: Visit) {
    each_few_cuts(&mut |cutting| {
        visit(Box::new(Apply {
            cutting,
            route: vec![7, 8],
            room: 2,
            undone: false,
        }));
    });
}

pub fn each_few_cuts_asked(_random: &mut Random, visit: Visit) {
    each_few_cuts(&mut |cutting| {
        visit(Box::new(Doable {
            cutting,
            n: 2,
            room: 1,
        }));
    });
}

/// Journals of every length from 0 to beyond the route's.
pub fn each_journal(random: &mut Random, visit: Visit) {
    for n in (1..=9).chain([MOST_STOPS - 1, MOST_STOPS, MOST_STOPS + 1]) {
        let k = random.within(2, 5.min(n + 1));
        let (cutting, route) = (random_cutting(random, k, n), random_stops(random, n));
        for room in (0..=n + 4).filter(|&room| n < 10 || room < 3 || room + 4 > n) {
            for undone in [false, true] {
                visit(Box::new(Apply {
                    cutting: cutting.clone(),
                    route: route.clone(),
                    room,
                    undone,
                }));
            }
        }
    }
}

pub fn draw_apply(random: &mut Random, _index: u64) -> Drawn {
    let mut apply = random_apply(random);
    apply.undone = random.one_in(3);
    (Box::new(apply), None)
}

pub fn random_apply(random: &mut Random) -> Apply {
    let n = random_length(random);
    let k = random.within(2, 5.min(n + 1));
    Apply {
        cutting: random_cutting(random, k, n),
        route: random_stops(random, n),
        room: n + random.pick([0, 0, 1, 9]),
        undone: false,
    }
}

pub fn random_length(random: &mut Random) -> usize {
    match random.below(60) {
        0 => random.within(MOST_STOPS - 2, MOST_STOPS),
        1 => random.within(40, MOST_STOPS),
        2..=9 => random.within(1, 4),
        _ => random.within(4, 30),
    }
}

/// Any numbers, often some of them twice.
pub fn random_stops(random: &mut Random, n: usize) -> Vec<u32> {
    let end = random.pick([3, 1000, 1 << 32]);
    (0..n).map(|_| random.below(end) as u32).collect()
}

/// k rising cuts, k being at most n + 1, and any pattern; the round is any number.
pub fn random_cutting(random: &mut Random, k: usize, n: usize) -> Cutting {
    let cuts = random_cuts(random, k, n);
    let pattern = random.index(pattern_count(k));
    let round = random.pick([0, 1, 63, 64, 1 << 32, usize::MAX]);
    Cutting::within(k, pattern, round, &cuts)
}

/// Often at the ends, or one after the other.
pub fn random_cuts(random: &mut Random, k: usize, n: usize) -> Vec<usize> {
    let mut all: Vec<usize> = match random.below(6) {
        0 => (0..=n.min(k)).collect(),
        1 => (n.saturating_sub(k)..=n).collect(),
        _ => (0..=n).collect(),
    };
    random.shuffle(&mut all);
    all.truncate(k);
    if random.one_in(5) && !all.contains(&0) {
        all[0] = 0;
    }
    if random.one_in(5) && !all.contains(&n) {
        all[k - 1] = n;
    }
    all.sort_unstable();
    all
}

/// Cut points right or wrong: any order, any number, sometimes of another round or beyond the route.
pub fn loose_cutting(random: &mut Random, n: usize) -> Cutting {
    let k = random.within(2, 5);
    let cuts = match random.below(4) {
        0 => random.within(0, 6),
        _ => k,
    };
    let beyond = random.pick([0, 0, 0, 2]);
    let mut cut_positions: Vec<usize> = (0..cuts).map(|_| random.index(n + 1 + beyond)).collect();
    if !random.one_in(3) {
        cut_positions.sort_unstable();
    }
    let mut cutting = Cutting {
        k,
        pattern: random.index(pattern_count(k)),
        round: 1,
        cut_rounds: vec![1; cuts],
        cut_positions,
    };
    match random.below(6) {
        0 => cutting.cut_rounds = vec![2; cuts],
        1 => cutting.cut_rounds.push(1),
        2 | 3 if cuts > 0 => {
            let place = random.index(cuts);
            cutting.cut_rounds[place] = random.pick([0, 2, usize::MAX]);
        }
        _ => {}
    }
    cutting
}

pub fn draw_loose(random: &mut Random, _index: u64) -> Drawn {
    let n = random_length(random);
    let cutting = loose_cutting(random, n);
    let (route, room) = (random_stops(random, n), n);
    (
        Box::new(Apply {
            cutting,
            route,
            room,
            undone: false,
        }),
        None,
    )
}

pub fn draw_doable(random: &mut Random, _index: u64) -> Drawn {
    let n = random_length(random);
    let room = random.pick([1, 1, 1, 4]);
    let cutting = if random.one_in(2) {
        loose_cutting(random, n)
    } else {
        let k = random.within(2, 5.min(n + 1));
        random_cutting(random, k, n)
    };
    (Box::new(Doable { cutting, n, room }), None)
}
