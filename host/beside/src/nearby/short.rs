//! Every listing of one small kind, and lists of sets of every size.

use super::generate::{random_case, table};
use crate::cases::nearby::Case;
use crate::draw::lists;
use crate::oracle::nearby::listed;
use crate::random::Random;
use crate::trial::Visit;

const WALKS: usize = 150;
const MOST_SETS: usize = 40;

/// Four positions, each distance 1 or 2 (or 0 and -0, which are equal), two and three cuts, 0 to 3 neighbours; the listings of
/// document 01.
pub fn each(_random: &mut Random, visit: Visit) {
    for special in [false, true] {
        visit(Box::new(document_case(special)));
    }
    for row in lists(&[0, 1], 12) {
        for (index, pair) in [[1.0, 2.0], [0.0, -0.0]].into_iter().enumerate() {
            let distances = off_diagonal(&row, pair);
            for max_nearby in 1..=3 {
                for k in 2..=3 - index {
                    visit(Box::new(of_four(k, max_nearby, &distances)));
                }
            }
        }
    }
    visit(Box::new(of_four(2, 0, &off_diagonal(&[0; 12], [1.0, 2.0]))));
}

fn off_diagonal(row: &[u32], pair: [f64; 2]) -> Vec<f64> {
    let mut entries = row.iter().map(|&entry| pair[entry as usize]);
    (0..16)
        .map(|place| {
            if place % 5 == 0 {
                0.0
            } else {
                entries.next().unwrap_or(0.0)
            }
        })
        .collect()
}

fn of_four(k: usize, max_nearby: usize, distances: &[f64]) -> Case {
    Case {
        n: 4,
        distances: distances.to_vec(),
        k,
        min_segment_len: 1,
        max_nearby,
        sets_room: 4 * k + 1,
        room: 2,
    }
}

/// n = 5, k = 3, all distances 2.0, or that from 1 to 3 being 1.0.
pub fn document_case(special: bool) -> Case {
    let mut distances = vec![2.0; 25];
    if special {
        distances[8] = 1.0;
    }
    Case {
        n: 5,
        distances,
        k: 3,
        min_segment_len: 1,
        max_nearby: 4,
        sets_room: 20,
        room: 2,
    }
}

/// Walks that end soon, with every size of the list of sets from 0 to beyond the walk, and every small result.
pub fn each_room(random: &mut Random, visit: Visit) {
    let mut walks = 0;
    while walks < WALKS {
        let mut case = random_case(random);
        if case.n > 12 {
            case.n = random.within(5, 12);
            case.min_segment_len = 1;
            case.distances = table(random, case.n);
        }
        let (sets, more) = listed(&case, MOST_SETS);
        if more {
            continue;
        }
        walks += 1;
        for sets_room in 0..=sets.len() + case.k + 1 {
            let room = random.pick([2, 2, 2, 3, 7, 0, 1]);
            visit(Box::new(Case {
                sets_room,
                room,
                ..case.clone()
            }));
        }
    }
}
