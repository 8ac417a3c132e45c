//! Every listing of one small kind, and lists of sets of every size.

use super::generate::random_case;
use super::plain::Lists;
use super::Every;
use crate::cases::nearby::Case;
use crate::draw::lists;
use crate::random::Random;
use crate::trial::Visit;

const LISTINGS: usize = 150;
const MOST_SETS: usize = 40;

/// Five positions, two to four cuts, 0 to 4 neighbours, each distance from 1, 2 and 3 one of two; no other is read.
pub fn each(_random: &mut Random, visit: Visit) {
    visit(Box::new(Every(missed_case())));
    for row in lists(&[0, 1], 12) {
        let near = of_five(&row, [1.0, 2.0]);
        for max_nearby in 0..=4 {
            for k in 2..=4 {
                visit(Box::new(Every(near_five(k, max_nearby, &near))));
            }
        }
        let zeros = of_five(&row, [0.0, -0.0]);
        visit(Box::new(Every(near_five(3, 3, &zeros))));
    }
}

fn of_five(row: &[u32], pair: [f64; 2]) -> Vec<f64> {
    let mut distances = vec![0.0; 25];
    let places = (5..20).filter(|place| place % 6 != 0);
    for (place, &entry) in places.zip(row) {
        distances[place] = pair[entry as usize];
    }
    distances
}

fn near_five(k: usize, max_nearby: usize, distances: &[f64]) -> Case {
    Case {
        n: 5,
        distances: distances.to_vec(),
        k,
        min_segment_len: 1,
        max_nearby,
        sets_room: 6 * k + 1,
        room: 2,
    }
}

/// n = 5, k = 3, 2 neighbours: the Rust drops cut 3 with cut 2 and lists nothing, though 1, 3, 4 would do.
pub fn missed_case() -> Case {
    let mut distances = vec![2.0; 25];
    for (from, to) in [(1, 2), (1, 3), (2, 0), (2, 1), (3, 4)] {
        distances[5 * from + to] = 1.0;
    }
    near_five(3, 2, &distances)
}

/// Listings that end soon, with every size of the list of sets from 0 to beyond the listing, and every small result.
pub fn each_room(random: &mut Random, visit: Visit) {
    let mut listings = 0;
    while listings < LISTINGS {
        let case = random_case(random);
        let sets = Lists::of(&case).listed(MOST_SETS + 1).unwrap_or_default();
        if sets.len() > MOST_SETS {
            continue;
        }
        listings += 1;
        for sets_room in 0..=(sets.len() + 1) * case.k + 1 {
            let room = random.pick([2, 2, 2, 3, 7, 0, 1]);
            visit(Box::new(Every(Case {
                sets_room,
                room,
                ..case.clone()
            })));
        }
    }
}
