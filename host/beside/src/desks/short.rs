//! Every call of a small kind: three locations, legs 0 or 1 between them, every two lists of up to two stops, few pairs, and deadlines that bind or not.

use super::case::Case;
use crate::draw::lists;
use crate::random::Random;
use crate::tables::Tables;
use crate::trial::Visit;

const PAIRS: [&[u32]; 3] = [&[], &[1, 2], &[0, 1, 2, 0]];

pub fn each(random: &mut Random, visit: Visit) {
    let all: Vec<Vec<u32>> = (0..3).flat_map(|stops| lists(&[0, 1, 2], stops)).collect();
    for six in lists(&[0, 1], 6) {
        let legs = vec![0, six[0], six[1], six[2], 0, six[3], six[4], six[5], 0];
        for first in &all {
            for second in &all {
                for pairs in PAIRS {
                    visit(Box::new(call(random, &legs, pairs, first, second)));
                }
            }
        }
    }
}

fn call(random: &mut Random, legs: &[u32], pairs: &[u32], first: &[u32], second: &[u32]) -> Case {
    let mut tables = Tables::of_legs(3, legs.to_vec());
    tables.latest[random.index(3)] = random.pick([0, 1, u32::MAX, u32::MAX]);
    tables.service[random.index(3)] = random.pick([0, 0, 1]);
    tables.pairs = Some(pairs.to_vec());
    Case {
        tables,
        depot: random.index(3) as u32,
        end: random.index(3) as u32,
        first: first.to_vec(),
        second: second.to_vec(),
    }
}
