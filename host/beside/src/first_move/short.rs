//! Every pair of short rounds, and rounds at the bounds.

use super::case::Case;
use super::hard;
use crate::draw;
use crate::random::Random;
use crate::rules::{LONGEST_MOVED, MOST_STOPS};
use crate::trial::Visit;

/// Every two rounds of up to four stops of three kinds, and of up to six of two.
pub fn each(_random: &mut Random, visit: Visit) {
    for (values, longest) in [(&[7, 8, 9][..], 4), (&[0, u32::MAX][..], 6)] {
        for stops in 0..=longest {
            let rounds = draw::lists(values, stops);
            for (index, old) in rounds.iter().enumerate() {
                for wanted in &rounds {
                    for k in 2..=5 {
                        let mut case = Case::new(k, old.clone(), wanted.clone());
                        case.room += index % 2;
                        visit(Box::new(case));
                    }
                }
            }
        }
    }
}

/// The longest rounds and those beyond, every room, and the pairs that are known to be hard.
pub fn each_bound(_random: &mut Random, visit: Visit) {
    for k in 2..=5 {
        for stops in [LONGEST_MOVED, LONGEST_MOVED + 1, MOST_STOPS, MOST_STOPS + 1] {
            for other in [stops, stops - 1, stops + 1] {
                visit(Box::new(Case::new(k, vec![3; stops], vec![3; other])));
            }
        }
        let last: Vec<u32> = (0..LONGEST_MOVED as u32).collect();
        for room in 0..=k + 3 {
            let mut turned = last.clone();
            turned[LONGEST_MOVED - k..].reverse();
            let case = Case::new(k, last.clone(), turned);
            visit(Box::new(Case { room, ..case }));
        }
    }
    for k in 2..=3 {
        for (old, wanted) in hard::pairs() {
            visit(Box::new(Case::new(k, old, wanted)));
        }
    }
}
