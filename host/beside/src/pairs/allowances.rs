//! Small calls, each with every allowance from 0 to one more than all its pairs.

use super::generate::asked;
use super::plain::pair_loop;
use crate::random::Random;
use crate::trial::Visit;

const CALLS: usize = 60;
/// Calls with more pairs are passed over, those that do not end among them.
const MOST_PAIRS: u64 = 400;

pub fn each(random: &mut Random, visit: Visit) {
    let mut calls = 0;
    while calls < CALLS {
        let case = asked(random);
        if case.asked().route.len() > 40 {
            continue;
        }
        let pairs = pair_loop(&case, MOST_PAIRS + 1).examined;
        if (1..=MOST_PAIRS).contains(&pairs) {
            calls += 1;
            for allowance in 0..=pairs + 1 {
                visit(Box::new(case.with_allowance(allowance)));
            }
        }
    }
}
