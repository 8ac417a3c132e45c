//! Small runs, each with every allowance from 0 to one more than all its candidates.

use super::generate::small_run;
use crate::cases::run::Case;
use crate::oracle::run::examined;
use crate::random::Random;
use crate::trial::Visit;

const RUNS: usize = 60;
/// Runs with more candidates are passed over.
const MOST_CANDIDATES: u64 = 600;

pub fn each(random: &mut Random, visit: Visit) {
    let mut runs = 0;
    while runs < RUNS {
        let case = small_run(random);
        let candidates = examined(&case, MOST_CANDIDATES + 1);
        if (1..=MOST_CANDIDATES).contains(&candidates) {
            runs += 1;
            each_allowance(&case, candidates + 1, visit);
        }
    }
}

fn each_allowance(case: &Case, last: u64, visit: Visit) {
    for allowance in 0..=last {
        visit(Box::new(Case {
            allowance,
            ..case.clone()
        }));
    }
}
