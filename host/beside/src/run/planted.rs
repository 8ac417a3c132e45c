//! The planted cases of polishing as the last round of a run, so that the count shows where each pattern is examined.

use crate::cases::run::Case;
use crate::polish::planted::planted_case;
use crate::random::Random;
use crate::trial::Drawn;

pub fn draw(random: &mut Random, index: u64) -> Drawn {
    let planted = planted_case(random, index, 4);
    let mut rounds = vec![(planted.depot, planted.route)];
    while random.one_in(3) {
        rounds.insert(0, rounds[0].clone());
    }
    let mut case = Case::of_rounds(planted.k, planted.tables, &rounds);
    case.allowance = u64::MAX;
    (Box::new(case), None)
}
