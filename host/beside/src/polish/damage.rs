//! Cases that are refused: a good one, damaged in one or more ways.

use super::generate::random_case;
use crate::cases::polish::{Case, RESULT_PLACES};
use crate::damage;
use crate::random::Random;
use crate::rules::MOST_STOPS;
use crate::trial::{damaged, Drawn};

/// The refusal numbers of polishing, the last of the stated order first.
const NUMBERS: [u32; 7] = [21, 5, 4, 23, 3, 2, 1];

/// How many sets of damages there are, the empty one included.
pub const SETS: u64 = 1 << NUMBERS.len();

pub fn draw(random: &mut Random, index: u64) -> Drawn {
    let case = random_case(random);
    damaged(case, &NUMBERS, index, |case, number| {
        damage(random, case, number)
    })
}

/// Makes a case one that is refused with a number.
pub fn damage(random: &mut Random, case: &mut Case, number: u32) {
    match number {
        1 => case.k = damage::wrong_k(random),
        2 => damage::sizes(random, &mut case.tables),
        3 => damage::a_leg(random, &mut case.tables),
        23 => damage::service(random, &mut case.tables),
        4 => damage_stops(random, case),
        5 => {
            let length = MOST_STOPS + random.pick([1, 1, 2, 88, 512]);
            case.route.resize(length, 0);
        }
        _ => case.room = random.index(RESULT_PLACES),
    }
}

fn damage_stops(random: &mut Random, case: &mut Case) {
    if case.route.is_empty() || random.one_in(3) {
        case.depot = damage::unknown(random, &case.tables);
    } else {
        damage::a_stop(random, &case.tables, &mut case.route);
    }
}
