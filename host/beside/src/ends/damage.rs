//! Calls that are refused: a good one, damaged in one or more ways.

use super::generate::random_ended;
use crate::cases::ends::Case;
use crate::damage::unknown;
use crate::polish::damage::damage;
use crate::random::Random;
use crate::trial::{damaged, Drawn};

/// The refusal numbers of polishing to an end, the last of the stated order first.
const NUMBERS: [u32; 8] = [21, 5, 24, 4, 23, 3, 2, 1];

/// How many sets of damages there are, the empty one included.
pub const SETS: u64 = 1 << NUMBERS.len();

pub fn draw(random: &mut Random, index: u64) -> Drawn {
    let case = random_ended(random);
    damaged(case, &NUMBERS, index, |case, number| {
        damage_ended(random, case, number)
    })
}

pub fn damage_ended(random: &mut Random, case: &mut Case, number: u32) {
    match number {
        24 => case.end = unknown(random, &case.closed.tables),
        _ => damage(random, &mut case.closed, number),
    }
}
