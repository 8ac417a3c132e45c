//! Calls that are refused: a good one, damaged in one or more ways.

use super::generate::{random_paired, random_paired_list, random_paired_run};
use crate::cases::run::Case;
use crate::damage::pairs;
use crate::ends::damage::damage_ended;
use crate::ends::runs::damage_run;
use crate::lists::damage::damage_list;
use crate::random::Random;
use crate::trial::{damaged, Drawn};

/// The refusal numbers of polishing and of the run, and those of polishing with a list, the last of the stated order first.
const NUMBERS: [u32; 9] = [21, 5, 29, 24, 4, 23, 3, 2, 1];
const LIST_NUMBERS: [u32; 12] = [21, 5, 29, 24, 4, 23, 3, 2, 28, 27, 26, 1];

/// How many sets of damages there are, the empty one included.
pub const SETS: u64 = 1 << NUMBERS.len();
pub const LIST_SETS: u64 = 1 << LIST_NUMBERS.len();
pub const RUN_SETS: u64 = SETS;

pub fn draw(random: &mut Random, index: u64) -> Drawn {
    let case = random_paired(random);
    damaged(case, &NUMBERS, index, |case, number| match number {
        29 => pairs(random, &mut case.closed.tables),
        _ => damage_ended(random, case, number),
    })
}

pub fn draw_list(random: &mut Random, index: u64) -> Drawn {
    let case = random_paired_list(random);
    damaged(case, &LIST_NUMBERS, index, |case, number| match number {
        29 => pairs(random, &mut case.ended.closed.tables),
        _ => damage_list(random, case, number),
    })
}

pub fn draw_run(random: &mut Random, index: u64) -> Drawn {
    let case = random_paired_run(random);
    damaged_run(random, case, index)
}

pub fn damaged_run(random: &mut Random, case: Case, index: u64) -> Drawn {
    damaged(case, &NUMBERS, index, |case, number| match number {
        29 => pairs(random, &mut case.tables),
        _ => damage_run(random, case, number),
    })
}
