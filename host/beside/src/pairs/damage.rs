//! Calls that are refused: a good one, damaged in one or more ways. k is none of them.

use super::generate::random_case;
use crate::cases::pairs::Case;
use crate::polish::damage::damage;
use crate::random::Random;
use crate::trial::{damaged, Drawn};

/// The refusal numbers of the pair loop, the last of the stated order first.
const NUMBERS: [u32; 6] = [21, 5, 4, 23, 3, 2];

pub const SETS: u64 = 1 << NUMBERS.len();

pub fn draw(random: &mut Random, index: u64) -> Drawn {
    let case = random_case(random);
    damaged(case, &NUMBERS, index, |case, number| {
        let mut asked = case.asked().clone();
        damage(random, &mut asked, number);
        *case = Case::new(asked);
    })
}
