//! Runs to end harbours, and those that are refused.

use super::generate::some_end;
use crate::cases::run::Case;
use crate::damage::a_stop;
use crate::random::Random;
use crate::run::damage::{damage, with_a_round};
use crate::run::generate::random_run;
use crate::trial::{damaged, Drawn};

pub fn to_ends(random: &mut Random, mut case: Case) -> Case {
    let depots = case.depots.iter();
    let ends = depots.map(|&depot| some_end(random, &case.tables, depot));
    case.ends = Some(ends.collect());
    case
}

pub fn draw(random: &mut Random, _index: u64) -> Drawn {
    let case = random_run(random);
    (Box::new(to_ends(random, case)), None)
}

/// The refusal numbers of the run to ends, the last of the stated order first.
const NUMBERS: [u32; 8] = [21, 5, 24, 4, 23, 3, 2, 1];

pub const SETS: u64 = 1 << NUMBERS.len();

pub fn draw_damaged(random: &mut Random, index: u64) -> Drawn {
    let case = with_a_round(random_run(random));
    let case = to_ends(random, case);
    damaged(case, &NUMBERS, index, |case, number| {
        damage_run(random, case, number)
    })
}

pub fn damage_run(random: &mut Random, case: &mut Case, number: u32) {
    match number {
        24 => damage_ends(random, case),
        5 if random.one_in(3) => another_number(random, case),
        _ => damage(random, case, number),
    }
}

fn damage_ends(random: &mut Random, case: &mut Case) {
    let ends = case.ends.get_or_insert_with(Vec::new);
    if ends.is_empty() {
        ends.push(0);
    }
    a_stop(random, &case.tables, ends);
}

/// Another number of ends than of rounds.
fn another_number(random: &mut Random, case: &mut Case) {
    let ends = case.ends.get_or_insert_with(Vec::new);
    match ends.pop() {
        Some(last) if random.one_in(2) => ends.extend([last, 0]),
        _ => {}
    }
}
