//! Runs that are refused: a good one, damaged in one or more ways.

use super::generate::random_run;
use crate::cases::run::{Case, NUMBERS_A_ROUND};
use crate::damage;
use crate::random::Random;
use crate::rules::{MOST_ROUNDS, MOST_STOPS};
use crate::trial::{damaged, Drawn};

/// The refusal numbers of the run, the last of the stated order first.
const NUMBERS: [u32; 7] = [21, 5, 4, 23, 3, 2, 1];

pub const SETS: u64 = 1 << NUMBERS.len();

pub fn draw(random: &mut Random, index: u64) -> Drawn {
    let case = with_a_round(random_run(random));
    damaged(case, &NUMBERS, index, |case, number| {
        damage(random, case, number)
    })
}

pub fn with_a_round(mut case: Case) -> Case {
    if case.lengths.is_empty() {
        add_round(&mut case, 2);
    }
    case
}

fn add_round(case: &mut Case, stops: usize) {
    case.lengths.push(stops);
    case.stops.resize(case.stops.len() + stops, 0);
    case.depots.push(0);
    if let Some(ends) = &mut case.ends {
        ends.push(0);
    }
    case.pins.push(0);
    case.room += NUMBERS_A_ROUND;
}

pub fn damage(random: &mut Random, case: &mut Case, number: u32) {
    match number {
        1 => case.k = damage::wrong_k(random),
        2 => damage::sizes(random, &mut case.tables),
        3 => damage::a_leg(random, &mut case.tables),
        23 => damage::service(random, &mut case.tables),
        4 => damage_places(random, case),
        5 => damage_rounds(random, case),
        _ => case.room = random.index(case.lengths.len() * NUMBERS_A_ROUND),
    }
}

fn damage_places(random: &mut Random, case: &mut Case) {
    if case.stops.is_empty() || random.one_in(3) {
        if case.depots.is_empty() {
            case.depots.push(0);
        }
        damage::a_stop(random, &case.tables, &mut case.depots);
    } else {
        damage::a_stop(random, &case.tables, &mut case.stops);
    }
}

/// Lists whose sizes disagree, too many rounds, or a round too long.
fn damage_rounds(random: &mut Random, case: &mut Case) {
    match random.below(11) {
        0 => case.pins.push(0),
        1 => case.pins.truncate(case.pins.len() - 1),
        2 => case.depots.push(0),
        3 => case.depots.truncate(case.depots.len() - 1),
        4 => case.lengths.push(0),
        5 => case.stops.push(0),
        6 => case.lengths[0] += 1,
        7 => case.lengths[0] = random.pick([usize::MAX, 1 << 63, 1 << 32]),
        8 => wrapping_lengths(case),
        9 => add_round(case, MOST_STOPS + 1),
        _ => (0..=MOST_ROUNDS).for_each(|_| add_round(case, 0)),
    }
}

/// Lengths whose sum in 64 bits is the number of stops.
fn wrapping_lengths(case: &mut Case) {
    for half in [1 << 63, 1 << 63] {
        add_round(case, 0);
        if let Some(length) = case.lengths.last_mut() {
            *length = half;
        }
    }
}
