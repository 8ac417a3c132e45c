//! Listings that document 01 refuses: a good one, damaged in one or more ways.

use super::generate::random_case;
use crate::cases::nearby::{Case, RESULT_PLACES};
use crate::damage;
use crate::draw::some_place;
use crate::random::Random;
use crate::rules::{LONGEST_PIECE, MOST_NEIGHBOURS, MOST_STOPS};
use crate::trial::{damaged, Drawn};

/// The refusal numbers of the listing, the last of the stated order first.
pub const NUMBERS: [u32; 4] = [21, 9, 5, 1];

pub const SETS: u64 = 1 << NUMBERS.len();

pub fn draw(random: &mut Random, index: u64) -> Drawn {
    let case = random_case(random);
    damaged(case, &NUMBERS, index, |case, number| {
        damage(random, case, number)
    })
}

pub fn damage(random: &mut Random, case: &mut Case, number: u32) {
    match number {
        1 => case.k = damage::wrong_k(random),
        5 => too_long(random, case),
        9 => damage_listing(random, case),
        _ if random.one_in(2) => case.room = random.index(RESULT_PLACES),
        _ => case.sets_room = random.index(case.k),
    }
}

/// Too many positions, seldom with a table that fits them, which is large.
fn too_long(random: &mut Random, case: &mut Case) {
    case.n = MOST_STOPS + 1;
    if random.one_in(50) {
        case.distances.resize(case.n * case.n, 1.0);
    } else {
        case.n = random.pick([MOST_STOPS + 1, 1 << 32, 1 << 63, usize::MAX]);
    }
}

fn damage_listing(random: &mut Random, case: &mut Case) {
    match random.below(6) {
        0 => case.min_segment_len = random.pick([0, LONGEST_PIECE + 1, usize::MAX]),
        1 => case.max_nearby = random.pick([MOST_NEIGHBOURS + 1, 1 << 32, usize::MAX]),
        2 => case.distances.push(1.0),
        3 if case.n > 0 => case.distances.truncate(case.distances.len() - 1),
        _ if case.n > 0 => no_number(random, case),
        _ => case.distances.push(0.0),
    }
}

/// A NaN of any kind anywhere, the diagonal included.
fn no_number(random: &mut Random, case: &mut Case) {
    let any = random.index(case.n);
    let place = some_place(random, case.distances.len());
    let place = random.pick([place, any * (case.n + 1)]);
    let kinds = [
        0x7ff8_0000_0000_0000,
        0xfff8_0000_0000_0000,
        0x7ff0_0000_0000_0001,
        0xffff_ffff_ffff_ffff,
        0x7ff8_dead_beef_0000,
    ];
    case.distances[place] = f64::from_bits(random.pick(kinds));
}
