//! Moves that document 01 refuses: a good one, damaged in one or more ways.

use super::case::Cutting;
use super::doable::Doable;
use super::generate::random_apply;
use crate::damage;
use crate::random::Random;
use crate::rules::MOST_STOPS;
use crate::trial::{damaged, Drawn};

/// The refusal numbers of apply, the last of the stated order first.
const APPLY: [u32; 6] = [21, 8, 7, 6, 5, 1];
pub const APPLY_SETS: u64 = 1 << APPLY.len();

/// Those of the doable check.
const DOABLE: [u32; 4] = [21, 6, 5, 1];
pub const DOABLE_SETS: u64 = 1 << DOABLE.len();

pub fn draw_apply(random: &mut Random, index: u64) -> Drawn {
    let apply = random_apply(random);
    damaged(apply, &APPLY, index, |apply, number| match number {
        21 => apply.room = random.index(apply.route.len()),
        5 => {
            let longer = MOST_STOPS + random.pick([1, 2, 88, 512]);
            apply.route.resize(longer, 5);
        }
        _ => damage(random, &mut apply.cutting, apply.route.len(), number),
    })
}

pub fn draw_doable(random: &mut Random, index: u64) -> Drawn {
    let apply = random_apply(random);
    let (cutting, n) = (apply.cutting, apply.route.len());
    let doable = Doable {
        cutting,
        n,
        room: 1,
    };
    damaged(doable, &DOABLE, index, |doable, number| match number {
        21 => doable.room = 0,
        5 => doable.n = random.pick([MOST_STOPS + 1, 1 << 32, usize::MAX]),
        _ => damage(random, &mut doable.cutting, n, number),
    })
}

fn damage(random: &mut Random, cutting: &mut Cutting, n: usize, number: u32) {
    match number {
        1 => cutting.k = damage::wrong_k(random),
        6 => cutting.pattern = damage::wrong_pattern(random, cutting.k),
        7 => damage_cuts(random, cutting, n),
        _ => {
            let place = random.index(cutting.k);
            cutting.cut_rounds[place] = cutting.round.wrapping_add(random.pick([1, 2, 1 << 32]));
        }
    }
}

/// Too many or too few, unequal lists, one beyond the route, two alike, or two in the wrong order.
fn damage_cuts(random: &mut Random, cutting: &mut Cutting, n: usize) {
    let last = cutting.k - 1;
    match random.below(7) {
        0 => cutting.cut_rounds.push(cutting.round),
        1 => cutting.cut_rounds.truncate(last),
        2 => cutting.cut_positions.truncate(last),
        3 => {
            cutting.cut_rounds.truncate(last);
            cutting.cut_positions.truncate(last);
        }
        4 => cutting.cut_positions[last] = random.pick([n + 1, 1 << 32, usize::MAX]),
        5 => cutting.cut_positions[last] = cutting.cut_positions[last - 1],
        _ => cutting.cut_positions.swap(last - 1, last),
    }
}
