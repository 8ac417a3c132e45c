//! Calls that are refused: a good one, damaged in one or more ways.

use super::generate::some_rows;
use super::polish::Case;
use super::rows::Rows;
use crate::ends::damage::damage_ended;
use crate::random::Random;
use crate::rules::MOST_ROWS;
use crate::trial::{damaged, Drawn};

/// The refusal numbers, the last of the stated order first.
const NUMBERS: [u32; 11] = [21, 5, 24, 4, 23, 3, 2, 28, 27, 26, 1];

/// How many sets of damages there are, the empty one included.
pub const SETS: u64 = 1 << NUMBERS.len();

pub fn draw(random: &mut Random, index: u64) -> Drawn {
    let case = some_rows(random);
    damaged(case, &NUMBERS, index, |case, number| {
        damage_list(random, case, number)
    })
}

pub fn damage_list(random: &mut Random, case: &mut Case, number: u32) {
    let k = case.ended.closed.k;
    match number {
        28 => a_useless_row(random, &mut case.rows, k),
        27 => a_bad_row(random, &mut case.rows, k),
        26 => the_count(random, &mut case.rows, k),
        _ => damage_ended(random, &mut case.ended, number),
    }
}

/// One that changes nothing, or one that stands elsewhere.
fn a_useless_row(random: &mut Random, rows: &mut Rows, k: usize) {
    let count = rows.masks.len();
    let row = random.index(count);
    let other = random.index(count);
    if row == other {
        let unchanged: Vec<u8> = (0..=k as u8).collect();
        return rows.set(k, row, &unchanged, 0);
    }
    let order = rows.orders[other * (k + 1)..(other + 1) * (k + 1)].to_vec();
    rows.set(k, row, &order, rows.masks[other]);
}

fn a_bad_row(random: &mut Random, rows: &mut Rows, k: usize) {
    let row = random.index(rows.masks.len());
    let order = &mut rows.orders[row * (k + 1)..(row + 1) * (k + 1)];
    match random.below(6) {
        0 => order[1] = order[2],
        1 => order.swap(0, 1),
        2 => order.swap(k - 1, k),
        3 => order[random.index(k + 1)] = random.pick([k as u8 + 1, 128, 255]),
        4 => rows.masks[row] |= 1,
        _ => rows.masks[row] |= 1 << random.within(k, 7),
    }
}

/// None, one too many, or orders that do not fit the masks.
fn the_count(random: &mut Random, rows: &mut Rows, k: usize) {
    match random.below(5) {
        0 => *rows = Rows::of(k, 0..0),
        1 => {
            rows.orders.resize((MOST_ROWS + 1) * (k + 1), 1);
            rows.masks.resize(MOST_ROWS + 1, 1);
        }
        2 => rows.orders.push(0),
        3 => drop(rows.orders.pop()),
        _ => rows.masks.push(2),
    }
}
