//! Random calls, with lists that have much to do with each other, and calls of which polishing would refuse something.

use super::case::Case;
use crate::damage::{pairs, service, sizes, unknown};
use crate::draw::another_order;
use crate::ends::generate::some_end;
use crate::parts::route::{damage_route, random_route, Route};
use crate::precedence::lists::set_pairs;
use crate::random::Random;
use crate::trial::{damaged, Drawn};
use std::mem::{swap, take};

pub fn draw(random: &mut Random, _index: u64) -> Drawn {
    (Box::new(random_case(random)), None)
}

/// A route with pairs that are drawn for it, and another list; in either order.
fn random_case(random: &mut Random) -> Case {
    let Route {
        mut tables,
        depot,
        stops,
    } = random_route(random);
    set_pairs(random, &mut tables, depot, &stops);
    let end = some_end(random, &tables, depot);
    let mut case = Case {
        second: other_list(random, tables.locations, &stops),
        first: stops,
        tables,
        depot,
        end,
    };
    if random.one_in(2) {
        swap(&mut case.first, &mut case.second);
    }
    case
}

/// The same list again, the same stops in another order, a stop less or more, other stops, or none.
fn other_list(random: &mut Random, locations: usize, list: &[u32]) -> Vec<u32> {
    let stop = random.index(locations) as u32;
    let mut other = another_order(random, list);
    match random.below(10) {
        0 => return list.to_vec(),
        1 => return Vec::new(),
        2 => drop(other.pop()),
        3 if other.len() < 500 => other.push(stop),
        4 => other
            .iter_mut()
            .for_each(|place| *place = (*place + stop) % locations as u32),
        _ => {}
    }
    other
}

/// The refusal numbers of polishing with pairs but for k and the result, the last of the stated order first: 4 and 5 of the one list and of the other.
const NUMBERS: [u32; 9] = [105, 5, 29, 24, 104, 4, 23, 3, 2];
pub const SETS: u64 = 1 << NUMBERS.len();

/// Whatever is damaged, neither list comes back.
pub fn draw_damaged(random: &mut Random, index: u64) -> Drawn {
    let case = random_case(random);
    let (case, meant) = damaged(case, &NUMBERS, index, |case, number| match number {
        2 => sizes(random, &mut case.tables),
        23 => service(random, &mut case.tables),
        24 => case.end = unknown(random, &case.tables),
        29 => pairs(random, &mut case.tables),
        104 | 105 => {
            swap(&mut case.first, &mut case.second);
            damage_list(random, case, number - 100);
            swap(&mut case.first, &mut case.second);
        }
        _ => damage_list(random, case, number),
    });
    assert!(meant == Some(0) || case.expected().number(0, 0) == 0);
    (case, None)
}

/// 3, and 4 and 5 of the first list.
fn damage_list(random: &mut Random, case: &mut Case, number: u32) {
    let mut route = Route {
        tables: take(&mut case.tables),
        depot: case.depot,
        stops: take(&mut case.first),
    };
    damage_route(random, &mut route, number);
    case.tables = route.tables;
    case.depot = route.depot;
    case.first = route.stops;
}
