//! Damages that several calls share.

use crate::draw::some_place;
use crate::random::Random;
use crate::rules::{pattern_count, LONGEST_LEG, LONGEST_SERVICE, MOST_LOCATIONS, MOST_PAIRS};
use crate::tables::Tables;

pub fn wrong_k(random: &mut Random) -> usize {
    random.pick([0, 1, 6, 7, 64, usize::MAX, 1 << 32, (1 << 32) + 3])
}

pub fn wrong_pattern(random: &mut Random, k: usize) -> usize {
    let count = pattern_count(k);
    random.pick([count, count + 1, 384, 1 << 32, usize::MAX])
}

pub fn a_leg(random: &mut Random, tables: &mut Tables) {
    let place = some_place(random, tables.legs.len());
    tables.legs[place] = random.pick([LONGEST_LEG + 1, u32::MAX, 1 << 31]);
}

pub fn a_service_time(random: &mut Random, tables: &mut Tables) {
    let place = some_place(random, tables.service.len());
    tables.service[place] = random.pick([LONGEST_SERVICE + 1, u32::MAX, 1 << 31]);
}

/// The number of service times, or one of them.
pub fn service(random: &mut Random, tables: &mut Tables) {
    match random.below(6) {
        0 => tables.service.push(0),
        1 => tables.service.truncate(tables.service.len() - 1),
        2 => tables.service.clear(),
        _ => a_service_time(random, tables),
    }
}

pub fn unknown(random: &mut Random, tables: &Tables) -> u32 {
    let locations = tables.locations as u32;
    random.pick([locations, locations + 1, u32::MAX])
}

pub fn a_stop(random: &mut Random, tables: &Tables, route: &mut [u32]) {
    let place = some_place(random, route.len());
    route[place] = unknown(random, tables);
}

/// Too many pairs, a member without its partner, one that is no location, or a pair of equal ones.
pub fn pairs(random: &mut Random, tables: &mut Tables) {
    let stranger = unknown(random, tables);
    let pairs = tables.pairs.get_or_insert_with(Vec::new);
    if pairs.is_empty() {
        pairs.extend([0, 1]);
    }
    let place = some_place(random, pairs.len());
    match random.below(5) {
        0 => {
            let members = 2 * MOST_PAIRS + random.pick([1, 2, 2, 4, 872]);
            *pairs = [0, 1].into_iter().cycle().take(members).collect();
        }
        1 => drop(pairs.pop()),
        2 => pairs[place] = stranger,
        3 => pairs.extend([stranger, stranger]),
        _ => pairs[place] = pairs[place ^ 1],
    }
}

/// The legs' size, or the number of locations.
pub fn legs_size(random: &mut Random, tables: &mut Tables) {
    match random.below(8) {
        0 => tables.legs.truncate(tables.legs.len() - 1),
        1 => tables.legs.push(0),
        2 => tables.locations += 1,
        3 => tables.locations -= 1,
        4 => resize(tables, 0),
        5 => tables.legs.clear(),
        6 => empty_tables_of_many(random, tables),
        _ => too_many(random, tables),
    }
}

/// As above, or the deadlines' size.
pub fn sizes(random: &mut Random, tables: &mut Tables) {
    match random.below(5) {
        0 => tables.latest.push(0),
        1 => tables.latest.truncate(tables.latest.len() - 1),
        _ => legs_size(random, tables),
    }
}

/// Tables that fit the number of locations.
fn resize(tables: &mut Tables, locations: usize) {
    tables.locations = locations;
    tables.legs.resize(locations * locations, 0);
    tables.latest.resize(locations, 0);
    tables.service.resize(locations, 0);
}

/// Numbers of locations whose square is 0 in 64 bits.
fn empty_tables_of_many(random: &mut Random, tables: &mut Tables) {
    tables.locations = random.pick([1 << 32, 1 << 63, 3 << 32]);
    tables.legs.clear();
    tables.latest.clear();
    tables.service.clear();
}

/// Too many locations, seldom with tables that fit them, which are large.
fn too_many(random: &mut Random, tables: &mut Tables) {
    if random.one_in(50) {
        resize(tables, MOST_LOCATIONS + 1);
    } else {
        tables.locations = random.pick([MOST_LOCATIONS + 1, usize::MAX, 1 << 33, usize::MAX / 2]);
    }
}
