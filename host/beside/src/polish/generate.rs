//! Random cases that are not refused.

use crate::cases::polish::{Case, RESULT_PLACES};
use crate::draw::{leg_table, order, set_times, some_depot};
use crate::oracle::polish::polish;
use crate::random::Random;
use crate::rules::{MOST_LOCATIONS, MOST_STOPS};
use crate::tables::Tables;
use crate::trial::Drawn;

pub fn draw(random: &mut Random, _index: u64) -> Drawn {
    (Box::new(random_case(random)), None)
}

pub fn random_case(random: &mut Random) -> Case {
    let k = random.within(2, 5);
    let mut case = without_allowance(random, k);
    case.allowance = allowance(random, &case);
    case
}

pub fn without_allowance(random: &mut Random, k: usize) -> Case {
    let stops = stop_count(random, k);
    let locations = location_count(random, stops);
    let mut tables = Tables::of_legs(locations, leg_table(random, locations));
    let depot = some_depot(random, locations);
    let room = if random.one_in(4) {
        random.within(RESULT_PLACES, 12)
    } else {
        RESULT_PLACES
    };
    let route = order(random, locations, depot, stops);
    set_times(random, &mut tables, depot, &route);
    Case {
        k,
        allowance: 0,
        tables,
        depot,
        route,
        room,
    }
}

/// Mostly 0 to 12 and, so that many scans finish, fewer for a large k; some 20 to 64; a few up to the bound.
fn stop_count(random: &mut Random, k: usize) -> usize {
    match random.below(4000) {
        0 => random.within(65, MOST_STOPS),
        1..=120 => random.within(20, 64),
        121..=800 => random.within(0, 12),
        _ => random.within(0, [12, 11, 8, 7][k - 2]),
    }
}

/// Room for different stops, or fewer so that stops repeat; a few of the greatest size.
fn location_count(random: &mut Random, stops: usize) -> usize {
    match random.below(4000) {
        0 => random.within(1000, MOST_LOCATIONS),
        1..=1000 => random.within(1, stops + 1),
        _ => stops + random.within(1, 3),
    }
}

/// None, one, few, or about as many as the Rust examines until it is finished or has examined a given number.
fn allowance(random: &mut Random, case: &Case) -> u64 {
    match random.below(20) {
        0 => return 0,
        1 => return 1,
        2 => return random.below(60),
        _ => {}
    }
    let most = probe_size(random, case.route.len());
    let counts = polish(case, most, &mut case.route.clone());
    let some = random.below(counts.examined + 1);
    let whole = if counts.spent {
        counts.examined
    } else {
        u64::MAX - random.below(2)
    };
    let around = [
        counts.examined.saturating_sub(1),
        counts.examined,
        counts.examined + 1,
    ];
    random.pick([around[0], around[1], around[2], some, whole])
}

/// Keeps a case short: the Rust fills a table of (stops + 1)² after each acceptance.
fn probe_size(random: &mut Random, stops: usize) -> u64 {
    if stops > 64 {
        return random.below(200);
    }
    if random.one_in(2000) {
        return 1 << 19;
    }
    let doublings = random.within(4, if stops > 12 { 13 } else { 15 });
    (1 << doublings) + random.below(1 << doublings)
}
