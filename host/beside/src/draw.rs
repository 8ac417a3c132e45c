//! Random tables, orders, service times and deadlines that are not refused.

use crate::random::Random;
use crate::rules::{LONGEST_LEG, LONGEST_SERVICE};
use crate::tables::Tables;

pub fn leg_table(random: &mut Random, locations: usize) -> Vec<u32> {
    let longest = u64::from(random.pick([0, 1, 2, 5, 20, 1000, LONGEST_LEG]));
    let kind = random.below(6);
    let mut legs = match kind {
        0 => vec![longest as u32; locations * locations],
        1 => (0..locations * locations)
            .map(|_| random.pick([0, longest as u32]))
            .collect(),
        2 => plane(random, locations),
        _ => (0..locations * locations)
            .map(|_| random.below(longest + 1) as u32)
            .collect::<Vec<u32>>(),
    };
    if kind == 3 {
        mirror(&mut legs, locations);
    }
    if random.one_in(2) {
        legs.iter_mut()
            .step_by(locations + 1)
            .for_each(|leg| *leg = 0);
    }
    legs
}

/// Different legs, which leave much to be improved.
pub fn lively_legs(random: &mut Random, locations: usize) -> Vec<u32> {
    let longest = random.pick([20, 1000, u64::from(LONGEST_LEG)]);
    (0..locations * locations)
        .map(|_| random.below(longest + 1) as u32)
        .collect()
}

/// One kind of table or the other.
pub fn some_legs(random: &mut Random, locations: usize) -> Vec<u32> {
    if random.one_in(2) {
        lively_legs(random, locations)
    } else {
        leg_table(random, locations)
    }
}

fn mirror(legs: &mut [u32], locations: usize) {
    for from in 0..locations {
        for to in 0..from {
            legs[from * locations + to] = legs[to * locations + from];
        }
    }
}

/// Distances of random points in a square of 1000 by 1000.
pub fn plane(random: &mut Random, locations: usize) -> Vec<u32> {
    let points: Vec<(f64, f64)> = (0..locations)
        .map(|_| (random.below(1000) as f64, random.below(1000) as f64))
        .collect();
    let row = |from: &(f64, f64)| {
        let distance = |to: &(f64, f64)| (from.0 - to.0).hypot(from.1 - to.1).round() as u32;
        points.iter().map(distance).collect::<Vec<u32>>()
    };
    points.iter().flat_map(row).collect()
}

/// Different stops without the depot where there are enough, else any, the depot included.
pub fn order(random: &mut Random, locations: usize, depot: u32, stops: usize) -> Vec<u32> {
    if stops >= locations || random.one_in(5) {
        return (0..stops).map(|_| random.index(locations) as u32).collect();
    }
    let mut all: Vec<u32> = (0..locations as u32)
        .filter(|&place| place != depot)
        .collect();
    random.shuffle(&mut all);
    all.truncate(stops);
    all
}

pub fn some_depot(random: &mut Random, locations: usize) -> u32 {
    let any = random.index(locations) as u32;
    random.pick([0, any])
}

/// Service times and deadlines of many kinds, drawn for one route.
pub fn set_times(random: &mut Random, tables: &mut Tables, depot: u32, route: &[u32]) {
    set_service(random, tables, depot, route);
    set_deadlines(random, tables, depot, route);
}

/// None, short ones, some as long as legs, the longest; or of one place alone: the depot, or a stop, which may repeat.
fn set_service(random: &mut Random, tables: &mut Tables, depot: u32, route: &[u32]) {
    let longest = u64::from(tables.legs.iter().copied().max().unwrap_or(0));
    let one = random.pick([1, capped(longest), LONGEST_SERVICE]);
    match random.below(8) {
        0..=2 => {}
        3 => each_service(random, tables, |random| random.below(4) as u32),
        4 => each_service(random, tables, |random| random.below(longest + 1) as u32),
        5 => each_service(random, tables, |random| {
            random.pick([0, one, LONGEST_SERVICE])
        }),
        6 => tables.service[depot as usize] = one,
        _ => {
            if let Some(&stop) = route.get(random.index(route.len())) {
                tables.service[stop as usize] = one;
            }
        }
    }
}

fn each_service(random: &mut Random, tables: &mut Tables, draw: impl Fn(&mut Random) -> u32) {
    tables.service = (0..tables.locations).map(|_| draw(random)).collect();
}

fn set_deadlines(random: &mut Random, tables: &mut Tables, depot: u32, route: &[u32]) {
    let whole = tables.whole(depot, route);
    match random.below(8) {
        0 | 1 => {}
        2 => due_after(random, tables, depot, route, 1),
        3 => due_after(random, tables, depot, route, 2),
        4 => due_after_another_order(random, tables, depot, route),
        5 => {
            tables.latest = (0..tables.locations)
                .map(|_| capped(random.below(whole + 2)))
                .collect()
        }
        6 => one_deadline(random, tables, depot, route),
        _ => tables.latest = vec![capped(random.below(whole + 2)); tables.locations],
    }
}

pub fn capped(seconds: u64) -> u32 {
    u32::try_from(seconds).unwrap_or(u32::MAX)
}

/// Each stop, or one in `share` of them, is due soon after the order handed in reaches it last: nothing is late.
fn due_after(random: &mut Random, tables: &mut Tables, depot: u32, route: &[u32], share: u64) {
    let whole = tables.whole(depot, route);
    let slack = random.pick([1, 2, 2 + whole / 10, 2 + whole / 2]);
    for (position, seconds) in tables.arrivals(depot, route).into_iter().enumerate() {
        if random.one_in(share) {
            let stop = route[position];
            let again = route[position + 1..].contains(&stop);
            tables.latest[stop as usize] = if again {
                u32::MAX
            } else {
                capped(seconds + random.below(slack))
            };
        }
    }
}

/// Another order is on time; the one handed in often is not.
fn due_after_another_order(random: &mut Random, tables: &mut Tables, depot: u32, route: &[u32]) {
    let other = another_order(random, route);
    due_after(random, tables, depot, &other, 1);
}

/// A few stops have changed places.
pub fn another_order(random: &mut Random, route: &[u32]) -> Vec<u32> {
    let mut other = route.to_vec();
    let swaps = random.within(1, 3);
    for _ in 0..swaps.min(other.len()) {
        let (from, to) = (random.index(other.len()), random.index(other.len()));
        other.swap(from, to);
    }
    other
}

/// One stop is due exactly when it is reached, a second before or after, or at once.
fn one_deadline(random: &mut Random, tables: &mut Tables, depot: u32, route: &[u32]) {
    let arrivals = tables.arrivals(depot, route);
    if arrivals.is_empty() {
        return;
    }
    let position = random.index(arrivals.len());
    let reached = arrivals[position];
    let stop = route[position] as usize;
    let due = random.pick([reached, reached.saturating_sub(1), reached + 1, 0]);
    tables.latest[stop] = capped(due);
}

/// The first, the last or any place.
pub fn some_place(random: &mut Random, places: usize) -> usize {
    let any = random.index(places);
    random.pick([0, places.saturating_sub(1), any])
}

/// Every list of `length` entries.
pub fn lists(entries: &[u32], length: usize) -> Vec<Vec<u32>> {
    let mut lists = vec![Vec::new()];
    for _ in 0..length {
        let longer = |list: &Vec<u32>| {
            entries
                .iter()
                .map(|&entry| [&list[..], &[entry]].concat())
                .collect::<Vec<_>>()
        };
        lists = lists.iter().flat_map(longer).collect();
    }
    lists
}

/// Every list of up to `longest` stops.
pub fn routes(locations: u32, longest: usize) -> Vec<Vec<u32>> {
    let stops: Vec<u32> = (0..locations).collect();
    (0..=longest)
        .flat_map(|length| lists(&stops, length))
        .collect()
}

pub fn with_times(tables: Tables, latest: Vec<u32>, service: Vec<u32>) -> Tables {
    Tables {
        latest,
        service,
        ..tables
    }
}
