//! Calls from several threads at once: each gives what it gives alone, writes nothing beside what it was lent, and leaves the tables that all
//! of them read as they were.

#![forbid(unsafe_code)]

#[path = "support/mod.rs"]
mod support;

use mittenschist::raw;
use std::sync::Barrier;
use std::thread;
use support::lent::{filled, filled_u32, filled_usize, Lent};
use support::{kept, written};

const THREADS: u32 = 8;
const CALLS: u32 = 40;
const PASSES: u32 = 10;
const LOCATIONS: usize = 40;

/// Tables that all threads read at once.
struct Tables<'t> {
    legs: &'t [u32],
    latest: &'t [u32],
    service: &'t [u32],
    distances: &'t [f64],
}

/// Everything that a caller sees of one call of each kind; which ones depends on the number.
fn calls(tables: &Tables, number: u32) -> Vec<Vec<u64>> {
    vec![
        polished(tables, number),
        paired(tables, number),
        ran(tables, number),
        ended(tables, number),
        in_order(tables, number),
        sliced(tables, number),
        ran_to_ends(tables, number),
        listed(tables, number),
        all_listed(tables, number),
        moved(number),
    ]
}

fn stops(number: u32, count: u32) -> Vec<u32> {
    (0..count)
        .map(|place| (place * 7 + number) % LOCATIONS as u32)
        .collect()
}

fn cuts(number: u32) -> usize {
    2 + number as usize % 4
}

fn polished(tables: &Tables, number: u32) -> Vec<u64> {
    let (before, room) = (stops(number, 12), filled(7));
    let (mut route, mut result) = (Lent::new("route", &before), Lent::new("result", &room));
    let code = raw::polish_route(
        cuts(number),
        20_000 + u64::from(number),
        LOCATIONS,
        tables.legs,
        tables.latest,
        tables.service,
        0,
        route.slice(),
        result.slice(),
    );
    [vec![u64::from(code)], written(&route), written(&result)].concat()
}

fn paired(tables: &Tables, number: u32) -> Vec<u64> {
    let (before, room) = (stops(number, 12), filled(7));
    let (mut route, mut result) = (Lent::new("route", &before), Lent::new("result", &room));
    let code = raw::pair_loop(
        2_000 + u64::from(number),
        LOCATIONS,
        tables.legs,
        tables.latest,
        tables.service,
        0,
        route.slice(),
        result.slice(),
    );
    [vec![u64::from(code)], written(&route), written(&result)].concat()
}

fn ran(tables: &Tables, number: u32) -> Vec<u64> {
    let (before, room) = (stops(number, 20), filled(13));
    let (mut all, mut result) = (Lent::new("stops", &before), Lent::new("result", &room));
    let code = raw::run_list_k_opt(
        cuts(number),
        9_000,
        LOCATIONS,
        tables.legs,
        tables.latest,
        tables.service,
        all.slice(),
        &[9, 3, 8],
        &[0, 1, 2],
        &[0, 0, 0],
        result.slice(),
    );
    [vec![u64::from(code)], written(&all), written(&result)].concat()
}

fn ended(tables: &Tables, number: u32) -> Vec<u64> {
    let (before, room) = (stops(number, 12), filled(7));
    let (mut route, mut result) = (Lent::new("route", &before), Lent::new("result", &room));
    let code = raw::polish_route_to_end(
        cuts(number),
        20_000 + u64::from(number),
        LOCATIONS,
        tables.legs,
        tables.latest,
        tables.service,
        0,
        number % LOCATIONS as u32,
        route.slice(),
        result.slice(),
    );
    [vec![u64::from(code)], written(&route), written(&result)].concat()
}

/// The first stop before the second, the fourth before the fifth and so on, as they are handed in.
fn in_order(tables: &Tables, number: u32) -> Vec<u64> {
    let (before, room) = (stops(number, 12), filled(7));
    let pairs: Vec<u32> = before.windows(2).step_by(3).flatten().copied().collect();
    let (mut route, mut result) = (Lent::new("route", &before), Lent::new("result", &room));
    let code = raw::polish_route_with_pairs(
        cuts(number),
        20_000 + u64::from(number),
        LOCATIONS,
        tables.legs,
        tables.latest,
        tables.service,
        0,
        number % LOCATIONS as u32,
        &pairs,
        route.slice(),
        result.slice(),
    );
    [vec![u64::from(code)], written(&route), written(&result)].concat()
}

/// The same in slices, which other threads' slices come between: the sums, the place and the last numbers.
fn sliced(tables: &Tables, number: u32) -> Vec<u64> {
    let (before, room) = (stops(number, 12), filled(7));
    let pairs: Vec<u32> = before.windows(2).step_by(3).flatten().copied().collect();
    let k = cuts(number);
    let first: Vec<u64> = (0..k as u64).chain([0, 77]).collect();
    let mut place = Lent::new("place", &first);
    let (mut route, mut result) = (Lent::new("route", &before), Lent::new("result", &room));
    let (mut code, mut examined, mut accepted) = (0, 0, 0);
    for slice in 0..8 {
        code += raw::polish_slice(
            k,
            100 + 613 * u64::from((number + slice) % 5),
            LOCATIONS,
            tables.legs,
            tables.latest,
            tables.service,
            0,
            number % LOCATIONS as u32,
            &pairs,
            route.slice(),
            place.slice(),
            result.slice(),
        );
        examined += result.slice()[1];
        accepted += result.slice()[2];
        if result.slice()[0] == 0 {
            break;
        }
    }
    let sums = vec![u64::from(code), examined, accepted];
    [sums, written(&route), written(&place), written(&result)].concat()
}

fn ran_to_ends(tables: &Tables, number: u32) -> Vec<u64> {
    let (before, room) = (stops(number, 20), filled(13));
    let (mut all, mut result) = (Lent::new("stops", &before), Lent::new("result", &room));
    let code = raw::run_list_k_opt_to_ends(
        cuts(number),
        9_000,
        LOCATIONS,
        tables.legs,
        tables.latest,
        tables.service,
        all.slice(),
        &[9, 3, 8],
        &[0, 1, 2],
        &[2, 0, number % LOCATIONS as u32],
        &[0, 0, 0],
        result.slice(),
    );
    [vec![u64::from(code)], written(&all), written(&result)].concat()
}

fn listed(tables: &Tables, number: u32) -> Vec<u64> {
    let (places, room) = (filled_usize(101), filled(3));
    let (mut sets, mut result) = (Lent::new("sets", &places), Lent::new("result", &room));
    let neighbours = 1 + number as usize % 32;
    let (k, distances) = (cuts(number), tables.distances);
    let code = raw::nearby_cuts(
        LOCATIONS,
        distances,
        k,
        2,
        neighbours,
        sets.slice(),
        result.slice(),
    );
    [vec![u64::from(code)], written(&sets), written(&result)].concat()
}

fn all_listed(tables: &Tables, number: u32) -> Vec<u64> {
    let (places, room) = (filled_usize(101), filled(3));
    let (mut sets, mut result) = (Lent::new("sets", &places), Lent::new("result", &room));
    let neighbours = 1 + number as usize % 32;
    let (k, distances) = (cuts(number), tables.distances);
    let code = raw::every_nearby_cuts(
        LOCATIONS,
        distances,
        k,
        2,
        neighbours,
        sets.slice(),
        result.slice(),
    );
    [vec![u64::from(code)], written(&sets), written(&result)].concat()
}

/// Applied and taken back; every third one is refused.
fn moved(number: u32) -> Vec<u64> {
    let (before, room) = (stops(number, 30), filled_u32(30));
    let (mut route, mut journal) = (Lent::new("route", &before), Lent::new("journal", &room));
    let rounds = [0, 0, u32::from(number % 3 == 0) as usize];
    let cuts = [1, 5 + number as usize % 5, 28];
    let pattern = number as usize % 7;
    let done = raw::k_opt_do_move(
        3,
        pattern,
        0,
        &rounds,
        &cuts,
        route.slice(),
        journal.slice(),
    );
    let after = written(&route);
    let undone = raw::k_opt_undo_move(route.slice(), journal.slice());
    let codes = vec![u64::from(done), u64::from(undone)];
    [codes, after, written(&route), written(&journal)].concat()
}

#[test]
fn several_threads_at_once() {
    let leg = |place: u32| 1 + place.wrapping_mul(2_654_435_761) % 997;
    let legs: Vec<u32> = (0..(LOCATIONS * LOCATIONS) as u32).map(leg).collect();
    let latest: Vec<u32> = (0..LOCATIONS as u32)
        .map(|place| 20_000 + 100 * place)
        .collect();
    let service: Vec<u32> = (0..LOCATIONS as u32).map(|place| place % 7 * 300).collect();
    let distances: Vec<f64> = legs.iter().map(|&leg| f64::from(leg)).collect();
    let mut lent = (
        Lent::new("legs", &legs),
        Lent::new("deadlines", &latest),
        Lent::new("service", &service),
        Lent::new("distances", &distances),
    );
    at_once(&Tables {
        legs: lent.0.slice(),
        latest: lent.1.slice(),
        service: lent.2.slice(),
        distances: lent.3.slice(),
    });
    kept(&lent.0);
    kept(&lent.1);
    kept(&lent.2);
    kept(&lent.3);
}

fn at_once(tables: &Tables) {
    let alone: Vec<_> = (0..CALLS).map(|number| calls(tables, number)).collect();
    let start = Barrier::new(THREADS as usize);
    thread::scope(|scope| {
        for thread in 0..THREADS {
            let (alone, start) = (&alone, &start);
            scope.spawn(move || {
                start.wait();
                // Each thread has its own order, so that different calls meet.
                for number in (0..PASSES * CALLS).map(|number| (number * 3 + thread * 11) % CALLS) {
                    assert_eq!(
                        calls(tables, number),
                        alone[number as usize],
                        "call {number}"
                    );
                }
            });
        }
    });
}
