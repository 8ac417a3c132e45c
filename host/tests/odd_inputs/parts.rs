use crate::pools::{self, Tables};
use crate::support::lent::{filled, filled_u32, Lent};
use crate::support::rules::{bad_cuts, bad_k, bad_pattern, first_refusal, too_many_stops};
use crate::support::{kept, kept_beyond, number, on_small_stack, written};
use mittenschist::{raw, Deadline, Harbours};

fn every_pattern() {
    for k in pools::CUT_COUNTS {
        for pattern in pools::PATTERNS {
            for room in [0, 3, 4, 5, 6, 7, 9] {
                check_pattern(k, pattern, room);
            }
        }
    }
}

fn check_pattern(k: usize, pattern: usize, room: usize) {
    let rules = [(1, bad_k(k)), (6, bad_pattern(k, pattern))];
    let places = k.saturating_add(2);
    let before = filled(room);
    let mut result = Lent::new("result", &before);
    let returned = raw::reconnection_at(k, pattern, result.slice());
    assert_eq!(
        returned,
        first_refusal(&[rules[0], rules[1], (21, room < places)])
    );
    kept_beyond(&result, &before, if returned == 0 { places } else { 0 });
    let answer = mittenschist::reconnection_at(k, pattern);
    assert!(answer
        .as_ref()
        .map_or(true, |found| found.order.len() == k + 1));
    assert_eq!(number(answer), first_refusal(&rules));
}

fn every_step() {
    for k in pools::CUT_COUNTS {
        for n in pools::STOP_COUNTS {
            for cuts in &pools::cuts() {
                for room in [0, 1, 2] {
                    check_step(k, n, cuts, room);
                }
            }
        }
    }
}

fn check_step(k: usize, n: usize, handed_in: &[usize], room: usize) {
    let rules = [
        (1, bad_k(k)),
        (5, too_many_stops(n)),
        (7, bad_cuts(k, n, handed_in)),
    ];
    let before = filled(room);
    let mut cuts = Lent::new("cuts", handed_in);
    let mut result = Lent::new("result", &before);
    let returned = raw::next_cut_set(k, n, cuts.slice(), result.slice());
    let expected = first_refusal(&[rules[0], rules[1], rules[2], (21, room < 1)]);
    assert_eq!(returned, expected);
    let written = usize::from(returned == 0);
    kept_beyond(&result, &before, written);
    kept_beyond(&cuts, handed_in, written * handed_in.len());
    let mut cuts = Lent::new("cuts", handed_in);
    let answer = mittenschist::next_cut_set(k, n, cuts.slice());
    assert_eq!(number(answer), first_refusal(&rules));
    kept_beyond(&cuts, handed_in, answer.map_or(0, |_| handed_in.len()));
}

fn every_rejoining() {
    for k in pools::CUT_COUNTS {
        for pattern in pools::PATTERNS {
            for cuts in &pools::cuts() {
                for route in &pools::routes() {
                    check_rejoining(k, pattern, cuts, route);
                }
            }
        }
    }
}

fn check_rejoining(k: usize, pattern: usize, handed_in: &[usize], stops: &[u32]) {
    let n = stops.len();
    for room in [0, n.saturating_sub(1), n, n + 2] {
        let before = filled_u32(room);
        let mut cuts = Lent::new("cuts", handed_in);
        let mut route = Lent::new("route", stops);
        let mut out = Lent::new("out", &before);
        let answer = mittenschist::reconnect(k, pattern, cuts.slice(), route.slice(), out.slice());
        let expected = first_refusal(&[
            (1, bad_k(k)),
            (5, too_many_stops(n)),
            (6, bad_pattern(k, pattern)),
            (7, bad_cuts(k, n, handed_in)),
            (21, room < n),
        ]);
        assert_eq!(number(answer), expected);
        kept(&cuts);
        kept(&route);
        kept_beyond(&out, &before, answer.map_or(0, |()| n));
    }
}

fn every_route() {
    for tables in &pools::tables() {
        for depot in pools::PLACES {
            for route in &pools::routes() {
                check_deadlines(tables, depot, route);
                for end in pools::ENDS {
                    check_length(tables, depot, end, route);
                    check_deltas(tables, depot, end, route);
                }
            }
        }
    }
}

/// The refusals of a route on legs alone.
fn route_rules(tables: &Tables, depot: u32, end: Option<u32>, route: &[u32]) -> [(u32, bool); 5] {
    [
        (2, tables.bad_legs_size()),
        (3, tables.bad_leg()),
        (4, tables.unknown(&[depot], route)),
        (24, tables.unknown_end(end)),
        (5, too_many_stops(route.len())),
    ]
}

fn with_room(rules: &[(u32, bool)], room: usize) -> u32 {
    first_refusal(&[rules, &[(21, room < 1)]].concat())
}

/// A closed tour where no end is handed in.
fn harbours(depot: u32, end: Option<u32>) -> Harbours {
    let end = end.unwrap_or(depot);
    Harbours { depot, end }
}

fn check_length(tables: &Tables, depot: u32, end: Option<u32>, stops: &[u32]) {
    let rules = route_rules(tables, depot, end, stops);
    for room in [0, 1, 2] {
        let before = filled(room);
        let mut legs = Lent::new("legs", &tables.legs);
        let mut route = Lent::new("route", stops);
        let mut result = Lent::new("result", &before);
        let (legs_lent, locations) = (legs.slice(), tables.locations);
        let (route_lent, result_lent) = (route.slice(), result.slice());
        let returned = match end {
            None => raw::route_length(locations, legs_lent, depot, route_lent, result_lent),
            Some(end) => {
                raw::route_length_to_end(locations, legs_lent, depot, end, route_lent, result_lent)
            }
        };
        assert_eq!(returned, with_room(&rules, room));
        kept(&legs);
        kept(&route);
        kept_beyond(&result, &before, usize::from(returned == 0));
    }
    let harbours = harbours(depot, end);
    let answer = mittenschist::route_length(&tables.lent(), harbours, stops);
    assert_eq!(number(answer), first_refusal(&rules));
    if let Ok(seconds) = answer {
        assert_eq!(seconds, tables.length(depot, harbours.end, stops));
    }
}

fn check_deadlines(tables: &Tables, depot: u32, stops: &[u32]) {
    let [_, leg, unknown, _, stop_count] = route_rules(tables, depot, None, stops);
    let (size, service) = ((2, tables.bad_size()), (23, tables.bad_service()));
    let rules = [size, leg, service, unknown, stop_count];
    for room in [0, 1, 2] {
        let before = filled(room);
        let mut legs = Lent::new("legs", &tables.legs);
        let mut latest = Lent::new("latest", &tables.latest);
        let mut service = Lent::new("service", &tables.service);
        let mut route = Lent::new("route", stops);
        let mut result = Lent::new("result", &before);
        let returned = raw::route_feasible(
            tables.locations,
            legs.slice(),
            latest.slice(),
            service.slice(),
            depot,
            route.slice(),
            result.slice(),
        );
        assert_eq!(returned, with_room(&rules, room));
        kept(&legs);
        kept(&latest);
        kept(&service);
        kept(&route);
        kept_beyond(&result, &before, usize::from(returned == 0));
        if returned == 0 {
            assert_eq!(written(&result)[0], tables.late_position(depot, stops));
        }
    }
    let answer = mittenschist::route_feasible(&tables.lent(), depot, stops);
    assert_eq!(number(answer), first_refusal(&rules));
    if let Ok(told) = answer {
        let position = match told {
            Deadline::Late(position) => position,
            Deadline::Kept => stops.len(),
        };
        assert_eq!(position as u64, tables.late_position(depot, stops));
    }
}

fn check_deltas(tables: &Tables, depot: u32, end: Option<u32>, route: &[u32]) {
    for (k, pattern) in [(0, 0), (2, 0), (3, 6), (3, 7), (5, 382), (usize::MAX, 0)] {
        for cuts in &pools::cuts() {
            check_delta(k, pattern, cuts, tables, depot, end, route);
        }
    }
}

fn check_delta(
    k: usize,
    pattern: usize,
    handed_in: &[usize],
    tables: &Tables,
    depot: u32,
    end: Option<u32>,
    stops: &[u32],
) {
    let rules = [
        &[(1, bad_k(k))][..],
        &route_rules(tables, depot, end, stops),
        &[
            (6, bad_pattern(k, pattern)),
            (7, bad_cuts(k, stops.len(), handed_in)),
        ],
    ]
    .concat();
    for room in [0, 1, 2] {
        let before = vec![-9; room];
        let mut cuts = Lent::new("cuts", handed_in);
        let mut legs = Lent::new("legs", &tables.legs);
        let mut route = Lent::new("route", stops);
        let mut result = Lent::new("result", &before);
        let returned = match end {
            None => raw::delta(
                k,
                pattern,
                cuts.slice(),
                tables.locations,
                legs.slice(),
                depot,
                route.slice(),
                result.slice(),
            ),
            Some(end) => raw::delta_to_end(
                k,
                pattern,
                cuts.slice(),
                tables.locations,
                legs.slice(),
                depot,
                end,
                route.slice(),
                result.slice(),
            ),
        };
        assert_eq!(returned, with_room(&rules, room));
        kept(&cuts);
        kept(&legs);
        kept(&route);
        kept_beyond(&result, &before, usize::from(returned == 0));
    }
    let harbours = harbours(depot, end);
    let answer = mittenschist::delta(k, pattern, handed_in, &tables.lent(), harbours, stops);
    assert_eq!(number(answer), first_refusal(&rules));
}

#[test]
fn numbers_in_order() {
    every_pattern();
    every_step();
    every_rejoining();
    every_route();
}

#[test]
fn on_128_kib() {
    on_small_stack(every_pattern);
    on_small_stack(every_step);
    on_small_stack(every_rejoining);
    on_small_stack(every_route);
}
