//! A problem written as text and read from it.

use crate::support::lent::{bits, filled, filled_u32, Lent};
use crate::support::rules::{bad_k, first_refusal, too_many_stops, LONGEST_LEG, LONGEST_SERVICE};
use crate::support::{kept, kept_beyond, number, on_small_stack, written};
use mittenschist::{raw, Harbours, Problem, Refusal};

const MOST_BYTES: usize = 60_000;

/// Document 01's example.
fn example() -> Problem {
    Problem {
        k: 3,
        allowance: 100,
        locations: 3,
        legs: vec![0, 5, 1, 1, 0, 5, 5, 1, 0],
        latest: vec![u32::MAX; 3],
        service: vec![0; 3],
        harbours: Harbours { depot: 0, end: 0 },
        route: vec![1, 2],
    }
}

fn listed(values: &[u32]) -> String {
    let words: Vec<String> = values.iter().map(u32::to_string).collect();
    words.join(",")
}

/// The text of a problem, as the documents show it.
fn text_of(problem: &Problem) -> Vec<u8> {
    let Harbours { depot, end } = problem.harbours;
    let mut text = format!(
        "k={}\nallowance={}\nlocations={}\ndepot={depot}\nend={end}\n",
        problem.k, problem.allowance, problem.locations
    );
    for row in problem.legs.chunks(problem.locations.max(1)) {
        text += &format!("legs={}\n", listed(row));
    }
    let (latest, service) = (listed(&problem.latest), listed(&problem.service));
    text += &format!("latest={latest}\nservice={service}\n");
    (text + &format!("round={}\n", listed(&problem.route))).into_bytes()
}

/// Texts, and what they are refused with where there is room.
fn texts() -> Vec<(Vec<u8>, u32)> {
    let of = |change: fn(&mut Problem), number| {
        let mut problem = example();
        change(&mut problem);
        (text_of(&problem), number)
    };
    vec![
        of(|_| (), 0),
        of(|problem| problem.route.clear(), 0),
        of(|problem| problem.route = vec![2; 512], 0),
        of(|problem| problem.k = 6, 1),
        of(|problem| problem.legs[8] = LONGEST_LEG + 1, 3),
        of(|problem| problem.service[2] = LONGEST_SERVICE + 1, 23),
        of(|problem| problem.harbours.depot = 3, 4),
        of(|problem| problem.route[1] = 3, 4),
        of(|problem| problem.harbours.end = u32::MAX, 24),
        of(|problem| problem.route = vec![2; 513], 5),
        of(
            |problem| problem.route = [vec![2; 25_000], vec![3]].concat(),
            4,
        ),
        of(|problem| problem.allowance = 1 << 32, 10),
        of(|problem| problem.locations = 97, 10),
        of(|problem| problem.route = vec![2; 30_000], 10),
        (Vec::new(), 10),
        (vec![0xff; 100], 10),
    ]
}

fn check_read(text: &[u8], refused: u32, rooms: [usize; 5]) {
    let [legs_room, latest_room, service_room, route_room, room] = rooms;
    let no_legs = filled_u32(legs_room);
    let (no_latest, no_service) = (filled_u32(latest_room), filled_u32(service_room));
    let (no_route, before) = (filled_u32(route_room), filled(room));
    let mut lines = Lent::new("text", text);
    let mut legs = Lent::new("legs", &no_legs);
    let mut latest = Lent::new("latest", &no_latest);
    let mut service = Lent::new("service", &no_service);
    let mut route = Lent::new("route", &no_route);
    let mut result = Lent::new("result", &before);
    let returned = raw::read_problem(
        lines.slice(),
        legs.slice(),
        latest.slice(),
        service.slice(),
        route.slice(),
        result.slice(),
    );
    kept(&lines);
    if returned != 0 {
        [&legs, &latest, &service, &route]
            .into_iter()
            .for_each(kept);
        kept(&result);
    }
    let read = Problem::read(text);
    assert_eq!(number(read.clone()), refused);
    let Ok(problem) = read else {
        return assert_eq!(returned, refused);
    };
    let lists = [
        (&legs, &no_legs, &problem.legs),
        (&latest, &no_latest, &problem.latest),
        (&service, &no_service, &problem.service),
        (&route, &no_route, &problem.route),
    ];
    let short = room < 6 || lists.iter().any(|list| list.1.len() < list.2.len());
    assert_eq!(returned, if short { 21 } else { 0 });
    if short {
        return;
    }
    for (lent, before, values) in lists {
        assert_eq!(written(lent)[..values.len()], bits(values));
        kept_beyond(lent, before, values.len());
    }
    let Harbours { depot, end } = problem.harbours;
    let numbers = [
        problem.k as u64,
        problem.allowance,
        problem.locations as u64,
        u64::from(depot),
        u64::from(end),
        problem.route.len() as u64,
    ];
    assert_eq!(written(&result)[..6], numbers);
    kept_beyond(&result, &before, 6);
    assert_eq!(problem.write().as_deref(), Ok(text));
}

fn every_text() {
    for (text, refused) in &texts() {
        for legs in [0, 8, 9, 9216] {
            for locations in [[0, 3], [3, 2], [3, 3], [96, 96]] {
                for route in [0, 1, 2, 511, 512] {
                    for room in [0, 5, 6, 7] {
                        let [latest, service] = locations;
                        check_read(text, *refused, [legs, latest, service, route, room]);
                    }
                }
            }
        }
    }
}

/// Problems in and out of range.
fn problems() -> Vec<Problem> {
    let mut all = Vec::new();
    let tables = [
        example(),
        square(0, 0),
        square(97, 1),
        square(1025, 1),
        square(96, 1_000_000),
        Problem {
            latest: vec![5; 2],
            ..example()
        },
        Problem {
            service: vec![LONGEST_SERVICE + 1; 3],
            ..example()
        },
        Problem {
            legs: vec![LONGEST_LEG + 1; 9],
            ..example()
        },
        Problem {
            locations: usize::MAX,
            ..example()
        },
    ];
    for problem in tables {
        // The large ones once alone: each call judges a million legs.
        if problem.legs.len() > 10_000 {
            all.push(problem);
            continue;
        }
        for k in [1, 2, 5, usize::MAX] {
            for allowance in [0, u64::from(u32::MAX), 1 << 32, u64::MAX] {
                for (depot, end) in [(0, 2), (3, 0), (2, u32::MAX)] {
                    for route in [vec![], vec![1; 512], vec![0; 513], vec![1, 2, 3]] {
                        all.push(Problem {
                            k,
                            allowance,
                            harbours: Harbours { depot, end },
                            route,
                            ..problem.clone()
                        });
                    }
                }
            }
        }
    }
    all
}

/// So many locations, and one leg between all of them.
fn square(locations: usize, leg: u32) -> Problem {
    Problem {
        locations,
        legs: vec![leg; locations * locations],
        latest: vec![9; locations],
        service: vec![0; locations],
        ..example()
    }
}

fn refusal(problem: &Problem, size: usize, room: usize, lent: usize) -> u32 {
    let Problem {
        locations,
        ref legs,
        ref latest,
        ref service,
        ..
    } = *problem;
    let unknown = |&stop: &u32| stop as usize >= locations;
    let Harbours { depot, end } = problem.harbours;
    let sizes = !(1..=1024).contains(&locations)
        || legs.len() != locations * locations
        || latest.len() != locations;
    let long = |most: u32| move |&seconds: &u32| seconds > most;
    first_refusal(&[
        (1, bad_k(problem.k)),
        (2, sizes),
        (3, legs.iter().any(long(LONGEST_LEG))),
        (
            23,
            service.len() != locations || service.iter().any(long(LONGEST_SERVICE)),
        ),
        (4, unknown(&depot) || problem.route.iter().any(unknown)),
        (24, unknown(&end)),
        (5, too_many_stops(problem.route.len())),
        (
            31,
            locations > 96 || problem.allowance > u64::from(u32::MAX) || size > MOST_BYTES,
        ),
        (21, room < size || lent < 1),
    ])
}

fn check_write(problem: &Problem, wanted: &[u8], room: usize, lent: usize) {
    let (no_text, before) = (vec![0xee; room], filled(lent));
    let mut text = Lent::new("text", &no_text);
    let mut result = Lent::new("result", &before);
    let lists = [&problem.legs, &problem.latest, &problem.service];
    let [mut legs, mut latest, mut service] = lists.map(|list| Lent::new("tables", list));
    let mut route = Lent::new("route", &problem.route);
    let returned = raw::write_problem(
        problem.k,
        problem.allowance,
        problem.locations,
        legs.slice(),
        latest.slice(),
        service.slice(),
        problem.harbours.depot,
        problem.harbours.end,
        route.slice(),
        text.slice(),
        result.slice(),
    );
    [&legs, &latest, &service, &route]
        .into_iter()
        .for_each(kept);
    assert_eq!(returned, refusal(problem, wanted.len(), room, lent));
    if returned != 0 {
        kept(&text);
        return kept(&result);
    }
    assert_eq!(written(&text)[..wanted.len()], bits(wanted));
    kept_beyond(&text, &no_text, wanted.len());
    assert_eq!(written(&result)[0], wanted.len() as u64);
    kept_beyond(&result, &before, 1);
    assert_eq!(Problem::read(wanted).as_ref(), Ok(problem));
}

fn every_problem() {
    for problem in &problems() {
        let text = text_of(problem);
        for room in [0, 3, text.len().wrapping_sub(1), text.len(), text.len() + 1] {
            for lent in [0, 1, 2] {
                check_write(problem, &text, room.min(80_000), lent);
            }
        }
    }
}

#[test]
fn texts_in_order() {
    every_text();
}

#[test]
fn problems_in_order() {
    every_problem();
}

#[test]
fn on_128_kib() {
    on_small_stack(every_text);
    on_small_stack(every_problem);
}

/// 96 locations whose text has so many bytes: legs of more digits, from the first on.
fn of_bytes(bytes: usize) -> Problem {
    let mut problem = square(96, 0);
    let mut missing = bytes - text_of(&problem).len();
    for leg in &mut problem.legs {
        let more = missing.min(5);
        missing -= more;
        *leg = if more > 0 { 10u32.pow(more as u32) } else { 0 };
    }
    problem
}

#[test]
fn at_the_bounds() {
    let written = |problem: &Problem, room: usize| {
        let (mut text, mut result) = (vec![0; room], [0]);
        let returned = raw::write_problem(
            problem.k,
            problem.allowance,
            problem.locations,
            &problem.legs,
            &problem.latest,
            &problem.service,
            0,
            0,
            &problem.route,
            &mut text,
            &mut result,
        );
        (returned, result[0])
    };
    assert_eq!(written(&square(96, 1_000_000), 3), (31, 0));
    assert_eq!(written(&square(97, 0), 60_000), (31, 0));
    assert_eq!(written(&square(1024, 0), 60_000), (31, 0));
    assert_eq!(written(&square(1025, 0), 60_000), (2, 0));
    assert_eq!(written(&of_bytes(60_000), 60_000), (0, 60_000));
    assert_eq!(written(&of_bytes(60_000), 59_999), (21, 0));
    assert_eq!(written(&of_bytes(60_001), 3), (31, 0));
    let problem = of_bytes(60_000);
    assert_eq!(Problem::read(&problem.write().unwrap()), Ok(problem));
    assert_eq!(of_bytes(60_001).write(), Err(Refusal::TextBounds));
}
