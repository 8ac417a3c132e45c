//! Cases at the bounds, and the text case of document 01.

use crate::cases::polish::{Case, RESULT_PLACES};
use crate::draw::{capped, leg_table, lists};
use crate::random::Random;
use crate::rules::{LONGEST_LEG, LONGEST_SERVICE, MOST_LOCATIONS, MOST_STOPS};
use crate::tables::Tables;
use crate::trial::Visit;

pub fn each(random: &mut Random, visit: Visit) {
    for case in cases(random) {
        visit(Box::new(case));
    }
}

/// The text case of document 01.
pub fn text_case(allowance: u64) -> Case {
    Case {
        k: 3,
        allowance,
        tables: Tables::of_legs(3, vec![0, 5, 1, 1, 0, 5, 5, 1, 0]),
        depot: 0,
        route: vec![1, 2],
        room: RESULT_PLACES,
    }
}

/// The text case with so many seconds spent at location 2, and location 1 due at a second: the better order reaches it after 2 seconds of legs
/// and that.
pub fn served_text_case(latest: u32, service: u32) -> Case {
    let mut case = text_case(100);
    case.tables.latest[1] = latest;
    case.tables.service[2] = service;
    case
}

/// The text case with locations 1 and 2 due at these seconds. They are reached at 5 and 10, or at 2 and 1 in the better order.
pub fn late_text_case(latest_of_1: u32, latest_of_2: u32) -> Case {
    let mut case = text_case(100);
    case.tables.latest[1] = latest_of_1;
    case.tables.latest[2] = latest_of_2;
    case
}

fn cases(random: &mut Random) -> Vec<Case> {
    let mut cases: Vec<Case> = (0..13).map(text_case).collect();
    for due in lists(&[0, 1, 2, 4, 5, 9, 10, u32::MAX], 2) {
        cases.push(late_text_case(due[0], due[1]));
    }
    for service in [10, LONGEST_SERVICE, LONGEST_SERVICE + 1] {
        for latest in service..service + 4 {
            cases.push(served_text_case(latest, service));
        }
    }
    for k in 2..=5 {
        for service in [0, LONGEST_SERVICE] {
            let legs = vec![LONGEST_LEG; MOST_LOCATIONS * MOST_LOCATIONS];
            cases.push(full(k, 2000, legs, service));
            cases.push(full(k, 50, leg_table(random, MOST_LOCATIONS), service));
        }
        cases.push(one_location(k, 0));
        cases.push(one_location(k, MOST_STOPS));
        cases.extend(served_visits(k));
    }
    // Finished at the greatest number of stops, with no candidate left and with one too few.
    let candidates = (MOST_STOPS * (MOST_STOPS + 1) / 2) as u64;
    for allowance in [candidates - 1, candidates, u64::MAX] {
        cases.push(Case {
            allowance,
            ..one_location(2, MOST_STOPS)
        });
    }
    cases
}

/// The most locations and stops, the depot the last location, each stop due exactly when it is reached.
fn full(k: usize, allowance: u64, legs: Vec<u32>, service: u32) -> Case {
    let mut case = Case {
        k,
        allowance,
        tables: Tables::of_legs(MOST_LOCATIONS, legs),
        depot: MOST_LOCATIONS as u32 - 1,
        route: (0..MOST_STOPS as u32).collect(),
        room: RESULT_PLACES,
    };
    case.tables.service = vec![service; MOST_LOCATIONS];
    for (stop, seconds) in case.arrivals().into_iter().enumerate() {
        case.tables.latest[stop] = capped(seconds);
    }
    case
}

/// One location, a leg of 7 to itself, and the depot as every stop.
fn one_location(k: usize, stops: usize) -> Case {
    Case {
        k,
        allowance: 1000,
        tables: Tables::of_legs(1, vec![7]),
        depot: 0,
        route: vec![0; stops],
        room: RESULT_PLACES + 1,
    }
}

/// Two locations, both visited several times and a time spent at each, so that the better orders are late or not by when the last visit is due.
fn served_visits(k: usize) -> Vec<Case> {
    let mut case = Case {
        k,
        allowance: u64::MAX,
        tables: Tables::of_legs(2, vec![0, 5, 1, 0]),
        depot: 0,
        route: vec![1, 0, 1, 0, 1, 1],
        room: RESULT_PLACES,
    };
    case.tables.service = vec![3, 10];
    let whole = case.tables.whole(case.depot, &case.route) as u32;
    let due = |latest| {
        let mut due = case.clone();
        due.tables.latest[1] = latest;
        due
    };
    (0..=whole).map(due).collect()
}
