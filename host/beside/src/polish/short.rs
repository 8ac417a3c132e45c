//! Every case of a few small kinds: two locations and up to four stops, three locations and up to three stops.

use crate::cases::polish::{Case, RESULT_PLACES};
use crate::draw::{lists, routes, with_times};
use crate::random::Random;
use crate::tables::Tables;
use crate::trial::Visit;

pub fn each(_random: &mut Random, visit: Visit) {
    two_locations(visit);
    two_served_locations(visit);
    three_locations(visit);
}

/// Legs 0 or 1, each location due at 1 or never, both depots, every k, allowance 0, 1 or plenty.
fn two_locations(visit: Visit) {
    for latest in lists(&[1, u32::MAX], 2) {
        each_of_two(&latest, &[0; 2], &[0, 1, u64::MAX], visit);
    }
}

/// Legs 0 or 1, a second spent at one location or both, each due at 1, at 2 or never, both depots, every k, plenty of allowance.
fn two_served_locations(visit: Visit) {
    for service in [[0, 1], [1, 0], [1, 1]] {
        for latest in lists(&[1, 2, u32::MAX], 2) {
            each_of_two(&latest, &service, &[u64::MAX], visit);
        }
    }
}

fn each_of_two(latest: &[u32], service: &[u32], allowances: &[u64], visit: Visit) {
    let routes = routes(2, 4);
    for legs in lists(&[0, 1], 4) {
        let tables = Tables::of_legs(2, legs);
        let tables = with_times(tables, latest.to_vec(), service.to_vec());
        for depot in 0..2 {
            for route in &routes {
                each_call(&tables, depot, route, allowances, visit);
            }
        }
    }
}

/// Legs 0, 1 or 3 and 0 on the diagonal, no deadline, depot 0, plenty of allowance.
fn three_locations(visit: Visit) {
    let routes = routes(3, 3);
    for six in lists(&[0, 1, 3], 6) {
        let legs = vec![0, six[0], six[1], six[2], 0, six[3], six[4], six[5], 0];
        let tables = Tables::of_legs(3, legs);
        for route in &routes {
            each_call(&tables, 0, route, &[u64::MAX], visit);
        }
    }
}

fn each_call(tables: &Tables, depot: u32, route: &[u32], allowances: &[u64], visit: Visit) {
    for k in 2..=5 {
        for &allowance in allowances {
            visit(Box::new(Case {
                k,
                allowance,
                tables: tables.clone(),
                depot,
                route: route.to_vec(),
                room: RESULT_PLACES,
            }));
        }
    }
}
