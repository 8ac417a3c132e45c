//! Every call of a few small kinds: two locations and up to four stops, three locations and up to three stops.

use crate::cases::pairs::Case;
use crate::cases::polish::{Case as Asked, RESULT_PLACES};
use crate::draw::{lists, routes, with_times};
use crate::random::Random;
use crate::tables::Tables;
use crate::trial::Visit;

/// The loop need not end.
const PLENTY: u64 = 200;

pub fn each(_random: &mut Random, visit: Visit) {
    for latest in lists(&[1, u32::MAX], 2) {
        each_of_two(&latest, &[0; 2], &[0, 1, PLENTY], visit);
    }
    for service in [[0, 1], [1, 0], [1, 1]] {
        for latest in lists(&[1, 2, u32::MAX], 2) {
            each_of_two(&latest, &service, &[PLENTY], visit);
        }
    }
    three_locations(visit);
}

/// Legs 0 or 1, both depots.
fn each_of_two(latest: &[u32], service: &[u32], allowances: &[u64], visit: Visit) {
    for legs in lists(&[0, 1], 4) {
        let tables = Tables::of_legs(2, legs);
        let tables = with_times(tables, latest.to_vec(), service.to_vec());
        for depot in 0..2 {
            for route in routes(2, 4) {
                for &allowance in allowances {
                    visit(Box::new(case(&tables, depot, &route, allowance)));
                }
            }
        }
    }
}

/// Legs 0, 1 or 3 and 0 on the diagonal, no deadline, depot 0.
fn three_locations(visit: Visit) {
    for six in lists(&[0, 1, 3], 6) {
        let legs = vec![0, six[0], six[1], six[2], 0, six[3], six[4], six[5], 0];
        let tables = Tables::of_legs(3, legs);
        for route in routes(3, 3) {
            visit(Box::new(case(&tables, 0, &route, PLENTY)));
        }
    }
}

fn case(tables: &Tables, depot: u32, route: &[u32], allowance: u64) -> Case {
    Case::new(Asked {
        k: 2,
        allowance,
        tables: tables.clone(),
        depot,
        route: route.to_vec(),
        room: RESULT_PLACES,
    })
}
