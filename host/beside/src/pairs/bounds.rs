//! Calls at the bounds, and routes of every length near the ones that matter.

use crate::cases::pairs::Case;
use crate::cases::polish::{Case as Asked, RESULT_PLACES};
use crate::draw::{capped, leg_table, order};
use crate::random::Random;
use crate::rules::{LONGEST_LEG, LONGEST_SERVICE, MOST_LOCATIONS, MOST_STOPS};
use crate::tables::Tables;
use crate::trial::Visit;

pub fn each(random: &mut Random, visit: Visit) {
    for stops in (0..=8).chain([MOST_STOPS - 1, MOST_STOPS, MOST_STOPS + 1]) {
        for allowance in [0, 1, 2, 20, 700, 4000] {
            for room in [RESULT_PLACES - 1, RESULT_PLACES, RESULT_PLACES + 1] {
                let tables = Tables::of_legs(12, leg_table(random, 12));
                let route = order(random, 12, 3, stops);
                visit(Box::new(case(tables, 3, route, allowance, room)));
            }
        }
    }
    for service in [0, LONGEST_SERVICE] {
        let legs = vec![LONGEST_LEG; MOST_LOCATIONS * MOST_LOCATIONS];
        visit(Box::new(full(legs, service, 5000)));
        let legs = leg_table(random, MOST_LOCATIONS);
        visit(Box::new(full(legs, service, 2 * pairs(MOST_STOPS))));
    }
    // Finished at the greatest number of stops, with no pair left and with one too few.
    for allowance in [pairs(MOST_STOPS) - 1, pairs(MOST_STOPS), u64::MAX] {
        let tables = Tables::of_legs(1, vec![7]);
        let route = vec![0; MOST_STOPS];
        visit(Box::new(case(tables, 0, route, allowance, RESULT_PLACES)));
    }
}

fn pairs(stops: usize) -> u64 {
    (stops * (stops - 1) / 2) as u64
}

fn case(tables: Tables, depot: u32, route: Vec<u32>, allowance: u64, room: usize) -> Case {
    Case::new(Asked {
        k: 2,
        allowance,
        tables,
        depot,
        route,
        room,
    })
}

/// The most locations and stops, the depot the last location, each stop due exactly when it is reached.
fn full(legs: Vec<u32>, service: u32, allowance: u64) -> Case {
    let mut tables = Tables::of_legs(MOST_LOCATIONS, legs);
    tables.service = vec![service; MOST_LOCATIONS];
    let depot = MOST_LOCATIONS as u32 - 1;
    let route: Vec<u32> = (0..MOST_STOPS as u32).collect();
    for (stop, seconds) in tables.arrivals(depot, &route).into_iter().enumerate() {
        tables.latest[stop] = capped(seconds);
    }
    case(tables, depot, route, allowance, RESULT_PLACES)
}
