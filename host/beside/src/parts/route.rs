//! A route with its tables, as length, delta and the deadline check take it.

use crate::damage;
use crate::draw::{order, set_times, some_depot, some_legs};
use crate::random::Random;
use crate::rules::{too_many_stops, MOST_STOPS};
use crate::tables::{listed, Tables};

#[derive(Clone)]
pub struct Route {
    pub tables: Tables,
    pub depot: u32,
    pub stops: Vec<u32>,
}

impl Route {
    /// 4: the depot or a stop not below the locations.
    pub fn unknown(&self) -> bool {
        self.tables.unknown(&[self.depot]) || self.tables.unknown(&self.stops)
    }

    pub fn too_long(&self) -> bool {
        too_many_stops(self.stops.len())
    }

    pub fn length(&self) -> u64 {
        self.tables.length(self.depot, &self.stops)
    }

    pub fn told(&self) -> String {
        let stops = listed(&self.stops);
        format!(
            "depot={}\n{}stops={stops}\n",
            self.depot,
            self.tables.told()
        )
    }
}

pub fn random_route(random: &mut Random) -> Route {
    let stops = match random.below(100) {
        0 => random.within(MOST_STOPS - 2, MOST_STOPS),
        1 => random.within(20, 100),
        _ => random.within(0, 12),
    };
    of_stops(random, stops)
}

pub fn of_stops(random: &mut Random, stops: usize) -> Route {
    let locations = match random.below(3) {
        0 => random.within(1, 14),
        _ => stops.min(20) + random.within(1, 3),
    };
    let mut tables = Tables::of_legs(locations, some_legs(random, locations));
    let depot = some_depot(random, locations);
    let stops = order(random, locations, depot, stops);
    set_times(random, &mut tables, depot, &stops);
    Route {
        tables,
        depot,
        stops,
    }
}

/// Damages 3 to 5.
pub fn damage_route(random: &mut Random, route: &mut Route, number: u32) {
    match number {
        3 => damage::a_leg(random, &mut route.tables),
        4 if route.stops.is_empty() || random.one_in(3) => {
            route.depot = damage::unknown(random, &route.tables);
        }
        4 => damage::a_stop(random, &route.tables, &mut route.stops),
        _ => {
            let length = MOST_STOPS + random.within(1, 90);
            route.stops.resize(length, 0);
        }
    }
}
