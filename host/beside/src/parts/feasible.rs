//! The deadline check: the lowest late position by the documents' own words, and whether there is one by the Rust's rule too.

use super::route::{damage_route, of_stops, random_route, Route};
use crate::damage::{service, sizes};
use crate::lent::{filled, Lent};
use crate::random::Random;
use crate::rules::{first_refusal, LONGEST_LEG, LONGEST_SERVICE, MOST_STOPS};
use crate::tables::Tables;
use crate::trial::{damaged, put, Drawn, Reply, Trial, Visit, NO_ANSWER};
use crate::{ffi, oracle};
use std::fmt::{Display, Formatter, Result as Written};

struct Feasible {
    route: Route,
    room: usize,
}

impl Feasible {
    fn refusal(&self) -> u32 {
        let [size, leg, service] = self.route.tables.rules();
        first_refusal(&[
            size,
            leg,
            service,
            (4, self.route.unknown()),
            (5, self.route.too_long()),
            (21, self.room < 1),
        ])
    }
}

impl Trial for Feasible {
    fn expected(&self) -> Reply {
        let mut code = self.refusal();
        let mut result = filled(self.room);
        if code == 0 {
            let Route {
                tables,
                depot,
                stops,
            } = &self.route;
            let late = tables.late_position(*depot, stops);
            put(&mut result, &[late]);
            let kept = late == stops.len() as u64;
            if kept != oracle::polish::feasible(tables, *depot, stops) {
                code = NO_ANSWER;
            }
        }
        Reply::new(code, [("result", result)])
    }

    fn given(&self) -> Result<Reply, String> {
        let room = filled(self.room);
        let mut legs = Lent::new("legs", &self.route.tables.legs);
        let mut latest = Lent::new("deadlines", &self.route.tables.latest);
        let mut service = Lent::new("service", &self.route.tables.service);
        let mut stops = Lent::new("route", &self.route.stops);
        let mut result = Lent::new("result", &room);
        let code = ffi::route_feasible(
            self.route.tables.locations,
            legs.slice(),
            latest.slice(),
            service.slice(),
            self.route.depot,
            stops.slice(),
            result.slice(),
        );
        legs.kept()?;
        latest.kept()?;
        service.kept()?;
        stops.kept()?;
        Ok(Reply::new(code, [result.written()?]))
    }

    fn kind(&self, expected: &Reply) -> &'static str {
        if expected.number(0, 0) == self.route.stops.len() as u64 {
            "kept"
        } else {
            "late"
        }
    }
}

impl Display for Feasible {
    fn fmt(&self, out: &mut Formatter<'_>) -> Written {
        writeln!(out, "(lent result: {} places)", self.room)?;
        write!(out, "{}", self.route.told())
    }
}

fn random_check(random: &mut Random) -> Feasible {
    Feasible {
        route: random_route(random),
        room: random.pick([1, 1, 2, 5]),
    }
}

pub fn draw(random: &mut Random, _index: u64) -> Drawn {
    (Box::new(random_check(random)), None)
}

/// Lengths near the bounds, and the longest route there is with its last stop due on time and a second before.
pub fn each_bound(random: &mut Random, visit: Visit) {
    for stops in (0..=6).chain(MOST_STOPS - 1..=MOST_STOPS + 1) {
        let route = of_stops(random, stops);
        visit(Box::new(Feasible { route, room: 1 }));
    }
    for service in [0, LONGEST_SERVICE] {
        let reached = MOST_STOPS as u32 * LONGEST_LEG + (MOST_STOPS as u32 - 1) * service;
        for due in [reached, reached - 1] {
            visit(Box::new(longest(due, service)));
        }
    }
}

/// The depot as every stop but the last, each leg of the greatest length.
fn longest(due: u32, service: u32) -> Feasible {
    let mut tables = Tables::of_legs(2, vec![LONGEST_LEG; 4]);
    tables.latest[1] = due;
    tables.service = vec![service; 2];
    let mut stops = vec![0; MOST_STOPS];
    stops[MOST_STOPS - 1] = 1;
    let route = Route {
        tables,
        depot: 0,
        stops,
    };
    Feasible { route, room: 1 }
}

/// The last of the stated order first.
const NUMBERS: [u32; 6] = [21, 5, 4, 23, 3, 2];
pub const SETS: u64 = 1 << NUMBERS.len();

pub fn draw_damaged(random: &mut Random, index: u64) -> Drawn {
    let check = random_check(random);
    damaged(check, &NUMBERS, index, |check, number| match number {
        2 => sizes(random, &mut check.route.tables),
        23 => service(random, &mut check.route.tables),
        21 => check.room = 0,
        _ => damage_route(random, &mut check.route, number),
    })
}
