//! The length of a route to an end harbour, by document 02's own words.

use super::generate::some_end;
use crate::damage::{legs_size, unknown};
use crate::ffi;
use crate::lent::{filled, Lent};
use crate::parts::route::{damage_route, random_route, Route};
use crate::random::Random;
use crate::rules::first_refusal;
use crate::trial::{damaged, put, Drawn, Reply, Trial};
use std::fmt::{Display, Formatter, Result as Written};

struct Length {
    route: Route,
    end: u32,
    room: usize,
}

impl Length {
    fn refusal(&self) -> u32 {
        first_refusal(&[
            (2, self.route.tables.bad_legs_size()),
            (3, self.route.tables.bad_leg()),
            (4, self.route.unknown()),
            (24, self.route.tables.unknown(&[self.end])),
            (5, self.route.too_long()),
            (21, self.room < 1),
        ])
    }
}

impl Trial for Length {
    fn expected(&self) -> Reply {
        let code = self.refusal();
        let mut result = filled(self.room);
        if code == 0 {
            let Route {
                tables,
                depot,
                stops,
            } = &self.route;
            put(&mut result, &[tables.length_to(*depot, self.end, stops)]);
        }
        Reply::new(code, [("result", result)])
    }

    fn given(&self) -> Result<Reply, String> {
        let room = filled(self.room);
        let mut legs = Lent::new("legs", &self.route.tables.legs);
        let mut stops = Lent::new("route", &self.route.stops);
        let mut result = Lent::new("result", &room);
        let code = ffi::route_length_to_end(
            self.route.tables.locations,
            legs.slice(),
            self.route.depot,
            self.end,
            stops.slice(),
            result.slice(),
        );
        legs.kept()?;
        stops.kept()?;
        Ok(Reply::new(code, [result.written()?]))
    }
}

impl Display for Length {
    fn fmt(&self, out: &mut Formatter<'_>) -> Written {
        writeln!(out, "(lent result: {} places)\nend={}", self.room, self.end)?;
        write!(out, "{}", self.route.told())
    }
}

fn random_length(random: &mut Random) -> Length {
    let route = random_route(random);
    let end = some_end(random, &route.tables, route.depot);
    Length {
        route,
        end,
        room: random.pick([1, 1, 2, 5]),
    }
}

pub fn draw(random: &mut Random, _index: u64) -> Drawn {
    (Box::new(random_length(random)), None)
}

const NUMBERS: [u32; 6] = [21, 5, 24, 4, 3, 2];
pub const SETS: u64 = 1 << NUMBERS.len();

pub fn draw_damaged(random: &mut Random, index: u64) -> Drawn {
    let length = random_length(random);
    damaged(length, &NUMBERS, index, |length, number| match number {
        2 => legs_size(random, &mut length.route.tables),
        24 => length.end = unknown(random, &length.route.tables),
        21 => length.room = 0,
        _ => damage_route(random, &mut length.route, number),
    })
}
