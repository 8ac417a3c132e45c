//! The length of a route, by document 01's own words.

use super::route::{damage_route, random_route, Route};
use crate::damage::legs_size;
use crate::ffi;
use crate::lent::{filled, Lent};
use crate::random::Random;
use crate::rules::first_refusal;
use crate::trial::{damaged, put, Drawn, Reply, Trial};
use std::fmt::{Display, Formatter, Result as Written};

struct Length {
    route: Route,
    room: usize,
}

impl Length {
    fn refusal(&self) -> u32 {
        first_refusal(&[
            (2, self.route.tables.bad_legs_size()),
            (3, self.route.tables.bad_leg()),
            (4, self.route.unknown()),
            (5, self.route.too_long()),
            (21, self.room < 1),
        ])
    }
}

impl Trial for Length {
    fn expected(&self) -> Reply {
        let code = self.refusal();
        let mut result = filled(self.room);
        if code == 0 {
            put(&mut result, &[self.route.length()]);
        }
        Reply::new(code, [("result", result)])
    }

    fn given(&self) -> Result<Reply, String> {
        let room = filled(self.room);
        let mut legs = Lent::new("legs", &self.route.tables.legs);
        let mut stops = Lent::new("route", &self.route.stops);
        let mut result = Lent::new("result", &room);
        let code = ffi::route_length(
            self.route.tables.locations,
            legs.slice(),
            self.route.depot,
            stops.slice(),
            result.slice(),
        );
        legs.kept()?;
        stops.kept()?;
        Ok(Reply::new(code, [result.written()?]))
    }
}

impl Display for Length {
    fn fmt(&self, out: &mut Formatter<'_>) -> Written {
        writeln!(out, "(lent result: {} places)", self.room)?;
        write!(out, "{}", self.route.told())
    }
}

fn random_length(random: &mut Random) -> Length {
    Length {
        route: random_route(random),
        room: random.pick([1, 1, 2, 5]),
    }
}

pub fn draw(random: &mut Random, _index: u64) -> Drawn {
    (Box::new(random_length(random)), None)
}

const NUMBERS: [u32; 5] = [21, 5, 4, 3, 2];
pub const SETS: u64 = 1 << NUMBERS.len();

pub fn draw_damaged(random: &mut Random, index: u64) -> Drawn {
    let length = random_length(random);
    damaged(length, &NUMBERS, index, |length, number| match number {
        2 => legs_size(random, &mut length.route.tables),
        21 => length.room = 0,
        _ => damage_route(random, &mut length.route, number),
    })
}
