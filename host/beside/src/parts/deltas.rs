//! The delta of a move: the length after minus the length before, the rejoined route being that of `k_opt_do_move`. On short
//! routes the delta of `RouteCosts` is pinned to that number as well.

use super::cut_sets::damage_cuts;
use super::route::{damage_route, of_stops, random_route, Route};
use crate::damage::{legs_size, wrong_k, wrong_pattern};
use crate::draw::lively_legs;
use crate::ffi;
use crate::lent::{bits, Lent};
use crate::moves::generate::random_cuts;
use crate::oracle::{moves, seen};
use crate::random::Random;
use crate::rules::{bad_cuts, bad_k, bad_pattern, first_refusal, pattern_count};
use crate::tables::{listed, Tables};
use crate::trial::{damaged, Drawn, Reply, Trial, Visit, NO_ANSWER};
use std::fmt::{Display, Formatter, Result as Written};

struct Delta {
    k: usize,
    pattern: usize,
    cuts: Vec<usize>,
    route: Route,
    room: usize,
    /// Whether the Rust's delta is looked at too.
    seen: bool,
}

impl Delta {
    fn refusal(&self) -> u32 {
        first_refusal(&[
            (1, bad_k(self.k)),
            (2, self.route.tables.bad_legs_size()),
            (3, self.route.tables.bad_leg()),
            (4, self.route.unknown()),
            (5, self.route.too_long()),
            (6, bad_pattern(self.k, self.pattern)),
            (7, bad_cuts(self.k, self.route.stops.len(), &self.cuts)),
            (21, self.room < 1),
        ])
    }

    fn rejoined(&self, stops: &[u32]) -> Vec<u32> {
        moves::do_move(self.k, self.pattern, 0, &self.cuts, stops).0
    }

    fn difference(&self) -> i64 {
        let after = self.rejoined(&self.route.stops);
        let length = self.route.tables.length(self.route.depot, &after);
        length as i64 - self.route.length() as i64
    }

    /// A leg that only the rejoined route has, by positions, the depot being n. Where it takes x seconds more the delta is x more.
    fn new_leg(&self) -> Option<(usize, usize)> {
        let n = self.route.stops.len();
        let positions: Vec<u32> = (0..n as u32).collect();
        let after = self.rejoined(&positions).into_iter();
        let mut order: Vec<usize> = after.map(|stop| stop as usize).collect();
        order.push(n);
        let from = [n].into_iter().chain(order.iter().copied());
        from.zip(order.iter().copied())
            .find(|&(from, to)| to != (from + 1) % (n + 1))
    }

    /// Whether the Rust finds the move shorter when one leg that only the rejoined route has takes `more` seconds more.
    fn shorter_by_rust(&self, leg: (usize, usize), more: i64) -> bool {
        let n = self.route.stops.len();
        let place = |position: usize| match self.route.stops.get(position) {
            Some(&stop) => stop as usize,
            None => self.route.depot as usize,
        };
        let legs = |from: usize, to: usize| {
            let seconds = i64::from(self.route.tables.leg(place(from), place(to)));
            seconds + if (from, to) == leg { more } else { 0 }
        };
        let scanned = seen::scan(self.k, n, u64::MAX, &legs);
        scanned
            .shorter
            .contains_key(&(self.cuts.clone(), self.pattern))
    }

    /// The Rust's delta is the difference exactly if it is -1 with one second less than that in the leg, and 0 with that much.
    fn pinned(&self) -> bool {
        let difference = self.difference();
        match self.new_leg() {
            Some(leg) => {
                self.shorter_by_rust(leg, -difference - 1)
                    && !self.shorter_by_rust(leg, -difference)
            }
            None => difference == 0 && !self.shorter_by_rust((usize::MAX, usize::MAX), 0),
        }
    }
}

fn filled_i64(room: usize) -> Vec<i64> {
    (0..room as i64).map(|place| -0x0fee_d000 - place).collect()
}

impl Trial for Delta {
    fn expected(&self) -> Reply {
        let mut code = self.refusal();
        let mut result = filled_i64(self.room);
        if code == 0 {
            result[0] = self.difference();
            if self.seen && !self.pinned() {
                code = NO_ANSWER;
            }
        }
        Reply::new(code, [("result", bits(&result))])
    }

    fn given(&self) -> Result<Reply, String> {
        let room = filled_i64(self.room);
        let mut cuts = Lent::new("cuts", &self.cuts);
        let mut legs = Lent::new("legs", &self.route.tables.legs);
        let mut stops = Lent::new("route", &self.route.stops);
        let mut result = Lent::new("result", &room);
        let code = ffi::delta(
            self.k,
            self.pattern,
            cuts.slice(),
            self.route.tables.locations,
            legs.slice(),
            self.route.depot,
            stops.slice(),
            result.slice(),
        );
        cuts.kept()?;
        legs.kept()?;
        stops.kept()?;
        Ok(Reply::new(code, [result.written()?]))
    }

    fn kind(&self, expected: &Reply) -> &'static str {
        match expected.number(0, 0) as i64 {
            0 => "as long",
            1.. => "longer",
            _ => "shorter",
        }
    }
}

impl Display for Delta {
    fn fmt(&self, out: &mut Formatter<'_>) -> Written {
        writeln!(
            out,
            "k={} pattern={} result: {} places\ncuts={}",
            self.k,
            self.pattern,
            self.room,
            listed(&self.cuts)
        )?;
        write!(out, "{}", self.route.told())
    }
}

fn on_route(random: &mut Random, mut route: Route) -> Delta {
    if route.stops.is_empty() {
        route.stops.push(0);
    }
    let n = route.stops.len();
    let k = random.within(2, 5.min(n + 1));
    Delta {
        k,
        pattern: random.index(pattern_count(k)),
        cuts: random_cuts(random, k, n),
        route,
        room: random.pick([1, 1, 2, 4]),
        seen: false,
    }
}

pub fn draw(random: &mut Random, _index: u64) -> Drawn {
    let route = random_route(random);
    (Box::new(on_route(random, route)), None)
}

/// Every pattern of every k on a few routes on which it shows.
pub fn each_pattern(random: &mut Random, visit: Visit) {
    for k in 2..=5 {
        for pattern in 0..pattern_count(k) {
            for stops in [k + 1, 2 * k, 2 * k + 2] {
                visit(Box::new(of_pattern(random, k, pattern, stops)));
            }
        }
    }
}

fn of_pattern(random: &mut Random, k: usize, pattern: usize, stops: usize) -> Delta {
    let locations = stops + 1;
    let head = usize::from(stops > k + 1);
    let route = Route {
        tables: Tables::of_legs(locations, lively_legs(random, locations)),
        depot: 0,
        stops: (1..locations as u32).collect(),
    };
    Delta {
        k,
        pattern,
        cuts: (0..k).map(|cut| cut * stops / k + head).collect(),
        route,
        room: 1,
        seen: stops == k + 1,
    }
}

pub fn draw_short(random: &mut Random, _index: u64) -> Drawn {
    let stops = random.within(1, 5);
    let route = of_stops(random, stops);
    let mut delta = on_route(random, route);
    delta.seen = true;
    (Box::new(delta), None)
}

const NUMBERS: [u32; 8] = [21, 7, 6, 5, 4, 3, 2, 1];
pub const SETS: u64 = 1 << NUMBERS.len();

pub fn draw_damaged(random: &mut Random, index: u64) -> Drawn {
    let route = random_route(random);
    let delta = on_route(random, route);
    damaged(delta, &NUMBERS, index, |delta, number| match number {
        1 => delta.k = wrong_k(random),
        2 => legs_size(random, &mut delta.route.tables),
        6 => delta.pattern = wrong_pattern(random, delta.k),
        7 => damage_cuts(random, &mut delta.cuts, delta.route.stops.len()),
        21 => delta.room = 0,
        _ => damage_route(random, &mut delta.route, number),
    })
}
