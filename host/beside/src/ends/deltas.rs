//! The delta of a move to an end harbour: the length after minus the length before, the rejoined route being that of `k_opt_do_move`.

use super::generate::some_end;
use crate::damage::{legs_size, unknown, wrong_k, wrong_pattern};
use crate::ffi;
use crate::lent::{bits, Lent};
use crate::moves::generate::random_cuts;
use crate::oracle::moves;
use crate::parts::cut_sets::damage_cuts;
use crate::parts::route::{damage_route, random_route, Route};
use crate::random::Random;
use crate::rules::{bad_cuts, bad_k, bad_pattern, first_refusal, pattern_count};
use crate::tables::listed;
use crate::trial::{damaged, Drawn, Reply, Trial};
use std::fmt::{Display, Formatter, Result as Written};

struct Delta {
    k: usize,
    pattern: usize,
    cuts: Vec<usize>,
    route: Route,
    end: u32,
    room: usize,
}

impl Delta {
    fn refusal(&self) -> u32 {
        first_refusal(&[
            (1, bad_k(self.k)),
            (2, self.route.tables.bad_legs_size()),
            (3, self.route.tables.bad_leg()),
            (4, self.route.unknown()),
            (24, self.route.tables.unknown(&[self.end])),
            (5, self.route.too_long()),
            (6, bad_pattern(self.k, self.pattern)),
            (7, bad_cuts(self.k, self.route.stops.len(), &self.cuts)),
            (21, self.room < 1),
        ])
    }

    fn difference(&self) -> i64 {
        let stops = &self.route.stops;
        let after = moves::do_move(self.k, self.pattern, 0, &self.cuts, stops).0;
        let length = |route: &[u32]| {
            let seconds = self
                .route
                .tables
                .length_to(self.route.depot, self.end, route);
            seconds as i64
        };
        length(&after) - length(stops)
    }
}

fn filled_i64(room: usize) -> Vec<i64> {
    (0..room as i64).map(|place| -0x0fee_d000 - place).collect()
}

impl Trial for Delta {
    fn expected(&self) -> Reply {
        let code = self.refusal();
        let mut result = filled_i64(self.room);
        if code == 0 {
            result[0] = self.difference();
        }
        Reply::new(code, [("result", bits(&result))])
    }

    fn given(&self) -> Result<Reply, String> {
        let room = filled_i64(self.room);
        let mut cuts = Lent::new("cuts", &self.cuts);
        let mut legs = Lent::new("legs", &self.route.tables.legs);
        let mut stops = Lent::new("route", &self.route.stops);
        let mut result = Lent::new("result", &room);
        let code = ffi::delta_to_end(
            self.k,
            self.pattern,
            cuts.slice(),
            self.route.tables.locations,
            legs.slice(),
            self.route.depot,
            self.end,
            stops.slice(),
            result.slice(),
        );
        cuts.kept()?;
        legs.kept()?;
        stops.kept()?;
        Ok(Reply::new(code, [result.written()?]))
    }

    fn kind(&self, expected: &Reply) -> &'static str {
        match expected.number(0, 0) as i64 {
            0 => "as long",
            1.. => "longer",
            _ => "shorter",
        }
    }
}

impl Display for Delta {
    fn fmt(&self, out: &mut Formatter<'_>) -> Written {
        let (k, pattern, room, end) = (self.k, self.pattern, self.room, self.end);
        writeln!(out, "k={k} pattern={pattern} result: {room} places")?;
        writeln!(out, "cuts={}\nend={end}", listed(&self.cuts))?;
        write!(out, "{}", self.route.told())
    }
}

fn random_delta(random: &mut Random) -> Delta {
    let mut route = random_route(random);
    if route.stops.is_empty() {
        route.stops.push(0);
    }
    let n = route.stops.len();
    let k = random.within(2, 5.min(n + 1));
    Delta {
        k,
        pattern: random.index(pattern_count(k)),
        cuts: random_cuts(random, k, n),
        end: some_end(random, &route.tables, route.depot),
        route,
        room: random.pick([1, 1, 2, 4]),
    }
}

pub fn draw(random: &mut Random, _index: u64) -> Drawn {
    (Box::new(random_delta(random)), None)
}

const NUMBERS: [u32; 9] = [21, 7, 6, 5, 24, 4, 3, 2, 1];
pub const SETS: u64 = 1 << NUMBERS.len();

pub fn draw_damaged(random: &mut Random, index: u64) -> Drawn {
    let delta = random_delta(random);
    damaged(delta, &NUMBERS, index, |delta, number| match number {
        1 => delta.k = wrong_k(random),
        2 => legs_size(random, &mut delta.route.tables),
        24 => delta.end = unknown(random, &delta.route.tables),
        6 => delta.pattern = wrong_pattern(random, delta.k),
        7 => damage_cuts(random, &mut delta.cuts, delta.route.stops.len()),
        21 => delta.room = 0,
        _ => damage_route(random, &mut delta.route, number),
    })
}
