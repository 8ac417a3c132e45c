//! Rejoining.

use super::cut_sets::damage_cuts;
use crate::damage::{wrong_k, wrong_pattern};
use crate::ffi;
use crate::lent::{bits, filled_u32, Lent};
use crate::moves::generate::{random_apply, random_cuts};
use crate::oracle::{moves, seen};
use crate::random::Random;
use crate::rules::{
    bad_cuts, bad_k, bad_pattern, first_refusal, pattern_count, too_many_stops, MOST_STOPS,
};
use crate::tables::listed;
use crate::trial::{damaged, Drawn, Reply, Trial, Visit, NO_ANSWER};
use std::fmt::{Display, Formatter, Result as Written};

struct Rejoin {
    k: usize,
    pattern: usize,
    cuts: Vec<usize>,
    route: Vec<u32>,
    room: usize,
    /// The rejoined route that `route_feasible` was shown, on short routes.
    seen: Option<Vec<u32>>,
}

impl Rejoin {
    fn refusal(&self) -> u32 {
        let n = self.route.len();
        first_refusal(&[
            (1, bad_k(self.k)),
            (5, too_many_stops(n)),
            (6, bad_pattern(self.k, self.pattern)),
            (7, bad_cuts(self.k, n, &self.cuts)),
            (21, self.room < n),
        ])
    }

    /// As `k_opt_do_move` rejoins; an error if `reconnect` was seen to do otherwise.
    fn rejoined(&self) -> Result<Vec<u32>, u32> {
        let (route, _) = moves::do_move(self.k, self.pattern, 0, &self.cuts, &self.route);
        match &self.seen {
            Some(seen) if *seen != route => Err(NO_ANSWER),
            _ => Ok(route),
        }
    }
}

impl Trial for Rejoin {
    fn expected(&self) -> Reply {
        let mut code = self.refusal();
        let mut out = filled_u32(self.room);
        if code == 0 {
            match self.rejoined() {
                Ok(route) => out[..route.len()].copy_from_slice(&route),
                Err(number) => code = number,
            }
        }
        Reply::new(code, [("out", bits(&out))])
    }

    fn given(&self) -> Result<Reply, String> {
        let room = filled_u32(self.room);
        let mut cuts = Lent::new("cuts", &self.cuts);
        let mut route = Lent::new("route", &self.route);
        let mut out = Lent::new("out", &room);
        let code = ffi::reconnect(
            self.k,
            self.pattern,
            cuts.slice(),
            route.slice(),
            out.slice(),
        );
        cuts.kept()?;
        route.kept()?;
        Ok(Reply::new(code, [out.written()?]))
    }

    fn kind(&self, _expected: &Reply) -> &'static str {
        match self.seen {
            Some(_) => "seen in polish_route too",
            None => "as k_opt_do_move alone",
        }
    }
}

impl Display for Rejoin {
    fn fmt(&self, out: &mut Formatter<'_>) -> Written {
        writeln!(
            out,
            "k={} pattern={} out: {} places\ncuts={}\nstops={}",
            self.k,
            self.pattern,
            self.room,
            listed(&self.cuts),
            listed(&self.route)
        )
    }
}

/// Every candidate of routes of up to six stops. One that changes nothing is never shown to `route_feasible`.
pub fn each_short(_random: &mut Random, visit: Visit) {
    for k in 2..=5 {
        for n in 0..=6 {
            let scanned = seen::scan_all(k, n);
            let route: Vec<u32> = (0..n as u32).map(|stop| 40 + stop).collect();
            for cuts in &scanned.sets {
                for pattern in 0..pattern_count(k) {
                    let shown = scanned.shorter.get(&(cuts.clone(), pattern));
                    let stops =
                        |order: &Vec<usize>| order.iter().map(|&stop| route[stop]).collect();
                    visit(Box::new(Rejoin {
                        k,
                        pattern,
                        cuts: cuts.clone(),
                        route: route.clone(),
                        room: n + pattern % 3,
                        seen: shown.map(stops),
                    }));
                }
            }
        }
    }
}

fn random_rejoin(random: &mut Random) -> Rejoin {
    let apply = random_apply(random);
    Rejoin {
        k: apply.cutting.k,
        pattern: apply.cutting.pattern,
        cuts: random_cuts(random, apply.cutting.k, apply.route.len()),
        route: apply.route,
        room: apply.room,
        seen: None,
    }
}

pub fn draw(random: &mut Random, _index: u64) -> Drawn {
    (Box::new(random_rejoin(random)), None)
}

const NUMBERS: [u32; 5] = [21, 7, 6, 5, 1];
pub const SETS: u64 = 1 << NUMBERS.len();

pub fn draw_damaged(random: &mut Random, index: u64) -> Drawn {
    let rejoin = random_rejoin(random);
    damaged(rejoin, &NUMBERS, index, |rejoin, number| match number {
        1 => rejoin.k = wrong_k(random),
        5 => rejoin.route.resize(MOST_STOPS + random.within(1, 90), 5),
        6 => rejoin.pattern = wrong_pattern(random, rejoin.k),
        7 => damage_cuts(random, &mut rejoin.cuts, rejoin.route.len()),
        _ => rejoin.room = random.index(rejoin.route.len()),
    })
}
