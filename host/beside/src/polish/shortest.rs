//! Long routes that are the shortest of all: their own legs take up to 9 seconds, every other leg at least 10,000, and another order has
//! at least one of these. Nothing is ever accepted, so that the answer follows from the number of candidates. The Rust, which examines
//! them one by one, is not asked: these scans leave the first cut 0 where it would take it minutes.

use super::deep::candidates_at_first_cut_0;
use crate::cases::polish::{Case, RESULT_PLACES};
use crate::lent::{bits, filled};
use crate::random::Random;
use crate::tables::Tables;
use crate::trial::{put, Reply, Trial, Visit};
use std::fmt::{Display, Formatter, Result as Written};

/// k and stops. With k = 5 and 512 stops the first cut 0 alone is more than the library passes in a minute.
const SIZES: [(usize, usize); 8] = [
    (3, 65),
    (3, 128),
    (3, 512),
    (4, 65),
    (4, 128),
    (4, 512),
    (5, 65),
    (5, 128),
];

pub fn each(random: &mut Random, visit: Visit) {
    for (k, stops) in SIZES {
        let first = candidates_at_first_cut_0(k, stops);
        for allowance in [first, first + 1, first + first / 8] {
            visit(Box::new(Shortest(shortest(random, k, stops, allowance))));
        }
    }
}

fn shortest(random: &mut Random, k: usize, stops: usize, allowance: u64) -> Case {
    let locations = stops + 1;
    let legs = (0..locations * locations).map(|_| 10_000 + random.below(10_000) as u32);
    let mut tables = Tables::of_legs(locations, legs.collect());
    for place in 0..locations {
        let next = (place + 1) % locations;
        tables.legs[place * locations + next] = random.below(10) as u32;
    }
    Case {
        k,
        allowance,
        tables,
        depot: 0,
        route: (1..locations as u32).collect(),
        room: RESULT_PLACES,
    }
}

/// A call that is spent at its allowance and accepts nothing; no deadline is in force.
struct Shortest(Case);

impl Trial for Shortest {
    fn expected(&self) -> Reply {
        let Case {
            allowance,
            ref route,
            room,
            ..
        } = self.0;
        let length = self.0.length();
        let mut result = filled(room);
        let none_late = route.len() as u64;
        put(&mut result, &[1, allowance, 0, length, length, none_late]);
        Reply::new(0, [("route", bits(route)), ("result", result)])
    }

    fn given(&self) -> Result<Reply, String> {
        self.0.given()
    }

    fn kind(&self, expected: &Reply) -> &'static str {
        self.0.kind(expected)
    }
}

impl Display for Shortest {
    fn fmt(&self, out: &mut Formatter<'_>) -> Written {
        self.0.fmt(out)
    }
}
