//! One call of undo.

use crate::lent::{bits, Lent};
use crate::random::Random;
use crate::rules::{first_refusal, too_many_stops};
use crate::tables::listed;
use crate::trial::{Drawn, Reply, Trial, Visit};
use crate::{ffi, oracle};
use std::fmt::{Display, Formatter, Result as Written};

pub struct Undo {
    pub route: Vec<u32>,
    pub journal: Vec<u32>,
}

impl Undo {
    fn refusal(&self) -> u32 {
        first_refusal(&[
            (5, too_many_stops(self.route.len())),
            (22, self.journal.len() != self.route.len()),
        ])
    }

    fn drawn(random: &mut Random, stops: usize, places: usize) -> Self {
        Self {
            route: (0..stops).map(|_| random.draw() as u32).collect(),
            journal: (0..places).map(|_| random.draw() as u32).collect(),
        }
    }
}

impl Trial for Undo {
    fn expected(&self) -> Reply {
        let code = self.refusal();
        let route = if code == 0 {
            oracle::moves::undo_move(&self.route, &self.journal)
        } else {
            self.route.clone()
        };
        Reply::new(code, [("route", bits(&route))])
    }

    fn given(&self) -> Result<Reply, String> {
        let mut route = Lent::new("route", &self.route);
        let mut journal = Lent::new("journal", &self.journal);
        let code = ffi::k_opt_undo_move(route.slice(), journal.slice());
        journal.kept()?;
        Ok(Reply::new(code, [route.written()?]))
    }
}

impl Display for Undo {
    fn fmt(&self, out: &mut Formatter<'_>) -> Written {
        writeln!(out, "stops={}", listed(&self.route))?;
        writeln!(out, "journal={}", listed(&self.journal))
    }
}

/// Every pair of lengths near the ones that matter.
pub fn each_length(random: &mut Random, visit: Visit) {
    let lengths: Vec<usize> = (0..=6).chain(510..=514).chain([600, 1024]).collect();
    for &stops in &lengths {
        for &places in &lengths {
            visit(Box::new(Undo::drawn(random, stops, places)));
        }
    }
}

/// Mostly equal lengths.
pub fn draw(random: &mut Random, _index: u64) -> Drawn {
    let stops = match random.below(50) {
        0 => random.within(500, 515),
        _ => random.within(0, 30),
    };
    let places = match random.below(4) {
        0 => (stops + random.index(5)).saturating_sub(2),
        _ => stops,
    };
    (Box::new(Undo::drawn(random, stops, places)), None)
}
