//! One call of polishing: what is handed in, and what is refused of it.

use crate::rules::{bad_k, first_refusal, too_many_stops};
use crate::tables::{listed, Tables};
use std::fmt::{Display, Formatter, Result as Written};

pub const RESULT_PLACES: usize = 6;

#[derive(Clone, Debug)]
pub struct Case {
    pub k: usize,
    pub allowance: u64,
    pub tables: Tables,
    pub depot: u32,
    pub route: Vec<u32>,
    /// Length of the lent result.
    pub room: usize,
}

impl Case {
    pub fn length(&self) -> u64 {
        self.tables.length(self.depot, &self.route)
    }

    pub fn arrivals(&self) -> Vec<u64> {
        self.tables.arrivals(self.depot, &self.route)
    }

    /// The first number of the stated order that applies, 0 if none does.
    pub fn refusal(&self) -> u32 {
        let [size, leg, service] = self.tables.rules();
        first_refusal(&[
            (1, bad_k(self.k)),
            size,
            leg,
            service,
            (4, self.unknown_place()),
            (5, too_many_stops(self.route.len())),
            (21, self.room < RESULT_PLACES),
        ])
    }

    pub fn unknown_place(&self) -> bool {
        self.tables.unknown(&[self.depot]) || self.tables.unknown(&self.route)
    }
}

/// The form that the text program reads, with the length of the lent result first.
impl Display for Case {
    fn fmt(&self, out: &mut Formatter<'_>) -> Written {
        writeln!(out, "(lent result: {} places)", self.room)?;
        writeln!(
            out,
            "k={}\nallowance={}\ndepot={}",
            self.k, self.allowance, self.depot
        )?;
        write!(out, "{}", self.tables.told())?;
        writeln!(out, "round={}", listed(&self.route))
    }
}
