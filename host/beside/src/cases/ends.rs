//! One call of polishing to an end harbour, with pairs or without: what is handed in, and what is refused of it.

use super::polish::{self, RESULT_PLACES};
use crate::rules::{bad_k, first_refusal, too_many_stops};
use std::fmt::{Display, Formatter, Result as Written};

#[derive(Clone, Debug)]
pub struct Case {
    /// The same with the depot as end.
    pub closed: polish::Case,
    pub end: u32,
}

impl Case {
    pub fn length(&self, route: &[u32]) -> u64 {
        self.closed
            .tables
            .length_to(self.closed.depot, self.end, route)
    }

    /// The first number of the stated order that applies, 0 if none does.
    pub fn refusal(&self) -> u32 {
        let case = &self.closed;
        let [size, leg, service] = case.tables.rules();
        first_refusal(&[
            (1, bad_k(case.k)),
            size,
            leg,
            service,
            (4, case.unknown_place()),
            (24, case.tables.unknown(&[self.end])),
            (29, case.tables.bad_pairs()),
            (5, too_many_stops(case.route.len())),
            (21, case.room < RESULT_PLACES),
        ])
    }

    /// The closed tour over one more location that stands for depot and end.
    pub fn as_closed(&self) -> polish::Case {
        let (tables, depot) = self
            .closed
            .tables
            .with_both_ends(self.closed.depot, self.end);
        polish::Case {
            tables,
            depot,
            ..self.closed.clone()
        }
    }
}

impl Display for Case {
    fn fmt(&self, out: &mut Formatter<'_>) -> Written {
        write!(out, "end={}\n{}", self.end, self.closed)
    }
}
