//! One call of the pair loop: what polishing is handed, but for k.

use super::{polish, run};
use std::fmt::{Display, Formatter, Result as Written};

/// The k with which the Rust's run takes the loop.
const CUTS: usize = 2;

#[derive(Clone, Debug)]
pub struct Case(polish::Case);

impl Case {
    /// With this k polishing never refuses 1, and its other numbers are the loop's.
    pub fn new(asked: polish::Case) -> Self {
        Self(polish::Case { k: CUTS, ..asked })
    }

    pub fn asked(&self) -> &polish::Case {
        &self.0
    }

    pub fn with_allowance(&self, allowance: u64) -> Self {
        Self(polish::Case {
            allowance,
            ..self.0.clone()
        })
    }

    /// The Rust's run that takes the loop over this one free round.
    pub fn as_run(&self) -> run::Case {
        let asked = &self.0;
        let round = (asked.depot, asked.route.clone());
        run::Case {
            allowance: asked.allowance,
            ..run::Case::of_rounds(CUTS, asked.tables.clone(), &[round])
        }
    }
}

impl Display for Case {
    fn fmt(&self, out: &mut Formatter<'_>) -> Written {
        write!(out, "(the pair loop) {}", self.0)
    }
}
