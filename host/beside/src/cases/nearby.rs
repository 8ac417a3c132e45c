//! One listing of nearby cuts: what is handed in, and what document 01 refuses of it.

use crate::rules::{bad_k, first_refusal, too_many_stops, LONGEST_PIECE, MOST_NEIGHBOURS};
use std::fmt::{Display, Formatter, Result as Written};

pub const RESULT_PLACES: usize = 2;

#[derive(Clone, Debug)]
pub struct Case {
    pub n: usize,
    pub distances: Vec<f64>,
    pub k: usize,
    pub min_segment_len: usize,
    pub max_nearby: usize,
    /// Length of the lent list of sets.
    pub sets_room: usize,
    /// Length of the lent result.
    pub room: usize,
}

impl Case {
    /// The first number of the stated order that applies, 0 if none does.
    pub fn refusal(&self) -> u32 {
        first_refusal(&[
            (1, bad_k(self.k)),
            (5, too_many_stops(self.n)),
            (9, self.bad_listing()),
            (21, self.sets_room < self.k || self.room < RESULT_PLACES),
        ])
    }

    fn bad_listing(&self) -> bool {
        !(1..=LONGEST_PIECE).contains(&self.min_segment_len)
            || self.max_nearby > MOST_NEIGHBOURS
            || self.n.checked_mul(self.n) != Some(self.distances.len())
            || self.distances.iter().any(|distance| distance.is_nan())
    }
}

impl Display for Case {
    fn fmt(&self, out: &mut Formatter<'_>) -> Written {
        writeln!(
            out,
            "n={} k={} m={} neighbours={} sets={} result={}",
            self.n, self.k, self.min_segment_len, self.max_nearby, self.sets_room, self.room
        )?;
        if self.distances.len() > 2000 {
            return writeln!(out, "({} distances: replay the case)", self.distances.len());
        }
        for row in self.distances.chunks(self.n.clamp(1, 512)) {
            writeln!(out, "{row:?}")?;
        }
        Ok(())
    }
}
