//! One call of the run: what is handed in, and what is refused of it.

use crate::rules::{bad_k, first_refusal, too_many_stops, MOST_ROUNDS};
use crate::tables::{listed, Tables};
use std::fmt::{Display, Formatter, Result as Written};

pub const NUMBERS_A_ROUND: usize = 4;

/// The states of a round.
pub const NOT_REACHED: u64 = 0;
pub const PINNED: u64 = 1;
pub const SHORT: u64 = 2;
pub const UNCHANGED: u64 = 3;
pub const CHANGED: u64 = 4;
pub const SPENT: u64 = 5;

#[derive(Clone, Debug, Default)]
pub struct Case {
    pub k: usize,
    pub allowance: u64,
    pub tables: Tables,
    pub stops: Vec<u32>,
    pub lengths: Vec<usize>,
    pub depots: Vec<u32>,
    /// None where each round ends at its depot: another entry is called then. With pairs there are ends.
    pub ends: Option<Vec<u32>>,
    pub pins: Vec<u8>,
    /// Length of the lent result.
    pub room: usize,
    /// Whether the rounds share the allowance: another entry is called then, with ends and pairs.
    pub shares: bool,
}

impl Case {
    /// Rounds that are free, each with its depot, and room for their numbers.
    pub fn of_rounds(k: usize, tables: Tables, rounds: &[(u32, Vec<u32>)]) -> Self {
        Self {
            k,
            allowance: u64::MAX,
            tables,
            stops: rounds.iter().flat_map(|round| round.1.clone()).collect(),
            lengths: rounds.iter().map(|round| round.1.len()).collect(),
            depots: rounds.iter().map(|round| round.0).collect(),
            ends: None,
            pins: vec![0; rounds.len()],
            room: rounds.len() * NUMBERS_A_ROUND,
            shares: false,
        }
    }

    /// The stops of each round.
    pub fn rounds(&self) -> Vec<&[u32]> {
        let mut rest = &self.stops[..];
        let mut rounds = Vec::with_capacity(self.lengths.len());
        for &length in &self.lengths {
            let (round, others) = rest.split_at(length);
            rounds.push(round);
            rest = others;
        }
        rounds
    }

    /// The first number of the stated order that applies, 0 if none does.
    pub fn refusal(&self) -> u32 {
        let [size, leg, service] = self.tables.rules();
        first_refusal(&[
            (1, bad_k(self.k)),
            size,
            leg,
            service,
            (4, self.unknown_place()),
            (24, self.tables.unknown(self.ends())),
            (29, self.tables.bad_pairs()),
            (5, self.bad_rounds()),
            (21, self.room < self.lengths.len() * NUMBERS_A_ROUND),
        ])
    }

    /// Whether each round ends at its depot.
    pub fn closed(&self) -> bool {
        self.ends() == self.depots
    }

    pub fn ends(&self) -> &[u32] {
        self.ends.as_ref().unwrap_or(&self.depots)
    }

    /// Every stop and every depot counts, whichever round holds it.
    fn unknown_place(&self) -> bool {
        self.tables.unknown(&self.depots) || self.tables.unknown(&self.stops)
    }

    fn bad_rounds(&self) -> bool {
        let rounds = self.lengths.len();
        let whole: u128 = self.lengths.iter().map(|&length| length as u128).sum();
        rounds > MOST_ROUNDS
            || self.lengths.iter().any(|&length| too_many_stops(length))
            || self.depots.len() != rounds
            || self.ends().len() != rounds
            || self.pins.len() != rounds
            || whole != self.stops.len() as u128
    }
}

impl Display for Case {
    fn fmt(&self, out: &mut Formatter<'_>) -> Written {
        writeln!(out, "(lent result: {} places)", self.room)?;
        if self.shares {
            writeln!(out, "(in shares)")?;
        }
        writeln!(out, "k={}\nallowance={}", self.k, self.allowance)?;
        write!(out, "{}", self.tables.told())?;
        writeln!(out, "stops={}", listed(&self.stops))?;
        writeln!(out, "lengths={}", listed(&self.lengths))?;
        writeln!(out, "depots={}", listed(&self.depots))?;
        if let Some(ends) = &self.ends {
            writeln!(out, "ends={}", listed(ends))?;
        }
        writeln!(out, "pins={}", listed(&self.pins))
    }
}
