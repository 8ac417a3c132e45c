//! A move and its cut points, as apply and the doable check take them.

use crate::rules::{bad_cuts, bad_k, bad_pattern};
use crate::tables::listed;

#[derive(Clone, Debug)]
pub struct Cutting {
    pub k: usize,
    pub pattern: usize,
    /// The number of the round that is cut.
    pub round: usize,
    pub cut_rounds: Vec<usize>,
    pub cut_positions: Vec<usize>,
}

impl Cutting {
    /// All cuts in one round.
    pub fn within(k: usize, pattern: usize, round: usize, cuts: &[usize]) -> Self {
        Self {
            k,
            pattern,
            round,
            cut_rounds: vec![round; cuts.len()],
            cut_positions: cuts.to_vec(),
        }
    }

    pub fn bad_k(&self) -> bool {
        bad_k(self.k)
    }

    pub fn bad_pattern(&self) -> bool {
        bad_pattern(self.k, self.pattern)
    }

    /// 7, and lists of unequal lengths.
    pub fn bad_cuts(&self, n: usize) -> bool {
        self.cut_rounds.len() != self.cut_positions.len()
            || bad_cuts(self.k, n, &self.cut_positions)
    }

    /// 8: a cut naming another round.
    pub fn names_another_round(&self) -> bool {
        self.cut_rounds.iter().any(|&round| round != self.round)
    }

    pub fn told(&self) -> String {
        format!(
            "k={} pattern={} round={}\ncut rounds={}\ncut positions={}\n",
            self.k,
            self.pattern,
            self.round,
            listed(&self.cut_rounds),
            listed(&self.cut_positions)
        )
    }
}
