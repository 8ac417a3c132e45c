//! All candidates of short rounds, as the Rust passes and rejoins them.

use super::case::{Case, Found};
use crate::oracle::{moves, seen};
use crate::rules::pattern_count;
use std::sync::OnceLock;

/// Stops of the longest round of which all candidates are kept.
pub const LONGEST: usize = 9;

struct Candidate {
    pattern: usize,
    cuts: Vec<usize>,
    /// For each position of the new round the position in the old one.
    from: Vec<u32>,
}

/// By k and stops.
static CANDIDATES: [[OnceLock<Vec<Candidate>>; LONGEST + 1]; 4] =
    [const { [const { OnceLock::new() }; LONGEST + 1] }; 4];

fn candidates(k: usize, n: usize) -> &'static [Candidate] {
    CANDIDATES[k - 2][n].get_or_init(|| {
        let positions: Vec<u32> = (0..n as u32).collect();
        let mut all = Vec::new();
        for cuts in seen::scan(k, n, u64::MAX, &|_, _| 0).sets {
            for pattern in 0..pattern_count(k) {
                let (from, _) = moves::do_move(k, pattern, 0, &cuts, &positions);
                let cuts = cuts.clone();
                all.push(Candidate {
                    pattern,
                    cuts,
                    from,
                });
            }
        }
        all
    })
}

pub fn first(case: &Case) -> Option<Found> {
    let turns = |candidate: &&Candidate| {
        let arrived = candidate.from.iter().map(|&from| case.old[from as usize]);
        arrived.eq(case.wanted.iter().copied())
    };
    let all = candidates(case.k, case.old.len());
    let found = all.iter().find(turns)?;
    Some((found.pattern, found.cuts.clone()))
}
