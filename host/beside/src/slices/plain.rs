//! The scan from a place on, written from the words: all candidates in a list, those before the place left out. And a whole search, from which is read
//! where it stands after any number of candidates.

use crate::cases::ends::Case;
use crate::ends::plain::{all_patterns, cut_sets, improved, in_time, rejoined};
use crate::oracle::polish::Counts;
use crate::rules::pattern_count;

/// What a slice of a route counts, the route that it leaves, and the place of the next candidate.
pub fn slice(case: &Case, place: &[u64]) -> (Counts, Vec<u32>, Vec<u64>) {
    let (k, patterns) = (case.closed.k, all_patterns(case.closed.k));
    let sets = cut_sets(k, 0, case.closed.route.len());
    let many = sets.len() * patterns.len();
    let mut route = case.closed.route.clone();
    let mut counts = Counts {
        spent: false,
        examined: 0,
        accepted: 0,
    };
    let begins = |cuts: &&Vec<usize>| {
        cuts.iter()
            .zip(place)
            .all(|(&cut, &held)| cut as u64 == held)
    };
    let before = sets.iter().position(|cuts| begins(&cuts));
    let mut next = before.map_or(many, |set| set * patterns.len() + place[k] as usize);
    while next < many {
        if counts.examined == case.closed.allowance {
            counts.spent = true;
            let cuts = sets[next / patterns.len()].iter().map(|&cut| cut as u64);
            let index = (next % patterns.len()) as u64;
            return (counts, route, cuts.chain([index]).collect());
        }
        counts.examined += 1;
        let candidate = rejoined(
            &route,
            &sets[next / patterns.len()],
            &patterns[next % patterns.len()],
        );
        let shorter = case.length(&candidate) < case.length(&route);
        next += 1;
        if shorter && in_time(case, &candidate) && case.closed.tables.keeps_pairs(&candidate) {
            counts.accepted += 1;
            route = candidate;
            next = 0;
        }
    }
    (counts, route, first_place(k))
}

pub fn first_place(k: usize) -> Vec<u64> {
    (0..k as u64).chain([0]).collect()
}

/// A pass of a search: how many candidates were examined before it, and the route that it is over.
struct Pass {
    begins: u64,
    route: Vec<u32>,
}

/// A search until nothing is left.
pub struct Search {
    k: usize,
    sets: Vec<Vec<usize>>,
    /// One more than there are acceptances.
    passes: Vec<Pass>,
    /// Candidates in all.
    pub examined: u64,
}

/// Where a search stands.
pub struct Standing<'s> {
    pub route: &'s [u32],
    pub accepted: u64,
    pub place: Vec<u64>,
}

impl Search {
    pub fn of(case: &Case) -> Self {
        let (mut case, k) = (case.clone(), case.closed.k);
        case.closed.allowance = u64::MAX;
        let patterns = all_patterns(k);
        let mut counts = Counts {
            spent: false,
            examined: 0,
            accepted: 0,
        };
        let mut route = case.closed.route.clone();
        let mut passes = vec![Pass {
            begins: 0,
            route: route.clone(),
        }];
        while let Some(better) = improved(&case, &patterns, &route, &mut counts) {
            route.clone_from(&better);
            passes.push(Pass {
                begins: counts.examined,
                route: better,
            });
        }
        Self {
            k,
            sets: cut_sets(k, 0, route.len()),
            passes,
            examined: counts.examined,
        }
    }

    /// After so many candidates; with all of them, at the first place again.
    pub fn after(&self, candidates: u64) -> Standing<'_> {
        let begun = self.passes.iter().filter(|pass| pass.begins <= candidates);
        let accepted = begun.count() - 1;
        let pass = &self.passes[accepted];
        let place = if candidates >= self.examined {
            first_place(self.k)
        } else {
            let (next, patterns) = (candidates - pass.begins, pattern_count(self.k) as u64);
            let cuts = self.sets[(next / patterns) as usize].iter();
            cuts.map(|&cut| cut as u64)
                .chain([next % patterns])
                .collect()
        };
        Standing {
            route: &pass.route,
            accepted: accepted as u64,
            place,
        }
    }

    /// After how many candidates each pass begins, and after how many it is over.
    pub fn passes(&self) -> Vec<(u64, u64)> {
        let begins = self.passes.iter().map(|pass| pass.begins);
        let over = begins.clone().skip(1).chain([self.examined]);
        begins.zip(over).collect()
    }

    /// How many candidates a pass has examined at the end of each stretch: the cut sets that differ in their last cut alone.
    pub fn stretch_ends(&self) -> Vec<u64> {
        let fixed = |set: &Vec<usize>| set[..self.k - 1].to_vec();
        let stretches = self.sets.chunk_by(|one, other| fixed(one) == fixed(other));
        let lengths = stretches.map(|stretch| (stretch.len() * pattern_count(self.k)) as u64);
        lengths
            .scan(0, |examined, length| {
                *examined += length;
                Some(*examined)
            })
            .collect()
    }
}
