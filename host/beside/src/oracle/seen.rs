//! `next_cut_set`, `reconnect` and `RouteCosts::delta` are private in general.rs. What they do is seen through the unchanged
//! `polish_route`: each candidate is told to the callback with its cuts and pattern, and is shown to `route_feasible`, rejoined,
//! exactly if its delta is below 0. Nothing is ever accepted, so the scan passes every candidate of the route once.

use super::list_k_opt::{polish_route, ListKOptAccess};
use crate::domain::PlanningSolution;
use crate::scope::{ProgressCallback, SolverScope, StepControlPolicy};
use crate::Director;
use std::cell::RefCell;
use std::collections::HashMap;

/// A candidate: its cuts, then the index of its pattern.
pub type Move = (Vec<usize>, usize);

/// What a scan showed.
#[derive(Default)]
pub struct Seen {
    /// Every cut set, in the order of the scan.
    pub sets: Vec<Vec<usize>>,
    /// The rejoined positions of each candidate with a delta below 0.
    pub shorter: HashMap<Move, Vec<usize>>,
    present: Move,
}

/// The stops of the route are its positions 0 to n - 1, the depot is n; legs are given by position.
struct Legs<'l>(&'l dyn Fn(usize, usize) -> i64);

impl PlanningSolution for Legs<'_> {}

impl<'l> Director<Legs<'l>> for Legs<'l> {
    fn working_solution(&self) -> &Legs<'l> {
        self
    }

    fn working_solution_mut(&mut self) -> &mut Legs<'l> {
        self
    }
}

struct Watch<'s>(&'s RefCell<Seen>);

impl ProgressCallback<Legs<'_>> for Watch<'_> {
    fn candidate(&mut self, components: impl Iterator<Item = u64>) {
        let mut numbers: Vec<usize> = components.map(|number| number as usize).collect();
        let pattern = numbers.pop().expect("a pattern");
        let cuts = numbers.split_off(1);
        let mut seen = self.0.borrow_mut();
        if seen.sets.last() != Some(&cuts) {
            seen.sets.push(cuts.clone());
        }
        seen.present = (cuts, pattern);
    }
}

impl ListKOptAccess<Legs<'_>> for Watch<'_> {
    fn descriptor_index(&self) -> usize {
        0
    }

    fn entity_count(&self, _legs: &Legs) -> usize {
        1
    }

    fn route_values(&self, _legs: &Legs, _entity_index: usize) -> Vec<usize> {
        Vec::new()
    }

    fn replace_route(&self, _legs: &mut Legs, _entity_index: usize, _route: Vec<usize>) {}

    fn route_depot(&self, _legs: &Legs, _entity_index: usize) -> usize {
        0
    }

    fn route_distance(&self, legs: &Legs, _entity_index: usize, from: usize, to: usize) -> i64 {
        (legs.0)(from, to)
    }

    fn route_feasible(&self, _legs: &Legs, _entity_index: usize, route: &[usize]) -> bool {
        let mut seen = self.0.borrow_mut();
        let present = seen.present.clone();
        seen.shorter.insert(present, route.to_vec());
        false
    }
}

/// Scans a route of n stops, at most `most` candidates.
pub fn scan(k: usize, n: usize, most: u64, legs: &dyn Fn(usize, usize) -> i64) -> Seen {
    let seen = RefCell::new(Seen::default());
    let mut solver_scope = SolverScope::new(Legs(legs), Watch(&seen));
    let policy = StepControlPolicy { allowance: most };
    let mut route: Vec<usize> = (0..n).collect();
    polish_route(&Watch(&seen), k, policy, &mut solver_scope, n, &mut route);
    seen.into_inner()
}

/// A scan in which every candidate that changes the route is shorter: its legs take a second, all others none.
pub fn scan_all(k: usize, n: usize) -> Seen {
    let along = |from: usize, to: usize| i64::from(to == (from + 1) % (n + 1));
    scan(k, n, u64::MAX, &along)
}
