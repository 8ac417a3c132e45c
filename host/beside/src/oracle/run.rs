//! The unchanged `run_list_k_opt`, with what it tells the stand-ins counted by round; and a run whose rounds are polished by the unchanged
//! `polish_route`, which is what two cuts are held to since document 02.

use super::fleet::{stops, Access, Fleet, Quiet, Yard};
use super::list_k_opt::run_list_k_opt;
use super::polish::{polish_with, Counts};
use crate::cases::run::{
    Case, CHANGED, NOT_REACHED, NUMBERS_A_ROUND, PINNED, SHORT, SPENT, UNCHANGED,
};
use crate::scope::{ProgressCallback, SolverScope, StepControlPolicy};
use std::cell::Cell;

#[derive(Clone, Copy, Default)]
struct Round {
    examined: u64,
    committed: Option<u64>,
    discarded: Option<u64>,
}

/// Counts by round. The round is the first component of a candidate.
struct Counting {
    rounds: Vec<Round>,
    present: usize,
}

impl ProgressCallback<Fleet<'_>> for Counting {
    fn candidate(&mut self, mut components: impl Iterator<Item = u64>) {
        self.present = components
            .next()
            .map_or(self.present, |round| round as usize);
        self.rounds[self.present].examined += 1;
    }

    fn committed(&mut self, accepted: u64) {
        self.rounds[self.present].committed = Some(accepted);
    }

    fn discarded(&mut self, accepted: u64) {
        self.rounds[self.present].discarded = Some(accepted);
    }
}

/// The stops after a run, and four numbers a round.
pub type Ran = (Vec<u32>, Vec<u64>);

/// What the library's run is held to.
pub fn run(case: &Case, allowance: u64) -> Ran {
    match by_the_rust(case) {
        false => run_by_polishing(case, allowance),
        true => run_by_rust(case, allowance),
    }
}

/// The candidates that it examines in all.
pub fn examined(case: &Case, allowance: u64) -> u64 {
    match by_the_rust(case) {
        false => run_by_polishing(case, allowance)
            .1
            .chunks(NUMBERS_A_ROUND)
            .map(|round| round[1])
            .sum(),
        true => run_quietly(case, allowance),
    }
}

/// Whether the Rust's own run is asked: it knows closed tours alone, and takes the pair loop for two cuts.
fn by_the_rust(case: &Case) -> bool {
    case.k > 2 && case.closed()
}

/// Each round polished in turn with what is left of the allowance, whichever k.
pub fn run_by_polishing(case: &Case, allowance: u64) -> Ran {
    let (mut left, mut after, mut numbers) = (allowance, Vec::new(), Vec::new());
    for (index, round) in case.rounds().into_iter().enumerate() {
        let (order, four) = round_by_polishing(case, index, left, round);
        left -= four[1];
        after.extend(order);
        numbers.extend(four);
    }
    (after, numbers)
}

/// Allowance reached, pinned, under 4 stops, in this order; else polished, and put back where it is spent.
fn round_by_polishing(
    case: &Case,
    index: usize,
    left: u64,
    round: &[u32],
) -> (Vec<u32>, [u64; NUMBERS_A_ROUND]) {
    let passed_over = |state| (round.to_vec(), [state, 0, 0, 0]);
    if left == 0 {
        return passed_over(NOT_REACHED);
    }
    if case.pins[index] != 0 {
        return passed_over(PINNED);
    }
    if round.len() < 4 {
        return passed_over(SHORT);
    }
    let (order, counts) = polished(case, index, left, round);
    let (examined, accepted) = (counts.examined, counts.accepted);
    match (counts.spent, accepted) {
        (true, _) => (round.to_vec(), [SPENT, examined, accepted, 0]),
        (false, 0) => (order, [UNCHANGED, examined, 0, 0]),
        (false, _) => (order, [CHANGED, examined, accepted, accepted]),
    }
}

/// A round after polishing with so many candidates, and what that counted.
pub(super) fn polished(
    case: &Case,
    index: usize,
    allowance: u64,
    round: &[u32],
) -> (Vec<u32>, Counts) {
    let mut order = stops(round);
    let (depot, end) = (case.depots[index], case.ends()[index]);
    let counts = if depot == end {
        polish_with(case.k, allowance, &case.tables, depot, &mut order)
    } else {
        let (tables, depot) = case.tables.with_both_ends(depot, end);
        polish_with(case.k, allowance, &tables, depot, &mut order)
    };
    let order = order.into_iter().map(|stop| stop as u32).collect();
    (order, counts)
}

/// The unchanged run; with two cuts by the pair loop.
pub fn run_by_rust(case: &Case, allowance: u64) -> Ran {
    let counting = Counting {
        rounds: vec![Round::default(); case.lengths.len()],
        present: 0,
    };
    let (yard, counting) = run_fleet(case, allowance, counting);
    let rounds = yard.fleet.rounds.iter().flatten();
    let after = rounds.map(|&stop| stop as u32).collect();
    let numbers = counting.rounds.iter().enumerate();
    let numbers = numbers.flat_map(|(index, round)| four_numbers(&yard, index, round));
    (after, numbers.collect())
}

/// A round of four stops or more has a candidate, so one that is reached, free and without any was skipped as short.
fn four_numbers(yard: &Yard, index: usize, round: &Round) -> [u64; 4] {
    if index >= yard.reached.get() {
        return [NOT_REACHED, 0, 0, 0];
    }
    if yard.pins[index] != 0 {
        return [PINNED, round.examined, 0, 0];
    }
    match (round.committed, round.discarded) {
        (Some(accepted), _) => [CHANGED, round.examined, accepted, accepted],
        (_, Some(accepted)) => [SPENT, round.examined, accepted, 0],
        _ if round.examined == 0 => [SHORT, 0, 0, 0],
        _ => [UNCHANGED, round.examined, 0, 0],
    }
}

/// The unchanged run with nothing counted by round: the candidates examined in all.
pub fn run_quietly(case: &Case, allowance: u64) -> u64 {
    let mut solver_scope = SolverScope::new(yard(case), Quiet);
    let policy = StepControlPolicy { allowance };
    run_list_k_opt(&Access, case.k, policy, &mut solver_scope);
    solver_scope.examined
}

fn run_fleet(case: &Case, allowance: u64, counting: Counting) -> (Yard<'_>, Counting) {
    let mut solver_scope = SolverScope::new(yard(case), counting);
    let policy = StepControlPolicy { allowance };
    run_list_k_opt(&Access, case.k, policy, &mut solver_scope);
    solver_scope.parts()
}

fn yard(case: &Case) -> Yard<'_> {
    let rounds = case.rounds().into_iter().map(stops).collect();
    let fleet = Fleet {
        tables: &case.tables,
        depots: &case.depots,
        rounds,
        marks: None,
    };
    Yard {
        fleet,
        pins: &case.pins,
        reached: Cell::new(0),
    }
}
