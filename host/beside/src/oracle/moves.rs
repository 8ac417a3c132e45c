//! The unchanged `k_opt_do_move`, `k_opt_undo_move` and `k_opt_is_doable`, and the patterns.

use crate::domain::PlanningSolution;
use crate::heuristic::r#move::k_opt_reconnection::{enumerate_reconnections, KOptReconnection};
use crate::heuristic::r#move::list_kernel::{k_opt_do_move, k_opt_is_doable, k_opt_undo_move};
use crate::heuristic::r#move::{CutPoint, ListUndoJournal};
use crate::stand_ins::lists::ListWindowAccess;
use crate::Director;
use std::sync::LazyLock;

static PATTERNS: LazyLock<[Vec<KOptReconnection>; 4]> =
    LazyLock::new(|| [2, 3, 4, 5].map(enumerate_reconnections));

fn pattern_of(k: usize, pattern: usize) -> &'static KOptReconnection {
    &PATTERNS[k - 2][pattern]
}

/// One round: the solution and its director.
struct Round(Vec<u32>);

impl PlanningSolution for Round {}

impl Director<Round> for Round {
    fn working_solution(&self) -> &Round {
        self
    }

    fn working_solution_mut(&mut self) -> &mut Round {
        self
    }
}

struct Access;

impl ListWindowAccess<Round> for Access {
    type Element = u32;

    fn descriptor_index(&self) -> usize {
        0
    }

    fn list_len(&self, round: &Round, _entity: usize) -> usize {
        round.0.len()
    }

    fn sublist_remove(
        &self,
        round: &mut Round,
        _entity: usize,
        start: usize,
        end: usize,
    ) -> Option<Vec<u32>> {
        Some(round.0.drain(start..end).collect())
    }

    fn sublist_insert(
        &self,
        round: &mut Round,
        _entity: usize,
        position: usize,
        elements: Vec<u32>,
    ) -> Option<()> {
        round.0.splice(position..position, elements);
        Some(())
    }
}

fn cut_points(rounds: &[usize], positions: &[usize]) -> Vec<CutPoint> {
    let pairs = rounds.iter().zip(positions);
    pairs
        .map(|(&round, &position)| CutPoint::new(round, position))
        .collect()
}

/// The route after the move, and the journal.
pub fn do_move(
    k: usize,
    pattern: usize,
    round: usize,
    positions: &[usize],
    route: &[u32],
) -> (Vec<u32>, Vec<u32>) {
    let cuts = cut_points(&vec![round; positions.len()], positions);
    let mut after = Round(route.to_vec());
    let journal = k_opt_do_move(&Access, &cuts, pattern_of(k, pattern), round, &mut after);
    (after.0, journal.into_vec())
}

pub fn undo_move(route: &[u32], journal: &[u32]) -> Vec<u32> {
    let mut after = Round(route.to_vec());
    let journal = ListUndoJournal::from_slice(journal);
    k_opt_undo_move(&Access, 0, journal, &mut after);
    after.0
}

/// The two lists are equally long.
pub fn is_doable(
    k: usize,
    pattern: usize,
    round: usize,
    n: usize,
    rounds: &[usize],
    positions: &[usize],
) -> bool {
    let cuts = cut_points(rounds, positions);
    let route = Round(vec![0; n]);
    k_opt_is_doable(&Access, &cuts, pattern_of(k, pattern), round, &route)
}

/// k + 1 piece numbers, then the mask.
pub fn reconnection_at(k: usize, pattern: usize) -> Vec<u64> {
    let found = pattern_of(k, pattern);
    let pieces = (0..found.segment_count()).map(|position| found.segment_at(position) as u64);
    let turned = (0..found.segment_count()).filter(|&piece| found.should_reverse(piece));
    let mask = turned.map(|piece| 1u64 << piece).sum();
    pieces.chain([mask]).collect()
}
