//! Rounds polished on several threads, told in their order. The library has no state between calls.

use crate::board::Board;
use crate::question::Question;
use mittenschist::{polish_with_patterns_and_pairs, Ending, Polished, Polisher, Refusal};
use std::collections::BTreeMap;
use std::sync::atomic::{AtomicUsize, Ordering};
use std::sync::mpsc::{self, Receiver, Sender};
use std::thread;

/// What became of a round: the answer and its stops, or why it was refused.
pub type Outcome = Result<(Polished, Vec<u32>), Refusal>;

/// Polishes every round, `jobs` at a time, and tells each outcome as soon as those before it are told. The board shows how far they are.
pub fn polish_all(question: &Question, jobs: usize, board: &Board, tell: impl FnMut(Outcome)) {
    let next = AtomicUsize::new(0);
    let (done, outcomes) = mpsc::channel();
    thread::scope(|scope| {
        for _ in 0..jobs.min(question.rounds.len()) {
            let (next, done) = (&next, done.clone());
            scope.spawn(move || work(question, board, next, &done));
        }
        drop(done);
        in_order(outcomes, tell);
    });
}

/// Takes the next round until none is left.
fn work(question: &Question, board: &Board, next: &AtomicUsize, done: &Sender<(usize, Outcome)>) {
    loop {
        let place = next.fetch_add(1, Ordering::Relaxed);
        let Some(round) = question.rounds.get(place) else {
            return;
        };
        let round = round.clone();
        let outcome = round.and_then(|round| polish(question, board, place, round));
        board.leave(place);
        if done.send((place, outcome)).is_err() {
            return;
        }
    }
}

/// One round. A list of patterns is polished with in one call.
fn polish(question: &Question, board: &Board, place: usize, mut round: Vec<u32>) -> Outcome {
    let polished = match &question.patterns {
        None => in_slices(question, board, place, &mut round)?,
        Some(list) => polish_with_patterns_and_pairs(
            list.lent(),
            question.allowance,
            &question.tables(),
            question.harbours,
            &question.pairs,
            &mut round,
        )?,
    };
    Ok((polished, round))
}

/// Until it is finished, or the allowance or the time is over. The first slice judges what is handed in, also when the time is over already.
fn in_slices(
    question: &Question,
    board: &Board,
    place: usize,
    round: &mut [u32],
) -> Result<Polished, Refusal> {
    let (k, tables, harbours) = (question.k, &question.tables(), question.harbours);
    let mut polisher = Polisher::new(k, tables, harbours, &question.pairs, round);
    let mut polished = polisher.step(0)?;
    loop {
        let left = question.allowance - polished.examined;
        let time = question.time_left();
        if polished.ending == Ending::Finished || left == 0 || time.is_zero() {
            return Ok(polished);
        }
        let ran = polisher.run_within(left, time.min(board.pause()))?;
        polished = polished.then(ran);
        if ran.ending == Ending::Spent {
            board.show(place, &polisher.progress());
        }
    }
}

fn in_order(outcomes: Receiver<(usize, Outcome)>, mut tell: impl FnMut(Outcome)) {
    let mut waiting = BTreeMap::new();
    let mut next = 0;
    for (place, outcome) in outcomes {
        waiting.insert(place, outcome);
        while let Some(outcome) = waiting.remove(&next) {
            tell(outcome);
            next += 1;
        }
    }
}

#[cfg(test)]
mod tests {
    use super::in_order;
    use mittenschist::Refusal;
    use std::sync::mpsc;

    #[test]
    fn told_in_order_however_they_come() {
        let (done, outcomes) = mpsc::channel();
        for place in [2, 0, 3, 1] {
            done.send((place, Err(Refusal::Other(place as u32))))
                .unwrap();
        }
        drop(done);
        let mut told = Vec::new();
        in_order(outcomes, |outcome| told.push(outcome.unwrap_err().number()));
        assert_eq!(told, [0, 1, 2, 3]);
    }
}
