//! Shares of the allowance, composed from the unchanged `polish_route` after the sentences of document 02.

use super::run::{polished, Ran};
use crate::cases::run::{Case, CHANGED, PINNED, SHORT, SPENT, UNCHANGED};

/// The stops after every round's turn, and four numbers a round.
pub fn run_in_shares(case: &Case) -> Ran {
    let rounds = case.rounds();
    let takes_part = |index: usize| case.pins[index] == 0 && rounds[index].len() >= 4;
    let takers = (0..rounds.len()).filter(|&index| takes_part(index)).count() as u64;
    // What earlier ones left over; before the first, the remainder.
    let mut left = case.allowance.checked_rem(takers).unwrap_or(0);
    let (mut after, mut numbers) = (Vec::new(), Vec::new());
    for (index, round) in rounds.iter().enumerate() {
        if !takes_part(index) {
            let state = if case.pins[index] != 0 { PINNED } else { SHORT };
            after.extend_from_slice(round);
            numbers.extend([state, 0, 0, 0]);
            continue;
        }
        let given = case.allowance / takers + left;
        let (order, counts) = polished(case, index, given, round);
        left = given - counts.examined;
        let state = match (counts.spent, counts.accepted) {
            (true, _) => SPENT,
            (false, 0) => UNCHANGED,
            (false, _) => CHANGED,
        };
        after.extend(order);
        numbers.extend([state, counts.examined, counts.accepted, counts.accepted]);
    }
    (after, numbers)
}
