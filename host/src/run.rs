use crate::unknown::unknown;
use crate::{raw, Pair, Refusal, Tables};

/// More rounds than this are refused.
const MOST_ROUNDS: usize = 64;

/// The rounds of a run, held together. They are judged by the run.
#[derive(Debug)]
pub struct Rounds<'r> {
    /// The stops of all rounds, end to end.
    pub stops: &'r mut [u32],
    /// How many stops each round has, at most 512.
    pub lengths: &'r [usize],
    /// The depot of each round.
    pub depots: &'r [u32],
    /// The end harbour of each round; the depots again where each goes back to its own.
    pub ends: &'r [u32],
    /// A byte for each round: 0 free, else pinned.
    pub pins: &'r [u8],
}

/// What became of a round.
#[derive(Clone, Copy, Debug, PartialEq, Eq)]
pub enum RoundState {
    /// The allowance was reached before it.
    NotReached,
    /// Pinned, so left alone.
    Pinned,
    /// Under 4 stops, so left alone.
    Short,
    /// Polished, and nothing was accepted.
    Unchanged,
    /// Polished, and something was accepted.
    Changed,
    /// The allowance was reached in it. A run puts its stops back as handed in; in shares it keeps what was accepted.
    Spent,
}

/// What the run did with a round.
#[derive(Clone, Copy, Debug, PartialEq, Eq)]
pub struct RoundReply {
    /// What became of it.
    pub state: RoundState,
    /// Candidates examined.
    pub examined: u64,
    /// Candidates accepted.
    pub accepted: u64,
    /// `accepted` where the round was changed, and in shares where it was spent; else 0.
    pub applied: u64,
}

impl RoundReply {
    fn of(numbers: &[u64; 4]) -> Self {
        let [state, examined, accepted, applied] = *numbers;
        let state = match state {
            0 => RoundState::NotReached,
            1 => RoundState::Pinned,
            2 => RoundState::Short,
            3 => RoundState::Unchanged,
            4 => RoundState::Changed,
            5 => RoundState::Spent,
            other => unknown("state of a round", other),
        };
        Self {
            state,
            examined,
            accepted,
            applied,
        }
    }
}

/// Polishes round after round under one allowance, whichever k. Each round costs what [`polish_route`](crate::polish_route) says, and of a
/// finished one the same is proved. For the orders that a run with k = 2 gave in former versions there is
/// [`pair_loop`](crate::pair_loop()). Refuses 1, 2, 3, 23, 4, 24, 5.
///
/// ```
/// use mittenschist::{run_list_k_opt, RoundState, Rounds, Tables};
///
/// let legs = [0, 5, 1, 1, 0, 5, 5, 1, 0];
/// let tables = Tables { locations: 3, legs: &legs, latest: &[u32::MAX; 3], service: &[0; 3] };
/// let mut stops = [1, 2, 1, 2, 1, 2];
/// let rounds = Rounds { stops: &mut stops, lengths: &[2, 4], depots: &[0, 0], ends: &[0, 0], pins: &[0, 0] };
/// let replies = run_list_k_opt(3, 1000, &tables, rounds)?;
/// assert_eq!(replies[0].state, RoundState::Short);
/// assert_eq!(replies[1].state, RoundState::Changed);
/// assert_eq!(stops[..2], [1, 2]);
/// # Ok::<(), mittenschist::Refusal>(())
/// ```
pub fn run_list_k_opt(
    k: usize,
    allowance: u64,
    tables: &Tables,
    rounds: Rounds,
) -> Result<Vec<RoundReply>, Refusal> {
    run(k, allowance, tables, rounds, None)
}

/// As [`run_list_k_opt`], where every round keeps the same pairs: of a round it is what
/// [`polish_route_with_pairs`](crate::polish_route_with_pairs) says. Refuses 1, 2, 3, 23, 4, 24, 29, 5.
///
/// ```
/// use mittenschist::{run_list_k_opt_with_pairs, RoundState, Rounds, Tables};
///
/// let legs = [0, 5, 1, 1, 0, 5, 5, 1, 0];
/// let tables = Tables::without_service(3, &legs, &[u32::MAX; 3]);
/// let mut stops = [1, 1, 2, 2, 2, 2, 1, 1];
/// let rounds = Rounds { stops: &mut stops, lengths: &[4, 4], depots: &[0, 0], ends: &[0, 0], pins: &[0, 0] };
/// let replies = run_list_k_opt_with_pairs(3, 1000, &tables, rounds, &[[1, 2]])?;
/// assert_eq!(replies[0].state, RoundState::Unchanged);
/// # Ok::<(), mittenschist::Refusal>(())
/// ```
pub fn run_list_k_opt_with_pairs(
    k: usize,
    allowance: u64,
    tables: &Tables,
    rounds: Rounds,
    pairs: &[Pair],
) -> Result<Vec<RoundReply>, Refusal> {
    run(k, allowance, tables, rounds, Some(pairs.as_flattened()))
}

/// As [`run_list_k_opt_with_pairs`], where no round can eat what the others wait for: the rounds that are free and of 4 stops or more share the
/// allowance. Each is given the allowance divided by their number, rounded down, and what those before it left over; the first has the
/// remainder too. None is [`NotReached`](RoundState::NotReached), and a spent one keeps what was accepted. Refuses 1, 2, 3, 23, 4, 24, 29, 5.
///
/// ```
/// use mittenschist::{run_in_shares, RoundState, Rounds, Tables};
///
/// // Two rounds of four stops, with 70 candidates each where nothing can be gained.
/// let tables = Tables::without_service(1, &[0], &[u32::MAX]);
/// let mut stops = [0; 8];
/// let rounds = Rounds { stops: &mut stops, lengths: &[4, 4], depots: &[0, 0], ends: &[0, 0], pins: &[0, 0] };
/// let replies = run_in_shares(3, 71, &tables, rounds, &[])?;
/// assert_eq!(replies.iter().map(|round| round.examined).collect::<Vec<_>>(), [36, 35]);
/// assert_eq!(replies[1].state, RoundState::Spent);
/// # Ok::<(), mittenschist::Refusal>(())
/// ```
pub fn run_in_shares(
    k: usize,
    allowance: u64,
    tables: &Tables,
    rounds: Rounds,
    pairs: &[Pair],
) -> Result<Vec<RoundReply>, Refusal> {
    let (locations, legs, latest, service) = tables.parts();
    replies(rounds, |rounds, result| {
        raw::run_in_shares(
            k,
            allowance,
            locations,
            legs,
            latest,
            service,
            rounds.stops,
            rounds.lengths,
            rounds.depots,
            rounds.ends,
            rounds.pins,
            pairs.as_flattened(),
            result,
        )
    })
}

/// With the members of pairs, or by the function that takes none.
fn run(
    k: usize,
    allowance: u64,
    tables: &Tables,
    rounds: Rounds,
    members: Option<&[u32]>,
) -> Result<Vec<RoundReply>, Refusal> {
    let (locations, legs, latest, service) = tables.parts();
    replies(rounds, |rounds, result| {
        let Rounds {
            stops,
            lengths,
            depots,
            ends,
            pins,
        } = rounds;
        match members {
            None => raw::run_list_k_opt_to_ends(
                k, allowance, locations, legs, latest, service, stops, lengths, depots, ends, pins,
                result,
            ),
            Some(pairs) => raw::run_list_k_opt_with_pairs(
                k, allowance, locations, legs, latest, service, stops, lengths, depots, ends, pins,
                pairs, result,
            ),
        }
    })
}

/// What a call says of each round, by the four numbers that it writes.
fn replies(
    rounds: Rounds,
    call: impl FnOnce(Rounds, &mut [u64]) -> u32,
) -> Result<Vec<RoundReply>, Refusal> {
    let many = rounds.lengths.len();
    let mut replies = [[0; 4]; MOST_ROUNDS];
    Refusal::check(call(rounds, replies.as_flattened_mut()))?;
    let replies = replies.iter().take(many);
    Ok(replies.map(RoundReply::of).collect())
}

#[cfg(test)]
mod tests {
    use super::{RoundReply, RoundState};

    #[test]
    fn each_state_by_its_number() {
        let states = [
            RoundState::NotReached,
            RoundState::Pinned,
            RoundState::Short,
            RoundState::Unchanged,
            RoundState::Changed,
            RoundState::Spent,
        ];
        for (number, state) in (0..).zip(states) {
            assert_eq!(RoundReply::of(&[number, 0, 0, 0]).state, state);
        }
    }

    #[test]
    #[should_panic(expected = "the archive is of another version")]
    fn a_state_without_a_name() {
        RoundReply::of(&[6, 0, 0, 0]);
    }
}
