//! All rounds in one call, in which they share the allowance.

use crate::question::Question;
use mittenschist::{route_length, run_in_shares, Refusal, RoundReply, RoundState, Rounds};

/// A line for each round, or why the call was refused.
pub fn share_all(question: &Question) -> Result<Vec<String>, Refusal> {
    let before: Vec<Vec<u32>> = question.rounds.iter().cloned().collect::<Result<_, _>>()?;
    let lengths: Vec<usize> = before.iter().map(Vec::len).collect();
    let mut stops = before.concat();
    let rounds = Rounds {
        stops: &mut stops,
        lengths: &lengths,
        depots: &vec![question.harbours.depot; lengths.len()],
        ends: &vec![question.harbours.end; lengths.len()],
        pins: &vec![0; lengths.len()],
    };
    let (k, allowance) = (question.k, question.allowance);
    let replies = run_in_shares(k, allowance, &question.tables(), rounds, &question.pairs)?;
    let mut rest = &stops[..];
    let mut lines = Vec::new();
    for (reply, before) in replies.iter().zip(&before) {
        let (after, others) = rest.split_at(before.len());
        rest = others;
        lines.push(told(question, reply, before, after)?);
    }
    Ok(lines)
}

fn told(
    question: &Question,
    reply: &RoundReply,
    before: &[u32],
    after: &[u32],
) -> Result<String, Refusal> {
    let length = |route| route_length(&question.tables(), question.harbours, route);
    let state = match reply.state {
        RoundState::NotReached => "not reached",
        RoundState::Pinned => "pinned",
        RoundState::Short => "under 4 stops",
        RoundState::Unchanged | RoundState::Changed => "finished",
        RoundState::Spent => "share spent",
    };
    let order: Vec<String> = after.iter().map(u32::to_string).collect();
    Ok(format!(
        "{} s before, {} s after; {state} after {} candidates; order {}",
        length(before)?,
        length(after)?,
        reply.examined,
        order.join(",")
    ))
}
