//! The pairs of rounds of 48 stops that the bench times.

use super::case::Case;
use super::hard;
use crate::random::Random;
use crate::rules::LONGEST_MOVED as N;

type Round = Vec<u32>;

fn each(value: impl Fn(usize) -> usize) -> Round {
    (0..N).map(|place| value(place) as u32).collect()
}

fn with_turned(old: &Round, parts: &[(usize, usize)]) -> Round {
    let mut round = old.clone();
    for &(from, to) in parts {
        round[from..to].reverse();
    }
    round
}

/// The last cuts two apart, the segments between them in the opposite order and reversed.
fn late(k: usize, old: &Round) -> Round {
    with_turned(old, &[(N - 2 * (k - 1), N)])
}

/// Of distinct stops: equal, a move late in the scan, and two that no move joins.
fn distinct(k: usize, visit: &mut dyn FnMut(String, Round, Round)) {
    let old = each(|place| place);
    visit("distinct, equal".into(), old.clone(), old.clone());
    visit(
        "distinct, late in the scan".into(),
        old.clone(),
        late(k, &old),
    );
    let mut shuffled = old.clone();
    Random::new(1965).shuffle(&mut shuffled);
    visit("distinct, any order (none)".into(), old.clone(), shuffled);
    visit(SEVEN_TURNS.into(), old.clone(), seven_turns(&old));
}

const SEVEN_TURNS: &str = "distinct, six stretches turned (none)";

fn seven_turns(old: &Round) -> Round {
    let parts: Vec<(usize, usize)> = (0..6).map(|turn| (7 * turn, 7 * turn + 5)).collect();
    with_turned(old, &parts)
}

fn few_values(visit: &mut dyn FnMut(String, Round, Round)) {
    let alike = each(|_| 0);
    visit("all equal".into(), alike.clone(), alike);
    let marked = |mark: usize| each(|place| usize::from(place == mark));
    visit("one marked, moved".into(), marked(3), marked(44));
    let alternating = each(|place| place % 2);
    let shifted = each(|place| (place + 1) % 2);
    visit(
        "alternating, shifted by one".into(),
        alternating.clone(),
        shifted,
    );
    let halves = each(|place| place / 24);
    visit("alternating, to halves".into(), alternating.clone(), halves);
    let disturbed = with_turned(&alternating, &[(21, 25), (24, 28)]);
    visit("alternating, disturbed".into(), alternating, disturbed);
}

fn periods(visit: &mut dyn FnMut(String, Round, Round)) {
    for period in 3..=8 {
        let old = each(|place| place % period);
        let three = [(20, 20 + period), (30, 30 + period), (38, 38 + period)];
        let name = |what: &str| format!("period {period}, {what}");
        visit(
            name("three stretches turned"),
            old.clone(),
            with_turned(&old, &three),
        );
        visit(
            name("turned whole"),
            old.clone(),
            with_turned(&old, &[(0, N)]),
        );
        let mut sorted = old.clone();
        sorted.sort_unstable();
        visit(name("sorted"), old, sorted);
    }
}

/// The rows of the table: what they are called, and the pair.
pub fn rows(k: usize) -> Vec<(String, Case)> {
    let mut rows = Vec::new();
    let mut visit = |name, old, wanted| rows.push((name, Case::new(k, old, wanted)));
    distinct(k, &mut visit);
    few_values(&mut visit);
    periods(&mut visit);
    rows
}

/// The pairs that are known to be hard.
pub fn hard_rows(k: usize) -> Vec<(String, Case)> {
    let row = |(number, (old, wanted))| {
        let case = Case::new(k, old, wanted);
        (format!("hard pair {number}"), case)
    };
    (1..).zip(hard::pairs()).map(row).collect()
}

/// A pair of distinct stops that no move joins: the plain scan leaves each candidate at its first wrong stop.
pub fn no_move(k: usize) -> Case {
    let old = each(|place| place);
    let wanted = seven_turns(&old);
    Case::new(k, old, wanted)
}
