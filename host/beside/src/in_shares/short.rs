//! Every call of one small kind: a pinned and a short round before, between and behind rounds of four stops, and none of these, one, two or three of them.

use crate::cases::run::Case;
use crate::draw::lists;
use crate::random::Random;
use crate::tables::Tables;
use crate::trial::Visit;

/// A round of four stops with no gain in it takes 10, 70, 235 or 383 candidates: allowances around what that takes of one, two and three shares.
pub fn each(_random: &mut Random, visit: Visit) {
    for (k, whole) in [(2, 10), (3, 70), (4, 235), (5, 383)] {
        for legs in lists(&[0, 1], 4) {
            for kinds in lists(&[0, 1, 2], 3) {
                for allowance in allowances(whole) {
                    visit(Box::new(call(k, &legs, &kinds, allowance)));
                }
            }
        }
    }
}

fn allowances(whole: u64) -> Vec<u64> {
    let around = (1..=3).flat_map(|shares| (0..4).map(move |over| shares * whole + over - 1));
    [0, 1, 2, 3, 5, u64::MAX]
        .into_iter()
        .chain(around)
        .collect()
}

/// A round for each kind: of four stops, pinned, short.
fn call(k: usize, legs: &[u32], kinds: &[u32], allowance: u64) -> Case {
    let mut tables = Tables::of_legs(2, legs.to_vec());
    tables.pairs = Some(Vec::new());
    let round = |&kind: &u32| match kind {
        0 => (0, vec![1, 0, 1, 0]),
        1 => (1, vec![0, 1, 1, 1]),
        _ => (0, vec![1, 0, 1]),
    };
    let rounds: Vec<_> = kinds.iter().map(round).collect();
    let mut case = Case::of_rounds(k, tables, &rounds);
    for (pin, &kind) in case.pins.iter_mut().zip(kinds) {
        *pin = u8::from(kind == 1);
    }
    case.ends = Some(case.depots.clone());
    case.allowance = allowance;
    case.shares = true;
    case
}
