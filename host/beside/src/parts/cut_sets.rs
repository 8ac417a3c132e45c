//! The step from a cut set to the next.

use crate::damage::wrong_k;
use crate::lent::{bits, filled, Lent};
use crate::moves::generate::{random_cuts, random_length};
use crate::oracle::seen;
use crate::random::Random;
use crate::rules::{bad_cuts, bad_k, first_refusal, too_many_stops, MOST_STOPS};
use crate::tables::listed;
use crate::trial::{damaged, put, Drawn, Reply, Trial, Visit, NO_ANSWER};
use crate::{draw, ffi};
use std::fmt::{Display, Formatter, Result as Written};

#[derive(Clone)]
struct Step {
    k: usize,
    n: usize,
    cuts: Vec<usize>,
    room: usize,
    /// What the Rust was seen to do, on short routes: the next set, or none.
    seen: Option<Option<Vec<usize>>>,
}

impl Step {
    fn refusal(&self) -> u32 {
        first_refusal(&[
            (1, bad_k(self.k)),
            (5, too_many_stops(self.n)),
            (7, bad_cuts(self.k, self.n, &self.cuts)),
            (21, self.room < 1),
        ])
    }

    /// The next set, none after the last; an error if the Rust was seen to do otherwise.
    fn next(&self) -> Result<Option<Vec<usize>>, u32> {
        let next = next_by_force(&self.cuts, self.n);
        match &self.seen {
            Some(seen) if *seen != next => Err(NO_ANSWER),
            _ => Ok(next),
        }
    }

    fn answer(&self, cuts: &mut Vec<usize>, result: &mut [u64]) -> Result<(), u32> {
        let next = self.next()?;
        put(result, &[u64::from(next.is_some())]);
        if let Some(next) = next {
            *cuts = next;
        }
        Ok(())
    }
}

/// The least list above this one in dictionary order: the longest start is kept that can be, then one more, then as low as can be.
fn next_by_force(cuts: &[usize], n: usize) -> Option<Vec<usize>> {
    let k = cuts.len();
    for kept in (0..k).rev() {
        let tail = cuts[kept] + 1..cuts[kept] + 1 + k - kept;
        if tail.end <= n + 1 {
            return Some(cuts[..kept].iter().copied().chain(tail).collect());
        }
    }
    None
}

impl Trial for Step {
    fn expected(&self) -> Reply {
        let mut code = self.refusal();
        let mut result = filled(self.room);
        let mut cuts = self.cuts.clone();
        if code == 0 {
            let answer = self.answer(&mut cuts, &mut result);
            code = answer.err().unwrap_or(0);
        }
        Reply::new(code, [("cuts", bits(&cuts)), ("result", result)])
    }

    fn given(&self) -> Result<Reply, String> {
        let room = filled(self.room);
        let mut cuts = Lent::new("cuts", &self.cuts);
        let mut result = Lent::new("result", &room);
        let code = ffi::next_cut_set(self.k, self.n, cuts.slice(), result.slice());
        Ok(Reply::new(code, [cuts.written()?, result.written()?]))
    }

    fn kind(&self, expected: &Reply) -> &'static str {
        match expected.number(1, 0) {
            0 => "last",
            _ => "moved",
        }
    }
}

impl Display for Step {
    fn fmt(&self, out: &mut Formatter<'_>) -> Written {
        writeln!(
            out,
            "k={} n={} result: {} places\ncuts={}",
            self.k,
            self.n,
            self.room,
            listed(&self.cuts)
        )
    }
}

/// Every cut set of routes of up to seven stops, in the order in which the Rust passes them; for two cuts up to 40 stops.
pub fn each_short(_random: &mut Random, visit: Visit) {
    for k in 2..=5 {
        for n in 0..=[40, 12, 9, 7][k - 2] {
            let sets = seen::scan(k, n, u64::MAX, &|_, _| 0).sets;
            for (index, cuts) in sets.iter().enumerate() {
                visit(Box::new(Step {
                    k,
                    n,
                    cuts: cuts.clone(),
                    room: 1 + index % 3,
                    seen: Some(sets.get(index + 1).cloned()),
                }));
            }
        }
    }
}

/// Every list of up to three numbers 0 to 4 as cuts of a route of three stops.
pub fn each_wrong(_random: &mut Random, visit: Visit) {
    for count in 0..=3 {
        for list in draw::lists(&[0, 1, 2, 3, 4], count) {
            for k in 1..=4 {
                visit(Box::new(Step {
                    k,
                    n: 3,
                    cuts: list.iter().map(|&cut| cut as usize).collect(),
                    room: 1,
                    seen: None,
                }));
            }
        }
    }
}

fn random_step(random: &mut Random) -> Step {
    let n = random_length(random);
    let k = random.within(2, 5.min(n + 1));
    Step {
        k,
        n,
        cuts: random_cuts(random, k, n),
        room: random.pick([1, 1, 3]),
        seen: None,
    }
}

pub fn draw(random: &mut Random, _index: u64) -> Drawn {
    (Box::new(random_step(random)), None)
}

const NUMBERS: [u32; 4] = [21, 7, 5, 1];
pub const SETS: u64 = 1 << NUMBERS.len();

pub fn draw_damaged(random: &mut Random, index: u64) -> Drawn {
    let step = random_step(random);
    damaged(step, &NUMBERS, index, |step, number| match number {
        1 => step.k = wrong_k(random),
        5 => step.n = random.pick([MOST_STOPS + 1, 1 << 32, usize::MAX]),
        7 => damage_cuts(random, &mut step.cuts, step.n),
        _ => step.room = 0,
    })
}

/// One too few or too many, one beyond the route, two alike, or two in the wrong order.
pub fn damage_cuts(random: &mut Random, cuts: &mut Vec<usize>, n: usize) {
    let last = cuts.len() - 1;
    match random.below(6) {
        0 => cuts.truncate(last),
        1 => cuts.push(n),
        2 => cuts.clear(),
        3 => cuts[last] = random.pick([n + 1, 1 << 32, usize::MAX]),
        4 => cuts[last] = cuts[last - 1],
        _ => cuts.swap(last - 1, last),
    }
}
