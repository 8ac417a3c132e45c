use super::plain::{self, Move};
use crate::ffi;
use crate::lent::{filled, Lent};
use crate::oracle::moves::do_move;
use crate::rules::{bad_cuts, bad_k, bad_pattern, first_refusal, too_many_stops};
use crate::tables::listed;
use crate::trial::{put, Reply, Trial, NO_ANSWER};
use std::fmt::{Display, Formatter, Result as Written};

#[derive(Clone)]
pub struct Case {
    pub k: usize,
    pub pattern: usize,
    pub n: usize,
    pub cuts: Vec<usize>,
    pub room: usize,
}

impl Case {
    fn refusal(&self) -> u32 {
        first_refusal(&[
            (1, bad_k(self.k)),
            (5, too_many_stops(self.n)),
            (6, bad_pattern(self.k, self.pattern)),
            (7, bad_cuts(self.k, self.n, &self.cuts)),
            (21, self.room < self.k.saturating_add(1)),
        ])
    }

    fn round(&self) -> Vec<u32> {
        (0..self.n as u32).collect()
    }

    /// An error where the Rust, applied there and back, does not restore the round.
    fn back(&self) -> Result<Move, u32> {
        let (pattern, cuts) =
            plain::way_back(self.k, self.pattern, self.n, &self.cuts).ok_or(NO_ANSWER)?;
        let there = do_move(self.k, self.pattern, 0, &self.cuts, &self.round()).0;
        if do_move(self.k, pattern, 0, &cuts, &there).0 == self.round() {
            Ok((pattern, cuts))
        } else {
            Err(NO_ANSWER)
        }
    }

    /// The library's own: reconnected twice is the round, and the way back of the way back is the move.
    fn returns(&self, result: &[u64]) -> Result<(), String> {
        let pattern = result[0] as usize;
        let cuts: Vec<usize> = result[1..=self.k].iter().map(|&cut| cut as usize).collect();
        let there = rejoined(self.k, self.pattern, &self.cuts, &self.round())?;
        if rejoined(self.k, pattern, &cuts, &there)? != self.round() {
            return Err(format!("not restored by {pattern} at {}\n", listed(&cuts)));
        }
        let mut again = vec![0; self.k + 1];
        let code = ffi::way_back(self.k, pattern, self.n, &cuts, &mut again);
        let own = [self.pattern].into_iter().chain(self.cuts.iter().copied());
        if code != 0 || !again.iter().copied().eq(own.map(|number| number as u64)) {
            return Err(format!("the way back of the way back: {code}, {again:?}\n"));
        }
        Ok(())
    }
}

fn rejoined(k: usize, pattern: usize, cuts: &[usize], route: &[u32]) -> Result<Vec<u32>, String> {
    let mut out = vec![0; route.len()];
    match ffi::reconnect(k, pattern, cuts, route, &mut out) {
        0 => Ok(out),
        code => Err(format!(
            "{pattern} at {} is refused with {code}\n",
            listed(cuts)
        )),
    }
}

impl Trial for Case {
    fn expected(&self) -> Reply {
        let mut code = self.refusal();
        let mut result = filled(self.room);
        if code == 0 {
            match self.back() {
                Ok((pattern, cuts)) => {
                    let numbers = [pattern].into_iter().chain(cuts);
                    let numbers: Vec<u64> = numbers.map(|number| number as u64).collect();
                    put(&mut result, &numbers);
                }
                Err(number) => code = number,
            }
        }
        Reply::new(code, [("result", result)])
    }

    fn given(&self) -> Result<Reply, String> {
        let room = filled(self.room);
        let mut cuts = Lent::new("cuts", &self.cuts);
        let mut result = Lent::new("result", &room);
        let code = ffi::way_back(self.k, self.pattern, self.n, cuts.slice(), result.slice());
        cuts.kept()?;
        let written = result.written()?;
        if code == 0 {
            self.returns(&written.1)?;
        }
        Ok(Reply::new(code, [written]))
    }

    fn kind(&self, expected: &Reply) -> &'static str {
        match expected.number(0, 0) == self.pattern as u64 {
            true => "by its own pattern",
            false => "by another pattern",
        }
    }
}

impl Display for Case {
    fn fmt(&self, out: &mut Formatter<'_>) -> Written {
        writeln!(
            out,
            "k={} pattern={} n={} result: {} places\ncuts={}",
            self.k,
            self.pattern,
            self.n,
            self.room,
            listed(&self.cuts)
        )
    }
}
