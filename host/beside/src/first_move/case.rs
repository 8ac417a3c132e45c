use super::{by_rust, plain};
use crate::ffi;
use crate::lent::{filled, Lent};
use crate::rules::{bad_k, first_refusal, too_many_stops, LONGEST_MOVED};
use crate::tables::listed;
use crate::trial::{put, Reply, Trial, NO_ANSWER};
use std::fmt::{Display, Formatter, Result as Written};

/// The index of a pattern, and the cuts.
pub type Found = (usize, Vec<usize>);

#[derive(Clone)]
pub struct Case {
    pub k: usize,
    pub old: Vec<u32>,
    pub wanted: Vec<u32>,
    pub room: usize,
}

impl Case {
    pub fn new(k: usize, old: Vec<u32>, wanted: Vec<u32>) -> Self {
        Self {
            k,
            old,
            wanted,
            room: k + 2,
        }
    }

    fn refusal(&self) -> u32 {
        let (n, m) = (self.old.len(), self.wanted.len());
        first_refusal(&[
            (1, bad_k(self.k)),
            (5, too_many_stops(n) || too_many_stops(m)),
            (25, n != m || n > LONGEST_MOVED),
            (21, self.room < self.k.saturating_add(2)),
        ])
    }

    /// An error where the Rust and the plain scan disagree.
    fn first(&self) -> Result<Option<Found>, u32> {
        let found = plain::first(self.k, &self.old, &self.wanted);
        if self.old.len() > by_rust::LONGEST || found == by_rust::first(self) {
            Ok(found)
        } else {
            Err(NO_ANSWER)
        }
    }
}

impl Trial for Case {
    fn expected(&self) -> Reply {
        let mut code = self.refusal();
        let mut result = filled(self.room);
        if code == 0 {
            match self.first() {
                Ok(Some((pattern, cuts))) => {
                    put(&mut result, &[1, pattern as u64]);
                    let cuts = cuts.iter().map(|&cut| cut as u64);
                    put(&mut result[2..], &cuts.collect::<Vec<u64>>());
                }
                Ok(None) => put(&mut result, &[0]),
                Err(number) => code = number,
            }
        }
        Reply::new(code, [("result", result)])
    }

    fn given(&self) -> Result<Reply, String> {
        let room = filled(self.room);
        let mut old = Lent::new("old", &self.old);
        let mut wanted = Lent::new("wanted", &self.wanted);
        let mut result = Lent::new("result", &room);
        let code = ffi::find_move(self.k, old.slice(), wanted.slice(), result.slice());
        old.kept()?;
        wanted.kept()?;
        Ok(Reply::new(code, [result.written()?]))
    }

    fn kind(&self, expected: &Reply) -> &'static str {
        match (expected.number(0, 0), self.old.len() > by_rust::LONGEST) {
            (0, false) => "none",
            (0, true) => "none, long",
            (_, false) => "found",
            (_, true) => "found, long",
        }
    }
}

impl Display for Case {
    fn fmt(&self, out: &mut Formatter<'_>) -> Written {
        writeln!(
            out,
            "k={} result: {} places\nold={}\nwanted={}",
            self.k,
            self.room,
            listed(&self.old),
            listed(&self.wanted)
        )
    }
}
