//! The pattern of an index.

use crate::lent::{filled, Lent};
use crate::random::Random;
use crate::rules::{bad_k, bad_pattern, first_refusal, pattern_count};
use crate::trial::{put, Reply, Trial, Visit};
use crate::{ffi, oracle};
use std::fmt::{Display, Formatter, Result as Written};

struct PatternAt {
    k: usize,
    pattern: usize,
    room: usize,
}

impl PatternAt {
    fn refusal(&self) -> u32 {
        first_refusal(&[
            (1, bad_k(self.k)),
            (6, bad_pattern(self.k, self.pattern)),
            (21, self.room < self.k.saturating_add(2)),
        ])
    }
}

impl Trial for PatternAt {
    fn expected(&self) -> Reply {
        let code = self.refusal();
        let mut result = filled(self.room);
        if code == 0 {
            let numbers = oracle::moves::reconnection_at(self.k, self.pattern);
            put(&mut result, &numbers);
        }
        Reply::new(code, [("result", result)])
    }

    fn given(&self) -> Result<Reply, String> {
        let room = filled(self.room);
        let mut result = Lent::new("result", &room);
        let code = ffi::reconnection_at(self.k, self.pattern, result.slice());
        Ok(Reply::new(code, [result.written()?]))
    }
}

impl Display for PatternAt {
    fn fmt(&self, out: &mut Formatter<'_>) -> Written {
        writeln!(
            out,
            "k={} pattern={} result: {} places",
            self.k, self.pattern, self.room
        )
    }
}

/// Every pattern of every k with every room that matters, and every refusal.
pub fn each(_random: &mut Random, visit: Visit) {
    for k in (0..=8).chain([1 << 32, (1 << 32) + 2, usize::MAX]) {
        let beyond = [384, 1 << 16, 1 << 32, usize::MAX];
        for pattern in (0..pattern_count(k) + 3).chain(beyond) {
            for room in 0..=10 {
                visit(Box::new(PatternAt { k, pattern, room }));
            }
        }
    }
}
