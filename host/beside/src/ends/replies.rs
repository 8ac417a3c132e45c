//! Both replies to a call of polishing to an end harbour, with pairs or without.

use super::plain;
use crate::cases::ends::Case;
use crate::one_route;
use crate::oracle::polish::{polish, Counts};
use crate::trial::{Reply, Trial, NO_ANSWER};

/// Calls that are answered by the plain scan too: up to so many stops.
const SHORT: usize = 6;

impl Case {
    fn polished(&self) -> Result<(Counts, Vec<u32>), u32> {
        let mut route = self.closed.route.clone();
        let counts = polish(&self.as_closed(), self.closed.allowance, &mut route);
        let by_rust = (counts, route);
        if by_rust.1.len() <= SHORT && self.by_the_documents() != by_rust {
            return Err(NO_ANSWER);
        }
        Ok(by_rust)
    }

    /// How it was handed in, and whether it was changed.
    fn paired_kind(&self, changed: bool) -> &'static str {
        let kept = self.closed.tables.keeps_pairs(&self.closed.route);
        match (self.closed.tables.pairs().is_empty(), kept, changed) {
            (true, ..) => "no pairs",
            (_, true, false) => "pairs kept",
            (_, true, true) => "pairs kept and changed",
            (_, false, false) => "pairs not kept",
            (_, false, true) => "pairs not kept and mended",
        }
    }

    fn by_the_documents(&self) -> (Counts, Vec<u32>) {
        plain::polish(self, &plain::all_patterns(self.closed.k))
    }
}

impl Trial for Case {
    fn expected(&self) -> Reply {
        one_route::expected(&self.closed, self.end, self.refusal(), || self.polished())
    }

    fn given(&self) -> Result<Reply, String> {
        one_route::given(&self.closed, |lent| {
            one_route::polish(&self.closed, self.end, None, lent)
        })
    }

    fn kind(&self, expected: &Reply) -> &'static str {
        if self.closed.tables.pairs.is_some() {
            return self.paired_kind(expected.number(1, 2) > 0);
        }
        let back = self.end == self.closed.depot;
        match (expected.number(1, 0), expected.number(1, 2)) {
            (0, 0) if back => "back at the depot",
            (0, 0) => "finished",
            (0, _) if back => "back at the depot and changed",
            (0, _) => "finished and changed",
            (_, 0) => "spent",
            (_, _) => "spent and changed",
        }
    }
}
