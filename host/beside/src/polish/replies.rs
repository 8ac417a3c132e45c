//! Both replies to a call of polishing. The late position is the harness's own: the Rust knows only yes or no, and must agree to that.

use crate::cases::polish::Case;
use crate::oracle::polish::{feasible, polish, Counts};
use crate::trial::{Reply, Trial, NO_ANSWER};
use crate::{ffi, one_route};

impl Case {
    fn polished(&self) -> Result<(Counts, Vec<u32>), u32> {
        let mut route = self.route.clone();
        let counts = polish(self, self.allowance, &mut route);
        let kept = self.tables.late_position(self.depot, &route) == route.len() as u64;
        if kept == feasible(&self.tables, self.depot, &route) {
            Ok((counts, route))
        } else {
            Err(NO_ANSWER)
        }
    }
}

impl Trial for Case {
    fn expected(&self) -> Reply {
        one_route::expected(self, self.depot, self.refusal(), || self.polished())
    }

    fn given(&self) -> Result<Reply, String> {
        one_route::given(self, |lent| {
            ffi::polish_route(
                self.k,
                self.allowance,
                self.tables.locations,
                lent.legs,
                lent.latest,
                lent.service,
                self.depot,
                lent.route,
                lent.result,
            )
        })
    }

    fn kind(&self, expected: &Reply) -> &'static str {
        let late = expected.number(1, 5) < self.route.len() as u64;
        match (expected.number(1, 0), expected.number(1, 2)) {
            (0, 0) if late => "finished and late",
            (0, 0) => "finished",
            (0, _) => "finished and changed",
            (_, 0) if late => "spent and late",
            (_, 0) => "spent",
            (_, _) => "spent and changed",
        }
    }
}
