//! Both replies to a call of the pair loop. What is expected is document 01's, and the Rust must agree: its run with k = 2 over the one free round gives the
//! same counts, and the same stops where it does not interrupt the round, which it would put back. It skips rounds under 4 stops.

use super::plain::{pair_loop, Paired};
use crate::cases::pairs::Case;
use crate::cases::run::{NOT_REACHED, SHORT, SPENT};
use crate::oracle::polish::Counts;
use crate::oracle::run::run_by_rust;
use crate::trial::{Reply, Trial, NO_ANSWER};
use crate::{ffi, one_route};

/// Whether the Rust's run agrees.
fn agrees(case: &Case, paired: &Paired) -> bool {
    let (stops, numbers) = run_by_rust(&case.as_run(), case.asked().allowance);
    let [state, examined, accepted, _] = numbers[..] else {
        return false;
    };
    if state == NOT_REACHED || state == SHORT {
        return paired.route.len() < 4 || case.asked().allowance == 0;
    }
    let counted = (examined, accepted) == (paired.examined, paired.accepted);
    let spent = state == SPENT;
    counted && spent == paired.spent && (spent || stops == paired.route)
}

/// As document 01 has it, with pairs for candidates.
fn paired(case: &Case) -> Result<(Counts, Vec<u32>), u32> {
    let paired = pair_loop(case, case.asked().allowance);
    if !agrees(case, &paired) {
        return Err(NO_ANSWER);
    }
    let counts = Counts {
        spent: paired.spent,
        examined: paired.examined,
        accepted: paired.accepted,
    };
    Ok((counts, paired.route))
}

impl Trial for Case {
    fn expected(&self) -> Reply {
        let asked = self.asked();
        one_route::expected(asked, asked.depot, asked.refusal(), || paired(self))
    }

    fn given(&self) -> Result<Reply, String> {
        let asked = self.asked();
        one_route::given(asked, |lent| {
            ffi::pair_loop(
                asked.allowance,
                asked.tables.locations,
                lent.legs,
                lent.latest,
                lent.service,
                asked.depot,
                lent.route,
                lent.result,
            )
        })
    }

    /// As the Rust's run hands it back, or otherwise.
    fn kind(&self, expected: &Reply) -> &'static str {
        let longer = expected.number(1, 3) < expected.number(1, 4);
        match (expected.number(1, 0), expected.number(1, 2)) {
            _ if self.asked().route.len() < 4 => "under 4 stops",
            (0, 0) => "finished",
            (0, _) if longer => "finished and longer",
            (0, _) => "finished and changed",
            (_, 0) => "spent",
            (_, _) => "spent and changed",
        }
    }
}
