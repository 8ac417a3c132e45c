//! No pairs: the reply is that of the library's own entry without pairs.

use super::generate::{random_paired, random_paired_list, random_paired_run};
use crate::random::Random;
use crate::tables::Tables;
use crate::trial::{Drawn, Reply, Trial, NO_ANSWER};
use std::fmt::{Display, Formatter, Result as Written};

/// The same call by the entry that takes no pairs, and with an empty list of them.
struct Empty<C> {
    without: C,
    with: C,
}

fn empty<C: Trial + Clone + 'static>(case: C, tables: fn(&mut C) -> &mut Tables) -> Drawn {
    let (mut without, mut with) = (case.clone(), case);
    tables(&mut without).pairs = None;
    tables(&mut with).pairs = Some(Vec::new());
    (Box::new(Empty { without, with }), Some(0))
}

impl<C: Trial> Trial for Empty<C> {
    fn expected(&self) -> Reply {
        let given = self.without.given();
        given.unwrap_or_else(|_| Reply::new(NO_ANSWER, []))
    }

    fn given(&self) -> Result<Reply, String> {
        self.with.given()
    }

    fn kind(&self, _expected: &Reply) -> &'static str {
        "as without pairs"
    }
}

impl<C: Trial> Display for Empty<C> {
    fn fmt(&self, out: &mut Formatter<'_>) -> Written {
        self.with.fmt(out)
    }
}

pub fn draw(random: &mut Random, _index: u64) -> Drawn {
    empty(random_paired(random), |case| &mut case.closed.tables)
}

pub fn draw_list(random: &mut Random, _index: u64) -> Drawn {
    let case = random_paired_list(random);
    empty(case, |case| &mut case.ended.closed.tables)
}

pub fn draw_run(random: &mut Random, _index: u64) -> Drawn {
    empty(random_paired_run(random), |case| &mut case.tables)
}
