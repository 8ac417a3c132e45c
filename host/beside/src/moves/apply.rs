//! One call of apply, alone or with undo after it.

use super::case::Cutting;
use crate::lent::{bits, filled_u32, Lent};
use crate::rules::{first_refusal, too_many_stops};
use crate::tables::listed;
use crate::trial::{Reply, Trial};
use crate::{ffi, oracle};
use std::fmt::{Display, Formatter, Result as Written};

#[derive(Clone, Debug)]
pub struct Apply {
    pub cutting: Cutting,
    pub route: Vec<u32>,
    /// Length of the lent journal.
    pub room: usize,
    /// Whether undo is called with the first places of the journal.
    pub undone: bool,
}

impl Apply {
    pub fn refusal(&self) -> u32 {
        let n = self.route.len();
        first_refusal(&[
            (1, self.cutting.bad_k()),
            (5, too_many_stops(n)),
            (6, self.cutting.bad_pattern()),
            (7, self.cutting.bad_cuts(n)),
            (8, self.cutting.names_another_round()),
            (21, self.room < n),
        ])
    }
}

impl Trial for Apply {
    fn expected(&self) -> Reply {
        let code = self.refusal();
        let mut route = self.route.clone();
        let mut journal = filled_u32(self.room);
        if code == 0 {
            let cutting = &self.cutting;
            let (after, old) = oracle::moves::do_move(
                cutting.k,
                cutting.pattern,
                cutting.round,
                &cutting.cut_positions,
                &self.route,
            );
            journal[..old.len()].copy_from_slice(&old);
            route = if self.undone {
                oracle::moves::undo_move(&after, &old)
            } else {
                after
            };
        }
        Reply::new(code, [("route", bits(&route)), ("journal", bits(&journal))])
    }

    fn given(&self) -> Result<Reply, String> {
        let room = filled_u32(self.room);
        let mut rounds = Lent::new("cut rounds", &self.cutting.cut_rounds);
        let mut positions = Lent::new("cut positions", &self.cutting.cut_positions);
        let mut route = Lent::new("route", &self.route);
        let mut journal = Lent::new("journal", &room);
        let mut code = ffi::k_opt_do_move(
            self.cutting.k,
            self.cutting.pattern,
            self.cutting.round,
            rounds.slice(),
            positions.slice(),
            route.slice(),
            journal.slice(),
        );
        if self.undone && code == 0 {
            code = ffi::k_opt_undo_move(route.slice(), &journal.slice()[..self.route.len()]);
        }
        rounds.kept()?;
        positions.kept()?;
        Ok(Reply::new(code, [route.written()?, journal.written()?]))
    }

    fn kind(&self, _expected: &Reply) -> &'static str {
        if self.undone {
            "undone"
        } else {
            "applied"
        }
    }
}

impl Display for Apply {
    fn fmt(&self, out: &mut Formatter<'_>) -> Written {
        write!(out, "{}", self.cutting.told())?;
        writeln!(out, "journal: {} places", self.room)?;
        writeln!(out, "stops={}", listed(&self.route))
    }
}
