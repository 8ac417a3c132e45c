//! One call of the doable check.

use super::case::Cutting;
use crate::lent::{filled, Lent};
use crate::rules::{first_refusal, too_many_stops};
use crate::trial::{put, Reply, Trial};
use crate::{ffi, oracle};
use std::fmt::{Display, Formatter, Result as Written};

#[derive(Clone, Debug)]
pub struct Doable {
    pub cutting: Cutting,
    pub n: usize,
    /// Length of the lent result.
    pub room: usize,
}

impl Doable {
    pub fn refusal(&self) -> u32 {
        first_refusal(&[
            (1, self.cutting.bad_k()),
            (5, too_many_stops(self.n)),
            (6, self.cutting.bad_pattern()),
            (21, self.room < 1),
        ])
    }

    /// Lists of unequal lengths are not k cut points, which the Rust cannot be asked.
    fn answer(&self) -> bool {
        let cutting = &self.cutting;
        cutting.cut_rounds.len() == cutting.cut_positions.len()
            && oracle::moves::is_doable(
                cutting.k,
                cutting.pattern,
                cutting.round,
                self.n,
                &cutting.cut_rounds,
                &cutting.cut_positions,
            )
    }
}

impl Trial for Doable {
    fn expected(&self) -> Reply {
        let code = self.refusal();
        let mut result = filled(self.room);
        if code == 0 {
            put(&mut result, &[u64::from(self.answer())]);
        }
        Reply::new(code, [("result", result)])
    }

    fn given(&self) -> Result<Reply, String> {
        let room = filled(self.room);
        let mut rounds = Lent::new("cut rounds", &self.cutting.cut_rounds);
        let mut positions = Lent::new("cut positions", &self.cutting.cut_positions);
        let mut result = Lent::new("result", &room);
        let code = ffi::k_opt_is_doable(
            self.cutting.k,
            self.cutting.pattern,
            self.cutting.round,
            self.n,
            rounds.slice(),
            positions.slice(),
            result.slice(),
        );
        rounds.kept()?;
        positions.kept()?;
        Ok(Reply::new(code, [result.written()?]))
    }

    fn kind(&self, expected: &Reply) -> &'static str {
        match expected.number(0, 0) {
            0 => "no",
            _ => "yes",
        }
    }
}

impl Display for Doable {
    fn fmt(&self, out: &mut Formatter<'_>) -> Written {
        write!(out, "{}", self.cutting.told())?;
        writeln!(out, "n={} result: {} places", self.n, self.room)
    }
}
