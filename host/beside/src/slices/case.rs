//! One slice: what is handed in, and what is refused of it.

use super::plain::slice;
use crate::cases::ends;
use crate::ffi;
use crate::lent::{bits, filled, Lent};
use crate::rules::{bad_cuts, bad_pattern, first_refusal};
use crate::trial::{put, Reply, Trial};
use std::fmt::{Display, Formatter, Result as Written};

#[derive(Clone, Debug)]
pub struct Case {
    pub asked: ends::Case,
    pub place: Vec<u64>,
}

impl Case {
    /// The first number of the stated order that applies, 0 if none does.
    fn refusal(&self) -> u32 {
        let (k, n) = (self.asked.closed.k, self.asked.closed.route.len());
        let before = ends::Case::refusal(&self.asked);
        if before != 0 && before != 21 {
            return before;
        }
        let cut = k <= n + 1;
        let cuts: Vec<usize> = self.place.iter().take(k).map(|&cut| cut as usize).collect();
        let index = self.place.get(k).map_or(0, |&index| index as usize);
        first_refusal(&[
            (6, cut && bad_pattern(k, index)),
            (7, cut && bad_cuts(k, n, &cuts)),
            (21, before == 21 || self.place.len() < k + 1),
        ])
    }
}

impl Trial for Case {
    fn expected(&self) -> Reply {
        let case = &self.asked.closed;
        let mut result = filled(case.room);
        let (mut route, mut place) = (case.route.clone(), self.place.clone());
        let code = self.refusal();
        if code == 0 {
            let (counts, after, next) = slice(&self.asked, &self.place);
            let numbers = [
                u64::from(counts.spent),
                counts.examined,
                counts.accepted,
                self.asked.length(&route),
                self.asked.length(&after),
                case.tables.late_position(case.depot, &after),
            ];
            put(&mut result, &numbers);
            put(&mut place, &next);
            route = after;
        }
        Reply::new(
            code,
            [
                ("route", bits(&route)),
                ("place", place),
                ("result", result),
            ],
        )
    }

    fn given(&self) -> Result<Reply, String> {
        let case = &self.asked.closed;
        let room = filled(case.room);
        let mut legs = Lent::new("legs", &case.tables.legs);
        let mut latest = Lent::new("deadlines", &case.tables.latest);
        let mut service = Lent::new("service", &case.tables.service);
        let mut pairs = Lent::new("pairs", case.tables.pairs());
        let mut route = Lent::new("route", &case.route);
        let mut place = Lent::new("place", &self.place);
        let mut result = Lent::new("result", &room);
        let code = ffi::polish_slice(
            case.k,
            case.allowance,
            case.tables.locations,
            legs.slice(),
            latest.slice(),
            service.slice(),
            case.depot,
            self.asked.end,
            pairs.slice(),
            route.slice(),
            place.slice(),
            result.slice(),
        );
        legs.kept()?;
        latest.kept()?;
        service.kept()?;
        pairs.kept()?;
        Ok(Reply::new(
            code,
            [route.written()?, place.written()?, result.written()?],
        ))
    }

    fn kind(&self, expected: &Reply) -> &'static str {
        match (expected.number(2, 0), expected.number(2, 2)) {
            (0, _) => "finished",
            (_, 0) => "spent, nothing accepted",
            _ => "spent",
        }
    }
}

impl Display for Case {
    fn fmt(&self, out: &mut Formatter<'_>) -> Written {
        write!(out, "place={:?} {}", self.place, self.asked)
    }
}
