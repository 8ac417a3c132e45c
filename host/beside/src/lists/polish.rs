//! Both replies to a call of polishing with a list.

use super::rows::Rows;
use crate::cases::ends;
use crate::cases::polish::RESULT_PLACES;
use crate::ends::plain;
use crate::lent::Lent;
use crate::oracle::polish::Counts;
use crate::rules::{bad_k, first_refusal, too_many_stops};
use crate::trial::{Reply, Trial};
use crate::{one_route, oracle};
use std::fmt::{Display, Formatter, Result as Written};

#[derive(Clone)]
pub struct Case {
    pub ended: ends::Case,
    pub rows: Rows,
}

impl Case {
    fn refusal(&self) -> u32 {
        let case = &self.ended.closed;
        let [size, leg, service] = case.tables.rules();
        // Where k is refused the rows have no meaning.
        let [count, shape, news] = match bad_k(case.k) {
            true => [(26, false); 3],
            false => self.rows.rules(case.k),
        };
        first_refusal(&[
            (1, bad_k(case.k)),
            count,
            shape,
            news,
            size,
            leg,
            service,
            (4, case.unknown_place()),
            (24, case.tables.unknown(&[self.ended.end])),
            (29, case.tables.bad_pairs()),
            (5, too_many_stops(case.route.len())),
            (21, case.room < RESULT_PLACES),
        ])
    }

    fn whole(&self) -> bool {
        self.rows == Rows::whole(self.ended.closed.k)
    }

    /// By the Rust where the list is whole.
    fn polished(&self) -> (Counts, Vec<u32>) {
        let case = &self.ended.closed;
        if !self.whole() {
            return plain::polish(&self.ended, &self.rows.patterns(case.k));
        }
        let mut route = case.route.clone();
        let closed = self.ended.as_closed();
        let counts = oracle::polish::polish(&closed, case.allowance, &mut route);
        (counts, route)
    }
}

impl Trial for Case {
    fn expected(&self) -> Reply {
        let (case, end) = (&self.ended.closed, self.ended.end);
        one_route::expected(case, end, self.refusal(), || Ok(self.polished()))
    }

    fn given(&self) -> Result<Reply, String> {
        let (case, end) = (&self.ended.closed, self.ended.end);
        let mut orders = Lent::new("orders", &self.rows.orders);
        let mut masks = Lent::new("masks", &self.rows.masks);
        let reply = one_route::given(case, |lent| {
            let rows = (&*orders.slice(), &*masks.slice());
            one_route::polish(case, end, Some(rows), lent)
        });
        orders.kept()?;
        masks.kept()?;
        reply
    }

    fn kind(&self, expected: &Reply) -> &'static str {
        match (self.whole(), expected.number(1, 2)) {
            (true, 0) => "all patterns",
            (true, _) => "all patterns and changed",
            (false, 0) => "some patterns",
            (false, _) => "some patterns and changed",
        }
    }
}

impl Display for Case {
    fn fmt(&self, out: &mut Formatter<'_>) -> Written {
        write!(out, "{}{}", self.rows.told(), self.ended)
    }
}
