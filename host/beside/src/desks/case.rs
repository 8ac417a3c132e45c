//! One call: what is handed in, and what is to come back.

use crate::ffi;
use crate::lent::Lent;
use crate::rules::too_many_stops;
use crate::tables::{listed, Tables};
use crate::trial::{Reply, Trial};
use mittenschist::{which_of_two, Harbours, Pair};
use std::fmt::{Display, Formatter, Result as Written};

#[derive(Clone)]
pub struct Case {
    pub tables: Tables,
    pub depot: u32,
    pub end: u32,
    pub first: Vec<u32>,
    pub second: Vec<u32>,
}

impl Case {
    /// Polishing would refuse the tables, the depot, the end, the pairs or this list.
    fn refused(&self, list: &[u32]) -> bool {
        self.tables.rules().iter().any(|&(_, applies)| applies)
            || self.tables.unknown(&[self.depot, self.end])
            || self.tables.unknown(list)
            || self.tables.bad_pairs()
            || too_many_stops(list.len())
    }

    fn keeps(&self, list: &[u32]) -> bool {
        let late = self.tables.late_position(self.depot, list);
        late == list.len() as u64 && self.tables.keeps_pairs(list)
    }

    fn length(&self, list: &[u32]) -> u64 {
        self.tables.length_to(self.depot, self.end, list)
    }

    /// 1 the first, 2 the second, 0 neither.
    fn desk(&self) -> u64 {
        let (first, second) = (&self.first, &self.second);
        if self.refused(first) || self.refused(second) {
            return 0;
        }
        match (self.keeps(first), self.keeps(second)) {
            (true, true) if self.length(second) < self.length(first) => 2,
            (true, _) => 1,
            (false, true) => 2,
            (false, false) => 0,
        }
    }

    /// Which of the lists a part is of, by its place in memory, and how long it is. Pairs without a partner cannot be handed to the crate.
    fn handed(&self) -> Vec<u64> {
        let members = self.tables.pairs();
        if members.len() % 2 == 1 {
            return vec![0, 0];
        }
        let pairs: Vec<Pair> = members
            .chunks_exact(2)
            .map(|pair| [pair[0], pair[1]])
            .collect();
        let tables = mittenschist::Tables {
            locations: self.tables.locations,
            legs: &self.tables.legs,
            latest: &self.tables.latest,
            service: &self.tables.service,
        };
        let harbours = Harbours {
            depot: self.depot,
            end: self.end,
        };
        let part = which_of_two(&tables, harbours, &pairs, &self.first, &self.second);
        let lists = [&self.first, &self.second];
        let own = lists.iter().position(|list| list.as_ptr() == part.as_ptr());
        vec![own.map_or(9, |place| place as u64), part.len() as u64]
    }
}

impl Trial for Case {
    fn expected(&self) -> Reply {
        let desk = self.desk();
        let handed = match desk {
            0 => [0, 0],
            1 => [0, self.first.len()],
            _ => [1, self.second.len()],
        };
        let handed = handed.map(|number| number as u64).to_vec();
        Reply::new(0, [("desk", vec![desk]), ("handed", handed)])
    }

    fn given(&self) -> Result<Reply, String> {
        let mut legs = Lent::new("legs", &self.tables.legs);
        let mut latest = Lent::new("latest", &self.tables.latest);
        let mut service = Lent::new("service", &self.tables.service);
        let mut pairs = Lent::new("pairs", self.tables.pairs());
        let mut first = Lent::new("first list", &self.first);
        let mut second = Lent::new("second list", &self.second);
        let desk = ffi::which_of_two(
            self.tables.locations,
            legs.slice(),
            latest.slice(),
            service.slice(),
            self.depot,
            self.end,
            pairs.slice(),
            first.slice(),
            second.slice(),
        );
        for lent in [&legs, &latest, &service, &pairs, &first, &second] {
            lent.kept()?;
        }
        let desk = vec![u64::from(desk)];
        Ok(Reply::new(0, [("desk", desk), ("handed", self.handed())]))
    }

    fn kind(&self, expected: &Reply) -> &'static str {
        match expected.number(0, 0) {
            1 => "the first",
            2 => "the second",
            _ if self.refused(&self.first) || self.refused(&self.second) => "refusable",
            _ => "neither",
        }
    }
}

impl Display for Case {
    fn fmt(&self, out: &mut Formatter<'_>) -> Written {
        let (first, second) = (listed(&self.first), listed(&self.second));
        writeln!(out, "depot={}\nend={}", self.depot, self.end)?;
        write!(out, "{}", self.tables.told())?;
        writeln!(out, "first={first}\nsecond={second}")
    }
}
