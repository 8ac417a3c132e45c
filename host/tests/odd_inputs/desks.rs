use crate::pools::{self, in_pairs};
use crate::support::in_order::keeps_pairs;
use crate::support::lent::Lent;
use crate::support::rules::{bad_pairs, too_many_stops};
use crate::support::{kept, on_small_stack};
use mittenschist::{raw, which_of_two, Harbours};

struct Asked<'c> {
    tables: &'c pools::Tables,
    harbours: Harbours,
    pairs: &'c [u32],
    lists: [&'c [u32]; 2],
}

impl Asked<'_> {
    /// Polishing would refuse something of it.
    fn refused(&self) -> bool {
        let Harbours { depot, end } = self.harbours;
        let bad_list = |list: &&[u32]| self.tables.unknown(&[], list) || too_many_stops(list.len());
        self.tables.bad_size()
            || self.tables.bad_leg()
            || self.tables.bad_service()
            || self.tables.unknown(&[depot, end], &[])
            || bad_pairs(self.tables.locations, self.pairs)
            || self.lists.iter().any(bad_list)
    }

    fn keeps(&self, list: &[u32]) -> bool {
        let late = self.tables.late_position(self.harbours.depot, list);
        late == list.len() as u64 && keeps_pairs(self.pairs, list)
    }

    /// By the sentences of document 02.
    fn desk(&self) -> u32 {
        if self.refused() {
            return 0;
        }
        let Harbours { depot, end } = self.harbours;
        let [first, second] = self.lists.map(|list| self.tables.length(depot, end, list));
        match self.lists.map(|list| self.keeps(list)) {
            [true, true] if second < first => 2,
            [true, _] => 1,
            [false, true] => 2,
            [false, false] => 0,
        }
    }

    fn check(&self) {
        let Harbours { depot, end } = self.harbours;
        let mut legs = Lent::new("legs", &self.tables.legs);
        let mut latest = Lent::new("latest", &self.tables.latest);
        let mut service = Lent::new("service", &self.tables.service);
        let mut pairs = Lent::new("pairs", self.pairs);
        let [mut first, mut second] = self.lists.map(|list| Lent::new("list", list));
        let desk = raw::which_of_two(
            self.tables.locations,
            legs.slice(),
            latest.slice(),
            service.slice(),
            depot,
            end,
            pairs.slice(),
            first.slice(),
            second.slice(),
        );
        assert_eq!(desk, self.desk());
        for lent in [&legs, &latest, &service, &pairs, &first, &second] {
            kept(lent);
        }
        if self.pairs.len() % 2 == 0 {
            self.check_own(desk);
        }
    }

    /// The crate hands back the list that it was lent.
    fn check_own(&self, desk: u32) {
        let [first, second] = self.lists;
        let pairs = in_pairs(self.pairs);
        let handed = which_of_two(&self.tables.lent(), self.harbours, &pairs, first, second);
        let own = [&first[..0], first, second][desk as usize];
        assert_eq!((handed.as_ptr(), handed.len()), (own.as_ptr(), own.len()));
    }
}

/// Every list of pairs with tables that are in range, a few with the others.
fn every_call() {
    let (routes, lists_of_pairs) = (pools::routes(), pools::pairs());
    for tables in &pools::tables() {
        let bad = tables.bad_size() || tables.bad_leg() || tables.bad_service();
        let tried = if bad { 2 } else { lists_of_pairs.len() };
        for pairs in &lists_of_pairs[..tried] {
            for (depot, end) in [(0, 0), (2, 1), (0, 3)] {
                for first in &routes {
                    for second in &routes {
                        let asked = Asked {
                            tables,
                            harbours: Harbours { depot, end },
                            pairs,
                            lists: [first, second],
                        };
                        asked.check();
                    }
                }
            }
        }
    }
}

#[test]
fn every_desk() {
    every_call();
}

#[test]
fn on_128_kib() {
    on_small_stack(every_call);
}
