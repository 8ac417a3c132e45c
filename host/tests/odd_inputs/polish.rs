use crate::one_route::{Asked, Slices, PLACES};
use crate::pools::{self, List, Tables};
use crate::support::in_order::keeps_pairs;
use crate::support::lent::Lent;
use crate::support::rules::{bad_k, bad_pairs, first_refusal, too_many_stops};
use crate::support::{kept, number, on_small_stack};
use mittenschist::{raw, Harbours, Patterns, Polished, Refusal};

struct Case<'c> {
    k: usize,
    asked: Asked<'c>,
    end: Option<u32>,
    /// The patterns, where they are not all of them; there is an end then.
    list: Option<&'c List>,
    /// Members of pairs, end to end, where there is a list of them; there is an end then.
    pairs: Option<&'c [u32]>,
}

impl Case<'_> {
    fn refusal(&self, room: usize) -> u32 {
        let Asked { tables, route, .. } = self.asked;
        let [count, shape, news] = self.list.map_or([(0, false); 3], |list| list.rules(self.k));
        first_refusal(&[
            (1, bad_k(self.k)),
            count,
            shape,
            news,
            (2, tables.bad_size()),
            (3, tables.bad_leg()),
            (23, tables.bad_service()),
            (4, tables.unknown(&[self.asked.depot], route)),
            (24, tables.unknown_end(self.end)),
            (29, bad_pairs(tables.locations, self.pairs.unwrap_or(&[]))),
            (5, too_many_stops(route.len())),
            (21, room < PLACES),
        ])
    }

    fn check(&self) {
        let refusal = self.refusal(self.asked.room);
        let answer = self.asked.call(refusal, |lent| self.call(lent));
        let Some((numbers, route)) = answer else {
            return;
        };
        assert_eq!(numbers[2] == 0, numbers[3] == numbers[4]);
        assert!(numbers[4] <= numbers[3]);
        assert!(numbers[2] == 0 || keeps_pairs(self.pairs.unwrap_or(&[]), &route));
        let Harbours { depot, end } = self.harbours();
        let length = |route| self.asked.tables.length(depot, end, route);
        assert_eq!(numbers[3], length(self.asked.route));
        assert_eq!(numbers[4], length(&route));
    }

    fn call(&self, lent: Slices) -> u32 {
        let (k, allowance, depot) = (self.k, self.asked.allowance, self.asked.depot);
        let locations = self.asked.tables.locations;
        let Slices {
            legs,
            latest,
            service,
            route,
            result,
        } = lent;
        let (orders, masks) = match self.list {
            Some(list) => (&list.orders[..], &list.masks[..]),
            None => (&[][..], &[][..]),
        };
        let mut orders = Lent::new("orders", orders);
        let mut masks = Lent::new("masks", masks);
        let mut pairs = Lent::new("pairs", self.pairs.unwrap_or(&[]));
        let (rows, bits, members) = (orders.slice(), masks.slice(), pairs.slice());
        let returned = match (self.end, self.list, self.pairs) {
            (None, ..) => raw::polish_route(
                k, allowance, locations, legs, latest, service, depot, route, result,
            ),
            (Some(end), None, None) => raw::polish_route_to_end(
                k, allowance, locations, legs, latest, service, depot, end, route, result,
            ),
            (Some(end), None, Some(_)) => raw::polish_route_with_pairs(
                k, allowance, locations, legs, latest, service, depot, end, members, route, result,
            ),
            (Some(end), Some(_), None) => raw::polish_with_patterns(
                k, rows, bits, allowance, locations, legs, latest, service, depot, end, route,
                result,
            ),
            (Some(end), Some(_), Some(_)) => raw::polish_with_patterns_and_pairs(
                k, rows, bits, allowance, locations, legs, latest, service, depot, end, members,
                route, result,
            ),
        };
        kept(&orders);
        kept(&masks);
        kept(&pairs);
        returned
    }

    fn harbours(&self) -> Harbours {
        let end = self.end.unwrap_or(self.asked.depot);
        Harbours {
            depot: self.asked.depot,
            end,
        }
    }

    fn safe(&self, route: &mut [u32]) -> Result<Polished, Refusal> {
        let (k, allowance, tables) = (self.k, self.asked.allowance, &self.asked.tables.lent());
        let harbours = self.harbours();
        let patterns = self
            .list
            .map(|List { orders, masks }| Patterns { k, orders, masks });
        match (patterns, self.pairs.map(pools::in_pairs)) {
            (None, None) => mittenschist::polish_route(k, allowance, tables, harbours, route),
            (None, Some(pairs)) => {
                mittenschist::polish_route_with_pairs(k, allowance, tables, harbours, &pairs, route)
            }
            (Some(patterns), None) => {
                mittenschist::polish_with_patterns(patterns, allowance, tables, harbours, route)
            }
            (Some(patterns), Some(pairs)) => mittenschist::polish_with_patterns_and_pairs(
                patterns, allowance, tables, harbours, &pairs, route,
            ),
        }
    }

    /// Of whole pairs: the safe functions take no others.
    fn check_safe(&self) {
        if self.pairs.is_some_and(|members| members.len() % 2 == 1) {
            return;
        }
        let mut route = Lent::new("route", self.asked.route);
        let answer = self.safe(route.slice());
        assert_eq!(number(answer), self.refusal(PLACES));
        match answer {
            Ok(polished) => {
                assert_eq!(polished.accepted == 0, polished.saved() == 0);
                let late = self
                    .asked
                    .tables
                    .late_position(self.asked.depot, route.slice());
                assert_eq!(polished.late.unwrap_or(self.asked.route.len()) as u64, late);
            }
            Err(_) => kept(&route),
        }
    }
}

fn every_route(k: usize, tables: &Tables) {
    for route in &pools::routes() {
        let allowance = if route.len() < 3 { u64::MAX } else { 9 };
        for (allowance, room) in [(allowance, 0), (0, 5), (0, 6), (1, 6), (allowance, 8)] {
            every_end(k, allowance, tables, route, room);
        }
    }
}

fn every_end(k: usize, allowance: u64, tables: &Tables, route: &[u32], room: usize) {
    for depot in pools::PLACES {
        for end in pools::ENDS {
            let asked = Asked {
                allowance,
                tables,
                depot,
                route,
                room,
            };
            let case = Case {
                k,
                asked,
                end,
                list: None,
                pairs: None,
            };
            case.check();
            case.check_safe();
        }
    }
}

/// Every list with every k.
fn every_list() {
    for k in pools::CUT_COUNTS {
        for list in &pools::lists() {
            every_way(k, Some(list), None);
        }
    }
}

/// All pairs with all patterns for some k, and with lists, of which the first is refused.
fn every_pair_list() {
    let lists = pools::lists();
    let some = |k| {
        lists
            .iter()
            .filter(move |list| list.rules(k).iter().all(|rule| !rule.1))
    };
    for pairs in &pools::pairs() {
        for k in pools::CUT_COUNTS {
            every_way(k, None, Some(pairs));
        }
        for list in lists.iter().take(1).chain(some(3)) {
            every_way(3, Some(list), Some(pairs));
        }
    }
}

/// The tables and routes of some refusals behind those of a list, and good ones.
fn every_way(k: usize, list: Option<&List>, pairs: Option<&[u32]>) {
    for tables in &pools::tables()[..3] {
        for route in [
            &[][..],
            &[2, 1],
            &[1, 2, 1],
            &[1, u32::MAX],
            &[0; 512],
            &[0; 513],
        ] {
            for (end, room) in [(1, 6), (0, 7), (3, 6), (1, 5)] {
                let asked = Asked {
                    allowance: 9,
                    tables,
                    depot: 0,
                    route,
                    room,
                };
                let case = Case {
                    k,
                    asked,
                    end: Some(end),
                    list,
                    pairs,
                };
                case.check();
                case.check_safe();
            }
        }
    }
}

fn every_call() {
    for k in pools::CUT_COUNTS {
        for tables in &pools::tables() {
            every_route(k, tables);
        }
    }
}

#[test]
fn numbers_in_order() {
    every_call();
    every_list();
    every_pair_list();
}

#[test]
fn on_128_kib() {
    on_small_stack(every_call);
    on_small_stack(every_list);
    on_small_stack(every_pair_list);
}
