use crate::one_route::{Asked, PLACES};
use crate::pools::{self, Tables};
use crate::support::in_order::keeps_pairs;
use crate::support::lent::Lent;
use crate::support::rules::{
    bad_cuts, bad_k, bad_pairs, bad_pattern, first_refusal, too_many_stops,
};
use crate::support::{kept, kept_beyond, number, on_small_stack, written};
use mittenschist::{raw, Harbours, Place, Polisher};

struct Case<'c> {
    k: usize,
    asked: Asked<'c>,
    end: u32,
    /// Members, end to end.
    pairs: &'c [u32],
    place: &'c [u64],
}

fn first_place(k: usize) -> Vec<u64> {
    (0..k as u64).chain([0]).collect()
}

/// 6 and 7: a place that is none, of a route that has a cut set.
fn bad_place(k: usize, stops: usize, place: &[u64]) -> [(u32, bool); 2] {
    let asked = k <= stops + 1;
    let cuts: Vec<usize> = place.iter().take(k).map(|&cut| cut as usize).collect();
    let bad_index = |&index: &u64| bad_pattern(k, index as usize);
    [
        (6, asked && place.get(k).is_some_and(bad_index)),
        (7, asked && bad_cuts(k, stops, &cuts)),
    ]
}

impl Case<'_> {
    /// With room for so many numbers, from this place.
    fn refusal(&self, room: usize, place: &[u64]) -> u32 {
        let Asked { tables, route, .. } = self.asked;
        let [index, cuts] = bad_place(self.k, route.len(), place);
        first_refusal(&[
            (1, bad_k(self.k)),
            (2, tables.bad_size()),
            (3, tables.bad_leg()),
            (23, tables.bad_service()),
            (4, tables.unknown(&[self.asked.depot], route)),
            (24, tables.unknown_end(Some(self.end))),
            (29, bad_pairs(tables.locations, self.pairs)),
            (5, too_many_stops(route.len())),
            index,
            cuts,
            (21, room < PLACES || place.len() <= self.k),
        ])
    }

    fn check(&self) {
        let mut pairs = Lent::new("pairs", self.pairs);
        let mut place = Lent::new("place", self.place);
        let asked = &self.asked;
        let refusal = self.refusal(asked.room, self.place);
        let answer = asked.call(refusal, |lent| {
            raw::polish_slice(
                self.k,
                asked.allowance,
                asked.tables.locations,
                lent.legs,
                lent.latest,
                lent.service,
                asked.depot,
                self.end,
                pairs.slice(),
                lent.route,
                place.slice(),
                lent.result,
            )
        });
        kept(&pairs);
        match answer {
            None => kept(&place),
            Some((numbers, route)) => {
                kept_beyond(&place, self.place, self.k + 1);
                self.check_answer(&numbers, &route, &written(&place));
            }
        }
    }

    fn check_answer(&self, numbers: &[u64], route: &[u32], place: &[u64]) {
        let length = |route| self.asked.tables.length(self.asked.depot, self.end, route);
        assert_eq!(numbers[3], length(self.asked.route));
        assert_eq!(numbers[4], length(route));
        assert!(numbers[4] < numbers[3] || numbers[2] == 0);
        assert!(numbers[2] == 0 || keeps_pairs(self.pairs, route));
        let place = &place[..=self.k];
        match numbers[0] {
            0 => assert_eq!(place, first_place(self.k)),
            _ => assert!(bad_place(self.k, route.len(), place)
                .iter()
                .all(|rule| !rule.1)),
        }
        if numbers[0] == 1 && self.asked.allowance == 0 {
            assert_eq!(place, &self.place[..=self.k]);
        }
    }

    /// A polisher of whole pairs, which begins at the first place: refused, its route and place are as before, and it has come nowhere.
    fn check_safe(&self) {
        if self.pairs.len() % 2 == 1 {
            return;
        }
        let (depot, end) = (self.asked.depot, self.end);
        let (harbours, pairs) = (Harbours { depot, end }, pools::in_pairs(self.pairs));
        let tables = self.asked.tables.lent();
        let mut route = Lent::new("route", self.asked.route);
        let mut polisher = Polisher::new(self.k, &tables, harbours, &pairs, route.slice());
        let answer = polisher.step(self.asked.allowance);
        let refusal = self.refusal(PLACES, &first_place(self.k.min(9)));
        assert_eq!(number(answer), refusal);
        let progress = polisher.progress();
        match answer {
            Ok(slice) => {
                assert_eq!(
                    (progress.examined, progress.saved),
                    (slice.examined, slice.saved())
                );
                assert!((0.0..=1.0).contains(&progress.share()));
                written(&route);
            }
            Err(_) => {
                assert_eq!((progress.examined, progress.passed), (0, 0));
                assert_eq!(polisher.place(), Place::first(self.k));
                assert!(!polisher.is_finished());
                kept(&route);
            }
        }
    }
}

/// Cuts of the pool with a pattern index and without, with more behind them, and the first places.
fn places() -> Vec<Vec<u64>> {
    let mut all: Vec<Vec<u64>> = (2..=5).map(first_place).collect();
    for cuts in pools::cuts() {
        let cuts: Vec<u64> = cuts.iter().map(|&cut| cut as u64).collect();
        for index in [0, 6, 7, 382, 383, u64::MAX] {
            all.push([&cuts[..], &[index]].concat());
            all.push([&cuts[..], &[index, 77, 78]].concat());
        }
        all.push(cuts);
    }
    all
}

/// Every place with the tables and routes of some refusals before those of a place, and with good ones.
fn every_place() {
    let all = pools::tables();
    let places = places();
    for k in pools::CUT_COUNTS {
        for tables in &all[..3] {
            for route in [
                &[][..],
                &[2, 1],
                &[1, 2, 1],
                &[1, u32::MAX],
                &[0; 512],
                &[0; 513],
            ] {
                for (allowance, end, room) in [(9, 1, 6), (0, 0, 7), (9, 3, 6), (9, 1, 5)] {
                    for place in &places {
                        let asked = Asked {
                            allowance,
                            tables,
                            depot: 0,
                            route,
                            room,
                        };
                        let case = Case {
                            k,
                            asked,
                            end,
                            pairs: &[1, 2],
                            place,
                        };
                        case.check();
                    }
                }
            }
        }
    }
}

/// Every table, route and list of pairs, from the first place.
fn every_call() {
    for k in pools::CUT_COUNTS {
        for tables in &pools::tables() {
            for route in &pools::routes() {
                every_depot(k, tables, route);
            }
        }
    }
}

fn every_depot(k: usize, tables: &Tables, route: &[u32]) {
    let (lists, place) = (pools::pairs(), first_place(k.min(9)));
    for (number, depot) in (0..).zip(pools::PLACES) {
        let end = pools::PLACES[(number + route.len()) % 4];
        let one = |allowance, room, pairs: &[u32]| {
            let asked = Asked {
                allowance,
                tables,
                depot,
                route,
                room,
            };
            let place = &place;
            let case = Case {
                k,
                asked,
                end,
                pairs,
                place,
            };
            case.check();
            case.check_safe();
        };
        one(9, 8, &[]);
        one(1, 0, &[1, 2]);
        if depot == 0 {
            lists.iter().for_each(|list| one(7, 6, list));
        }
    }
}

#[test]
fn numbers_in_order() {
    every_place();
    every_call();
}

#[test]
fn on_128_kib() {
    on_small_stack(every_place);
    on_small_stack(every_call);
}
