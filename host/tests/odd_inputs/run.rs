use crate::pools::{self, Tables};
use crate::support::lent::{filled, Lent};
use crate::support::rules::{bad_k, bad_pairs, first_refusal, MOST_ROUNDS, MOST_STOPS};
use crate::support::{kept, kept_beyond, number, on_small_stack, written};
use mittenschist::raw;

struct Rounds {
    stops: Vec<u32>,
    lengths: Vec<usize>,
    depots: Vec<u32>,
    /// None where the depots are the ends.
    ends: Option<Vec<u32>>,
    pins: Vec<u8>,
}

impl Rounds {
    fn new(stops: &[u32], lengths: &[usize], depots: &[u32], pins: &[u8]) -> Self {
        Self {
            stops: stops.to_vec(),
            lengths: lengths.to_vec(),
            depots: depots.to_vec(),
            ends: None,
            pins: pins.to_vec(),
        }
    }

    fn ending_at(self, ends: &[u32]) -> Self {
        Self {
            ends: Some(ends.to_vec()),
            ..self
        }
    }

    fn ends(&self) -> &[u32] {
        self.ends.as_ref().unwrap_or(&self.depots)
    }

    /// 5.
    fn bad(&self) -> bool {
        let rounds = self.lengths.len();
        let whole: u128 = self.lengths.iter().map(|&length| length as u128).sum();
        rounds > MOST_ROUNDS
            || self.lengths.iter().any(|&length| length > MOST_STOPS)
            || self.depots.len() != rounds
            || self.ends().len() != rounds
            || self.pins.len() != rounds
            || whole != self.stops.len() as u128
    }
}

fn rounds() -> Vec<Rounds> {
    let half = 1 << 63;
    vec![
        Rounds::new(&[], &[], &[], &[]),
        Rounds::new(&[0; 4], &[4], &[0], &[0]),
        Rounds::new(&[1, 2, 1, 2, 2], &[1, 4], &[0, 2], &[0, 0]),
        Rounds::new(&[0; 8], &[4, 4], &[0, 0], &[200, 0]),
        Rounds::new(&[0; 512], &[512], &[0], &[0]),
        Rounds::new(&[0; 513], &[513], &[0], &[0]),
        Rounds::new(&[], &[0; 64], &[0; 64], &[0; 64]),
        Rounds::new(&[], &[0; 65], &[0; 65], &[0; 65]),
        Rounds::new(&[], &[half, half], &[0, 0], &[0, 0]),
        Rounds::new(&[], &[usize::MAX, 1], &[0, 0], &[0, 0]),
        Rounds::new(&[0; 4], &[4], &[], &[0]),
        Rounds::new(&[0; 4], &[4], &[0], &[]),
        Rounds::new(&[0; 4], &[], &[0], &[0]),
        Rounds::new(&[0; 4], &[5], &[0], &[0]),
        Rounds::new(&[0, 99], &[1], &[0], &[0]),
        Rounds::new(&[0; 4], &[4], &[u32::MAX], &[255]),
        Rounds::new(&[], &[], &[99; 70], &[1; 70]),
        Rounds::new(&[], &[], &[], &[]).ending_at(&[]),
        Rounds::new(&[0; 4], &[4], &[0], &[0]).ending_at(&[0]),
        Rounds::new(&[0; 4], &[4], &[0], &[0]).ending_at(&[2]),
        Rounds::new(&[1, 2, 1, 2, 2], &[1, 4], &[0, 2], &[0, 0]).ending_at(&[1, 0]),
        Rounds::new(&[0; 8], &[4, 4], &[0, 0], &[200, 0]).ending_at(&[0, 3]),
        Rounds::new(&[0; 4], &[4], &[0], &[0]).ending_at(&[]),
        Rounds::new(&[0; 4], &[4], &[0], &[0]).ending_at(&[0, 0]),
        Rounds::new(&[0; 4], &[4], &[0], &[]).ending_at(&[u32::MAX]),
        Rounds::new(&[0; 4], &[4], &[9], &[0]).ending_at(&[9, 9]),
        Rounds::new(&[0; 513], &[513], &[0], &[0]).ending_at(&[3]),
        Rounds::new(&[], &[0; 64], &[0; 64], &[0; 64]).ending_at(&[0; 64]),
    ]
}

struct Case<'c> {
    k: usize,
    allowance: u64,
    tables: &'c Tables,
    rounds: &'c Rounds,
    /// Members of pairs, end to end, where there is a list of them; there are ends then.
    pairs: Option<&'c [u32]>,
    room: usize,
    /// Whether the rounds share the allowance; there are pairs then.
    shares: bool,
}

impl Case<'_> {
    fn refusal(&self, room: usize) -> u32 {
        let rounds = self.rounds;
        first_refusal(&[
            (1, bad_k(self.k)),
            (2, self.tables.bad_size()),
            (3, self.tables.bad_leg()),
            (23, self.tables.bad_service()),
            (4, self.tables.unknown(&rounds.depots, &rounds.stops)),
            (24, self.tables.unknown(&[], rounds.ends())),
            (
                29,
                bad_pairs(self.tables.locations, self.pairs.unwrap_or(&[])),
            ),
            (5, rounds.bad()),
            (21, room < 4 * rounds.lengths.len()),
        ])
    }

    fn check(&self) {
        let before = filled(self.room);
        let mut legs = Lent::new("legs", &self.tables.legs);
        let mut latest = Lent::new("latest", &self.tables.latest);
        let mut service = Lent::new("service", &self.tables.service);
        let mut stops = Lent::new("stops", &self.rounds.stops);
        let mut lengths = Lent::new("lengths", &self.rounds.lengths);
        let mut depots = Lent::new("depots", &self.rounds.depots);
        let mut ends = Lent::new("ends", self.rounds.ends());
        let mut pins = Lent::new("pins", &self.rounds.pins);
        let mut pairs = Lent::new("pairs", self.pairs.unwrap_or(&[]));
        let mut result = Lent::new("result", &before);
        let returned = {
            let (k, allowance, locations) = (self.k, self.allowance, self.tables.locations);
            let (legs, latest, service) = (legs.slice(), latest.slice(), service.slice());
            let (stops, lengths, pins) = (stops.slice(), lengths.slice(), pins.slice());
            let (depots, ends, pairs) = (depots.slice(), ends.slice(), pairs.slice());
            let result = result.slice();
            match (&self.rounds.ends, self.pairs) {
                (_, Some(_)) if self.shares => raw::run_in_shares(
                    k, allowance, locations, legs, latest, service, stops, lengths, depots, ends,
                    pins, pairs, result,
                ),
                (_, Some(_)) => raw::run_list_k_opt_with_pairs(
                    k, allowance, locations, legs, latest, service, stops, lengths, depots, ends,
                    pins, pairs, result,
                ),
                (None, _) => raw::run_list_k_opt(
                    k, allowance, locations, legs, latest, service, stops, lengths, depots, pins,
                    result,
                ),
                (Some(_), _) => raw::run_list_k_opt_to_ends(
                    k, allowance, locations, legs, latest, service, stops, lengths, depots, ends,
                    pins, result,
                ),
            }
        };
        assert_eq!(returned, self.refusal(self.room));
        kept(&legs);
        kept(&latest);
        kept(&service);
        kept(&lengths);
        kept(&depots);
        kept(&ends);
        kept(&pins);
        kept(&pairs);
        if returned != 0 {
            kept(&stops);
            return kept(&result);
        }
        let places = 4 * self.rounds.lengths.len();
        kept_beyond(&result, &before, places);
        self.check_reply(&written(&result)[..places]);
        written(&stops);
    }

    fn check_reply(&self, result: &[u64]) {
        let examined: u64 = result.chunks(4).map(|round| round[1]).sum();
        assert!(examined <= self.allowance);
        for round in result.chunks(4) {
            let applied = match round[0] {
                4 => round[2],
                5 if self.shares => round[2],
                _ => 0,
            };
            assert!(round[0] < 6 && round[3] == applied);
            assert!(round[0] > 0 || !self.shares);
        }
    }

    /// Of whole pairs: the safe function takes no others.
    fn check_safe(&self) {
        if self.pairs.is_some_and(|members| members.len() % 2 == 1) {
            return;
        }
        let mut stops = Lent::new("stops", &self.rounds.stops);
        let rounds = mittenschist::Rounds {
            stops: stops.slice(),
            lengths: &self.rounds.lengths,
            depots: &self.rounds.depots,
            ends: self.rounds.ends(),
            pins: &self.rounds.pins,
        };
        let (k, allowance, tables) = (self.k, self.allowance, self.tables.lent());
        let answer = match self.pairs.map(pools::in_pairs) {
            None => mittenschist::run_list_k_opt(k, allowance, &tables, rounds),
            Some(pairs) if self.shares => {
                mittenschist::run_in_shares(k, allowance, &tables, rounds, &pairs)
            }
            Some(pairs) => {
                mittenschist::run_list_k_opt_with_pairs(k, allowance, &tables, rounds, &pairs)
            }
        };
        if let Ok(replies) = &answer {
            assert_eq!(replies.len(), self.rounds.lengths.len());
        } else {
            kept(&stops);
        }
        assert_eq!(number(answer), self.refusal(usize::MAX));
        written(&stops);
    }
}

fn every_call() {
    for k in pools::CUT_COUNTS {
        for tables in &pools::tables() {
            for rounds in &rounds() {
                every_room(k, tables, rounds, None);
            }
        }
    }
}

/// Every list of pairs with the tables and rounds of some refusals before and behind it, and good ones.
fn every_pair_list() {
    for pairs in &pools::pairs() {
        for k in [1, 3] {
            for tables in &pools::tables()[..3] {
                for rounds in &rounds() {
                    every_room(k, tables, rounds, Some(pairs));
                }
            }
        }
    }
}

fn every_room(k: usize, tables: &Tables, rounds: &Rounds, pairs: Option<&[u32]>) {
    let places = 4 * rounds.lengths.len();
    for room in [0, places.saturating_sub(1), places, places + 3] {
        for allowance in [0, 1, 90] {
            for shares in [false, true]
                .into_iter()
                .take(1 + usize::from(pairs.is_some()))
            {
                let case = Case {
                    k,
                    allowance,
                    tables,
                    rounds,
                    pairs,
                    room,
                    shares,
                };
                case.check();
                case.check_safe();
            }
        }
    }
}

#[test]
fn numbers_in_order() {
    every_call();
    every_pair_list();
}

#[test]
fn on_128_kib() {
    on_small_stack(every_call);
    on_small_stack(every_pair_list);
}
