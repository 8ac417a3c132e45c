//! Both replies to a call of the run. With two cuts the rounds are polished by the Rust's `polish_route`; with more that gives what the Rust's own run
//! gives.

use crate::cases::run::{Case, CHANGED, NUMBERS_A_ROUND, SPENT, UNCHANGED};
use crate::lent::{bits, filled, Lent};
use crate::trial::{put, Reply, Trial, NO_ANSWER};
use crate::{ffi, oracle};

impl Trial for Case {
    fn expected(&self) -> Reply {
        let mut code = self.refusal();
        let mut result = filled(self.room);
        if code != 0 {
            return Reply::new(code, [("stops", bits(&self.stops)), ("result", result)]);
        }
        let ran = match self.shares {
            true => oracle::shares::run_in_shares(self),
            false => oracle::run::run(self, self.allowance),
        };
        if !self.shares
            && self.k > 2
            && self.closed()
            && ran != oracle::run::run_by_polishing(self, self.allowance)
        {
            code = NO_ANSWER;
        }
        let (stops, numbers) = ran;
        put(&mut result, &numbers);
        Reply::new(code, [("stops", bits(&stops)), ("result", result)])
    }

    fn given(&self) -> Result<Reply, String> {
        let room = filled(self.room);
        let mut legs = Lent::new("legs", &self.tables.legs);
        let mut latest = Lent::new("deadlines", &self.tables.latest);
        let mut service = Lent::new("service", &self.tables.service);
        let mut stops = Lent::new("stops", &self.stops);
        let mut lengths = Lent::new("lengths", &self.lengths);
        let mut depots = Lent::new("depots", &self.depots);
        let mut pins = Lent::new("pins", &self.pins);
        let mut result = Lent::new("result", &room);
        let mut ends = Lent::new("ends", self.ends());
        let mut pairs = Lent::new("pairs", self.tables.pairs());
        let code = {
            let (k, allowance, locations) = (self.k, self.allowance, self.tables.locations);
            let (legs, latest, service) = (legs.slice(), latest.slice(), service.slice());
            let (stops, lengths, pins) = (stops.slice(), lengths.slice(), pins.slice());
            let (depots, ends, pairs) = (depots.slice(), ends.slice(), pairs.slice());
            let result = result.slice();
            match (&self.ends, &self.tables.pairs) {
                _ if self.shares => ffi::run_in_shares(
                    k, allowance, locations, legs, latest, service, stops, lengths, depots, ends,
                    pins, pairs, result,
                ),
                (_, Some(_)) => ffi::run_list_k_opt_with_pairs(
                    k, allowance, locations, legs, latest, service, stops, lengths, depots, ends,
                    pins, pairs, result,
                ),
                (None, _) => ffi::run_list_k_opt(
                    k, allowance, locations, legs, latest, service, stops, lengths, depots, pins,
                    result,
                ),
                (Some(_), _) => ffi::run_list_k_opt_to_ends(
                    k, allowance, locations, legs, latest, service, stops, lengths, depots, ends,
                    pins, result,
                ),
            }
        };
        legs.kept()?;
        latest.kept()?;
        service.kept()?;
        lengths.kept()?;
        depots.kept()?;
        ends.kept()?;
        pins.kept()?;
        pairs.kept()?;
        Ok(Reply::new(code, [stops.written()?, result.written()?]))
    }

    fn kind(&self, expected: &Reply) -> &'static str {
        let rounds = self.lengths.len();
        let states: Vec<u64> = (0..rounds)
            .map(|round| expected.number(1, NUMBERS_A_ROUND * round))
            .collect();
        match (states.contains(&SPENT), states.contains(&CHANGED)) {
            (true, true) => "spent after a change",
            (true, false) => "spent",
            (false, true) => "changed",
            (false, false) if states.contains(&UNCHANGED) => "unchanged",
            (false, false) => "nothing polished",
        }
    }
}
