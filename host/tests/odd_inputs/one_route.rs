//! What polishing, in its forms, and the pair loop have in common: the slices that they are lent, and six numbers.

use crate::pools::Tables;
use crate::support::lent::{filled, Lent};
use crate::support::{kept, kept_beyond, written};

/// What the result receives.
pub const PLACES: usize = 6;

pub struct Asked<'c> {
    pub allowance: u64,
    pub tables: &'c Tables,
    pub depot: u32,
    pub route: &'c [u32],
    pub room: usize,
}

pub struct Slices<'s> {
    pub legs: &'s [u32],
    pub latest: &'s [u32],
    pub service: &'s [u32],
    pub route: &'s mut [u32],
    pub result: &'s mut [u64],
}

impl Asked<'_> {
    /// Calls with canaries around what is lent; after 0 the numbers, and the route handed back.
    pub fn call(
        &self,
        refusal: u32,
        call: impl FnOnce(Slices) -> u32,
    ) -> Option<(Vec<u64>, Vec<u32>)> {
        let before = filled(self.room);
        let mut legs = Lent::new("legs", &self.tables.legs);
        let mut latest = Lent::new("latest", &self.tables.latest);
        let mut service = Lent::new("service", &self.tables.service);
        let mut route = Lent::new("route", self.route);
        let mut result = Lent::new("result", &before);
        let returned = call(Slices {
            legs: legs.slice(),
            latest: latest.slice(),
            service: service.slice(),
            route: route.slice(),
            result: result.slice(),
        });
        assert_eq!(returned, refusal);
        kept(&legs);
        kept(&latest);
        kept(&service);
        if returned != 0 {
            kept(&route);
            kept(&result);
            return None;
        }
        kept_beyond(&result, &before, PLACES);
        written(&route);
        let numbers = written(&result);
        self.check(&numbers, route.slice());
        Some((numbers, route.slice().to_vec()))
    }

    /// The ending, the counts, the late position and the stops.
    fn check(&self, numbers: &[u64], route: &[u32]) {
        assert!(numbers[0] < 2 && numbers[1] <= self.allowance && numbers[2] <= numbers[1]);
        assert!(numbers[0] == 0 || numbers[1] == self.allowance);
        assert_eq!(numbers[5], self.tables.late_position(self.depot, route));
        assert!(numbers[2] == 0 || numbers[5] == route.len() as u64);
        let (mut stops, mut handed_in) = (route.to_vec(), self.route.to_vec());
        assert!(numbers[2] > 0 || stops == handed_in);
        stops.sort_unstable();
        handed_in.sort_unstable();
        assert_eq!(stops, handed_in);
    }
}
