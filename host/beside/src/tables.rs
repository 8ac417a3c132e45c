//! The lent tables: legs, deadlines, service times and pairs, what they say of a route, and what is refused of them.

use crate::in_order::keeps_pairs;
use crate::rules::{bad_pairs, LONGEST_LEG, LONGEST_SERVICE, MOST_LOCATIONS};

#[derive(Clone, Debug, Default)]
pub struct Tables {
    pub locations: usize,
    pub legs: Vec<u32>,
    pub latest: Vec<u32>,
    pub service: Vec<u32>,
    /// Members end to end. None where the entry that is called takes no pairs.
    pub pairs: Option<Vec<u32>>,
}

impl Tables {
    /// No deadline in force, no time spent at a stop, and no pairs.
    pub fn of_legs(locations: usize, legs: Vec<u32>) -> Self {
        Self {
            locations,
            legs,
            latest: vec![u32::MAX; locations],
            service: vec![0; locations],
            pairs: None,
        }
    }

    #[inline]
    pub fn leg(&self, from: usize, to: usize) -> u32 {
        self.legs[from * self.locations + to]
    }

    /// Depot to first stop, each leg, last stop to depot.
    pub fn length(&self, depot: u32, route: &[u32]) -> u64 {
        self.length_to(depot, depot, route)
    }

    /// Depot to stops to end harbour; of an empty route the one leg.
    pub fn length_to(&self, depot: u32, end: u32, route: &[u32]) -> u64 {
        let from = [depot].into_iter().chain(route.iter().copied());
        let to = route.iter().copied().chain([end]);
        from.zip(to)
            .map(|(from, to)| u64::from(self.leg(from as usize, to as usize)))
            .sum()
    }

    /// One more location, with the number that it has: it is left like the depot and reached like the end. A closed tour from there takes as long as the same
    /// stops from the depot to the end, and reaches each stop as soon.
    pub fn with_both_ends(&self, depot: u32, end: u32) -> (Self, u32) {
        let (depot, end) = (depot as usize, end as usize);
        let mut legs = Vec::with_capacity((self.locations + 1).pow(2));
        for from in (0..self.locations).chain([depot]) {
            let row = (0..self.locations).chain([end]);
            legs.extend(row.map(|to| self.leg(from, to)));
        }
        let more = |list: &[u32], last| list.iter().copied().chain([last]).collect();
        let both = Self {
            locations: self.locations + 1,
            legs,
            latest: more(&self.latest, u32::MAX),
            service: more(&self.service, 0),
            pairs: self.pairs.clone(),
        };
        (both, self.locations as u32)
    }

    /// The length, and what is spent at the stops.
    pub fn whole(&self, depot: u32, route: &[u32]) -> u64 {
        let service = route
            .iter()
            .map(|&stop| u64::from(self.service[stop as usize]));
        self.length(depot, route) + service.sum::<u64>()
    }

    /// For each position of a route, the legs from the depot up to it and the service of the stops before it.
    pub fn arrivals(&self, depot: u32, route: &[u32]) -> Vec<u64> {
        let mut place = depot as usize;
        let mut seconds = 0;
        let mut arrivals = Vec::with_capacity(route.len());
        for &stop in route {
            seconds += u64::from(self.leg(place, stop as usize));
            arrivals.push(seconds);
            seconds += u64::from(self.service[stop as usize]);
            place = stop as usize;
        }
        arrivals
    }

    /// For each position of a route, whether its stop is late: it is reached after its latest.
    fn late(&self, depot: u32, route: &[u32]) -> Vec<bool> {
        let arrivals = self.arrivals(depot, route);
        let late = |(seconds, &stop): (u64, &u32)| seconds > u64::from(self.latest[stop as usize]);
        arrivals.into_iter().zip(route).map(late).collect()
    }

    /// The lowest position whose stop is late, or the number of stops. The Rust knows only whether there is one.
    pub fn late_position(&self, depot: u32, route: &[u32]) -> u64 {
        let late = self.late(depot, route);
        late.iter().position(|&late| late).unwrap_or(late.len()) as u64
    }

    pub fn pairs(&self) -> &[u32] {
        self.pairs.as_deref().unwrap_or_default()
    }

    pub fn keeps_pairs(&self, route: &[u32]) -> bool {
        keeps_pairs(self.pairs(), route)
    }

    /// 2, of the legs alone: locations outside 1 to 1,024, or a table of another size.
    pub fn bad_legs_size(&self) -> bool {
        !(1..=MOST_LOCATIONS).contains(&self.locations)
            || self.legs.len() != self.locations * self.locations
    }

    /// 2: as above, or deadlines of another size.
    fn bad_size(&self) -> bool {
        self.bad_legs_size() || self.latest.len() != self.locations
    }

    /// 3: a leg above 1,000,000.
    pub fn bad_leg(&self) -> bool {
        self.legs.iter().any(|&leg| leg > LONGEST_LEG)
    }

    /// 23: service not one entry for each location, or an entry above 1,000,000.
    fn bad_service(&self) -> bool {
        let long = |&seconds: &u32| seconds > LONGEST_SERVICE;
        self.service.len() != self.locations || self.service.iter().any(long)
    }

    /// What is refused of legs, deadlines and service, in the stated order.
    pub fn rules(&self) -> [(u32, bool); 3] {
        [
            (2, self.bad_size()),
            (3, self.bad_leg()),
            (23, self.bad_service()),
        ]
    }

    /// 29.
    pub fn bad_pairs(&self) -> bool {
        bad_pairs(self.locations, self.pairs())
    }

    /// 4: one of these not below the locations.
    pub fn unknown(&self, places: &[u32]) -> bool {
        places.iter().any(|&place| place as usize >= self.locations)
    }

    /// As the text program reads them, if they are not too long.
    pub fn told(&self) -> String {
        if self.legs.len() > 10_000 {
            let (legs, latest, service) = (self.legs.len(), self.latest.len(), self.service.len());
            return format!(
                "locations={}\n({legs} legs, {latest} deadlines, {service} service times: replay the case)\n",
                self.locations
            );
        }
        let mut lines = format!("locations={}\n", self.locations);
        for row in self.legs.chunks(self.locations.clamp(1, MOST_LOCATIONS)) {
            lines += &format!("legs={}\n", listed(row));
        }
        let (latest, service) = (listed(&self.latest), listed(&self.service));
        lines += &format!("latest={latest}\nservice={service}\n");
        if let Some(pairs) = &self.pairs {
            lines += &format!("pairs={}\n", listed(pairs));
        }
        lines
    }
}

pub fn listed<T: ToString>(numbers: &[T]) -> String {
    let words: Vec<String> = numbers.iter().map(T::to_string).collect();
    words.join(",")
}
