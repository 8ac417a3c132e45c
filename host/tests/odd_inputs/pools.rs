//! What the calls are handed, some of it in range.

use mittenschist::Pair;

use crate::support::rules::{
    bad_k, bad_row, bad_rows, LONGEST_LEG, LONGEST_SERVICE, MOST_LOCATIONS, MOST_PAIRS, MOST_ROWS,
};

pub const CUT_COUNTS: [usize; 8] = [0, 1, 2, 3, 4, 5, 6, usize::MAX];
pub const PATTERNS: [usize; 7] = [0, 1, 7, 46, 382, 383, usize::MAX];
pub const PLACES: [u32; 4] = [0, 2, 3, u32::MAX];
/// End harbours: none handed in, so that the depot is the end; some that are handed in.
pub const ENDS: [Option<u32>; 4] = [None, Some(1), Some(3), Some(u32::MAX)];
pub const STOP_COUNTS: [usize; 7] = [0, 1, 4, 512, 513, 1 << 32, usize::MAX];

pub struct Tables {
    pub locations: usize,
    pub legs: Vec<u32>,
    pub latest: Vec<u32>,
    pub service: Vec<u32>,
}

impl Tables {
    /// No service times, as many as there are deadlines.
    fn new(locations: usize, legs: &[u32], latest: &[u32]) -> Self {
        Self {
            locations,
            legs: legs.to_vec(),
            latest: latest.to_vec(),
            service: vec![0; latest.len()],
        }
    }

    /// Three locations with these service times.
    fn of_service(legs: &[u32], latest: &[u32], service: &[u32]) -> Self {
        Self {
            service: service.to_vec(),
            ..Self::new(3, legs, latest)
        }
    }

    pub fn lent(&self) -> mittenschist::Tables<'_> {
        mittenschist::Tables {
            locations: self.locations,
            legs: &self.legs,
            latest: &self.latest,
            service: &self.service,
        }
    }

    /// 2, of the legs alone.
    pub fn bad_legs_size(&self) -> bool {
        !(1..=MOST_LOCATIONS).contains(&self.locations)
            || self.legs.len() != self.locations * self.locations
    }

    /// 2.
    pub fn bad_size(&self) -> bool {
        self.bad_legs_size() || self.latest.len() != self.locations
    }

    /// 3.
    pub fn bad_leg(&self) -> bool {
        self.legs.iter().any(|&leg| leg > LONGEST_LEG)
    }

    /// 23.
    pub fn bad_service(&self) -> bool {
        let long = |&seconds: &u32| seconds > LONGEST_SERVICE;
        self.service.len() != self.locations || self.service.iter().any(long)
    }

    /// The lowest position whose stop is late, or the number of stops; of a route that is not refused.
    pub fn late_position(&self, depot: u32, route: &[u32]) -> u64 {
        let (mut place, mut seconds) = (depot as usize, 0);
        let late = route.iter().position(|&stop| {
            let stop = stop as usize;
            seconds += u64::from(self.legs[place * self.locations + stop]);
            let late = seconds > u64::from(self.latest[stop]);
            seconds += u64::from(self.service[stop]);
            place = stop;
            late
        });
        late.unwrap_or(route.len()) as u64
    }

    /// From the depot along the route to the end, of a route that is not refused.
    pub fn length(&self, depot: u32, end: u32, route: &[u32]) -> u64 {
        let from = [depot].into_iter().chain(route.iter().copied());
        let to = route.iter().copied().chain([end]);
        let leg = |(a, b): (u32, u32)| self.legs[a as usize * self.locations + b as usize];
        from.zip(to).map(leg).map(u64::from).sum()
    }

    /// 24.
    pub fn unknown_end(&self, end: Option<u32>) -> bool {
        end.is_some_and(|end| end as usize >= self.locations)
    }

    /// 4.
    pub fn unknown(&self, depots: &[u32], stops: &[u32]) -> bool {
        let unknown = |&place: &u32| place as usize >= self.locations;
        depots.iter().chain(stops).any(unknown)
    }
}

pub fn tables() -> Vec<Tables> {
    let (no_deadline, long) = (u32::MAX, LONGEST_LEG + 1);
    vec![
        Tables::new(3, &[0, 5, 1, 1, 0, 5, 5, 1, 0], &[no_deadline; 3]),
        Tables::new(3, &[LONGEST_LEG; 9], &[0, 0, no_deadline]),
        Tables::new(1, &[7], &[0]),
        Tables::new(0, &[], &[]),
        Tables::new(0, &[0], &[0]),
        Tables::new(3, &[], &[no_deadline; 3]),
        Tables::new(3, &[0; 8], &[no_deadline; 3]),
        Tables::new(3, &[0; 10], &[no_deadline; 3]),
        Tables::new(3, &[0; 9], &[]),
        Tables::new(3, &[0; 9], &[0; 2]),
        Tables::new(3, &[0; 9], &[0; 4]),
        Tables::new(3, &[0, 0, 0, 0, 0, 0, 0, 0, long], &[0; 3]),
        Tables::new(3, &[u32::MAX; 9], &[0; 2]),
        Tables::of_service(&[0; 9], &[no_deadline; 3], &[LONGEST_SERVICE; 3]),
        Tables::of_service(&[LONGEST_LEG; 9], &[0; 3], &[LONGEST_SERVICE; 3]),
        Tables::of_service(&[0; 9], &[0; 3], &[]),
        Tables::of_service(&[0; 9], &[0; 3], &[0; 2]),
        Tables::of_service(&[0; 9], &[0; 3], &[0; 4]),
        Tables::of_service(&[0; 9], &[0; 3], &[0, 0, LONGEST_SERVICE + 1]),
        Tables::of_service(&[long; 9], &[0; 3], &[u32::MAX; 2]),
        Tables::of_service(&[0; 9], &[0; 2], &[u32::MAX; 4]),
        Tables::new(1024, &[], &[]),
        Tables::new(1025, &[0], &[]),
        Tables::new(1 << 32, &[], &[]),
        Tables::new(1 << 63, &[], &[]),
        Tables::new(usize::MAX, &[u32::MAX], &[0]),
    ]
}

pub fn routes() -> Vec<Vec<u32>> {
    let mut all = vec![
        vec![],
        vec![0],
        vec![2, 1],
        vec![3],
        vec![1, u32::MAX],
        vec![0; 512],
        vec![0; 513],
        vec![0; 600],
    ];
    all[7][599] = u32::MAX;
    all
}

pub fn cuts() -> Vec<Vec<usize>> {
    vec![
        vec![],
        vec![0],
        vec![0, 1],
        vec![1, 3],
        vec![3, 1],
        vec![1, 1],
        vec![0, usize::MAX],
        vec![usize::MAX; 2],
        vec![0, 1, 2],
        vec![0, 2, 512],
        vec![0, 1, 2, 3],
        vec![0, 1, 2, 3, 4],
        vec![0, 1, 2, 3, 4, 5],
        vec![7; 1000],
    ]
}

/// Members of pairs, end to end, for three locations: good ones first, doubled and contradictory ones among them.
pub fn pairs() -> Vec<Vec<u32>> {
    let many = |members: usize| [0, 1].into_iter().cycle().take(members).collect();
    vec![
        vec![],
        vec![1, 2],
        vec![2, 1],
        vec![0, 1],
        vec![1, 2, 1, 2],
        vec![1, 2, 2, 1],
        many(2 * MOST_PAIRS),
        vec![1],
        vec![1, 2, 0],
        vec![1, 3],
        vec![u32::MAX, 0],
        vec![0, 1, 2, 2],
        vec![3, 3],
        many(2 * MOST_PAIRS + 1),
        many(2 * MOST_PAIRS + 2),
        vec![u32::MAX; 1000],
    ]
}

/// As the safe functions take them; a member without its partner is left out.
pub fn in_pairs(members: &[u32]) -> Vec<Pair> {
    let pairs = members.chunks_exact(2);
    pairs.map(|pair| [pair[0], pair[1]]).collect()
}

/// A list of patterns, for some k or for none.
pub struct List {
    pub orders: Vec<u8>,
    pub masks: Vec<u8>,
}

impl List {
    /// 26, 27 and 28, of which the later are asked where the earlier do not apply.
    pub fn rules(&self, k: usize) -> [(u32, bool); 3] {
        if bad_k(k) {
            return [(26, false); 3];
        }
        let (orders, masks) = (&self.orders, &self.masks);
        let count =
            !(1..=MOST_ROWS).contains(&masks.len()) || orders.len() != masks.len() * (k + 1);
        let masks = masks.iter().map(|&mask| u64::from(mask));
        let rows: Vec<(&[u8], u64)> = orders.chunks(k + 1).zip(masks).collect();
        let shape = !count && rows.iter().any(|&(order, mask)| bad_row(k, order, mask));
        [
            (26, count),
            (27, shape),
            (28, !count && !shape && bad_rows(&rows)),
        ]
    }
}

pub fn lists() -> Vec<List> {
    let list = |orders: &[u8], masks: &[u8]| List {
        orders: orders.to_vec(),
        masks: masks.to_vec(),
    };
    vec![
        list(&[], &[]),
        list(&[], &[0]),
        list(&[0, 1, 2], &[2]),
        list(&[0, 1, 2], &[0]),
        list(&[0, 1, 2], &[1]),
        list(&[0, 1, 2], &[4]),
        list(&[0, 1, 2], &[255]),
        list(&[0, 1, 2, 0, 1, 2], &[2, 2]),
        list(&[1, 0, 2], &[2]),
        list(&[0, 2, 1, 3], &[0]),
        list(&[0, 2, 1, 3, 0, 1, 2, 3], &[6, 4]),
        list(&[0, 2, 1, 3, 0, 1, 2], &[6, 4]),
        list(&[0, 2, 1, 3, 0, 1, 2, 3], &[6, 0]),
        list(&[0, 2, 1, 255, 0, 2, 1, 3, 0, 2, 1, 3], &[6, 4, 4]),
        list(&[0, 3, 2, 1, 4], &[14]),
        list(&[0, 4, 3, 2, 1, 5], &[30]),
        list(&[0, 4, 3, 2, 1, 5], &[32]),
        list(&[0; 383 * 3], &[2; 383]),
        list(&[0; 384 * 4], &[2; 384]),
        list(&[255; 600], &[255; 100]),
    ]
}
