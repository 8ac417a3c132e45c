use crate::pools;
use crate::support::lent::{filled, filled_usize, Lent};
use crate::support::rules::{bad_k, first_refusal, too_many_stops, LONGEST_PIECE, MOST_NEIGHBOURS};
use crate::support::{kept, kept_beyond, number, on_small_stack, written};
use mittenschist::{raw, Listing, Refusal};

const SHORTEST: [usize; 5] = [0, 1, 512, 513, usize::MAX];
const NEIGHBOURS: [usize; 5] = [0, 4, 32, 33, usize::MAX];

type Raw = fn(usize, &[f64], usize, usize, usize, &mut [usize], &mut [u64]) -> u32;
type Safe = fn(usize, &[f64], usize, usize, usize, &mut [usize]) -> Result<Listing, Refusal>;

/// Both listings: they take, write and refuse the same.
const CALLS: [(Raw, Safe); 2] = [
    (raw::nearby_cuts, mittenschist::nearby_cuts),
    (raw::every_nearby_cuts, mittenschist::every_nearby_cuts),
];

struct Case<'c> {
    n: usize,
    distances: &'c [f64],
    k: usize,
    shortest: usize,
    neighbours: usize,
    sets_room: usize,
    room: usize,
}

impl Case<'_> {
    fn refusal(&self, room: usize) -> u32 {
        first_refusal(&[
            (1, bad_k(self.k)),
            (5, too_many_stops(self.n)),
            (9, self.bad_input()),
            (21, self.sets_room < self.k || room < 2),
        ])
    }

    fn bad_input(&self) -> bool {
        !(1..=LONGEST_PIECE).contains(&self.shortest)
            || self.neighbours > MOST_NEIGHBOURS
            || self.n.checked_mul(self.n) != Some(self.distances.len())
            || self.distances.iter().any(|distance| distance.is_nan())
    }

    fn check(&self, call: Raw) {
        let (no_sets, before) = (filled_usize(self.sets_room), filled(self.room));
        let mut distances = Lent::new("distances", self.distances);
        let mut sets = Lent::new("sets", &no_sets);
        let mut result = Lent::new("result", &before);
        let returned = call(
            self.n,
            distances.slice(),
            self.k,
            self.shortest,
            self.neighbours,
            sets.slice(),
            result.slice(),
        );
        assert_eq!(returned, self.refusal(self.room));
        kept(&distances);
        if returned != 0 {
            kept(&sets);
            return kept(&result);
        }
        let count = written(&result)[0] as usize;
        kept_beyond(&result, &before, 2);
        kept_beyond(&sets, &no_sets, count * self.k);
    }

    fn check_safe(&self, call: Safe) {
        let no_sets = filled_usize(self.sets_room);
        let mut sets = Lent::new("sets", &no_sets);
        let answer = call(
            self.n,
            self.distances,
            self.k,
            self.shortest,
            self.neighbours,
            sets.slice(),
        );
        assert_eq!(number(answer), self.refusal(2));
        let places = answer.map_or(0, |listing| listing.sets * self.k);
        kept_beyond(&sets, &no_sets, places);
    }
}

fn tables() -> Vec<Vec<f64>> {
    let mut holed = vec![2.0; 25];
    holed[0] = f64::NAN;
    let endless = [f64::INFINITY, f64::NEG_INFINITY, -0.0, 0.0, f64::MAX];
    vec![
        vec![],
        vec![f64::NAN],
        vec![2.0],
        vec![2.0; 24],
        vec![2.0; 25],
        vec![2.0; 26],
        vec![2.0; 144],
        endless.repeat(5),
        holed,
    ]
}

fn every_limit(n: usize, distances: &[f64], k: usize) {
    for shortest in SHORTEST {
        for neighbours in NEIGHBOURS {
            for (sets_room, room) in [(0, 0), (1, 2), (k.min(6), 1), (k.min(6), 2), (13, 3)] {
                let case = Case {
                    n,
                    distances,
                    k,
                    shortest,
                    neighbours,
                    sets_room,
                    room,
                };
                for (raw, safe) in CALLS {
                    case.check(raw);
                    case.check_safe(safe);
                }
            }
        }
    }
}

fn every_call() {
    for k in pools::CUT_COUNTS {
        for distances in &tables() {
            for n in [0, 1, 5, 12, 512, 513, 1 << 32, usize::MAX] {
                every_limit(n, distances, k);
            }
        }
    }
}

#[test]
fn numbers_in_order() {
    every_call();
}

#[test]
fn on_128_kib() {
    on_small_stack(every_call);
}
