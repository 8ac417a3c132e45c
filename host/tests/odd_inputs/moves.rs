use crate::pools;
use crate::support::lent::{bits, filled, filled_u32, Lent};
use crate::support::rules::{bad_cuts, bad_k, bad_pattern, first_refusal, too_many_stops};
use crate::support::{kept, kept_beyond, number, on_small_stack, written};
use mittenschist::raw;

struct Case<'c> {
    k: usize,
    pattern: usize,
    round: usize,
    rounds: &'c [usize],
    positions: &'c [usize],
}

impl Case<'_> {
    /// 7, and lists of unequal lengths.
    fn bad_cuts(&self, n: usize) -> bool {
        self.rounds.len() != self.positions.len() || bad_cuts(self.k, n, self.positions)
    }

    fn refusal(&self, n: usize, room: usize) -> u32 {
        first_refusal(&[
            (1, bad_k(self.k)),
            (5, too_many_stops(n)),
            (6, bad_pattern(self.k, self.pattern)),
            (7, self.bad_cuts(n)),
            (8, self.rounds.iter().any(|&round| round != self.round)),
            (21, room < n),
        ])
    }

    fn check_apply(&self, stops: &[u32], room: usize) {
        let before = filled_u32(room);
        let mut rounds = Lent::new("rounds", self.rounds);
        let mut positions = Lent::new("positions", self.positions);
        let mut route = Lent::new("route", stops);
        let mut journal = Lent::new("journal", &before);
        let returned = number(mittenschist::k_opt_do_move(
            self.k,
            self.pattern,
            self.round,
            rounds.slice(),
            positions.slice(),
            route.slice(),
            journal.slice(),
        ));
        assert_eq!(returned, self.refusal(stops.len(), room));
        kept(&rounds);
        kept(&positions);
        if returned != 0 {
            kept(&route);
            return kept(&journal);
        }
        kept_beyond(&journal, &before, stops.len());
        assert_eq!(written(&journal)[..stops.len()], bits(stops));
        written(&route);
    }

    fn check_doable(&self, n: usize, room: usize) {
        let before = filled(room);
        let mut rounds = Lent::new("rounds", self.rounds);
        let mut positions = Lent::new("positions", self.positions);
        let mut result = Lent::new("result", &before);
        let returned = raw::k_opt_is_doable(
            self.k,
            self.pattern,
            self.round,
            n,
            rounds.slice(),
            positions.slice(),
            result.slice(),
        );
        let expected = |room| {
            first_refusal(&[
                (1, bad_k(self.k)),
                (5, too_many_stops(n)),
                (6, bad_pattern(self.k, self.pattern)),
                (21, room < 1),
            ])
        };
        assert_eq!(returned, expected(room));
        kept(&rounds);
        kept(&positions);
        kept_beyond(&result, &before, usize::from(returned == 0));
        let answer = mittenschist::k_opt_is_doable(
            self.k,
            self.pattern,
            self.round,
            n,
            self.rounds,
            self.positions,
        );
        assert_eq!(number(answer), expected(1));
    }
}

fn every_route(case: &Case) {
    for stops in [0, 4, 512, 513] {
        let stops: Vec<u32> = (0..stops).map(|stop| u32::MAX - stop).collect();
        let n = stops.len();
        for room in [0, n.saturating_sub(1), n, n + 2] {
            case.check_apply(&stops, room);
        }
    }
    for n in pools::STOP_COUNTS {
        for room in [0, 1, 2] {
            case.check_doable(n, room);
        }
    }
}

fn every_cut(k: usize, pattern: usize) {
    for positions in &pools::cuts() {
        let same = vec![7; positions.len()];
        let mut another = same.clone();
        another.iter_mut().take(1).for_each(|round| *round = 0);
        for rounds in [&same, &another, &vec![7; 2], &vec![]] {
            every_route(&Case {
                k,
                pattern,
                round: 7,
                rounds,
                positions,
            });
        }
    }
}

fn every_call() {
    for k in pools::CUT_COUNTS {
        for pattern in pools::PATTERNS {
            every_cut(k, pattern);
        }
    }
}

fn every_undo() {
    for stops in [0, 1, 3, 512, 513, 600] {
        for places in [0, 1, 3, 4, 512, 513, 600] {
            let (stops, places) = (filled_u32(stops), vec![5; places]);
            let mut route = Lent::new("route", &stops);
            let mut journal = Lent::new("journal", &places);
            let answer = mittenschist::k_opt_undo_move(route.slice(), journal.slice());
            let expected = first_refusal(&[
                (5, too_many_stops(stops.len())),
                (22, stops.len() != places.len()),
            ]);
            assert_eq!(number(answer), expected);
            kept(&journal);
            match answer {
                Ok(()) => assert_eq!(written(&route), bits(&places)),
                Err(_) => kept(&route),
            }
        }
    }
}

#[test]
fn numbers_in_order() {
    every_call();
    every_undo();
}

#[test]
fn on_128_kib() {
    on_small_stack(every_call);
    on_small_stack(every_undo);
}
