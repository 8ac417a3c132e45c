use crate::pools;
use crate::support::lent::{filled, Lent};
use crate::support::rules::{bad_cuts, bad_k, bad_pattern, first_refusal, too_many_stops};
use crate::support::{kept, kept_beyond, number, on_small_stack};
use mittenschist::raw;

fn refusal(k: usize, pattern: usize, n: usize, cuts: &[usize], room: usize) -> u32 {
    first_refusal(&[
        (1, bad_k(k)),
        (5, too_many_stops(n)),
        (6, bad_pattern(k, pattern)),
        (7, bad_cuts(k, n, cuts)),
        (21, room < k.saturating_add(1)),
    ])
}

fn check(k: usize, pattern: usize, n: usize, handed_in: &[usize], room: usize) {
    let before = filled(room);
    let mut cuts = Lent::new("cuts", handed_in);
    let mut result = Lent::new("result", &before);
    let returned = raw::way_back(k, pattern, n, cuts.slice(), result.slice());
    assert_eq!(returned, refusal(k, pattern, n, handed_in, room));
    kept(&cuts);
    kept_beyond(&result, &before, if returned == 0 { k + 1 } else { 0 });
    let answer = mittenschist::way_back(k, pattern, n, handed_in);
    assert_eq!(number(answer), refusal(k, pattern, n, handed_in, 6));
}

fn every_call() {
    for k in pools::CUT_COUNTS {
        for pattern in pools::PATTERNS {
            for n in pools::STOP_COUNTS {
                for cuts in &pools::cuts() {
                    for room in [0, 1, k.min(7), k.min(7) + 1, 11] {
                        check(k, pattern, n, cuts, room);
                    }
                }
            }
        }
    }
}

#[test]
fn numbers_in_order() {
    every_call();
}

#[test]
fn on_128_kib() {
    on_small_stack(every_call);
}
