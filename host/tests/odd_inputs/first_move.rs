use crate::pools;
use crate::support::lent::{filled, Lent};
use crate::support::rules::{bad_k, first_refusal, too_many_stops, LONGEST_MOVED};
use crate::support::{kept, kept_beyond, number, on_small_stack, written};
use mittenschist::raw;

fn refusal(k: usize, old: &[u32], wanted: &[u32], room: usize) -> u32 {
    let (n, m) = (old.len(), wanted.len());
    first_refusal(&[
        (1, bad_k(k)),
        (5, too_many_stops(n) || too_many_stops(m)),
        (25, n != m || n > LONGEST_MOVED),
        (21, room < k.saturating_add(2)),
    ])
}

fn check(k: usize, old: &[u32], wanted: &[u32], room: usize) {
    let before = filled(room);
    let (mut one, mut other) = (Lent::new("old", old), Lent::new("wanted", wanted));
    let mut result = Lent::new("result", &before);
    let returned = raw::find_move(k, one.slice(), other.slice(), result.slice());
    assert_eq!(returned, refusal(k, old, wanted, room));
    kept(&one);
    kept(&other);
    if returned != 0 {
        return kept(&result);
    }
    let places = match written(&result)[0] {
        0 => 1,
        _ => k + 2,
    };
    kept_beyond(&result, &before, places);
    let answer = mittenschist::find_move(k, old, wanted);
    assert_eq!(number(answer), refusal(k, old, wanted, k + 2));
}

/// Rounds of many lengths: distinct stops, all alike, any numbers, and two that no move joins.
fn rounds(stops: usize) -> [Vec<u32>; 4] {
    let last = stops as u32;
    [
        (0..last).collect(),
        vec![u32::MAX; stops],
        (0..last).rev().collect(),
        (0..last)
            .map(|stop| stop.wrapping_mul(0x9e37_79b9) % 3)
            .collect(),
    ]
}

fn every_call() {
    for k in pools::CUT_COUNTS {
        for (stops, others) in [
            (0, 0),
            (0, 1),
            (1, 1),
            (3, 4),
            (48, 48),
            (49, 49),
            (48, 49),
            (0, 512),
            (513, 513),
            (512, 513),
            (600, 3),
        ] {
            for old in &rounds(stops) {
                for wanted in &rounds(others) {
                    for room in [0, 1, k.min(7) + 1, k.min(7) + 2, 11] {
                        check(k, old, wanted, room);
                    }
                }
            }
        }
    }
}

#[test]
fn numbers_in_order() {
    every_call();
}

#[test]
fn on_128_kib() {
    on_small_stack(every_call);
}
