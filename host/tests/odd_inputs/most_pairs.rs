//! The most pairs with the most stops and locations, on a stack of 128 KiB.

use crate::support::in_order::keeps_pairs;
use crate::support::on_small_stack;
use mittenschist::{
    polish_route_with_pairs, polish_with_patterns_and_pairs, run_list_k_opt_with_pairs, Pair,
    PatternList, Polisher, RoundState, Rounds, Tables,
};

const LOCATIONS: u32 = 1024;
const STOPS: u32 = 512;
const ALLOWANCE: u64 = 20_000;

/// Kept by the stops in the order of their numbers.
fn pairs() -> Vec<Pair> {
    (0..64).map(|pair| [pair * 8, pair * 8 + 5]).collect()
}

fn legs() -> Vec<u32> {
    let leg = |place: u32| 1 + place.wrapping_mul(2_654_435_761) % 997;
    (0..LOCATIONS * LOCATIONS).map(leg).collect()
}

fn kept(pairs: &[Pair], route: &[u32]) {
    assert!(keeps_pairs(pairs.as_flattened(), route));
}

fn every_call() {
    let (legs, latest, pairs) = (legs(), [u32::MAX; LOCATIONS as usize], pairs());
    let tables = Tables::without_service(LOCATIONS as usize, &legs, &latest);
    let stops: Vec<u32> = (0..STOPS).collect();
    let list = PatternList::load(b"k=4\npatterns=1\npattern=01324,0\n").unwrap();
    let end = mittenschist::Harbours {
        depot: 600,
        end: 1023,
    };
    for k in 2..=5 {
        let mut route = stops.clone();
        let polished = polish_route_with_pairs(k, ALLOWANCE, &tables, end, &pairs, &mut route);
        assert!(polished.unwrap().accepted > 0);
        kept(&pairs, &route);
        let mut again = stops.clone();
        let mut polisher = Polisher::new(k, &tables, end, &pairs, &mut again);
        let slices = [
            polisher.step(ALLOWANCE / 3),
            polisher.step(ALLOWANCE - ALLOWANCE / 3),
        ];
        let [first, second] = slices.map(Result::unwrap);
        assert_eq!((Ok(first.then(second)), again), (polished, route));
        let mut rounds = stops.clone();
        let run = Rounds {
            stops: &mut rounds,
            lengths: &[512],
            depots: &[600],
            ends: &[1023],
            pins: &[0],
        };
        let replies = run_list_k_opt_with_pairs(k, ALLOWANCE, &tables, run, &pairs).unwrap();
        assert_eq!(replies[0].state, RoundState::Spent);
        assert_eq!(rounds, stops);
    }
    let mut route = stops.clone();
    let rows = list.lent();
    let polished =
        polish_with_patterns_and_pairs(rows, ALLOWANCE, &tables, end, &pairs, &mut route);
    assert!(polished.unwrap().accepted > 0);
    kept(&pairs, &route);
}

#[test]
fn on_128_kib() {
    on_small_stack(every_call);
}
