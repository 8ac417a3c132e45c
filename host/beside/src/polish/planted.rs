//! Cases in which one route alone is on time: the one that a chosen pattern makes of the route handed in. Its legs take one second,
//! all others more, and each stop is due when it is reached, after some service times or none. The count of candidates then shows where the
//! scan found it, which random cases seldom show of the later patterns.

use crate::cases::polish::{Case, RESULT_PLACES};
use crate::draw::capped;
use crate::heuristic::r#move::k_opt_reconnection::{enumerate_reconnections, KOptReconnection};
use crate::random::Random;
use crate::tables::Tables;
use crate::trial::Drawn;

/// The patterns of all k together.
pub const PATTERNS: u64 = 1 + 7 + 47 + 383;

pub fn draw(random: &mut Random, index: u64) -> Drawn {
    (Box::new(planted_case(random, index, 0)), None)
}

/// A case for the pattern of this index, those of k = 2 first, with at least so many stops.
pub fn planted_case(random: &mut Random, index: u64, least: usize) -> Case {
    let mut all = (2..=5).flat_map(enumerate_reconnections);
    let pattern = all
        .nth((index % PATTERNS) as usize)
        .expect("438 patterns of the Rust");
    let mut bounds = segment_bounds(random, &pattern);
    let stops = bounds[pattern.segment_count()].max(least);
    bounds[pattern.segment_count()] = stops;
    let route: Vec<u32> = (1..=stops as u32).collect();
    let target = rejoined(&route, &bounds, &pattern);
    on_time_only(random, pattern.k(), route, &target)
}

/// Where each segment begins and the last one ends. A segment that is reversed has two stops, so that it shows; the others have
/// one or two.
fn segment_bounds(random: &mut Random, pattern: &KOptReconnection) -> Vec<usize> {
    let head = random.index(2);
    let mut bounds = vec![0, head];
    for segment in 1..pattern.k() {
        let reversed = pattern.should_reverse(segment);
        let stops = if reversed { 2 } else { random.within(1, 2) };
        bounds.push(bounds[segment] + stops);
    }
    bounds.push(bounds[pattern.k()] + 1 - head);
    bounds
}

fn rejoined(route: &[u32], bounds: &[usize], pattern: &KOptReconnection) -> Vec<u32> {
    let mut target = Vec::with_capacity(route.len());
    for position in 0..pattern.segment_count() {
        let segment = pattern.segment_at(position);
        let mut stops = route[bounds[segment]..bounds[segment + 1]].to_vec();
        if pattern.should_reverse(segment) {
            stops.reverse();
        }
        target.extend(stops);
    }
    target
}

fn on_time_only(random: &mut Random, k: usize, route: Vec<u32>, target: &[u32]) -> Case {
    let locations = route.len() + 1;
    let mut legs: Vec<u32> = (0..locations * locations)
        .map(|_| 2 + random.below(9) as u32)
        .collect();
    let mut place = 0;
    for &stop in target {
        legs[place * locations + stop as usize] = 1;
        place = stop as usize;
    }
    legs[place * locations] = 1;
    let mut tables = Tables::of_legs(locations, legs);
    let longest = random.pick([0, 0, 2, 30]);
    for seconds in &mut tables.service {
        *seconds = random.below(longest + 1) as u32;
    }
    for (&stop, seconds) in target.iter().zip(tables.arrivals(0, target)) {
        tables.latest[stop as usize] = capped(seconds);
    }
    Case {
        k,
        allowance: u64::MAX,
        tables,
        depot: 0,
        route,
        room: RESULT_PLACES,
    }
}
