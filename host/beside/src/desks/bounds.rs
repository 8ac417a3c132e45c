//! The longest lists, one stop more, the most locations and the most pairs.

use super::case::Case;
use crate::random::Random;
use crate::rules::{LONGEST_LEG, LONGEST_SERVICE, MOST_LOCATIONS, MOST_PAIRS, MOST_STOPS};
use crate::tables::Tables;
use crate::trial::Visit;

pub fn each(_random: &mut Random, visit: Visit) {
    for locations in [1, 2, MOST_LOCATIONS] {
        for first in [0, 1, MOST_STOPS - 1, MOST_STOPS, MOST_STOPS + 1] {
            for second in [0, 1, MOST_STOPS, MOST_STOPS + 1] {
                for pairs in [0, 1, MOST_PAIRS, MOST_PAIRS + 1] {
                    visit(Box::new(call(locations, first, second, pairs)));
                }
            }
        }
    }
}

/// Stops from the last location down, all legs and all service as long as they may be.
fn call(locations: usize, first: usize, second: usize, pairs: usize) -> Case {
    let mut tables = Tables::of_legs(locations, vec![LONGEST_LEG; locations * locations]);
    tables.service = vec![LONGEST_SERVICE; locations];
    let last = locations as u32 - 1;
    tables.pairs = Some([last, 0].repeat(pairs));
    let stops = |count: usize| {
        (0..count as u32)
            .map(|place| last.saturating_sub(place))
            .collect()
    };
    Case {
        tables,
        depot: 0,
        end: last,
        first: stops(first),
        second: stops(second),
    }
}
