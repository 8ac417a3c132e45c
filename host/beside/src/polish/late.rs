//! Routes that are late when they are handed in, by a second or in every order, at one stop or at each from a position on, with allowances around
//! the end of each cut set: a stretch behind a late head is counted at once, and the first late stop is told until something is accepted.

use super::measured::{late, never};
use super::stretches::{around_each_cut_set, route_of, KINDS};
use crate::cases::polish::Case;
use crate::draw::capped;
use crate::random::Random;
use crate::trial::Visit;

/// Tables for each kind.
const TABLES: usize = 3;

pub fn each(random: &mut Random, visit: Visit) {
    for (k, patterns, stops) in KINDS {
        for _ in 0..TABLES {
            let case = route_of(random, k, stops);
            for position in [0, stops / 2, stops - 1] {
                for make_late in [late, never] {
                    around_each_cut_set(&made(&case, make_late, position), patterns, visit);
                }
            }
            around_each_cut_set(&made(&case, late_from, stops / 2), patterns, visit);
        }
    }
}

fn made(case: &Case, make_late: fn(&mut Case, usize), position: usize) -> Case {
    let mut made = case.clone();
    make_late(&mut made, position);
    made
}

/// Every stop from a position on is late by a second as the route stands.
fn late_from(case: &mut Case, position: usize) {
    for (at, seconds) in case.arrivals().into_iter().enumerate().skip(position) {
        case.tables.latest[case.route[at] as usize] = capped(seconds.saturating_sub(1));
    }
}
