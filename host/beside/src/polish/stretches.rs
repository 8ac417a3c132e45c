//! Allowances around the end of each cut set, which are the ends that a stretch of cut sets passed over can have: a scan that counts
//! a stretch at once must be spent inside it at exactly the allowance.

use crate::cases::polish::{Case, RESULT_PLACES};
use crate::draw::{leg_table, order, set_times};
use crate::oracle::polish::polish;
use crate::random::Random;
use crate::tables::Tables;
use crate::trial::Visit;

/// k, its patterns, and stops so few that a scan is short.
pub const KINDS: [(usize, u64, usize); 4] = [(2, 1, 22), (3, 7, 12), (4, 47, 9), (5, 383, 8)];

/// Tables for each kind.
const TABLES: usize = 6;

pub fn each(random: &mut Random, visit: Visit) {
    for (k, patterns, stops) in KINDS {
        for _ in 0..TABLES {
            let mut case = route_of(random, k, stops);
            around_each_cut_set(&case, patterns, visit);
            polish(&case.clone(), u64::MAX, &mut case.route);
            around_each_cut_set(&case, patterns, visit);
        }
    }
}

pub fn route_of(random: &mut Random, k: usize, stops: usize) -> Case {
    let locations = stops + 1;
    let mut tables = Tables::of_legs(locations, leg_table(random, locations));
    let route = order(random, locations, 0, stops);
    set_times(random, &mut tables, 0, &route);
    Case {
        k,
        allowance: 0,
        tables,
        depot: 0,
        route,
        room: RESULT_PLACES,
    }
}

/// With each of the allowances below.
pub fn around_each_cut_set(case: &Case, patterns: u64, visit: Visit) {
    for case in at_allowances(case, patterns) {
        visit(Box::new(case));
    }
}

/// One candidate before the end of each cut set of the first pass, at its end, and one after it; and around the end of the scan.
pub fn at_allowances(case: &Case, patterns: u64) -> impl Iterator<Item = Case> + '_ {
    let examined = polish(case, u64::MAX, &mut case.route.clone()).examined;
    let ends = (0..=examined / patterns).map(move |sets| sets * patterns);
    let around = |end: u64| end.saturating_sub(1)..=end + 1;
    ends.chain([examined])
        .flat_map(around)
        .map(|allowance| Case {
            allowance,
            ..case.clone()
        })
}
