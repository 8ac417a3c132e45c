//! The scan of document 01 with document 02's length, written from their words: every cut set in dictionary order with every pattern in index order,
//! the first candidate that is shorter and keeps every deadline and every pair is taken, and the scan begins again.

use crate::cases::ends::Case;
use crate::oracle::polish::Counts;

/// The order of the middle segments, from 1, and which of them are reversed.
pub type Pattern = (Vec<usize>, Vec<bool>);

/// With these patterns in their order.
pub fn polish(case: &Case, patterns: &[Pattern]) -> (Counts, Vec<u32>) {
    let mut route = case.closed.route.clone();
    let mut counts = Counts {
        spent: false,
        examined: 0,
        accepted: 0,
    };
    while let Some(better) = improved(case, patterns, &route, &mut counts) {
        counts.accepted += 1;
        route = better;
    }
    (counts, route)
}

/// The first candidate that improves the route, if one is examined.
pub fn improved(
    case: &Case,
    patterns: &[Pattern],
    route: &[u32],
    counts: &mut Counts,
) -> Option<Vec<u32>> {
    for cuts in cut_sets(case.closed.k, 0, route.len()) {
        for pattern in patterns {
            if counts.examined == case.closed.allowance {
                counts.spent = true;
                return None;
            }
            counts.examined += 1;
            let candidate = rejoined(route, &cuts, pattern);
            let shorter = case.length(&candidate) < case.length(route);
            if shorter && in_time(case, &candidate) && case.closed.tables.keeps_pairs(&candidate) {
                return Some(candidate);
            }
        }
    }
    None
}

pub fn in_time(case: &Case, route: &[u32]) -> bool {
    let tables = &case.closed.tables;
    tables.late_position(case.closed.depot, route) == route.len() as u64
}

pub fn rejoined(route: &[u32], cuts: &[usize], pattern: &Pattern) -> Vec<u32> {
    let mut after = route[..cuts[0]].to_vec();
    for (&segment, &reversed) in pattern.0.iter().zip(&pattern.1) {
        let mut stops = route[cuts[segment - 1]..cuts[segment]].to_vec();
        if reversed {
            stops.reverse();
        }
        after.extend(stops);
    }
    after.extend(&route[cuts[cuts.len() - 1]..]);
    after
}

/// k cuts from `from` to n that rise, in dictionary order.
pub fn cut_sets(k: usize, from: usize, n: usize) -> Vec<Vec<usize>> {
    if k == 0 {
        return vec![Vec::new()];
    }
    let first = from..=n;
    first
        .flat_map(|cut| {
            let rest = cut_sets(k - 1, cut + 1, n);
            rest.into_iter().map(move |rest| [vec![cut], rest].concat())
        })
        .collect()
}

/// Orders in dictionary order, and for each the masks from 0 up, bit i for segment i; but not the one that changes nothing.
pub fn all_patterns(k: usize) -> Vec<Pattern> {
    let middle: Vec<usize> = (1..k).collect();
    let mut all = Vec::new();
    for order in orders(&middle) {
        for mask in 0..1 << (k - 1) {
            let reversed = order
                .iter()
                .map(|&segment| (mask >> (segment - 1)) & 1 == 1);
            if mask > 0 || order != middle {
                all.push((order.clone(), reversed.collect()));
            }
        }
    }
    all
}

fn orders(items: &[usize]) -> Vec<Vec<usize>> {
    if items.is_empty() {
        return vec![Vec::new()];
    }
    let first = items.iter();
    first
        .flat_map(|&first| {
            let rest: Vec<usize> = items
                .iter()
                .copied()
                .filter(|&item| item != first)
                .collect();
            let rest = orders(&rest);
            rest.into_iter()
                .map(move |rest| [vec![first], rest].concat())
        })
        .collect()
}
