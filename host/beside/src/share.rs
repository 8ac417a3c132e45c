//! The share of cut sets that the scan passes over, counted in the library's own source: without its contracts it is Rust.

use crate::cases::polish::Case;
use std::cell::Cell;

#[allow(dead_code, unused_imports, unused_variables, clippy::all)]
mod scan {
    include!(concat!(env!("OUT_DIR"), "/scan.rs"));
}

thread_local! {
    /// Cut sets passed over, and those whose patterns were tried.
    static SETS: Cell<(u64, u64)> = const { Cell::new((0, 0)) };
}

/// Called by the scan where it has passed over cut sets: how many, and whether the patterns of the next one are tried.
fn count(passed: usize, next: bool) {
    let (before, tried) = SETS.get();
    SETS.set((before + passed as u64, tried + u64::from(next)));
}

/// What a polishing counted.
#[derive(Debug, PartialEq)]
pub struct Counted {
    pub examined: u64,
    pub accepted: u64,
}

/// Polishes a sound case, and says what it counted and what share of the cut sets was passed over.
pub fn share(case: &Case) -> (Counted, f64) {
    SETS.set((0, 0));
    let mut route = case.route.clone();
    let tables = &case.tables;
    let polished = scan::polishing::polish_route(
        case.k,
        case.allowance,
        tables.locations,
        &tables.legs,
        &tables.latest,
        &tables.service,
        case.depot,
        case.depot,
        &[],
        &[],
        &mut route,
    );
    let (scan::theory::Polished::Finished(counts) | scan::theory::Polished::Spent(counts)) =
        polished;
    let (passed, tried) = SETS.get();
    let counted = Counted {
        examined: counts.examined,
        accepted: counts.accepted,
    };
    (counted, passed as f64 / (passed + tried) as f64)
}
