//! Other ends than the depot: `mittenschist_polish_route_to_end`, `_run_list_k_opt_to_ends`, `_route_length_to_end` and `_delta_to_end`. The Rust knows closed
//! tours alone. It is asked over a table with one more location, which is left like the depot and reached like the end; and short calls of
//! polishing are answered by a scan written from the documents as well (`plain`), which must agree with it.

pub mod damage;
mod deltas;
pub mod generate;
mod lengths;
pub mod plain;
mod replies;
pub mod runs;
mod short;

use crate::trial::{Family, Source};

const POLISH: &str = "polish_route_to_end";
const RUN: &str = "run_list_k_opt_to_ends";
const LENGTH: &str = "route_length_to_end";
const DELTA: &str = "delta_to_end";

pub const FAMILIES: [Family; 9] = [
    Family::new(POLISH, "ends/short", Source::Each(short::each)),
    Family::new(POLISH, "ends/random", Source::Drawn(100, 0, generate::draw)),
    Family::new(
        POLISH,
        "ends/damaged",
        Source::Drawn(20, damage::SETS, damage::draw),
    ),
    Family::new(RUN, "ends/runs", Source::Drawn(60, 0, runs::draw)),
    Family::new(
        RUN,
        "ends/damaged-runs",
        Source::Drawn(10, runs::SETS, runs::draw_damaged),
    ),
    Family::new(LENGTH, "ends/lengths", Source::Drawn(40, 0, lengths::draw)),
    Family::new(
        LENGTH,
        "ends/damaged-lengths",
        Source::Drawn(20, lengths::SETS, lengths::draw_damaged),
    ),
    Family::new(DELTA, "ends/deltas", Source::Drawn(40, 0, deltas::draw)),
    Family::new(
        DELTA,
        "ends/damaged-deltas",
        Source::Drawn(20, deltas::SETS, deltas::draw_damaged),
    ),
];
