//! The parts that polishing is made of: patterns, cut sets, rejoining, costs and deadlines.
//! Patterns are compared with `enumerate_reconnections`. `next_cut_set`, `reconnect` and `RouteCosts` are private in general.rs:
//! on short routes they are seen through `polish_route` (`oracle::seen`); on longer ones rejoining is compared with
//! `k_opt_do_move`, cut sets and delta with a plain brute force written from document 01. Length and deadlines have no function
//! in the Rust: they are compared with document 01's own words.

pub mod cut_sets;
mod deltas;
mod feasible;
mod lengths;
mod patterns;
mod rejoining;
pub mod route;

use crate::trial::{Family, Source};

const PATTERN: &str = "reconnection_at";
const CUTS: &str = "next_cut_set";
const REJOIN: &str = "reconnect";
const LENGTH: &str = "route_length";
const DELTA: &str = "delta";
const FEASIBLE: &str = "route_feasible";

pub const FAMILIES: [Family; 17] = [
    Family::new(PATTERN, "pattern/each", Source::Each(patterns::each)),
    Family::new(CUTS, "cuts/short", Source::Each(cut_sets::each_short)),
    Family::new(CUTS, "cuts/wrong", Source::Each(cut_sets::each_wrong)),
    Family::new(CUTS, "cuts/random", Source::Drawn(200, 0, cut_sets::draw)),
    Family::new(
        CUTS,
        "cuts/damaged",
        Source::Drawn(100, cut_sets::SETS, cut_sets::draw_damaged),
    ),
    Family::new(REJOIN, "rejoin/short", Source::Each(rejoining::each_short)),
    Family::new(
        REJOIN,
        "rejoin/random",
        Source::Drawn(200, 0, rejoining::draw),
    ),
    Family::new(
        REJOIN,
        "rejoin/damaged",
        Source::Drawn(100, rejoining::SETS, rejoining::draw_damaged),
    ),
    Family::new(
        LENGTH,
        "length/random",
        Source::Drawn(200, 0, lengths::draw),
    ),
    Family::new(
        LENGTH,
        "length/damaged",
        Source::Drawn(100, lengths::SETS, lengths::draw_damaged),
    ),
    Family::new(DELTA, "delta/patterns", Source::Each(deltas::each_pattern)),
    Family::new(
        DELTA,
        "delta/short",
        Source::Drawn(20, 0, deltas::draw_short),
    ),
    Family::new(DELTA, "delta/random", Source::Drawn(200, 0, deltas::draw)),
    Family::new(
        DELTA,
        "delta/damaged",
        Source::Drawn(100, deltas::SETS, deltas::draw_damaged),
    ),
    Family::new(
        FEASIBLE,
        "feasible/random",
        Source::Drawn(200, 0, feasible::draw),
    ),
    Family::new(
        FEASIBLE,
        "feasible/damaged",
        Source::Drawn(100, feasible::SETS, feasible::draw_damaged),
    ),
    Family::new(
        FEASIBLE,
        "feasible/bounds",
        Source::Each(feasible::each_bound),
    )
    .on_small_stack(),
];
