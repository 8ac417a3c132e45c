//! Pairs, of which one location comes before the other: `mittenschist_polish_route_with_pairs`, `_polish_with_patterns_and_pairs` and
//! `_run_list_k_opt_with_pairs`. The Rust's stand-in judges a round by the sentence, every visit of one against every visit of the other; with lists of
//! patterns and short routes the scan written from the documents answers (`ends::plain`). A list of no pairs is held to the entry without pairs.

mod bounds;
pub mod damage;
mod deep;
mod empty;
pub mod generate;
pub mod lists;
mod planted;
mod short;
mod stretches;

use crate::polish::planted::PATTERNS;
use crate::trial::{Family, Source};

const POLISH: &str = "polish_route_with_pairs";
const LIST: &str = "polish_with_patterns_and_pairs";
const RUN: &str = "run_list_k_opt_with_pairs";

pub const FAMILIES: [Family; 16] = [
    Family::new(POLISH, "precedence/short", Source::Each(short::each)),
    Family::new(
        POLISH,
        "precedence/stretches",
        Source::Each(stretches::each),
    ),
    Family::new(POLISH, "precedence/deep", Source::Each(deep::each)),
    Family::new(
        POLISH,
        "precedence/planted",
        Source::Drawn(5, 3 * PATTERNS, planted::draw),
    ),
    Family::new(
        POLISH,
        "precedence/long",
        Source::Drawn(8, 0, generate::draw_long),
    ),
    Family::new(POLISH, "precedence/bounds", Source::Each(bounds::each)).on_small_stack(),
    Family::new(
        POLISH,
        "precedence/random",
        Source::Drawn(120, 0, generate::draw),
    ),
    Family::new(
        POLISH,
        "precedence/damaged",
        Source::Drawn(20, damage::SETS, damage::draw),
    ),
    Family::new(
        POLISH,
        "precedence/empty",
        Source::Drawn(20, 0, empty::draw),
    ),
    Family::new(
        LIST,
        "precedence/lists",
        Source::Drawn(60, 0, generate::draw_list),
    ),
    Family::new(
        LIST,
        "precedence/damaged-lists",
        Source::Drawn(20, damage::LIST_SETS, damage::draw_list),
    ),
    Family::new(
        LIST,
        "precedence/empty-lists",
        Source::Drawn(10, 0, empty::draw_list),
    ),
    Family::new(RUN, "precedence/bound-runs", Source::Each(bounds::each_run)).on_small_stack(),
    Family::new(
        RUN,
        "precedence/runs",
        Source::Drawn(60, 0, generate::draw_run),
    ),
    Family::new(
        RUN,
        "precedence/damaged-runs",
        Source::Drawn(10, damage::RUN_SETS, damage::draw_run),
    ),
    Family::new(
        RUN,
        "precedence/empty-runs",
        Source::Drawn(10, 0, empty::draw_run),
    ),
];
