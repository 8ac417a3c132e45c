//! The first move that turns one round into another: `mittenschist_find_move`. The Rust has no such call. On short rounds it is compared with
//! all candidates that the Rust's `polish_route` was seen to pass, in its order, each rejoined by `k_opt_do_move`; on long ones with a plain scan
//! (`plain`), which is held to the Rust on the short ones.

pub mod adversary;
mod by_rust;
mod case;
mod generate;
pub mod hard;
pub mod measured;
pub mod plain;
mod short;

pub use case::Case;

use crate::trial::{Family, Source};

const CALL: &str = "find_move";

pub const FAMILIES: [Family; 6] = [
    Family::new(CALL, "find_move/each", Source::Each(short::each)),
    Family::new(CALL, "find_move/bounds", Source::Each(short::each_bound)).on_small_stack(),
    Family::new(
        CALL,
        "find_move/short",
        Source::Drawn(200, 0, generate::draw_short),
    ),
    Family::new(
        CALL,
        "find_move/long",
        Source::Drawn(10, 0, generate::draw_long),
    ),
    Family::new(
        CALL,
        "find_move/planted",
        Source::Drawn(10, 0, generate::draw_planted),
    ),
    Family::new(
        CALL,
        "find_move/damaged",
        Source::Drawn(50, generate::SETS, generate::draw_damaged),
    ),
];
