//! The way back of a move: `mittenschist_way_back` beside document 02's words. The Rust has no such call; its `k_opt_do_move`, applied with the
//! move and then with the way back, must restore the round. The library's own `reconnect` must too, and the way back of the way back be the move.

mod case;
mod generate;
mod plain;

use crate::trial::{Family, Source};

const CALL: &str = "way_back";

pub const FAMILIES: [Family; 4] = [
    Family::new(CALL, "way_back/each", Source::Each(generate::each_short)),
    Family::new(CALL, "way_back/bounds", Source::Each(generate::each_bound)).on_small_stack(),
    Family::new(
        CALL,
        "way_back/random",
        Source::Drawn(300, 0, generate::draw),
    ),
    Family::new(
        CALL,
        "way_back/damaged",
        Source::Drawn(100, generate::SETS, generate::draw_damaged),
    ),
];
