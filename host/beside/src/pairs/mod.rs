//! The pair loop: `mittenschist_pair_loop` beside `run_list_k_opt` of kernel.rs with k = 2 over one free round, where that hands its round back, and beside
//! document 01's words everywhere.

mod allowances;
mod bounds;
mod damage;
pub mod document;
mod generate;
mod plain;
mod replies;
mod short;

use crate::trial::{Family, Source};

const CALL: &str = "pair_loop";

pub const FAMILIES: [Family; 7] = [
    Family::new(CALL, "pairs/document", Source::Each(document::each)),
    Family::new(CALL, "pairs/short", Source::Each(short::each)),
    Family::new(CALL, "pairs/bounds", Source::Each(bounds::each)).on_small_stack(),
    Family::new(CALL, "pairs/allowances", Source::Each(allowances::each)),
    Family::new(CALL, "pairs/random", Source::Drawn(200, 0, generate::draw)),
    Family::new(CALL, "pairs/long", Source::Drawn(4, 0, generate::draw_long)),
    Family::new(
        CALL,
        "pairs/damaged",
        Source::Drawn(30, damage::SETS, damage::draw),
    ),
];
