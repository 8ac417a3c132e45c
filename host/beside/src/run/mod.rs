//! The run: `mittenschist_run_list_k_opt` beside `run_list_k_opt` of kernel.rs, with two cuts beside rounds polished by `polish_route` of general.rs.

mod allowances;
mod bounds;
pub mod damage;
pub mod generate;
pub mod pair_case;
mod planted;
mod replies;
mod short;

use crate::polish::planted::PATTERNS;
use crate::trial::{Family, Source};

const CALL: &str = "run_list_k_opt";

pub const FAMILIES: [Family; 9] = [
    Family::new(CALL, "run/short", Source::Each(short::each)),
    Family::new(CALL, "run/pair-case", Source::Each(pair_case::each)),
    Family::new(CALL, "run/lengths", Source::Each(bounds::each_length)).on_small_stack(),
    Family::new(CALL, "run/bounds", Source::Each(bounds::each)).on_small_stack(),
    Family::new(CALL, "run/allowances", Source::Each(allowances::each)),
    Family::new(CALL, "run/random", Source::Drawn(400, 0, generate::draw)),
    Family::new(CALL, "run/long", Source::Drawn(8, 0, generate::draw_long)),
    Family::new(
        CALL,
        "run/planted",
        Source::Drawn(5, PATTERNS, planted::draw),
    ),
    Family::new(
        CALL,
        "run/damaged",
        Source::Drawn(50, damage::SETS, damage::draw),
    ),
];
