//! Shares of the allowance: `mittenschist_run_in_shares` beside rounds polished one by one by the unchanged `polish_route`, each with what document 02
//! gives it.

mod generate;
mod short;

use crate::precedence::damage::RUN_SETS;
use crate::trial::{Family, Source};

const CALL: &str = "run_in_shares";

pub const FAMILIES: [Family; 4] = [
    Family::new(CALL, "in-shares/short", Source::Each(short::each)).on_small_stack(),
    Family::new(
        CALL,
        "in-shares/random",
        Source::Drawn(120, 0, generate::draw),
    ),
    Family::new(
        CALL,
        "in-shares/long",
        Source::Drawn(4, 0, generate::draw_long),
    ),
    Family::new(
        CALL,
        "in-shares/damaged",
        Source::Drawn(10, RUN_SETS, generate::draw_damaged),
    ),
];
