//! Polishing: `mittenschist_polish_route` beside `polish_route` of general.rs.

pub mod bounds;
pub mod damage;
mod deep;
pub mod generate;
mod late;
pub mod measured;
pub mod planted;
mod replies;
mod short;
mod shortest;
pub mod stretches;

use crate::trial::{Family, Source};

const CALL: &str = "polish_route";

pub const FAMILIES: [Family; 9] = [
    Family::new(CALL, "polish/short", Source::Each(short::each)),
    Family::new(CALL, "polish/stretches", Source::Each(stretches::each)),
    Family::new(CALL, "polish/late", Source::Each(late::each)),
    Family::new(CALL, "polish/bounds", Source::Each(bounds::each)).on_small_stack(),
    Family::new(CALL, "polish/random", Source::Drawn(500, 0, generate::draw)),
    Family::new(
        CALL,
        "polish/damaged",
        Source::Drawn(50, damage::SETS, damage::draw),
    ),
    Family::new(
        CALL,
        "polish/planted",
        Source::Drawn(5, planted::PATTERNS, planted::draw),
    ),
    Family::new(CALL, "polish/deep", Source::Each(deep::each)),
    Family::new(CALL, "polish/shortest", Source::Each(shortest::each)),
];
