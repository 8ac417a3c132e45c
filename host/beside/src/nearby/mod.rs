//! Nearby cuts: `mittenschist_nearby_cuts` beside `NearbyCutState` of nearby_state.rs in canonical order.

pub mod bounds;
pub mod damage;
pub mod generate;
mod replies;
mod short;

pub use bounds::widest;
pub use short::document_case;

use crate::trial::{Family, Source};

const CALL: &str = "nearby_cuts";

pub const FAMILIES: [Family; 6] = [
    Family::new(CALL, "nearby/short", Source::Each(short::each)),
    Family::new(CALL, "nearby/rooms", Source::Each(short::each_room)),
    Family::new(CALL, "nearby/bounds", Source::Each(bounds::each)).on_small_stack(),
    Family::new(
        CALL,
        "nearby/random",
        Source::Drawn(1000, 0, generate::draw),
    ),
    Family::new(
        CALL,
        "nearby/long",
        Source::Drawn(20, 0, generate::draw_long),
    ),
    Family::new(
        CALL,
        "nearby/damaged",
        Source::Drawn(200, damage::SETS, damage::draw),
    ),
];
