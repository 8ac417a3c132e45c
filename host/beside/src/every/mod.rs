//! Every nearby cut set: `mittenschist_every_nearby_cuts` beside document 02's words. The Rust has no such listing; its own must be a part of this one.

pub mod bounds;
mod generate;
mod plain;
mod replies;
mod short;

pub use short::missed_case;

use crate::cases::nearby::Case;
use crate::trial::{Family, Source};
use std::fmt::{Display, Formatter, Result as Written};

const CALL: &str = "every_nearby_cuts";

/// A listing, asked for every nearby cut set.
pub struct Every(pub Case);

impl Display for Every {
    fn fmt(&self, out: &mut Formatter<'_>) -> Written {
        self.0.fmt(out)
    }
}

pub const FAMILIES: [Family; 6] = [
    Family::new(CALL, "every/short", Source::Each(short::each)),
    Family::new(CALL, "every/rooms", Source::Each(short::each_room)),
    Family::new(CALL, "every/bounds", Source::Each(bounds::each)).on_small_stack(),
    Family::new(CALL, "every/random", Source::Drawn(400, 0, generate::draw)),
    Family::new(
        CALL,
        "every/long",
        Source::Drawn(20, 0, generate::draw_long),
    ),
    Family::new(
        CALL,
        "every/damaged",
        Source::Drawn(50, generate::SETS, generate::draw_damaged),
    ),
];
