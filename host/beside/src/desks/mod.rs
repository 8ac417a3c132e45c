//! Which of two lists: `mittenschist_which_of_two`, and the crate's `which_of_two`, which hands back the list itself. The Rust has no such call: it is held to
//! the sentences of document 02, over the tables, with the refusals of polishing.

mod bounds;
mod case;
mod generate;
mod short;

use crate::trial::{Family, Source};

const CALL: &str = "which_of_two";

pub const FAMILIES: [Family; 4] = [
    Family::new(CALL, "desks/short", Source::Each(short::each)),
    Family::new(CALL, "desks/bounds", Source::Each(bounds::each)).on_small_stack(),
    Family::new(CALL, "desks/random", Source::Drawn(200, 0, generate::draw)),
    Family::new(
        CALL,
        "desks/damaged",
        Source::Drawn(20, generate::SETS, generate::draw_damaged),
    ),
];
