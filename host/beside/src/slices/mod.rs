//! Polishing in slices: `mittenschist_polish_slice`. The Rust has no such call. Slices that go on from one another are held to the Rust's reply to one
//! call with the sum of their allowances, at the end or after each slice; a slice from any place to the scan written from the document's words; places that are none to the rules.

mod around;
mod case;
mod generate;
mod plain;
mod whole;

use crate::trial::{Family, Source};

const CALL: &str = "polish_slice";

pub const FAMILIES: [Family; 6] = [
    Family::new(CALL, "slices/each", Source::Each(generate::each)),
    Family::new(CALL, "slices/around", Source::Several(13, around::draw)),
    Family::new(CALL, "slices/whole", Source::Drawn(120, 0, whole::draw)),
    Family::new(CALL, "slices/long", Source::Drawn(6, 0, whole::draw_long)),
    Family::new(
        CALL,
        "slices/anywhere",
        Source::Drawn(120, 0, generate::draw),
    ),
    Family::new(
        CALL,
        "slices/damaged",
        Source::Drawn(60, generate::SETS, generate::draw_damaged),
    )
    .on_small_stack(),
];
