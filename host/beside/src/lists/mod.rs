//! Own lists of patterns: `mittenschist_load_patterns` and `mittenschist_polish_with_patterns`. The Rust knows all patterns alone: with the whole list in index
//! order polishing is compared with it, with other lists with the scan written from the documents (`ends::plain`). Texts are read by a reader of
//! the harness.

pub mod damage;
pub mod generate;
mod polish;
pub mod rows;
mod text;

pub use polish::Case;

use crate::trial::{Family, Source};

const LOAD: &str = "load_patterns";
const POLISH: &str = "polish_with_patterns";

pub const FAMILIES: [Family; 7] = [
    Family::new(LOAD, "lists/rulings", Source::Each(text::each_ruling)),
    Family::new(LOAD, "lists/bounds", Source::Each(text::each_bound)).on_small_stack(),
    Family::new(LOAD, "lists/texts", Source::Drawn(60, 0, text::draw)),
    Family::new(
        LOAD,
        "lists/damaged-texts",
        Source::Drawn(60, 0, text::draw_damaged),
    ),
    Family::new(
        POLISH,
        "lists/whole",
        Source::Drawn(60, 0, generate::draw_whole),
    ),
    Family::new(
        POLISH,
        "lists/rows",
        Source::Drawn(60, 0, generate::draw_rows),
    ),
    Family::new(
        POLISH,
        "lists/damaged",
        Source::Drawn(20, damage::SETS, damage::draw),
    ),
];
