//! The season report, from bytes to bytes: the program as it is built, beside a plain definition over the unchanged Rust.

mod case;
mod generate;
mod report;

use crate::program::named;
use crate::trial::{Family, Source};
use std::path::PathBuf;

const CALL: &str = "the program season";

/// Names the program.
const VARIABLE: &str = "MITTENSCHIST_SEASON";

pub const FAMILIES: [Family; 3] = [
    Family::new(CALL, "season/bounds", Source::Each(generate::each_bound)),
    Family::new(CALL, "season/blocks", Source::Drawn(5, 100, generate::draw)),
    Family::new(
        CALL,
        "season/damaged",
        Source::Drawn(5, 100, generate::draw_damaged),
    ),
];

/// The program, if it is there; else the reason why reports are not compared.
pub fn program() -> Result<PathBuf, String> {
    named(VARIABLE, "season")
}
