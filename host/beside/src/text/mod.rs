//! The text program, from bytes to bytes: the program as it is built, beside a reader of its own over the unchanged Rust.

mod case;
pub mod damage;
pub mod generate;
pub mod reader;

use crate::program::named;
use crate::trial::{Family, Source};
use std::path::PathBuf;

const CALL: &str = "the program polish";

/// Names the program.
const VARIABLE: &str = "MITTENSCHIST_POLISH";

pub const FAMILIES: [Family; 4] = [
    Family::new(CALL, "text/bounds", Source::Each(generate::each_bound)),
    Family::new(CALL, "text/good", Source::Drawn(10, 200, generate::draw)),
    Family::new(
        CALL,
        "text/refused",
        Source::Drawn(5, generate::SETS, generate::draw_refused),
    ),
    Family::new(
        CALL,
        "text/damaged",
        Source::Drawn(20, damage::KINDS * 10, damage::draw),
    ),
];

/// The program, if it is there; else the reason why texts are not compared.
pub fn program() -> Result<PathBuf, String> {
    named(VARIABLE, "polish")
}
