//! The library beside the Rust it is ported from, on the same inputs.

#![forbid(unsafe_code)]

// The Rust names these crates; the stand-ins below take their places.
extern crate self as smallvec;
extern crate self as solverforge_config;
extern crate self as solverforge_core;
extern crate self as solverforge_scoring;

mod stand_ins;
use stand_ins::selection::SelectionOrder;
pub(crate) use stand_ins::small_vec::SmallVec;
use stand_ins::{domain, pinning, scope, stats, Director};

mod phase {
    pub(crate) use crate::stand_ins::construction;
}

mod heuristic;

pub mod cases;
pub mod checks;
mod damage;
pub mod desks;
pub mod draw;
pub mod driver;
pub mod ends;
pub mod every;
pub mod first_move;
mod in_order;
pub mod in_shares;
pub use mittenschist::raw as ffi;
pub mod lent;
pub mod lists;
pub mod means;
pub mod moves;
pub mod nearby;
mod one_route;
pub mod oracle;
pub mod pairs;
pub mod parts;
pub mod polish;
pub mod precedence;
pub mod problems;
mod program;
pub mod random;
pub mod rules;
pub mod run;
pub mod season;
pub mod share;
pub mod slices;
pub mod tables;
pub mod text;
pub mod trial;
pub mod turns;
pub mod watch;
pub mod way_back;
