//! What polishing, the pair loop, the run and the nearby listing are handed, as plain data: the Rust's side, the library's and the drivers take it, and it
//! imports none of them.

pub mod ends;
pub mod nearby;
pub mod pairs;
pub mod polish;
pub mod run;
