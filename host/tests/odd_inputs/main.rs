//! Empty slices, huge numbers and wrong sizes everywhere: each call answers the number that the stated order gives, or 0 where
//! its input is in range. After a refusal all that was lent is as before, and nothing is ever written beside it. All of it once
//! more on a stack of 128 KiB.

#![forbid(unsafe_code)]

mod desks;
mod first_move;
mod most_pairs;
mod moves;
mod nearby;
mod one_route;
mod pairs;
mod parts;
mod polish;
mod pools;
mod problems;
mod run;
mod slices;
#[path = "../support/mod.rs"]
mod support;
mod texts;
mod way_back;
