//! Polishes routes by k-opt. Every answer is proved: this crate calls the C functions of the Rattle library `mittenschist` and
//! adds plain types.
//!
//! No input is out of bounds: each function judges what it is handed and answers a [`Refusal`] or does its work; [`which_of_two`]
//! alone has no refusal. After a refusal everything lent is as before. Nothing is judged here, so where several refusals apply, the one given is the library's first.
//!
//! ```
//! use mittenschist::{polish_route, Ending, Tables};
//!
//! // Seconds from each location to each; no deadline in force, and no time spent at a stop.
//! let legs = [0, 5, 1, 1, 0, 5, 5, 1, 0];
//! let tables = Tables::without_service(3, &legs, &[u32::MAX; 3]);
//! let mut route = [1, 2];
//! let polished = polish_route(3, 100, &tables, 0, &mut route)?;
//! assert_eq!(route, [2, 1]);
//! assert_eq!((polished.before, polished.after), (15, 3));
//! assert_eq!((polished.ending, polished.examined), (Ending::Finished, 11));
//! // No stop is late.
//! assert_eq!(polished.late, None);
//! # Ok::<(), mittenschist::Refusal>(())
//! ```

#![deny(unsafe_code)]
#![warn(missing_docs)]

mod desks;
mod first_move;
mod harbours;
mod moves;
mod nearby;
mod pace;
mod pairs;
mod parts;
mod patterns;
mod polish;
mod polisher;
mod precedence;
mod problem;
mod progress;
#[allow(unsafe_code)]
pub mod raw;
mod refusal;
mod run;
mod tables;
mod unknown;
mod way_back;

pub use desks::which_of_two;
pub use first_move::{find_move, Move};
pub use harbours::Harbours;
pub use moves::{k_opt_do_move, k_opt_is_doable, k_opt_undo_move};
pub use nearby::{every_nearby_cuts, nearby_cuts, Listing};
pub use pairs::{pair_loop, PairLooped};
pub use parts::{
    delta, next_cut_set, reconnect, reconnection_at, route_feasible, route_length, Deadline,
    Reconnection,
};
pub use patterns::{polish_with_patterns, polish_with_patterns_and_pairs, PatternList, Patterns};
pub use polish::{polish_route, polish_route_with_pairs, polish_slice, Ending, Place, Polished};
pub use polisher::{Polisher, Slices};
pub use precedence::Pair;
pub use problem::Problem;
pub use progress::Progress;
pub use refusal::Refusal;
pub use run::{
    run_in_shares, run_list_k_opt, run_list_k_opt_with_pairs, RoundReply, RoundState, Rounds,
};
pub use tables::Tables;
pub use way_back::way_back;
