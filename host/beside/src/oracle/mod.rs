//! The unchanged Rust, called on cases. A case must be one that is not refused.

mod fleet;
mod list_k_opt;
pub mod moves;
pub mod nearby;
pub mod polish;
pub mod run;
pub mod seen;
pub mod shares;

/// kernel.rs takes the exact sum from here.
mod distance_arithmetic {
    #[inline]
    pub(crate) fn sum_two(first: i64, second: i64) -> i128 {
        i128::from(first) + i128::from(second)
    }
}
