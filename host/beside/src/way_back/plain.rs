//! The way back by the definition: each segment from where it arrived to where it stood, and the pattern looked up in the Rust's list.

use crate::oracle::moves::reconnection_at;
use crate::rules::pattern_count;

/// The index of a pattern, and the cuts.
pub type Move = (usize, Vec<usize>);

/// Of a move that is not refused.
pub fn way_back(k: usize, pattern: usize, n: usize, cuts: &[usize]) -> Option<Move> {
    let numbers = reconnection_at(k, pattern);
    let (order, mask) = (&numbers[..=k], numbers[k + 1]);
    let bounds: Vec<usize> = [&[0], cuts, &[n]].concat();
    let sizes = order.iter().map(|&segment| {
        let segment = segment as usize;
        bounds[segment + 1] - bounds[segment]
    });
    let mut arrivals: Vec<usize> = Vec::new();
    for size in sizes.take(k) {
        arrivals.push(arrivals.last().copied().unwrap_or(0) + size);
    }
    let stood = |segment| order.iter().position(|&arrived| arrived == segment);
    let mut inverse: Vec<u64> = (0..=k as u64)
        .map(|segment| stood(segment).map(|place| place as u64))
        .collect::<Option<_>>()?;
    let turned = order.iter().map(|&segment| (mask >> segment) & 1);
    inverse.push(turned.zip(0..).map(|(bit, place)| bit << place).sum());
    let index = (0..pattern_count(k)).find(|&index| reconnection_at(k, index) == inverse)?;
    Some((index, arrivals))
}
