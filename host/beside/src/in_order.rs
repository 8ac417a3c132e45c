//! What it is to keep pairs, by the sentence of document 02.

/// Every visit of the first of a pair comes before every visit of the second. The members lie end to end.
pub fn keeps_pairs(pairs: &[u32], route: &[u32]) -> bool {
    let visits = |member: u32| (0..route.len()).filter(move |&place| route[place] == member);
    let kept = |pair: &[u32]| visits(pair[0]).all(|i| visits(pair[1]).all(|j| i < j));
    pairs.chunks_exact(2).all(kept)
}
