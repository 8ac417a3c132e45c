//! Pairs of rounds of 48 stops that a search found hard for the test of first cuts, and the moves that they have with five cuts.

use super::case::Found;

const PAIRS: [(&str, &str); 2] = [
    (
        "010101010101010101010101010101110101010100011011",
        "010101010101010101010101110101010100011100011011",
    ),
    (
        "010101010101010101010101010101110001010101100011",
        "010101010101010101010111000101010110001101100011",
    ),
];

fn stops(digits: &str) -> Vec<u32> {
    digits
        .bytes()
        .map(|digit| u32::from(digit - b'0'))
        .collect()
}

pub fn pairs() -> [(Vec<u32>, Vec<u32>); 2] {
    PAIRS.map(|(old, wanted)| (stops(old), stops(wanted)))
}

/// As the plain scan of all candidates found them.
pub fn found() -> [Option<Found>; 2] {
    [Some((311, vec![16, 17, 18, 20, 39])), None]
}
