//! "When it says no" of document 01 and the numbers that document 02 adds, written from their text.

pub const MOST_LOCATIONS: usize = 1024;
pub const MOST_ROUNDS: usize = 64;
pub const MOST_STOPS: usize = 512;
pub const LONGEST_LEG: u32 = 1_000_000;
pub const LONGEST_SERVICE: u32 = 1_000_000;
pub const LONGEST_PIECE: usize = 512;
pub const MOST_NEIGHBOURS: usize = 32;
/// Patterns in a list.
pub const MOST_ROWS: usize = 383;
/// Pairs in a list.
pub const MOST_PAIRS: usize = 64;
/// Bytes of a text.
pub const MOST_BYTES: usize = 60_000;
/// Stops of a round whose first move is looked for.
pub const LONGEST_MOVED: usize = 48;

/// The stated order of all numbers, those that no call gives yet included.
const ORDER: [u32; 21] = [
    30, 10, 1, 26, 27, 28, 2, 3, 23, 4, 24, 29, 5, 6, 7, 8, 9, 25, 31, 21, 22,
];

/// The first number of the stated order whose condition holds, 0 if none does.
pub fn first_refusal(rules: &[(u32, bool)]) -> u32 {
    let holds = |&number: &u32| rules.contains(&(number, true));
    ORDER.into_iter().find(holds).unwrap_or(0)
}

/// 1: k outside 2 to 5.
pub fn bad_k(k: usize) -> bool {
    !(2..=5).contains(&k)
}

/// The patterns for k; 0 where k is refused.
pub fn pattern_count(k: usize) -> usize {
    match k {
        2 => 1,
        3 => 7,
        4 => 47,
        5 => 383,
        _ => 0,
    }
}

/// 6: pattern index not below the count for k.
pub fn bad_pattern(k: usize, pattern: usize) -> bool {
    pattern >= pattern_count(k)
}

/// 7: not k cuts, one above n, or not strictly rising.
pub fn bad_cuts(k: usize, n: usize, cuts: &[usize]) -> bool {
    cuts.len() != k || cuts.iter().any(|&cut| cut > n) || !rising(cuts)
}

pub fn rising(cuts: &[usize]) -> bool {
    cuts.windows(2).all(|pair| pair[0] < pair[1])
}

/// 5: more than 512 stops.
pub fn too_many_stops(stops: usize) -> bool {
    stops > MOST_STOPS
}

/// 29: more than 64 pairs, a member without its partner or not below the locations, or both members equal.
pub fn bad_pairs(locations: usize, pairs: &[u32]) -> bool {
    pairs.len() > 2 * MOST_PAIRS
        || pairs.len() % 2 == 1
        || pairs.iter().any(|&member| member as usize >= locations)
        || pairs.chunks_exact(2).any(|pair| pair[0] == pair[1])
}

/// 27, of one pattern: an order that is no permutation of 0 to k with 0 first and k last, or a mask with a bit outside 1 to k - 1.
pub fn bad_row(k: usize, order: &[u8], mask: u64) -> bool {
    let mut sorted = order.to_vec();
    sorted.sort_unstable();
    let all: Vec<u8> = (0..=k as u8).collect();
    sorted != all
        || order[0] != 0
        || order[k] != k as u8
        || (0..64).any(|bit| (mask >> bit) & 1 == 1 && !(1..k).contains(&bit))
}

/// 28, of a list of good patterns: one that changes nothing, or that stands earlier.
pub fn bad_rows(rows: &[(&[u8], u64)]) -> bool {
    let unchanged = |&(order, mask): &(&[u8], u64)| mask == 0 && order.is_sorted();
    rows.iter().any(unchanged) || (1..rows.len()).any(|place| rows[..place].contains(&rows[place]))
}
