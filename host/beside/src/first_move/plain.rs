//! Every candidate in turn: cut sets in dictionary order, the patterns of each by index. `first` leaves out cut sets whose first segment is not
//! where it was, or with another, but for the last, that stands nowhere in the wanted round.

use super::case::Found;
use crate::oracle::moves::reconnection_at;
use crate::rules::pattern_count;

/// A pattern, by its pieces: the segment, and whether it is reversed.
type Pieces = Vec<(usize, bool)>;

struct Search<'c> {
    k: usize,
    old: &'c [u32],
    wanted: &'c [u32],
    patterns: Vec<Pieces>,
    /// For every start and end whether that part of the old round stands anywhere in the wanted one.
    stands: Vec<Vec<bool>>,
}

/// The first move that turns the old round into the wanted one, of the same length.
pub fn first(k: usize, old: &[u32], wanted: &[u32]) -> Option<Found> {
    let mut search = Search::new(k, old, wanted);
    let ends = 0..=old.len();
    let row = |from: usize| ends.clone().map(move |to| stands(old, wanted, from, to));
    search.stands = ends.clone().map(|from| row(from).collect()).collect();
    search.further(&mut Vec::new())
}

/// The same by all candidates, each rejoined whole and compared: what the call means, and the time that its speed is held against.
pub fn first_of_all(k: usize, old: &[u32], wanted: &[u32]) -> Option<Found> {
    let search = Search::new(k, old, wanted);
    let mut cuts: Vec<usize> = (0..k).collect();
    let mut round = vec![0; old.len()];
    let mut left = k <= old.len() + 1;
    while left {
        for (pattern, pieces) in search.patterns.iter().enumerate() {
            search.rejoin(&cuts, pieces, &mut round);
            if round == wanted {
                return Some((pattern, cuts));
            }
        }
        left = step(&mut cuts, old.len());
    }
    None
}

/// On to the next cut set in dictionary order; false after the last.
fn step(cuts: &mut [usize], n: usize) -> bool {
    let k = cuts.len();
    let Some(place) = (0..k).rev().find(|&place| cuts[place] + k - place <= n) else {
        return false;
    };
    let first = cuts[place] + 1;
    for (cut, next) in cuts[place..].iter_mut().zip(first..) {
        *cut = next;
    }
    true
}

/// Whether a part stands anywhere, as it is or reversed.
fn stands(old: &[u32], wanted: &[u32], from: usize, to: usize) -> bool {
    let Some(part) = old.get(from..to).filter(|part| !part.is_empty()) else {
        return false;
    };
    let mut places = wanted.windows(part.len());
    places.any(|here| stands_at(part, here, false) || stands_at(part, here, true))
}

fn stands_at(part: &[u32], here: &[u32], reversed: bool) -> bool {
    if reversed {
        part.iter().rev().eq(here)
    } else {
        part == here
    }
}

impl<'c> Search<'c> {
    fn new(k: usize, old: &'c [u32], wanted: &'c [u32]) -> Self {
        let pieces = |pattern| {
            let numbers = reconnection_at(k, pattern);
            let (order, mask) = (&numbers[..=k], numbers[k + 1]);
            let piece = |&segment: &u64| (segment as usize, (mask >> segment) & 1 == 1);
            order.iter().map(piece).collect()
        };
        Self {
            k,
            old,
            wanted,
            patterns: (0..pattern_count(k)).map(pieces).collect(),
            stands: Vec::new(),
        }
    }

    /// The first of the moves whose cuts begin with these.
    fn further(&self, cuts: &mut Vec<usize>) -> Option<Found> {
        let (n, last) = (self.old.len(), cuts.last().copied());
        if cuts.len() == self.k {
            return self.first_pattern(cuts);
        }
        for cut in last.map_or(0, |last| last + 1)..=n {
            if self.left_out(last, cut) {
                continue;
            }
            cuts.push(cut);
            let found = self.further(cuts);
            cuts.pop();
            if found.is_some() {
                return found;
            }
        }
        None
    }

    /// By the segment that ends with a cut.
    fn left_out(&self, last: Option<usize>, cut: usize) -> bool {
        match last {
            None => self.old[..cut] != self.wanted[..cut],
            Some(last) => !self.stands[last][cut],
        }
    }

    fn first_pattern(&self, cuts: &[usize]) -> Option<Found> {
        let turns = |pieces: &Pieces| self.turns(cuts, pieces);
        let pattern = self.patterns.iter().position(turns)?;
        Some((pattern, cuts.to_vec()))
    }

    fn turns(&self, cuts: &[usize], pieces: &Pieces) -> bool {
        let mut rest = self.wanted;
        pieces.iter().all(|&(segment, reversed)| {
            let part = self.segment(cuts, segment);
            let (here, behind) = rest.split_at(part.len());
            rest = behind;
            stands_at(part, here, reversed)
        })
    }

    fn segment(&self, cuts: &[usize], segment: usize) -> &[u32] {
        let from = segment.checked_sub(1).map_or(0, |before| cuts[before]);
        let to = cuts.get(segment).copied().unwrap_or(self.old.len());
        &self.old[from..to]
    }

    fn rejoin(&self, cuts: &[usize], pieces: &Pieces, round: &mut [u32]) {
        let mut rest = round;
        for &(segment, reversed) in pieces {
            let part = self.segment(cuts, segment);
            let (here, behind) = rest.split_at_mut(part.len());
            here.copy_from_slice(part);
            if reversed {
                here.reverse();
            }
            rest = behind;
        }
    }
}
