use crate::unknown::yes;
use crate::{raw, Refusal};

/// What a listing wrote.
#[derive(Clone, Copy, Debug, PartialEq, Eq)]
pub struct Listing {
    /// Sets written, k places each.
    pub sets: usize,
    /// Whether there are others, for which there was no room.
    pub more: bool,
}

/// Lists cut sets by nearness into the first places of `sets`, k places each, until no whole set fits any more. `distances` has a
/// row for each of `n` positions; each segment has at least `shortest` stops, and from a cut the `neighbours` nearest positions are
/// tried. Refuses 1, 5, 9, 21.
///
/// ```
/// use mittenschist::nearby_cuts;
///
/// let mut sets = [0; 9];
/// let listing = nearby_cuts(5, &[2.0; 25], 3, 1, 4, &mut sets)?;
/// assert_eq!((listing.sets, listing.more), (3, true));
/// assert_eq!(sets, [1, 2, 3, 1, 2, 4, 1, 3, 4]);
/// # Ok::<(), mittenschist::Refusal>(())
/// ```
pub fn nearby_cuts(
    n: usize,
    distances: &[f64],
    k: usize,
    shortest: usize,
    neighbours: usize,
    sets: &mut [usize],
) -> Result<Listing, Refusal> {
    let mut result = [0; 2];
    let refused = raw::nearby_cuts(n, distances, k, shortest, neighbours, sets, &mut result);
    listing(refused, result)
}

/// Lists every nearby cut set, also those that [`nearby_cuts`] misses where it drops a cut, each once: sets with a lower first cut
/// first, then by rank in the neighbour lists, cut by cut. With two cuts it is that listing. Takes, writes and refuses the same.
///
/// ```
/// use mittenschist::{every_nearby_cuts, nearby_cuts};
///
/// // The neighbours of 1 are 2 and 3, those of 2 lie too low, and 4 is one of 3's.
/// let mut distances = [2.0; 25];
/// for (from, to) in [(1, 2), (1, 3), (2, 0), (2, 1), (3, 4)] {
///     distances[5 * from + to] = 1.0;
/// }
/// let mut sets = [0; 3];
/// let listing = every_nearby_cuts(5, &distances, 3, 1, 2, &mut sets)?;
/// assert_eq!((listing.sets, listing.more), (1, false));
/// assert_eq!(sets, [1, 3, 4]);
/// assert_eq!(nearby_cuts(5, &distances, 3, 1, 2, &mut sets)?.sets, 0);
/// # Ok::<(), mittenschist::Refusal>(())
/// ```
pub fn every_nearby_cuts(
    n: usize,
    distances: &[f64],
    k: usize,
    shortest: usize,
    neighbours: usize,
    sets: &mut [usize],
) -> Result<Listing, Refusal> {
    let mut result = [0; 2];
    let refused = raw::every_nearby_cuts(n, distances, k, shortest, neighbours, sets, &mut result);
    listing(refused, result)
}

/// What a call told of its listing.
fn listing(refused: u32, result: [u64; 2]) -> Result<Listing, Refusal> {
    Refusal::check(refused)?;
    Ok(Listing {
        sets: result[0] as usize,
        more: yes("ended or more", result[1]),
    })
}
