use crate::unknown::yes;
use crate::{raw, Refusal};

/// A move: where a round is cut, and the pattern by which its segments are put together again.
#[derive(Clone, Debug, PartialEq, Eq)]
pub struct Move {
    /// The index of the pattern for so many cuts.
    pub pattern: usize,
    /// k rising cuts; cut p lies before position p.
    pub cuts: Vec<usize>,
}

/// The first move that turns one round into another, in the order of polishing: cut sets in dictionary order, the patterns of each by
/// index. Rounds are compared by their stops; deadlines play no part, and two equal rounds are no special case. `None` where no cut set and
/// pattern do it. Refuses 1, 5, 25.
///
/// ```
/// use mittenschist::{find_move, reconnect};
///
/// // Yesterday's order and the one the crew sailed.
/// let (planned, sailed) = ([11, 12, 13, 14], [11, 13, 14, 12]);
/// let found = find_move(3, &planned, &sailed)?.expect("a move");
/// assert_eq!((found.pattern, &found.cuts[..]), (3, &[1, 2, 4][..]));
/// let mut out = [0; 4];
/// reconnect(3, found.pattern, &found.cuts, &planned, &mut out)?;
/// assert_eq!(out, sailed);
/// // Two cuts turn one stretch around: that is not enough.
/// assert_eq!(find_move(2, &planned, &sailed)?, None);
/// # Ok::<(), mittenschist::Refusal>(())
/// ```
pub fn find_move(k: usize, old: &[u32], wanted: &[u32]) -> Result<Option<Move>, Refusal> {
    let mut result = [0; 7];
    Refusal::check(raw::find_move(k, old, wanted, &mut result))?;
    if !yes("first move", result[0]) {
        return Ok(None);
    }
    let cuts = &result[2..k + 2];
    Ok(Some(Move {
        pattern: result[1] as usize,
        cuts: cuts.iter().map(|&cut| cut as usize).collect(),
    }))
}
