use crate::{raw, Move, Refusal};

/// The way back of a move of a round of `n` stops, as a move: it restores every round of that length. Its first and last cut are the move's,
/// and it turns a segment exactly if that arrived turned. The way back of the way back is the move. Refuses 1, 5, 6, 7.
///
/// ```
/// use mittenschist::{reconnect, way_back};
///
/// let (planned, mut sailed, mut again) = ([11, 12, 13, 14], [0; 4], [0; 4]);
/// reconnect(3, 4, &[0, 1, 4], &planned, &mut sailed)?;
/// let back = way_back(3, 4, 4, &[0, 1, 4])?;
/// assert_eq!((back.pattern, &back.cuts[..]), (5, &[0, 3, 4][..]));
/// reconnect(3, back.pattern, &back.cuts, &sailed, &mut again)?;
/// assert_eq!(again, planned);
/// # Ok::<(), mittenschist::Refusal>(())
/// ```
pub fn way_back(k: usize, pattern: usize, n: usize, cuts: &[usize]) -> Result<Move, Refusal> {
    let mut result = [0; 6];
    Refusal::check(raw::way_back(k, pattern, n, cuts, &mut result))?;
    let cuts = &result[1..=k];
    Ok(Move {
        pattern: result[0] as usize,
        cuts: cuts.iter().map(|&cut| cut as usize).collect(),
    })
}
