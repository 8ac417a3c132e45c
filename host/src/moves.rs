use crate::unknown::yes;
use crate::{raw, Refusal};

/// Applies the pattern with an index at k cuts of round number `round`, whose stops are `route`; the old stops go into the first
/// places of the journal. A cut is a round number and a position. Refuses 1, 5, 6, 7 (also where the two lists are not equally
/// long), 8, 21.
///
/// ```
/// use mittenschist::{k_opt_do_move, k_opt_undo_move};
///
/// let mut route = [11, 12, 13, 14];
/// let mut journal = [0; 4];
/// k_opt_do_move(2, 0, 7, &[7, 7], &[1, 3], &mut route, &mut journal)?;
/// assert_eq!(route, [11, 13, 12, 14]);
/// k_opt_undo_move(&mut route, &journal)?;
/// assert_eq!(route, [11, 12, 13, 14]);
/// # Ok::<(), mittenschist::Refusal>(())
/// ```
pub fn k_opt_do_move(
    k: usize,
    pattern: usize,
    round: usize,
    cut_rounds: &[usize],
    cut_positions: &[usize],
    route: &mut [u32],
    journal: &mut [u32],
) -> Result<(), Refusal> {
    Refusal::check(raw::k_opt_do_move(
        k,
        pattern,
        round,
        cut_rounds,
        cut_positions,
        route,
        journal,
    ))
}

/// Puts the stops of the journal back. The journal must be as long as the route: of a longer one hand in the first places.
/// Refuses 5, 22.
///
/// ```
/// use mittenschist::{k_opt_undo_move, Refusal};
///
/// let journal = [1, 2, 3, 0, 0];
/// let mut route = [3, 1, 2];
/// assert_eq!(k_opt_undo_move(&mut route, &journal), Err(Refusal::JournalLength));
/// k_opt_undo_move(&mut route, &journal[..3])?;
/// assert_eq!(route, [1, 2, 3]);
/// # Ok::<(), Refusal>(())
/// ```
pub fn k_opt_undo_move(route: &mut [u32], journal: &[u32]) -> Result<(), Refusal> {
    Refusal::check(raw::k_opt_undo_move(route, journal))
}

/// Whether the cuts suit a round of `n` stops. It passes unordered cuts if one names another round; [`k_opt_do_move`] refuses
/// them. Refuses 1, 5, 6.
///
/// ```
/// use mittenschist::k_opt_is_doable;
///
/// assert!(k_opt_is_doable(2, 0, 7, 4, &[7, 7], &[1, 3])?);
/// assert!(!k_opt_is_doable(2, 0, 7, 4, &[7, 7], &[3, 1])?);
/// # Ok::<(), mittenschist::Refusal>(())
/// ```
pub fn k_opt_is_doable(
    k: usize,
    pattern: usize,
    round: usize,
    n: usize,
    cut_rounds: &[usize],
    cut_positions: &[usize],
) -> Result<bool, Refusal> {
    let mut result = [0];
    Refusal::check(raw::k_opt_is_doable(
        k,
        pattern,
        round,
        n,
        cut_rounds,
        cut_positions,
        &mut result,
    ))?;
    Ok(yes("answer of doable", result[0]))
}
