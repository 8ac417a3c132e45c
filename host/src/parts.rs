//! The parts of polishing, each by itself.

use crate::unknown::{late_position, yes};
use crate::{raw, Harbours, Refusal, Tables};

/// A pattern: how the k + 1 segments between k cuts are put together again.
#[derive(Clone, Debug, PartialEq, Eq)]
pub struct Reconnection {
    /// The segments in their new order.
    pub order: Vec<usize>,
    /// Bit i is set where segment i is reversed.
    pub mask: u64,
}

/// The pattern with an index; there are 1, 7, 47, 383 for k = 2, 3, 4, 5. Refuses 1, 6.
///
/// ```
/// let pattern = mittenschist::reconnection_at(5, 382)?;
/// assert_eq!((pattern.order, pattern.mask), (vec![0, 4, 3, 2, 1, 5], 30));
/// # Ok::<(), mittenschist::Refusal>(())
/// ```
pub fn reconnection_at(k: usize, pattern: usize) -> Result<Reconnection, Refusal> {
    let mut result = [0; 7];
    Refusal::check(raw::reconnection_at(k, pattern, &mut result))?;
    let order = result.iter().take(k + 1);
    Ok(Reconnection {
        order: order.map(|&segment| segment as usize).collect(),
        mask: result[k + 1],
    })
}

/// Moves k cuts of a route of n stops on to the next set; `false` where there is none, and the cuts are kept. Refuses 1, 5, 7.
///
/// ```
/// let mut cuts = [0, 1];
/// assert!(mittenschist::next_cut_set(2, 2, &mut cuts)?);
/// assert_eq!(cuts, [0, 2]);
/// # Ok::<(), mittenschist::Refusal>(())
/// ```
pub fn next_cut_set(k: usize, n: usize, cuts: &mut [usize]) -> Result<bool, Refusal> {
    let mut result = [0];
    Refusal::check(raw::next_cut_set(k, n, cuts, &mut result))?;
    Ok(yes("step of the cuts", result[0]))
}

/// Writes the route after a move to the first places of `out`. Refuses 1, 5, 6, 7, 21.
///
/// ```
/// let mut out = [0; 5];
/// mittenschist::reconnect(3, 3, &[0, 1, 2], &[7, 8, 9], &mut out)?;
/// assert_eq!(out, [8, 7, 9, 0, 0]);
/// # Ok::<(), mittenschist::Refusal>(())
/// ```
pub fn reconnect(
    k: usize,
    pattern: usize,
    cuts: &[usize],
    route: &[u32],
    out: &mut [u32],
) -> Result<(), Refusal> {
    Refusal::check(raw::reconnect(k, pattern, cuts, route, out))
}

/// The seconds of a route, from the depot back to it or to an end harbour ([`Harbours`]). Deadlines and service are neither read nor
/// judged. Refuses 2, 3, 4, 24, 5.
///
/// ```
/// use mittenschist::{route_length, Tables};
///
/// let tables = Tables { locations: 2, legs: &[0, 5, 7, 0], latest: &[], service: &[] };
/// assert_eq!(route_length(&tables, 0, &[1])?, 12);
/// # Ok::<(), mittenschist::Refusal>(())
/// ```
pub fn route_length(
    tables: &Tables,
    harbours: impl Into<Harbours>,
    route: &[u32],
) -> Result<u64, Refusal> {
    let Harbours { depot, end } = harbours.into();
    let mut result = [0];
    Refusal::check(raw::route_length_to_end(
        tables.locations,
        tables.legs,
        depot,
        end,
        route,
        &mut result,
    ))?;
    Ok(result[0])
}

/// The seconds of a route after a move minus those before. Deadlines and service are neither read nor judged. Refuses 1, 2, 3, 4, 24, 5,
/// 6, 7.
///
/// ```
/// use mittenschist::{delta, Tables};
///
/// let legs = [0, 5, 1, 1, 0, 5, 5, 1, 0];
/// let tables = Tables { locations: 3, legs: &legs, latest: &[], service: &[] };
/// assert_eq!(delta(3, 3, &[0, 1, 2], &tables, 0, &[1, 2])?, -12);
/// # Ok::<(), mittenschist::Refusal>(())
/// ```
pub fn delta(
    k: usize,
    pattern: usize,
    cuts: &[usize],
    tables: &Tables,
    harbours: impl Into<Harbours>,
    route: &[u32],
) -> Result<i64, Refusal> {
    let Harbours { depot, end } = harbours.into();
    let mut result = [0];
    Refusal::check(raw::delta_to_end(
        k,
        pattern,
        cuts,
        tables.locations,
        tables.legs,
        depot,
        end,
        route,
        &mut result,
    ))?;
    Ok(result[0])
}

/// What the deadline check says of a route.
#[derive(Clone, Copy, Debug, PartialEq, Eq)]
pub enum Deadline {
    /// No stop is late.
    Kept,
    /// The stop at this position is late, and none before it.
    Late(usize),
}

/// Whether a route keeps every deadline, and if not, which of its stops is the first that is late: the legs up to it plus the service of the stops
/// before it exceed its latest. Its own service does not count, nor the depot's at the start; each visit counts. Refuses 2, 3, 23, 4, 5.
///
/// ```
/// use mittenschist::{route_feasible, Deadline, Tables};
///
/// let tables = Tables { locations: 2, legs: &[1; 4], latest: &[u32::MAX, 11], service: &[5, 10] };
/// assert_eq!(route_feasible(&tables, 0, &[1])?, Deadline::Kept);
/// // 1 second to the first visit, 10 there and 1 to the second.
/// assert_eq!(route_feasible(&tables, 0, &[1, 1])?, Deadline::Late(1));
/// // The third visit is late too.
/// assert_eq!(route_feasible(&tables, 0, &[1, 1, 1])?, Deadline::Late(1));
/// # Ok::<(), mittenschist::Refusal>(())
/// ```
pub fn route_feasible(tables: &Tables, depot: u32, route: &[u32]) -> Result<Deadline, Refusal> {
    let mut result = [0];
    Refusal::check(raw::route_feasible(
        tables.locations,
        tables.legs,
        tables.latest,
        tables.service,
        depot,
        route,
        &mut result,
    ))?;
    let late = late_position(result[0], route.len());
    Ok(late.map_or(Deadline::Kept, Deadline::Late))
}
