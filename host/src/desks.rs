use crate::unknown::unknown;
use crate::{raw, Harbours, Pair, Tables};

/// Of two lists for one boat the desk's own, not a copy: the shorter, from the depot back to it or to an end harbour, of those that keep every deadline
/// and every pair. Where both keep them and are equally long it is the first; where only one keeps them, that one. The lists may have different stops.
///
/// Where neither keeps them, the part of `first` with no stop comes back. So it does where polishing would refuse the tables, the harbours, the pairs
/// or either list: this call has no refusal.
///
/// ```
/// use mittenschist::{which_of_two, Harbours, Pair, Tables};
///
/// let legs = [0, 5, 1, 1, 0, 5, 5, 1, 0];
/// let tables = Tables::without_service(3, &legs, &[u32::MAX; 3]);
/// // 15 and 3 seconds.
/// let (morning, evening) = (vec![1, 2], vec![2, 1]);
/// let taken = which_of_two(&tables, 0, &[], &morning, &evening);
/// assert_eq!(taken, [2, 1]);
/// // It is the desk's own list.
/// assert_eq!(taken.as_ptr(), evening.as_ptr());
///
/// // Spares are taken in at 1: the evening's list breaks the pair.
/// let spares_at_1: [Pair; 1] = [[1, 2]];
/// let taken = which_of_two(&tables, 0, &spares_at_1, &morning, &evening);
/// assert_eq!(taken.as_ptr(), morning.as_ptr());
///
/// // Equal lists, in two places: the first. No such harbour: nothing.
/// let again = morning.clone();
/// let taken = which_of_two(&tables, 0, &[], &again, &morning);
/// assert_eq!(taken.as_ptr(), again.as_ptr());
/// let nowhere = Harbours { depot: 0, end: 3 };
/// assert!(which_of_two(&tables, nowhere, &[], &morning, &evening).is_empty());
/// ```
pub fn which_of_two<'l>(
    tables: &Tables,
    harbours: impl Into<Harbours>,
    pairs: &[Pair],
    first: &'l [u32],
    second: &'l [u32],
) -> &'l [u32] {
    let Harbours { depot, end } = harbours.into();
    let (locations, legs, latest, service) = tables.parts();
    let members = pairs.as_flattened();
    match raw::which_of_two(
        locations, legs, latest, service, depot, end, members, first, second,
    ) {
        0 => &first[..0],
        1 => first,
        2 => second,
        other => unknown("desk", u64::from(other)),
    }
}
