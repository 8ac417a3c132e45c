/// A location, and another that comes after it: a route keeps the pair if every visit of the first comes before every visit of the second. A pair of
/// which a member is not visited is kept. Visits are stops: the depot at the start and the end harbour are none.
///
/// A list of pairs has at most 64. It may name a pair twice, and its pairs may contradict each other: then no route that visits their members keeps
/// them all, and none is accepted.
///
/// ```
/// use mittenschist::{polish_route_with_pairs, Pair, Refusal, Tables};
///
/// let legs = [0, 5, 1, 1, 0, 5, 5, 1, 0];
/// let tables = Tables::without_service(3, &legs, &[u32::MAX; 3]);
/// let mut route = [1, 2];
/// // 2, 1 would be shorter.
/// let spares_at_1: [Pair; 1] = [[1, 2]];
/// let polished = polish_route_with_pairs(3, 100, &tables, 0, &spares_at_1, &mut route)?;
/// assert_eq!((polished.examined, polished.accepted, route), (7, 0, [1, 2]));
///
/// let refused = polish_route_with_pairs(3, 100, &tables, 0, &[[1, 1]], &mut route);
/// assert_eq!(refused, Err(Refusal::Pairs));
/// # Ok::<(), Refusal>(())
/// ```
pub type Pair = [u32; 2];
