/// Where a route sets out and where it ends. A depot alone is a closed tour: the functions take it as it is.
///
/// ```
/// use mittenschist::{polish_route, route_length, Harbours, Tables};
///
/// let legs = [0, 5, 1, 1, 0, 5, 5, 1, 0];
/// let tables = Tables::without_service(3, &legs, &[u32::MAX; 3]);
/// let mut route = [1, 2];
/// assert_eq!(route_length(&tables, 0, &route)?, 15);
///
/// // From location 0 to location 1.
/// let harbours = Harbours { depot: 0, end: 1 };
/// let polished = polish_route(3, 100, &tables, harbours, &mut route)?;
/// assert_eq!((polished.before, polished.after), (11, 2));
/// // An empty route has the one leg.
/// assert_eq!(route_length(&tables, harbours, &[])?, 5);
/// # Ok::<(), mittenschist::Refusal>(())
/// ```
#[derive(Clone, Copy, Debug, PartialEq, Eq, Hash)]
pub struct Harbours {
    /// The location where the boat sets out.
    pub depot: u32,
    /// The location where it ends. It may be the depot or a stop; its deadline and its service play no part.
    pub end: u32,
}

impl From<u32> for Harbours {
    /// Back to the depot.
    fn from(depot: u32) -> Self {
        Self { depot, end: depot }
    }
}
