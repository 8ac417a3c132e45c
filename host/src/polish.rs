use crate::unknown::{late_position, unknown};
use crate::{raw, Harbours, Pair, Refusal, Tables};

/// How a search ended.
#[derive(Clone, Copy, Debug, PartialEq, Eq)]
pub enum Ending {
    /// Of polishing: no choice of k cuts and no pattern gives a shorter route that keeps every deadline, and every pair where there are pairs.
    /// Of the pair loop: a whole pass accepted nothing.
    Finished,
    /// The allowance was reached; the route keeps what was accepted.
    Spent,
}

impl Ending {
    pub(crate) fn of(number: u64) -> Self {
        match number {
            0 => Self::Finished,
            1 => Self::Spent,
            other => unknown("ending", other),
        }
    }
}

/// What polishing did.
#[derive(Clone, Copy, Debug, PartialEq, Eq)]
pub struct Polished {
    /// Finished or spent.
    pub ending: Ending,
    /// Candidates examined, at most the allowance.
    pub examined: u64,
    /// Candidates accepted; 0 where the route is as handed in.
    pub accepted: u64,
    /// Seconds of the route handed in.
    pub before: u64,
    /// Seconds of the route handed back.
    pub after: u64,
    /// The position, from 0, of the first stop that is late in the route handed back. Only a route as it was handed in can have one: where
    /// something was accepted, no stop is late.
    pub late: Option<usize>,
}

impl Polished {
    /// No number of stops: an archive that writes five numbers is told by it.
    const UNWRITTEN: [u64; 6] = [u64::MAX; 6];

    /// The six numbers of a route of so many stops.
    fn of(result: [u64; 6], stops: usize) -> Self {
        let [ending, examined, accepted, before, after, late] = result;
        Self {
            ending: Ending::of(ending),
            examined,
            accepted,
            before,
            after,
            late: late_position(late, stops),
        }
    }

    /// What a call answers of a route: it is lent the route and room for the six numbers.
    pub(crate) fn by(
        route: &mut [u32],
        call: impl FnOnce(&mut [u32], &mut [u64]) -> u32,
    ) -> Result<Self, Refusal> {
        let mut result = Self::UNWRITTEN;
        Refusal::check(call(route, &mut result))?;
        Ok(Self::of(result, route.len()))
    }

    /// Seconds saved.
    pub fn saved(&self) -> u64 {
        self.before.saturating_sub(self.after)
    }

    /// Two slices together, where `next` went on from this one: what one call with both allowances answers.
    ///
    /// ```
    /// use mittenschist::{polish_route, Polisher, Tables};
    ///
    /// let legs = [0, 5, 1, 1, 0, 5, 5, 1, 0];
    /// let tables = Tables::without_service(3, &legs, &[u32::MAX; 3]);
    /// let mut route = [1, 2];
    /// let mut polisher = Polisher::new(3, &tables, 0, &[], &mut route);
    /// let both = polisher.step(4)?.then(polisher.step(5)?);
    /// assert_eq!(both, polish_route(3, 9, &tables, 0, &mut [1, 2])?);
    /// # Ok::<(), mittenschist::Refusal>(())
    /// ```
    pub fn then(self, next: Self) -> Self {
        Self {
            examined: self.examined.saturating_add(next.examined),
            accepted: self.accepted.saturating_add(next.accepted),
            before: self.before,
            ..next
        }
    }

    /// What is said of the same route when nothing more is examined.
    pub(crate) fn again(self) -> Self {
        Self {
            examined: 0,
            accepted: 0,
            before: self.after,
            ..self
        }
    }
}

/// Polishes a route, examining at most `allowance` candidates: a closed tour where a depot is handed in, else one to an end harbour
/// ([`Harbours`]). Refuses 1, 2, 3, 23, 4, 24, 5.
///
/// A finished route of n stops has cost at least one whole pass, patterns(k) × C(n + 1, k) candidates (1, 7, 47, 383 patterns for
/// k = 2, 3, 4, 5), and at most (1 + seconds saved) times as many. A spent route keeps what was accepted, so a small allowance only
/// ends the search sooner.
///
/// ```
/// use mittenschist::{polish_route, Ending, Refusal, Tables};
///
/// let legs = [0, 5, 1, 1, 0, 5, 5, 1, 0];
/// let tables = Tables { locations: 3, legs: &legs, latest: &[u32::MAX; 3], service: &[0; 3] };
/// let mut route = [1, 2];
/// let polished = polish_route(3, 10, &tables, 0, &mut route)?;
/// assert_eq!(polished.ending, Ending::Spent);
/// assert_eq!((polished.saved(), route), (12, [2, 1]));
/// assert_eq!(polished.late, None);
///
/// // Location 1, now the second stop, is reached at second 2, and no order is shorter.
/// let hurried = Tables { latest: &[u32::MAX, 1, u32::MAX], ..tables };
/// assert_eq!(polish_route(3, 10, &hurried, 0, &mut route)?.late, Some(1));
///
/// assert_eq!(polish_route(3, 10, &tables, 3, &mut route), Err(Refusal::UnknownStop));
/// let short = Tables { service: &[0; 2], ..tables };
/// assert_eq!(polish_route(3, 10, &short, 3, &mut route), Err(Refusal::ServiceList));
/// # Ok::<(), Refusal>(())
/// ```
pub fn polish_route(
    k: usize,
    allowance: u64,
    tables: &Tables,
    harbours: impl Into<Harbours>,
    route: &mut [u32],
) -> Result<Polished, Refusal> {
    let Harbours { depot, end } = harbours.into();
    let (locations, legs, latest, service) = tables.parts();
    Polished::by(route, |route, result| {
        raw::polish_route_to_end(
            k, allowance, locations, legs, latest, service, depot, end, route, result,
        )
    })
}

/// As [`polish_route`], where a candidate must keep every [`Pair`] too. Finished, no choice of k cuts and no pattern gives a shorter route that
/// keeps every deadline and every pair; with no pairs it is [`polish_route`]. Refuses 1, 2, 3, 23, 4, 24, 29, 5.
///
/// A route that does not keep its pairs when it is handed in is polished all the same: what is accepted keeps them. [`Polished::late`] speaks of
/// deadlines alone.
///
/// ```
/// use mittenschist::{polish_route_with_pairs, Harbours, Tables};
///
/// let legs = [0, 5, 1, 1, 0, 5, 5, 1, 0];
/// let tables = Tables::without_service(3, &legs, &[u32::MAX; 3]);
/// let mut route = [1, 2];
/// let kept = polish_route_with_pairs(3, 100, &tables, 0, &[[1, 2]], &mut route)?;
/// assert_eq!((kept.accepted, route), (0, [1, 2]));
///
/// // From location 0 to location 1, with a pair that is not kept as the route is handed in.
/// let harbours = Harbours { depot: 0, end: 1 };
/// let mended = polish_route_with_pairs(3, 100, &tables, harbours, &[[2, 1]], &mut route)?;
/// assert_eq!((mended.before, mended.after, route), (11, 2, [2, 1]));
/// # Ok::<(), mittenschist::Refusal>(())
/// ```
pub fn polish_route_with_pairs(
    k: usize,
    allowance: u64,
    tables: &Tables,
    harbours: impl Into<Harbours>,
    pairs: &[Pair],
    route: &mut [u32],
) -> Result<Polished, Refusal> {
    let Harbours { depot, end } = harbours.into();
    let (locations, legs, latest, service) = tables.parts();
    let members = pairs.as_flattened();
    Polished::by(route, |route, result| {
        raw::polish_route_with_pairs(
            k, allowance, locations, legs, latest, service, depot, end, members, route, result,
        )
    })
}

/// Where the scan of a route goes on: the next candidate to be examined. Only the first place is made here, so a place is that of the slices before.
///
/// It belongs to the k it was made for and to the route that its slice left: with another route or other tables the scan goes on from there all the same.
#[derive(Clone, Copy, Debug, PartialEq, Eq)]
pub struct Place {
    k: usize,
    numbers: [u64; 6],
}

impl Place {
    /// Where the scan with k cuts begins.
    pub fn first(k: usize) -> Self {
        let mut numbers = [0, 1, 2, 3, 4, 0];
        if let Some(index) = numbers.get_mut(k) {
            *index = 0;
        }
        Self { k, numbers }
    }

    /// The cuts, in rising order.
    ///
    /// ```
    /// assert_eq!(mittenschist::Place::first(3).cuts(), [0, 1, 2]);
    /// ```
    pub fn cuts(&self) -> &[u64] {
        &self.numbers[..self.k.min(5)]
    }

    /// The index of the pattern.
    ///
    /// ```
    /// assert_eq!(mittenschist::Place::first(3).pattern(), 0);
    /// ```
    pub fn pattern(&self) -> u64 {
        self.numbers[self.k.min(5)]
    }

    #[cfg(test)]
    pub(crate) fn with_cuts(cuts: &[u64]) -> Self {
        let mut place = Self::first(cuts.len());
        place.numbers[..cuts.len()].copy_from_slice(cuts);
        place
    }
}

/// A slice of [`polish_route_with_pairs`]: at most `allowance` candidates from the place on, which is then that of the next one. The replies of
/// slices that go on from one another add up to the reply of one call with the sum of their allowances, so the route is at last k-optimal as that
/// call's is; finished, the place is the first one again. Refuses 1, 2, 3, 23, 4, 24, 29, 5, and 6 and 7 for a place of a longer route.
///
/// ```
/// use mittenschist::{polish_slice, Ending, Place, Tables};
///
/// let legs = [0, 5, 1, 1, 0, 5, 5, 1, 0];
/// let tables = Tables::without_service(3, &legs, &[u32::MAX; 3]);
/// let (mut route, mut place, mut examined) = ([1, 2], Place::first(3), 0);
/// loop {
///     let slice = polish_slice(3, &tables, 0, &[], &mut route, &mut place)?;
///     examined += slice.examined;
///     if slice.ending == Ending::Finished {
///         break;
///     }
/// }
/// assert_eq!((examined, route), (11, [2, 1]));
/// # Ok::<(), mittenschist::Refusal>(())
/// ```
pub fn polish_slice(
    allowance: u64,
    tables: &Tables,
    harbours: impl Into<Harbours>,
    pairs: &[Pair],
    route: &mut [u32],
    place: &mut Place,
) -> Result<Polished, Refusal> {
    let Harbours { depot, end } = harbours.into();
    let (locations, legs, latest, service) = tables.parts();
    let members = pairs.as_flattened();
    Polished::by(route, |route, result| {
        raw::polish_slice(
            place.k,
            allowance,
            locations,
            legs,
            latest,
            service,
            depot,
            end,
            members,
            route,
            &mut place.numbers,
            result,
        )
    })
}

#[cfg(test)]
mod tests {
    use super::Ending;

    #[test]
    fn each_ending_by_its_number() {
        assert_eq!(
            (Ending::of(0), Ending::of(1)),
            (Ending::Finished, Ending::Spent)
        );
    }

    #[test]
    #[should_panic(expected = "the archive is of another version")]
    fn an_ending_without_a_name() {
        Ending::of(2);
    }
}
