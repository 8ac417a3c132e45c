use crate::{raw, Ending, Polished, Refusal, Tables};

/// What the pair loop did.
#[derive(Clone, Copy, Debug, PartialEq, Eq)]
pub struct PairLooped {
    /// Finished or spent.
    pub ending: Ending,
    /// Pairs examined, at most the allowance.
    pub examined: u64,
    /// Pairs accepted; 0 where the route is as handed in.
    pub accepted: u64,
    /// Seconds of the route handed in.
    pub before: u64,
    /// Seconds of the route handed back, which can be more.
    pub after: u64,
    /// The position, from 0, of the first stop that is late in the route handed back. Only a route as it was handed in can have one: where
    /// something was accepted, no stop is late.
    pub late: Option<usize>,
}

impl PairLooped {
    /// Seconds saved; below 0 where the route became longer.
    pub fn saved(&self) -> i64 {
        self.before as i64 - self.after as i64
    }
}

/// The pair loop over a route, which a run took for k = 2 in former versions: it examines at most `allowance` pairs. Refuses 2, 3, 23, 4, 5.
///
/// A pair is two positions; the stops from one to the other are reversed where that shortens the two legs at their ends and keeps every
/// deadline. A pass is n(n − 1)/2 pairs, and passes repeat until one accepts nothing. The route can end longer than it began, and nothing
/// but the allowance is promised to end the passes: hand in a few dozen passes, never the largest number. A spent route keeps what was
/// accepted. [`polish_route`](crate::polish_route) with k = 2 always ends and never makes a route longer.
///
/// ```
/// use mittenschist::{pair_loop, Ending, Tables};
///
/// let legs = [0, 5, 1, 1, 0, 5, 5, 1, 0];
/// let tables = Tables::without_service(3, &legs, &[u32::MAX; 3]);
/// let mut route = [1, 2];
/// let paired = pair_loop(100, &tables, 0, &mut route)?;
/// assert_eq!((paired.ending, paired.examined), (Ending::Finished, 2));
/// assert_eq!((paired.saved(), route), (12, [2, 1]));
///
/// // Legs that differ by direction: the one between the two stops is not looked at.
/// let legs = [0, 9, 1, 7, 0, 2, 4, 9, 0];
/// let tables = Tables::without_service(3, &legs, &[u32::MAX; 3]);
/// let mut route = [1, 2];
/// let paired = pair_loop(100, &tables, 0, &mut route)?;
/// assert_eq!((paired.before, paired.after, paired.saved()), (15, 17, -2));
/// # Ok::<(), mittenschist::Refusal>(())
/// ```
pub fn pair_loop(
    allowance: u64,
    tables: &Tables,
    depot: u32,
    route: &mut [u32],
) -> Result<PairLooped, Refusal> {
    let (locations, legs, latest, service) = tables.parts();
    let polished = Polished::by(route, |route, result| {
        raw::pair_loop(
            allowance, locations, legs, latest, service, depot, route, result,
        )
    });
    // The same six numbers, with pairs for candidates.
    let Polished {
        ending,
        examined,
        accepted,
        before,
        after,
        late,
    } = polished?;
    Ok(PairLooped {
        ending,
        examined,
        accepted,
        before,
        after,
        late,
    })
}
