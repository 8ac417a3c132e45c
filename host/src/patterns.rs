//! Own lists of patterns.

use crate::{raw, Harbours, Pair, Polished, Refusal, Tables};

/// Patterns for k cuts, lent, in the order in which they are tried.
#[derive(Clone, Copy, Debug, PartialEq, Eq)]
pub struct Patterns<'p> {
    /// The number of cuts.
    pub k: usize,
    /// For each pattern its k + 1 segments in their new order, end to end.
    pub orders: &'p [u8],
    /// For each pattern a mask, of which bit i reverses segment i.
    pub masks: &'p [u8],
}

/// A list of patterns that was read and judged.
///
/// ```
/// use mittenschist::{PatternList, Refusal};
///
/// // Three cuts; the two middle segments change places, or the second is turned.
/// let list = PatternList::load(b"k=3\npatterns=2\npattern=0213,0\npattern=0123,4\n")?;
/// let patterns = list.lent();
/// assert_eq!((patterns.k, patterns.masks), (3, &[0, 4][..]));
/// assert_eq!(patterns.orders, [0, 2, 1, 3, 0, 1, 2, 3]);
///
/// let repeated = PatternList::load(b"k=3\npatterns=2\npattern=0213,0\npattern=0213,0\n");
/// assert_eq!(repeated, Err(Refusal::RowRepeated));
/// # Ok::<(), Refusal>(())
/// ```
#[derive(Clone, Debug, PartialEq, Eq)]
pub struct PatternList {
    k: usize,
    orders: Vec<u8>,
    masks: Vec<u8>,
}

/// The most patterns of a list, and the bytes of the longest order.
const MOST_ROWS: usize = 383;
const LONGEST_ORDER: usize = 6;

impl PatternList {
    /// Reads the lines `k=`, `patterns=` and, for each pattern, `pattern=` with the digits of its order, a comma and its mask. Refuses
    /// 10, 1, 26, 27, 28.
    pub fn load(text: &[u8]) -> Result<Self, Refusal> {
        let mut orders = vec![0; MOST_ROWS * LONGEST_ORDER];
        let mut masks = vec![0; MOST_ROWS];
        let mut result = [0; 2];
        Refusal::check(raw::load_patterns(
            text,
            &mut orders,
            &mut masks,
            &mut result,
        ))?;
        let [k, rows] = result.map(|number| number as usize);
        orders.truncate(rows * (k + 1));
        masks.truncate(rows);
        Ok(Self { k, orders, masks })
    }

    /// The patterns, to polish with.
    pub fn lent(&self) -> Patterns<'_> {
        Patterns {
            k: self.k,
            orders: &self.orders,
            masks: &self.masks,
        }
    }
}

/// Polishes a route with a list of patterns, in their order, examining at most `allowance` candidates. Finished, no choice of k cuts and no
/// pattern of the list gives a shorter route that keeps every deadline. A whole pass is patterns × C(n + 1, k) candidates. Refuses 1, 26, 27,
/// 28, 2, 3, 23, 4, 24, 5.
///
/// ```
/// use mittenschist::{polish_with_patterns, Ending, Patterns, Tables};
///
/// let legs = [0, 5, 1, 1, 0, 5, 5, 1, 0];
/// let tables = Tables::without_service(3, &legs, &[u32::MAX; 3]);
/// let exchange = Patterns { k: 3, orders: &[0, 2, 1, 3], masks: &[0] };
/// let mut route = [1, 2];
/// let polished = polish_with_patterns(exchange, 100, &tables, 0, &mut route)?;
/// assert_eq!((polished.ending, polished.examined, polished.saved()), (Ending::Finished, 2, 12));
/// assert_eq!(route, [2, 1]);
/// # Ok::<(), mittenschist::Refusal>(())
/// ```
pub fn polish_with_patterns(
    patterns: Patterns,
    allowance: u64,
    tables: &Tables,
    harbours: impl Into<Harbours>,
    route: &mut [u32],
) -> Result<Polished, Refusal> {
    let Patterns { k, orders, masks } = patterns;
    let Harbours { depot, end } = harbours.into();
    let (locations, legs, latest, service) = tables.parts();
    Polished::by(route, |route, result| {
        raw::polish_with_patterns(
            k, orders, masks, allowance, locations, legs, latest, service, depot, end, route,
            result,
        )
    })
}

/// As [`polish_with_patterns`], where a candidate must keep every [`Pair`] too, as of
/// [`polish_route_with_pairs`](crate::polish_route_with_pairs). Refuses 1, 26, 27, 28, 2, 3, 23, 4, 24, 29, 5.
///
/// ```
/// use mittenschist::{polish_with_patterns_and_pairs, Patterns, Tables};
///
/// let legs = [0, 5, 1, 1, 0, 5, 5, 1, 0];
/// let tables = Tables::without_service(3, &legs, &[u32::MAX; 3]);
/// let exchange = Patterns { k: 3, orders: &[0, 2, 1, 3], masks: &[0] };
/// let mut route = [1, 2];
/// let kept = polish_with_patterns_and_pairs(exchange, 100, &tables, 0, &[[1, 2]], &mut route)?;
/// assert_eq!((kept.examined, kept.saved()), (1, 0));
/// let free = polish_with_patterns_and_pairs(exchange, 100, &tables, 0, &[], &mut route)?;
/// assert_eq!((free.examined, free.saved()), (2, 12));
/// # Ok::<(), mittenschist::Refusal>(())
/// ```
pub fn polish_with_patterns_and_pairs(
    patterns: Patterns,
    allowance: u64,
    tables: &Tables,
    harbours: impl Into<Harbours>,
    pairs: &[Pair],
    route: &mut [u32],
) -> Result<Polished, Refusal> {
    let Patterns { k, orders, masks } = patterns;
    let Harbours { depot, end } = harbours.into();
    let (locations, legs, latest, service) = tables.parts();
    let members = pairs.as_flattened();
    Polished::by(route, |route, result| {
        raw::polish_with_patterns_and_pairs(
            k, orders, masks, allowance, locations, legs, latest, service, depot, end, members,
            route, result,
        )
    })
}
