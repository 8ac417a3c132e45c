use crate::Place;

/// How far a search in slices has come.
#[derive(Clone, Copy, Debug, PartialEq, Eq)]
pub struct Progress {
    /// Seconds saved so far.
    pub saved: u64,
    /// Candidates examined so far.
    pub examined: u64,
    /// Candidates accepted so far.
    pub accepted: u64,
    /// Cut sets that the present pass has left behind. An acceptance begins a new pass, so this falls to 0 then; finished, it is all of them.
    pub passed: u64,
    /// Cut sets of a pass: C(n + 1, k) for n stops.
    pub cut_sets: u64,
}

impl Progress {
    /// The share of the present pass that lies behind, 0 to 1; 1 where a pass has no cut set, k being above n + 1.
    ///
    /// It tells how much is left only if nothing more is accepted.
    ///
    /// ```
    /// use mittenschist::{Polisher, Tables};
    ///
    /// // Nothing can be gained, so there is one pass: 10 cut sets with one pattern each.
    /// let tables = Tables::without_service(1, &[0], &[u32::MAX]);
    /// let mut route = [0; 4];
    /// let mut polisher = Polisher::new(2, &tables, 0, &[], &mut route);
    /// polisher.step(4)?;
    /// assert_eq!(polisher.progress().share(), 0.4);
    /// # Ok::<(), mittenschist::Refusal>(())
    /// ```
    pub fn share(&self) -> f64 {
        match self.cut_sets {
            0 => 1.0,
            all => self.passed as f64 / all as f64,
        }
    }
}

/// C(n, k), or less than it where it is beyond 64 bits: of no route that is polished.
fn choose(n: u64, k: usize) -> u64 {
    let chosen = |many: u64, taken| many.saturating_mul(n.saturating_sub(taken)) / (taken + 1);
    (0..k as u64).fold(1, chosen)
}

/// Cut sets of a pass over so many stops.
pub(crate) fn cut_sets(place: &Place, stops: usize) -> u64 {
    choose((stops as u64).saturating_add(1), place.cuts().len())
}

/// Cut sets before the place, in dictionary order: all but itself and those behind it, which agree with it up to some cut and are higher there.
pub(crate) fn passed(place: &Place, stops: usize) -> u64 {
    let cuts = place.cuts();
    let higher = |(at, &cut): (usize, &u64)| {
        let above = (stops as u64).saturating_sub(cut);
        choose(above, cuts.len() - at)
    };
    let behind = cuts.iter().enumerate().map(higher);
    let not_behind = cut_sets(place, stops).saturating_sub(1);
    behind.fold(not_behind, u64::saturating_sub)
}

#[cfg(test)]
mod tests {
    use super::{choose, cut_sets, passed};
    use crate::{next_cut_set, Place};

    #[test]
    fn as_many_as_are_counted() {
        for k in 2..=5 {
            for stops in 0..9 {
                let mut cuts: Vec<usize> = (0..k).collect();
                let mut counted = 0;
                let mut left = stops + 1 >= k;
                while left {
                    let held: Vec<u64> = cuts.iter().map(|&cut| cut as u64).collect();
                    assert_eq!(passed(&Place::with_cuts(&held), stops), counted);
                    counted += 1;
                    left = next_cut_set(k, stops, &mut cuts).unwrap();
                }
                assert_eq!(cut_sets(&Place::first(k), stops), counted);
            }
        }
    }

    #[test]
    fn at_the_longest_route() {
        let last = |k: u64| Place::with_cuts(&(513 - k..513).collect::<Vec<u64>>());
        let all = [131_328, 22_369_536, 2_852_115_840, 290_345_392_512];
        for (k, all) in (2..).zip(all) {
            assert_eq!(cut_sets(&Place::first(k), 512), all);
            assert_eq!(passed(&Place::first(k), 512), 0);
            assert_eq!(passed(&last(k as u64), 512), all - 1);
        }
    }

    /// Of what is refused: no panic, and nothing passed at the first place.
    #[test]
    fn what_is_refused_has_no_progress() {
        for k in [0, 1, 6, 7, usize::MAX] {
            assert_eq!(passed(&Place::first(k), 3), 0);
        }
        for stops in [513, usize::MAX] {
            cut_sets(&Place::first(5), stops);
            passed(&Place::with_cuts(&[0, 1, 2, 3, 900]), stops);
        }
        passed(&Place::with_cuts(&[7, 8]), 2);
        assert_eq!(choose(u64::MAX, 1), u64::MAX);
    }
}
