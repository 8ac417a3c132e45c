use crate::pace::Pace;
use crate::progress::{cut_sets, passed};
use crate::{polish_slice, Ending, Harbours, Pair, Place, Polished, Progress, Refusal, Tables};
use std::time::{Duration, Instant};

/// Polishing that comes back whenever its caller likes: it keeps the [`Place`] of a search and borrows the route, which is always as far polished as
/// the search has come. Dropped, it leaves the route so.
///
/// However the search is cut up, the replies add up to that of one call of [`polish_route_with_pairs`](crate::polish_route_with_pairs) with the sum of the
/// allowances; finished, the route is as that call leaves it. Nothing is judged when a polisher is made: its first step is refused with what that call
/// is refused with, 1, 2, 3, 23, 4, 24, 29, 5, and the route is as before.
///
/// ```
/// use mittenschist::{Ending, Polisher, Tables};
///
/// let legs = [0, 5, 1, 1, 0, 5, 5, 1, 0];
/// let tables = Tables::without_service(3, &legs, &[u32::MAX; 3]);
/// let mut route = [1, 2];
/// let mut polisher = Polisher::new(3, &tables, 0, &[], &mut route);
/// while polisher.step(4)?.ending == Ending::Spent {
///     println!("{} s saved", polisher.progress().saved);
/// }
/// let progress = polisher.progress();
/// assert_eq!((progress.examined, progress.accepted, progress.saved), (11, 1, 12));
/// assert_eq!(route, [2, 1]);
/// # Ok::<(), mittenschist::Refusal>(())
/// ```
#[derive(Debug)]
pub struct Polisher<'p> {
    tables: Tables<'p>,
    harbours: Harbours,
    pairs: &'p [Pair],
    route: &'p mut [u32],
    place: Place,
    /// All slices together, if there was one.
    sum: Option<Polished>,
    pace: Pace,
}

impl<'p> Polisher<'p> {
    /// A search with k cuts from the beginning. A depot alone is a closed tour; `&[]` is no pairs.
    ///
    /// ```
    /// use mittenschist::{Harbours, Polisher, Refusal, Tables};
    ///
    /// let legs = [0, 5, 1, 1, 0, 5, 5, 1, 0];
    /// let tables = Tables { locations: 3, legs: &legs, latest: &[9, 9, 4], service: &[0, 1, 0] };
    /// // From location 0 to location 1, where 2 is visited before 1.
    /// let (mut route, harbours) = ([1, 2], Harbours { depot: 0, end: 1 });
    /// let mut polisher = Polisher::new(3, &tables, harbours, &[[2, 1]], &mut route);
    /// assert_eq!(polisher.step(100)?.after, 2);
    ///
    /// let refused = Polisher::new(6, &tables, 0, &[], &mut route).step(100);
    /// assert_eq!(refused, Err(Refusal::CutCount));
    /// # Ok::<(), Refusal>(())
    /// ```
    pub fn new(
        k: usize,
        tables: &Tables<'p>,
        harbours: impl Into<Harbours>,
        pairs: &'p [Pair],
        route: &'p mut [u32],
    ) -> Self {
        Self::at(Place::first(k), tables, harbours, pairs, route)
    }

    /// A search that goes on at the place where another one was left, with the route that it left; the counts begin anew. What [`Place`] says of places of
    /// other routes holds; a place of a longer route is refused, 6 or 7.
    ///
    /// ```
    /// use mittenschist::{Ending, Polisher, Tables};
    ///
    /// let tables = Tables::without_service(1, &[0], &[u32::MAX]);
    /// let mut route = [0; 4];
    /// let mut polisher = Polisher::new(3, &tables, 0, &[], &mut route);
    /// polisher.step(30)?;
    /// let place = polisher.place();
    ///
    /// // A pass is 70 candidates.
    /// let mut polisher = Polisher::at(place, &tables, 0, &[], &mut route);
    /// let rest = polisher.step(100)?;
    /// assert_eq!((rest.ending, rest.examined), (Ending::Finished, 40));
    /// # Ok::<(), mittenschist::Refusal>(())
    /// ```
    pub fn at(
        place: Place,
        tables: &Tables<'p>,
        harbours: impl Into<Harbours>,
        pairs: &'p [Pair],
        route: &'p mut [u32],
    ) -> Self {
        Self {
            tables: *tables,
            harbours: harbours.into(),
            pairs,
            route,
            place,
            sum: None,
            pace: Pace::default(),
        }
    }

    /// Examines at most `allowance` candidates and says what they did. A finished search stays finished: a further step examines nothing, and answers
    /// finished.
    ///
    /// Each step judges the tables and measures the route anew, some 0.05 ms at 512 stops: in steps of a few milliseconds that does not show.
    ///
    /// ```
    /// use mittenschist::{Ending, Polisher, Tables};
    ///
    /// let legs = [0, 5, 1, 1, 0, 5, 5, 1, 0];
    /// let tables = Tables::without_service(3, &legs, &[u32::MAX; 3]);
    /// let mut route = [1, 2];
    /// let mut polisher = Polisher::new(3, &tables, 0, &[], &mut route);
    /// let slice = polisher.step(4)?;
    /// assert_eq!((slice.ending, slice.examined, slice.saved()), (Ending::Spent, 4, 12));
    /// let slice = polisher.step(100)?;
    /// assert_eq!((slice.ending, slice.examined, slice.saved()), (Ending::Finished, 7, 0));
    /// let slice = polisher.step(100)?;
    /// assert_eq!((slice.ending, slice.examined), (Ending::Finished, 0));
    /// # Ok::<(), mittenschist::Refusal>(())
    /// ```
    pub fn step(&mut self, allowance: u64) -> Result<Polished, Refusal> {
        if let Some(sum) = self.sum.filter(|_| self.is_finished()) {
            return Ok(sum.again());
        }
        let slice = polish_slice(
            allowance,
            &self.tables,
            self.harbours,
            self.pairs,
            self.route,
            &mut self.place,
        )?;
        self.sum = Some(self.sum.map_or(slice, |sum| sum.then(slice)));
        Ok(slice)
    }

    /// Goes on until the search is finished or the time is over, and says what was done meanwhile, all slices together: spent where the time was over
    /// first.
    ///
    /// The slices are small at first, and then as large as fits a quarter of the time left, by what the last one took, but not above some 10
    /// milliseconds; so it comes back soon after the time, if not in time. At least one slice is made, of 1,024 candidates with no time left, so that it gets on
    /// however short the time.
    ///
    /// ```
    /// use mittenschist::{Ending, Polisher, Tables};
    /// use std::time::Duration;
    ///
    /// let tables = Tables::without_service(1, &[0], &[u32::MAX]);
    /// let mut route = [0; 512];
    /// // A pass takes hours.
    /// let mut polisher = Polisher::new(5, &tables, 0, &[], &mut route);
    /// let ran = polisher.run_for(Duration::from_millis(5))?;
    /// assert_eq!(ran.ending, Ending::Spent);
    /// assert!(ran.examined >= 1024);
    /// # Ok::<(), mittenschist::Refusal>(())
    /// ```
    pub fn run_for(&mut self, time: Duration) -> Result<Polished, Refusal> {
        self.run_within(u64::MAX, time)
    }

    /// As [`run_for`](Self::run_for), with at most `allowance` candidates; spent where one of the two was reached.
    ///
    /// ```
    /// use mittenschist::{Ending, Polisher, Tables};
    /// use std::time::Duration;
    ///
    /// let tables = Tables::without_service(1, &[0], &[u32::MAX]);
    /// let mut route = [0; 512];
    /// let mut polisher = Polisher::new(2, &tables, 0, &[], &mut route);
    /// let ran = polisher.run_within(5_000, Duration::MAX)?;
    /// assert_eq!((ran.ending, ran.examined), (Ending::Spent, 5_000));
    /// # Ok::<(), mittenschist::Refusal>(())
    /// ```
    pub fn run_within(&mut self, allowance: u64, time: Duration) -> Result<Polished, Refusal> {
        let start = Instant::now();
        let mut ran = self.timed_step(allowance, time)?;
        while ran.ending == Ending::Spent && ran.examined < allowance && start.elapsed() < time {
            let left = time.saturating_sub(start.elapsed());
            let slice = self.timed_step(allowance - ran.examined, left)?;
            ran = ran.then(slice);
        }
        Ok(ran)
    }

    /// A slice that fits the time left.
    fn timed_step(&mut self, most: u64, left: Duration) -> Result<Polished, Refusal> {
        let start = Instant::now();
        let slice = self.step(self.pace.fit(left).min(most))?;
        self.pace.learn(slice.examined, start.elapsed());
        Ok(slice)
    }

    /// Slices of `allowance` candidates each, until the search is finished: an iterator over how far it has come after each. It ends with the finished
    /// one, or with a refusal; whoever stops taking from it stops the search, which goes on with the next call. No candidates count as one, since slices of nothing never end.
    ///
    /// ```
    /// use mittenschist::{Polisher, Refusal, Tables};
    ///
    /// let legs = [0, 5, 1, 1, 0, 5, 5, 1, 0];
    /// let tables = Tables::without_service(3, &legs, &[u32::MAX; 3]);
    /// let mut route = [1, 2];
    /// let mut polisher = Polisher::new(3, &tables, 0, &[], &mut route);
    /// for progress in polisher.slices(3) {
    ///     let progress = progress?;
    ///     println!("{:.0} %, {} s saved", 100.0 * progress.share(), progress.saved);
    ///     if progress.saved >= 10 {
    ///         break;
    ///     }
    /// }
    /// assert_eq!((polisher.progress().examined, polisher.route()), (6, &[2, 1][..]));
    /// assert_eq!(polisher.slices(3).count(), 2);
    /// assert!(polisher.is_finished());
    /// # Ok::<(), Refusal>(())
    /// ```
    pub fn slices(&mut self, allowance: u64) -> Slices<'_, 'p> {
        Slices {
            over: self.is_finished(),
            polisher: self,
            allowance: allowance.max(1),
        }
    }

    /// How far the search has come; see [`Progress`]. Before the first slice nothing has been saved or examined.
    ///
    /// ```
    /// use mittenschist::{Polisher, Tables};
    ///
    /// let tables = Tables::without_service(1, &[0], &[u32::MAX]);
    /// let mut route = [0; 4];
    /// let mut polisher = Polisher::new(3, &tables, 0, &[], &mut route);
    /// polisher.step(30)?;
    /// // Seven patterns for each of the ten cut sets: four of these lie behind.
    /// let progress = polisher.progress();
    /// assert_eq!((progress.examined, progress.passed, progress.cut_sets), (30, 4, 10));
    /// # Ok::<(), mittenschist::Refusal>(())
    /// ```
    pub fn progress(&self) -> Progress {
        let cut_sets = cut_sets(&self.place, self.route.len());
        let passed = match self.is_finished() {
            true => cut_sets,
            false => passed(&self.place, self.route.len()),
        };
        let of = |number: fn(&Polished) -> u64| self.sum.as_ref().map_or(0, number);
        Progress {
            saved: of(Polished::saved),
            examined: of(|sum| sum.examined),
            accepted: of(|sum| sum.accepted),
            passed,
            cut_sets,
        }
    }

    /// The route as far as it is polished.
    ///
    /// ```
    /// use mittenschist::{Polisher, Tables};
    ///
    /// let legs = [0, 5, 1, 1, 0, 5, 5, 1, 0];
    /// let tables = Tables::without_service(3, &legs, &[u32::MAX; 3]);
    /// let mut route = [1, 2];
    /// let mut polisher = Polisher::new(3, &tables, 0, &[], &mut route);
    /// polisher.step(3)?;
    /// assert_eq!(polisher.route(), [1, 2]);
    /// polisher.step(1)?;
    /// assert_eq!(polisher.route(), [2, 1]);
    /// # Ok::<(), mittenschist::Refusal>(())
    /// ```
    pub fn route(&self) -> &[u32] {
        self.route
    }

    /// The next candidate to be examined; finished, the first place again.
    ///
    /// ```
    /// use mittenschist::{Place, Polisher, Tables};
    ///
    /// let tables = Tables::without_service(1, &[0], &[u32::MAX]);
    /// let mut route = [0; 4];
    /// let mut polisher = Polisher::new(3, &tables, 0, &[], &mut route);
    /// assert_eq!(polisher.place(), Place::first(3));
    /// polisher.step(30)?;
    /// assert_eq!(polisher.place().cuts(), [0, 2, 4]);
    /// assert_eq!(polisher.place().pattern(), 2);
    /// # Ok::<(), mittenschist::Refusal>(())
    /// ```
    pub fn place(&self) -> Place {
        self.place
    }

    /// Whether the search is over. Of one that began at the first place, or went on where another was left: no choice of k cuts and no pattern gives a
    /// shorter route that keeps every deadline and every pair.
    ///
    /// ```
    /// use mittenschist::{Polisher, Tables};
    ///
    /// let tables = Tables::without_service(1, &[0], &[u32::MAX]);
    /// let mut route = [0; 4];
    /// let mut polisher = Polisher::new(3, &tables, 0, &[], &mut route);
    /// assert!(!polisher.is_finished());
    /// polisher.step(70)?;
    /// assert!(polisher.is_finished());
    /// # Ok::<(), mittenschist::Refusal>(())
    /// ```
    pub fn is_finished(&self) -> bool {
        self.sum.is_some_and(|sum| sum.ending == Ending::Finished)
    }
}

/// The slices of a search, one after the other: [`Polisher::slices`].
#[derive(Debug)]
pub struct Slices<'s, 'p> {
    polisher: &'s mut Polisher<'p>,
    allowance: u64,
    over: bool,
}

impl Iterator for Slices<'_, '_> {
    type Item = Result<Progress, Refusal>;

    fn next(&mut self) -> Option<Self::Item> {
        if self.over {
            return None;
        }
        let slice = self.polisher.step(self.allowance);
        self.over = slice.map_or(true, |slice| slice.ending == Ending::Finished);
        Some(slice.map(|_| self.polisher.progress()))
    }
}

impl std::iter::FusedIterator for Slices<'_, '_> {}
