//! A problem as text.

use crate::{raw, Harbours, Refusal, Tables};

/// A problem: the values of the lines of a text. Pairs and lists of patterns are not among them.
///
/// ```
/// use mittenschist::{polish_route, Problem};
///
/// let text = b"k=3\nallowance=100\nlocations=3\ndepot=0\nend=0\nlegs=0,5,1\nlegs=1,0,5\nlegs=5,1,0\nlatest=99,99,99\nservice=0,0,0\nround=1,2\n";
/// let mut problem = Problem::read(text)?;
/// assert_eq!((problem.k, problem.locations, &problem.route[..]), (3, 3, &[1, 2][..]));
/// assert_eq!(problem.write()?, text);
///
/// // Polishing takes every problem that was read.
/// let mut route = problem.route.clone();
/// polish_route(problem.k, problem.allowance, &problem.tables(), problem.harbours, &mut route)?;
/// problem.route = route;
/// assert!(problem.write()?.ends_with(b"round=2,1\n"));
/// # Ok::<(), mittenschist::Refusal>(())
/// ```
#[derive(Clone, Debug, PartialEq, Eq)]
pub struct Problem {
    /// The number of cuts.
    pub k: usize,
    /// How many candidates may be examined.
    pub allowance: u64,
    /// How many locations there are.
    pub locations: usize,
    /// Seconds from each location to each: row after row, a row for each location gone from.
    pub legs: Vec<u32>,
    /// The latest second of each location.
    pub latest: Vec<u32>,
    /// The seconds spent at a stop at each location.
    pub service: Vec<u32>,
    /// Where the route sets out and where it ends.
    pub harbours: Harbours,
    /// The stops.
    pub route: Vec<u32>,
}

/// What suffices for every text.
const MOST_BYTES: usize = 60_000;
const MOST_LOCATIONS: usize = 96;
const MOST_STOPS: usize = 512;

impl Problem {
    /// Reads the lines `k=`, `allowance=`, `locations=`, `depot=`, `end=`, `legs=` for each location, `latest=`, `service=` and `round=`. Refuses 10, 1, 3, 23, 4,
    /// 24, 5.
    pub fn read(text: &[u8]) -> Result<Self, Refusal> {
        let mut legs = vec![0; MOST_LOCATIONS * MOST_LOCATIONS];
        let mut latest = vec![0; MOST_LOCATIONS];
        let mut service = vec![0; MOST_LOCATIONS];
        let mut route = vec![0; MOST_STOPS];
        let mut result = [0; 6];
        Refusal::check(raw::read_problem(
            text,
            &mut legs,
            &mut latest,
            &mut service,
            &mut route,
            &mut result,
        ))?;
        let [k, allowance, locations, depot, end, stops] = result;
        let locations = locations as usize;
        legs.truncate(locations * locations);
        latest.truncate(locations);
        service.truncate(locations);
        route.truncate(stops as usize);
        let (depot, end) = (depot as u32, end as u32);
        Ok(Self {
            k: k as usize,
            allowance,
            locations,
            legs,
            latest,
            service,
            harbours: Harbours { depot, end },
            route,
        })
    }

    /// The text of the problem, which [`read`](Self::read) gives back as it is. Refuses 1, 2, 3, 23, 4, 24, 5, 31.
    ///
    /// ```
    /// use mittenschist::{Harbours, Problem, Refusal};
    ///
    /// let problem = Problem {
    ///     k: 2,
    ///     allowance: 1 << 32,
    ///     locations: 1,
    ///     legs: vec![7],
    ///     latest: vec![9],
    ///     service: vec![4],
    ///     harbours: Harbours { depot: 0, end: 0 },
    ///     route: vec![],
    /// };
    /// assert_eq!(problem.write(), Err(Refusal::TextBounds));
    /// let problem = Problem { allowance: 5, ..problem };
    /// assert_eq!(Problem::read(&problem.write()?)?, problem);
    /// # Ok::<(), Refusal>(())
    /// ```
    pub fn write(&self) -> Result<Vec<u8>, Refusal> {
        let mut text = vec![0; MOST_BYTES];
        let mut result = [0];
        Refusal::check(raw::write_problem(
            self.k,
            self.allowance,
            self.locations,
            &self.legs,
            &self.latest,
            &self.service,
            self.harbours.depot,
            self.harbours.end,
            &self.route,
            &mut text,
            &mut result,
        ))?;
        text.truncate(result[0] as usize);
        Ok(text)
    }

    /// The tables, to polish with.
    pub fn tables(&self) -> Tables<'_> {
        Tables {
            locations: self.locations,
            legs: &self.legs,
            latest: &self.latest,
            service: &self.service,
        }
    }
}
