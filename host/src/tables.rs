/// The tables that a call reads, held together. They are judged by the call.
#[derive(Clone, Copy, Debug)]
pub struct Tables<'t> {
    /// How many locations there are, 1 to 1,024.
    pub locations: usize,
    /// Seconds from each location to each, at most 1,000,000: row after row, a row for each location gone from.
    pub legs: &'t [u32],
    /// The latest second of each location; `u32::MAX` where none is in force.
    pub latest: &'t [u32],
    /// The seconds spent at a stop at each location, at most 1,000,000; 0 where none are. A stop is late if the legs up to it plus the
    /// service of the stops before it exceed its latest.
    pub service: &'t [u32],
}

/// As many entries as a call takes.
static NO_SERVICE: [u32; 1024] = [0; 1024];

impl<'t> Tables<'t> {
    /// No time is spent at any stop.
    ///
    /// ```
    /// use mittenschist::Tables;
    ///
    /// let tables = Tables::without_service(2, &[0, 5, 7, 0], &[u32::MAX; 2]);
    /// assert_eq!(tables.service, [0, 0]);
    /// ```
    pub fn without_service(locations: usize, legs: &'t [u32], latest: &'t [u32]) -> Self {
        Self {
            locations,
            legs,
            latest,
            service: &NO_SERVICE[..locations.min(NO_SERVICE.len())],
        }
    }

    /// As the C functions take them.
    pub(crate) fn parts(&self) -> (usize, &'t [u32], &'t [u32], &'t [u32]) {
        (self.locations, self.legs, self.latest, self.service)
    }
}
