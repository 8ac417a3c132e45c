//! Document 01's stand-ins over the lent tables and rounds, with document 02's deadline rule and its pairs.

use super::list_k_opt::ListKOptAccess;
use crate::domain::PlanningSolution;
use crate::scope::ProgressCallback;
use crate::tables::Tables;
use crate::Director;
use std::cell::Cell;

/// The solution: the tables, and the rounds as they are now.
pub(crate) struct Fleet<'c> {
    pub(super) tables: &'c Tables,
    pub(super) depots: &'c [u32],
    pub(super) rounds: Vec<Vec<usize>>,
    /// Where the Rust is timed. None: pairs are judged by the sentence.
    pub(super) marks: Option<Marks>,
}

/// For each location the pairs whose first or second it is, a bit for each pair: what a host that is in a hurry would keep.
pub(super) struct Marks {
    firsts: Vec<u64>,
    seconds: Vec<u64>,
}

impl Marks {
    pub(super) fn of(tables: &Tables) -> Self {
        let mut marks = Self {
            firsts: vec![0; tables.locations],
            seconds: vec![0; tables.locations],
        };
        for (pair, members) in tables.pairs().chunks(2).enumerate() {
            marks.firsts[members[0] as usize] |= 1 << pair;
            marks.seconds[members[1] as usize] |= 1 << pair;
        }
        marks
    }

    /// No stop is the first of a pair whose second was visited.
    fn kept(&self, route: &[usize]) -> bool {
        let mut visited = 0;
        route.iter().all(|&stop| {
            let kept = self.firsts[stop] & visited == 0;
            visited |= self.seconds[stop];
            kept
        })
    }
}

impl Fleet<'_> {
    /// A stop is late if the legs from the depot up to it plus the service of the stops before it exceed its latest. Its own service does
    /// not count, nor the depot's at the start; each visit counts.
    #[inline]
    fn in_time(&self, entity_index: usize, route: &[usize]) -> bool {
        let mut place = self.depots[entity_index] as usize;
        let mut seconds = 0u64;
        for &stop in route {
            seconds += u64::from(self.tables.leg(place, stop));
            if seconds > u64::from(self.tables.latest[stop]) {
                return false;
            }
            seconds += u64::from(self.tables.service[stop]);
            place = stop;
        }
        true
    }

    #[inline]
    fn keeps_pairs(&self, route: &[usize]) -> bool {
        match &self.marks {
            _ if self.tables.pairs().is_empty() => true,
            Some(marks) => marks.kept(route),
            None => {
                let route: Vec<u32> = route.iter().map(|&stop| stop as u32).collect();
                self.tables.keeps_pairs(&route)
            }
        }
    }
}

impl PlanningSolution for Fleet<'_> {}

pub(crate) struct Yard<'c> {
    pub(super) fleet: Fleet<'c>,
    pub(super) pins: &'c [u8],
    /// Rounds whose pin was asked for.
    pub(super) reached: Cell<usize>,
}

impl<'c> Director<Fleet<'c>> for Yard<'c> {
    #[inline]
    fn working_solution(&self) -> &Fleet<'c> {
        &self.fleet
    }

    fn working_solution_mut(&mut self) -> &mut Fleet<'c> {
        &mut self.fleet
    }

    fn pinned(&self, entity_index: usize) -> bool {
        self.reached.set(entity_index + 1);
        self.pins[entity_index] != 0
    }
}

/// Is told everything and does nothing.
pub(crate) struct Quiet;

impl ProgressCallback<Fleet<'_>> for Quiet {}

pub(crate) struct Access;

impl ListKOptAccess<Fleet<'_>> for Access {
    fn descriptor_index(&self) -> usize {
        0
    }

    fn entity_count(&self, fleet: &Fleet) -> usize {
        fleet.rounds.len()
    }

    fn route_values(&self, fleet: &Fleet, entity_index: usize) -> Vec<usize> {
        fleet.rounds[entity_index].clone()
    }

    fn replace_route(&self, fleet: &mut Fleet, entity_index: usize, route: Vec<usize>) {
        fleet.rounds[entity_index] = route;
    }

    fn route_depot(&self, fleet: &Fleet, entity_index: usize) -> usize {
        fleet.depots[entity_index] as usize
    }

    #[inline]
    fn route_distance(&self, fleet: &Fleet, _entity: usize, from: usize, to: usize) -> i64 {
        i64::from(fleet.tables.leg(from, to))
    }

    #[inline]
    fn route_feasible(&self, fleet: &Fleet, entity_index: usize, route: &[usize]) -> bool {
        fleet.in_time(entity_index, route) && fleet.keeps_pairs(route)
    }
}

pub(super) fn stops(route: &[u32]) -> Vec<usize> {
    route.iter().map(|&stop| stop as usize).collect()
}
