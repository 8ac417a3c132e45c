//! The unchanged `polish_route`.

use super::fleet::{stops, Access, Fleet, Marks, Quiet, Yard};
use super::list_k_opt::{polish_route, ListKOptAccess};
use crate::cases::polish::Case;
use crate::scope::{SolverScope, StepControlPolicy};
use crate::tables::Tables;
use std::cell::Cell;

/// What polishing answers besides the route.
#[derive(Clone, Copy, Debug, PartialEq, Eq)]
pub struct Counts {
    pub spent: bool,
    pub examined: u64,
    pub accepted: u64,
}

/// Polishes `route` with this allowance.
pub fn polish(case: &Case, allowance: u64, route: &mut [u32]) -> Counts {
    let mut order = stops(route);
    let counts = polish_stops(case, allowance, &mut order);
    for (place, stop) in route.iter_mut().zip(order) {
        *place = stop as u32;
    }
    counts
}

/// Whether the Rust holds a route to keep every deadline and every pair.
pub fn feasible(tables: &Tables, depot: u32, route: &[u32]) -> bool {
    Access.route_feasible(&fleet(tables, &[depot]), 0, &stops(route))
}

fn fleet<'c>(tables: &'c Tables, depots: &'c [u32]) -> Fleet<'c> {
    Fleet {
        tables,
        depots,
        rounds: Vec::new(),
        marks: None,
    }
}

/// As above, on the numbers that the Rust takes.
pub fn polish_stops(case: &Case, allowance: u64, route: &mut Vec<usize>) -> Counts {
    polish_with(case.k, allowance, &case.tables, case.depot, route)
}

/// As above, with pairs judged as a host that is in a hurry would: for timing.
pub fn polish_marked(case: &Case, allowance: u64, route: &mut Vec<usize>) -> Counts {
    let depots = [case.depot];
    let mut fleet = fleet(&case.tables, &depots);
    fleet.marks = Some(Marks::of(&case.tables));
    polish_fleet(case.k, allowance, fleet, route)
}

pub(super) fn polish_with(
    k: usize,
    allowance: u64,
    tables: &Tables,
    depot: u32,
    route: &mut Vec<usize>,
) -> Counts {
    polish_fleet(k, allowance, fleet(tables, &[depot]), route)
}

fn polish_fleet(k: usize, allowance: u64, fleet: Fleet, route: &mut Vec<usize>) -> Counts {
    let depot = fleet.depots[0] as usize;
    let yard = Yard {
        fleet,
        pins: &[],
        reached: Cell::new(0),
    };
    let mut solver_scope = SolverScope::new(yard, Quiet);
    let (spent, accepted) = polish_route(
        &Access,
        k,
        StepControlPolicy { allowance },
        &mut solver_scope,
        depot,
        route,
    );
    Counts {
        spent,
        examined: solver_scope.examined,
        accepted,
    }
}
