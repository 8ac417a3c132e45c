//! The module around general.rs and kernel.rs, the only one in which `polish_route` is visible.

use crate::domain::PlanningSolution;
use crate::phase::construction::PendingConstructionMoveTelemetry;
use crate::scope::{PhaseScope, ProgressCallback, SolverScope, StepControlPolicy};
use crate::Director;

include!(concat!(env!("OUT_DIR"), "/general.rs"));
include!(concat!(env!("OUT_DIR"), "/kernel.rs"));

pub(super) use kernel::{run_list_k_opt, ListKOptAccess};

/// Whether polishing was interrupted, and how many candidates it accepted.
pub(super) fn polish_route<S, A, D, BestCb>(
    access: &A,
    k: usize,
    control_policy: StepControlPolicy,
    solver_scope: &mut SolverScope<'_, S, D, BestCb>,
    depot: usize,
    route: &mut Vec<usize>,
) -> (bool, u64)
where
    S: PlanningSolution,
    A: ListKOptAccess<S>,
    D: Director<S>,
    BestCb: ProgressCallback<S>,
{
    let mut telemetry = PendingConstructionMoveTelemetry::default();
    let mut phase_scope = PhaseScope { solver_scope };
    let (_changed, interrupted) = general::polish_route(
        access,
        k,
        control_policy,
        &mut phase_scope,
        0,
        depot,
        route,
        &mut telemetry,
    );
    (interrupted, telemetry.accepted)
}
