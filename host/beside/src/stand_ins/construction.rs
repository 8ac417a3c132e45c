//! `crate::phase::construction`: counts the candidates examined and accepted.

use super::scope::{PhaseScope, ProgressCallback, SolverScope};
use super::stats::CandidateTracePullToken;
use std::time::Duration;

pub(crate) fn run_construction_phase<S, D, BestCb, R>(
    solver_scope: &mut SolverScope<'_, S, D, BestCb>,
    _phase_index: usize,
    _phase_type: &'static str,
    run: impl FnOnce(&mut PhaseScope<'_, '_, S, D, BestCb>) -> R,
) -> R {
    run(&mut PhaseScope { solver_scope })
}

#[inline]
pub(crate) fn record_construction_candidate<S, D, BestCb>(
    phase_scope: &mut PhaseScope<'_, '_, S, D, BestCb>,
    _generation: Duration,
    _evaluation: Duration,
) {
    phase_scope.solver_scope.examined += 1;
}

#[derive(Default)]
pub(crate) struct PendingConstructionMoveTelemetry {
    pub(crate) accepted: u64,
}

impl PendingConstructionMoveTelemetry {
    #[inline]
    pub(crate) fn record_accepted<S, D, BestCb>(
        &mut self,
        _phase_scope: &mut PhaseScope<'_, '_, S, D, BestCb>,
        _trace_token: Option<CandidateTracePullToken>,
    ) {
        self.accepted += 1;
    }

    pub(crate) fn record_committed<S, D, BestCb: ProgressCallback<S>>(
        self,
        phase_scope: &mut PhaseScope<'_, '_, S, D, BestCb>,
    ) {
        phase_scope.solver_scope.callback.committed(self.accepted);
    }

    pub(crate) fn record_discarded<S, D, BestCb: ProgressCallback<S>>(
        self,
        phase_scope: &mut PhaseScope<'_, '_, S, D, BestCb>,
    ) {
        phase_scope.solver_scope.callback.discarded(self.accepted);
    }
}
