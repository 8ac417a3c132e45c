//! The scopes of a run: they hold the director, the number of candidates examined, and who is told what happens.

use super::stats::{
    CandidateTraceConstructionTarget, CandidateTraceDisposition, CandidateTracePullToken,
    CandidateTraceSource,
};
use super::Director;
use std::marker::PhantomData;

/// Is told what the Rust does. Nothing is done with it by default, at no cost.
pub(crate) trait ProgressCallback<S> {
    /// A candidate is about to be examined: the round, then what describes it.
    #[inline]
    fn candidate(&mut self, _components: impl Iterator<Item = u64>) {}
    /// The present round is committed, with so many accepted candidates.
    fn committed(&mut self, _accepted: u64) {}
    /// The present round is given up, with so many accepted candidates.
    fn discarded(&mut self, _accepted: u64) {}
}

/// Holds the director and the number of candidates examined in this call.
pub(crate) struct SolverScope<'t, S, D, BestCb> {
    director: D,
    pub(crate) examined: u64,
    pub(crate) callback: BestCb,
    unused: PhantomData<(&'t (), S)>,
}

impl<S, D, BestCb> SolverScope<'_, S, D, BestCb> {
    pub(crate) fn new(director: D, callback: BestCb) -> Self {
        Self {
            director,
            examined: 0,
            callback,
            unused: PhantomData,
        }
    }

    /// The director and the callback, when all is done.
    pub(crate) fn parts(self) -> (D, BestCb) {
        (self.director, self.callback)
    }
}

pub(crate) struct PhaseScope<'t, 'a, S, D, BestCb> {
    pub(crate) solver_scope: &'a mut SolverScope<'t, S, D, BestCb>,
}

impl<'t, S, D, BestCb> PhaseScope<'t, '_, S, D, BestCb> {
    #[inline]
    pub(crate) fn score_director(&self) -> &D {
        &self.solver_scope.director
    }

    #[inline]
    pub(crate) fn solver_scope_mut(&mut self) -> &mut SolverScope<'t, S, D, BestCb> {
        self.solver_scope
    }

    pub(crate) fn calculate_score(&mut self) {}

    pub(crate) fn update_best_solution(&mut self) {}

    #[allow(clippy::too_many_arguments)]
    #[inline]
    pub(crate) fn record_candidate_operation(
        &mut self,
        _source: CandidateTraceSource,
        _selector_index: Option<usize>,
        _candidate_index: usize,
        _construction_target: Option<CandidateTraceConstructionTarget>,
        _descriptor_index: usize,
        _operation: &'static str,
        components: impl IntoIterator<Item = u64>,
    ) -> Option<CandidateTracePullToken>
    where
        BestCb: ProgressCallback<S>,
    {
        self.solver_scope.callback.candidate(components.into_iter());
        None
    }

    #[inline]
    pub(crate) fn record_candidate_trace_disposition(
        &mut self,
        _token: CandidateTracePullToken,
        _disposition: CandidateTraceDisposition,
    ) {
    }
}

/// Left out by document 01.
pub(crate) struct Score;

/// A step of a phase: here one round being committed.
pub(crate) struct StepScope<'t, 'a, 'b, S, D, BestCb> {
    phase_scope: &'b mut PhaseScope<'t, 'a, S, D, BestCb>,
}

impl<'t, 'a, 'b, S, D: Director<S>, BestCb> StepScope<'t, 'a, 'b, S, D, BestCb> {
    pub(crate) fn new_with_control_policy(
        phase_scope: &'b mut PhaseScope<'t, 'a, S, D, BestCb>,
        _control_policy: StepControlPolicy,
    ) -> Self {
        Self { phase_scope }
    }

    pub(crate) fn apply_committed_change(&mut self, change: impl FnOnce(&mut D)) {
        change(&mut self.phase_scope.solver_scope.director);
    }

    pub(crate) fn phase_scope_mut(&mut self) -> &mut PhaseScope<'t, 'a, S, D, BestCb> {
        self.phase_scope
    }

    pub(crate) fn calculate_score(&mut self) -> Score {
        Score
    }

    pub(crate) fn set_step_score(&mut self, _score: Score) {}

    pub(crate) fn complete(self) {}
}

#[derive(Clone, Copy)]
pub(crate) struct StepControlPolicy {
    pub(crate) allowance: u64,
}

impl StepControlPolicy {
    /// True exactly when the candidates examined in this call equal the allowance.
    #[inline]
    pub(crate) fn should_terminate_construction<S, D, BestCb>(
        self,
        solver_scope: &mut SolverScope<'_, S, D, BestCb>,
    ) -> bool {
        solver_scope.examined == self.allowance
    }
}
