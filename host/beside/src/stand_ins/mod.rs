//! What the Rust uses and document 01 leaves out or replaces, as little of it as will do.

pub(crate) mod construction;
pub(crate) mod lists;
pub(crate) mod scope;
pub(crate) mod selection;
pub(crate) mod small_vec;

/// `solverforge_scoring::Director`: holds the solution.
pub(crate) trait Director<S> {
    fn working_solution(&self) -> &S;
    fn working_solution_mut(&mut self) -> &mut S;
    fn before_variable_changed(&mut self, _descriptor_index: usize, _entity_index: usize) {}
    fn after_variable_changed(&mut self, _descriptor_index: usize, _entity_index: usize) {}
    /// Reads the pin byte of a round: 0 is free.
    fn pinned(&self, _entity_index: usize) -> bool {
        false
    }
}

pub(crate) mod domain {
    pub(crate) trait PlanningSolution {}
}

pub(crate) mod pinning {
    use super::Director;

    pub(crate) fn entity_is_pinned<S, D: Director<S>>(
        director: &D,
        _descriptor_index: usize,
        entity_index: usize,
    ) -> bool {
        director.pinned(entity_index)
    }
}

/// Traces are never taken: a token cannot exist, so the compiler drops what would be done with one.
pub(crate) mod stats {
    #[derive(Clone, Copy)]
    pub(crate) enum CandidateTracePullToken {}

    pub(crate) enum CandidateTraceSource {
        ListKOptReconnection,
    }

    pub(crate) enum CandidateTraceDisposition {
        Evaluated,
        ForagerIgnored,
    }

    #[allow(dead_code)]
    pub(crate) struct CandidateTraceConstructionTarget {
        pub(crate) descriptor_index: usize,
        pub(crate) entity_index: usize,
    }
}
