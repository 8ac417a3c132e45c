//! What iter.rs and nearby_state.rs name besides the selection order.

pub(crate) trait Move<S> {}

pub(crate) trait MoveCursor<S, M> {
    fn next_owned_candidate(&mut self, solution: &S) -> Option<M>;
}

/// `solverforge_config::SelectionOrder`.
#[allow(dead_code)]
#[derive(Clone, Copy, Debug, PartialEq, Eq)]
pub enum SelectionOrder {
    Original,
    Random,
    Shuffled,
    Sorted,
    Probabilistic,
}

pub(crate) trait ListPositionDistanceMeter<S> {
    fn distance(&self, solution: &S, entity: usize, from: usize, to: usize) -> f64;
}
