//! The unchanged `NearbyCutState`, in canonical order.

use crate::cases::nearby::Case;
use crate::heuristic::selector::move_selector::MoveStreamContext;
use crate::heuristic::selector::nearby::nearby_state::{KOptDistanceProbe, NearbyCutState};

struct Distances;

impl KOptDistanceProbe<Case> for Distances {
    #[inline]
    fn distance(&self, case: &Case, _entity: usize, from: usize, to: usize) -> f64 {
        case.distances[from * case.n + to]
    }
}

/// The first sets of the walk, at most `most`, end to end, and whether the walk has another.
pub fn listed(case: &Case, most: usize) -> (Vec<usize>, bool) {
    let context = MoveStreamContext::new(0, 0, None);
    let (k, m) = (case.k, case.min_segment_len);
    let mut walk = NearbyCutState::new(0, k, case.n, m, case.max_nearby, context, 0);
    let mut sets = Vec::new();
    for _ in 0..most {
        let Some(cuts) = walk.next_cuts(case, &Distances) else {
            return (sets, false);
        };
        sets.extend(cuts.iter().map(|cut| cut.position()));
    }
    (sets, walk.next_cuts(case, &Distances).is_some())
}
