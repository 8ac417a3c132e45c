//! The unchanged Rust below `crate::heuristic`, each file where its names are looked for.

pub(crate) mod r#move {
    include!(concat!(env!("OUT_DIR"), "/k_opt.rs"));
    include!(concat!(env!("OUT_DIR"), "/k_opt_reconnection.rs"));
    include!(concat!(env!("OUT_DIR"), "/metadata.rs"));

    pub(crate) type ListUndoJournal<T> = crate::SmallVec<[T; 24]>;

    pub(crate) use k_opt::CutPoint;
    pub(crate) use metadata::MoveTabuSignature;

    pub(crate) mod list_kernel {
        use crate::stand_ins::lists::{ListRangeAccess, ListWindowAccess};

        include!(concat!(env!("OUT_DIR"), "/k_opt_moves.rs"));
        pub(crate) use k_opt_moves::{k_opt_do_move, k_opt_is_doable, k_opt_undo_move};
    }
}

pub(crate) mod selector {
    pub(crate) mod k_opt {
        pub(crate) use crate::stand_ins::selection::ListPositionDistanceMeter;
    }

    /// iter.rs is written to be included: it has no `use` of its own for most of its names.
    #[allow(dead_code)]
    pub(crate) mod move_selector {
        use crate::domain::PlanningSolution;
        use crate::stand_ins::selection::{Move, MoveCursor};
        use crate::Director;
        use std::fmt::Debug;
        use std::marker::PhantomData;

        include!(concat!(env!("OUT_DIR"), "/iter.rs"));
    }

    pub(crate) mod nearby {
        include!(concat!(env!("OUT_DIR"), "/nearby_state.rs"));
    }
}
