//! Moves: apply, undo and the doable check beside `k_opt_do_move`, `k_opt_undo_move` and `k_opt_is_doable`.

pub mod apply;
pub mod case;
mod damage;
pub mod doable;
pub mod generate;
pub mod undo;

use crate::trial::{Family, Source};

const APPLY: &str = "k_opt_do_move";
const UNDO: &str = "k_opt_undo_move";
const DOABLE: &str = "k_opt_is_doable";

pub const FAMILIES: [Family; 11] = [
    Family::new(APPLY, "apply/short", Source::Each(generate::each_short)),
    Family::new(
        APPLY,
        "apply/few-cuts",
        Source::Each(generate::each_few_cuts_applied),
    ),
    Family::new(
        APPLY,
        "apply/journals",
        Source::Each(generate::each_journal),
    )
    .on_small_stack(),
    Family::new(
        APPLY,
        "apply/random",
        Source::Drawn(600, 0, generate::draw_apply),
    ),
    Family::new(
        APPLY,
        "apply/loose",
        Source::Drawn(300, 0, generate::draw_loose),
    ),
    Family::new(
        APPLY,
        "apply/damaged",
        Source::Drawn(300, damage::APPLY_SETS, damage::draw_apply),
    ),
    Family::new(UNDO, "undo/lengths", Source::Each(undo::each_length)),
    Family::new(UNDO, "undo/random", Source::Drawn(200, 0, undo::draw)),
    Family::new(
        DOABLE,
        "doable/few-cuts",
        Source::Each(generate::each_few_cuts_asked),
    ),
    Family::new(
        DOABLE,
        "doable/random",
        Source::Drawn(300, 0, generate::draw_doable),
    ),
    Family::new(
        DOABLE,
        "doable/damaged",
        Source::Drawn(100, damage::DOABLE_SETS, damage::draw_doable),
    ),
];
