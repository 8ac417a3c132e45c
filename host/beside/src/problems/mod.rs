//! A problem as text: `mittenschist_read_problem` and `mittenschist_write_problem`, beside the harness's own reader and its own lines. What is read is written again, and what is
//! written is read again.

mod read;
mod write;

use crate::text::{damage, generate};
use crate::trial::{Family, Source};

const READ: &str = "read_problem";
const WRITE: &str = "write_problem";

pub const FAMILIES: [Family; 7] = [
    Family::new(READ, "problems/read-bounds", Source::Each(read::each_bound)).on_small_stack(),
    Family::new(READ, "problems/read", Source::Drawn(40, 0, read::draw)),
    Family::new(
        READ,
        "problems/read-refused",
        Source::Drawn(20, generate::SETS, read::draw_refused),
    ),
    Family::new(
        READ,
        "problems/read-damaged",
        Source::Drawn(60, damage::KINDS * 10, read::draw_damaged),
    ),
    Family::new(
        WRITE,
        "problems/write-bounds",
        Source::Each(write::each_bound),
    )
    .on_small_stack(),
    Family::new(WRITE, "problems/write", Source::Drawn(40, 0, write::draw)),
    Family::new(
        WRITE,
        "problems/write-refused",
        Source::Drawn(40, write::SETS, write::draw_refused),
    ),
];
