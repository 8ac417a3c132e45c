//! Random calls that are not refused.

use super::polish::Case;
use super::rows::Rows;
use crate::ends::generate::random_ended;
use crate::random::Random;
use crate::trial::Drawn;

/// Stops of the longest route that the scan of the documents is asked for, and the candidates that it examines at most.
const SHORT: usize = 9;
const MOST: u64 = 2000;

/// All patterns by index.
pub fn draw_whole(random: &mut Random, _index: u64) -> Drawn {
    let ended = random_ended(random);
    let rows = Rows::whole(ended.closed.k);
    (Box::new(Case { ended, rows }), None)
}

pub fn draw_rows(random: &mut Random, _index: u64) -> Drawn {
    (Box::new(some_rows(random)), None)
}

pub fn some_rows(random: &mut Random) -> Case {
    let mut ended = random_ended(random);
    ended.closed.route.truncate(SHORT);
    ended.closed.allowance = ended.closed.allowance.min(MOST);
    let rows = Rows::some(random, ended.closed.k);
    Case { ended, rows }
}
