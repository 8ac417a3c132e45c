//! Random calls that are not refused: those without pairs, with pairs.

use super::lists::set_pairs;
use crate::cases::{ends, run};
use crate::draw::some_legs;
use crate::ends::generate::{near_the_whole, random_ended, some_end};
use crate::ends::runs::to_ends;
use crate::lists;
use crate::lists::generate::some_rows;
use crate::lists::rows::Rows;
use crate::polish::stretches::route_of;
use crate::random::Random;
use crate::run::damage::with_a_round;
use crate::run::generate::random_run;
use crate::trial::Drawn;

pub fn draw(random: &mut Random, _index: u64) -> Drawn {
    (Box::new(random_paired(random)), None)
}

pub fn draw_long(random: &mut Random, _index: u64) -> Drawn {
    (Box::new(long_paired(random)), None)
}

pub fn draw_list(random: &mut Random, _index: u64) -> Drawn {
    (Box::new(random_paired_list(random)), None)
}

pub fn draw_run(random: &mut Random, _index: u64) -> Drawn {
    (Box::new(random_paired_run(random)), None)
}

/// Longer routes, of which many are finished for k = 2 and few for k = 5.
pub fn long_paired(random: &mut Random) -> ends::Case {
    let k = random.within(2, 5);
    let stops = random.within(8, [120, 40, 24, 16][k - 2]);
    let mut closed = route_of(random, k, stops);
    closed.tables.legs = some_legs(random, closed.tables.locations);
    closed.allowance = random.below(1 << 17);
    let end = some_end(random, &closed.tables, closed.depot);
    let mut case = ends::Case { closed, end };
    pair(random, &mut case);
    case
}

pub fn random_paired(random: &mut Random) -> ends::Case {
    let mut case = random_ended(random);
    pair(random, &mut case);
    if random.one_in(2) {
        case.closed.allowance = near_the_whole(random, &case);
    }
    case
}

fn pair(random: &mut Random, case: &mut ends::Case) {
    let closed = &mut case.closed;
    set_pairs(random, &mut closed.tables, closed.depot, &closed.route);
}

/// All patterns by index, which the Rust answers, or some of them.
pub fn random_paired_list(random: &mut Random) -> lists::Case {
    if random.one_in(2) {
        let ended = random_paired(random);
        let rows = Rows::whole(ended.closed.k);
        return lists::Case { ended, rows };
    }
    let mut case = some_rows(random);
    pair(random, &mut case.ended);
    case
}

/// Pairs for one of the rounds, which the others keep or not. Half of the runs end where they begin.
pub fn random_paired_run(random: &mut Random) -> run::Case {
    let mut case = with_a_round(random_run(random));
    case.ends = Some(case.depots.clone());
    if random.one_in(2) {
        case = to_ends(random, case);
    }
    let chosen = random.index(case.lengths.len());
    let (depot, round) = (case.depots[chosen], case.rounds()[chosen].to_vec());
    set_pairs(random, &mut case.tables, depot, &round);
    case
}
