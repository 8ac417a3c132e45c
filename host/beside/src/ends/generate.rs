//! Random calls that are not refused: those of polishing, with an end.

use crate::cases::ends::Case;
use crate::oracle::polish::polish;
use crate::polish::generate::random_case;
use crate::random::Random;
use crate::tables::Tables;
use crate::trial::Drawn;

pub fn draw(random: &mut Random, _index: u64) -> Drawn {
    (Box::new(random_ended(random)), None)
}

pub fn random_ended(random: &mut Random) -> Case {
    let closed = random_case(random);
    let end = some_end(random, &closed.tables, closed.depot);
    let mut case = Case { closed, end };
    if random.one_in(2) {
        case.closed.allowance = near_the_whole(random, &case);
    }
    case
}

/// Any location, seldom the depot itself.
pub fn some_end(random: &mut Random, tables: &Tables, depot: u32) -> u32 {
    let end = random.index(tables.locations) as u32;
    random.pick([end, end, end, depot])
}

/// About as many candidates as the Rust examines until it is finished or has examined some.
pub fn near_the_whole(random: &mut Random, case: &Case) -> u64 {
    let most = if case.closed.route.len() > 64 {
        200
    } else {
        1 << 12
    };
    let examined = polish(&case.as_closed(), most, &mut case.closed.route.clone()).examined;
    random.pick([examined.saturating_sub(1), examined, examined + 1])
}
