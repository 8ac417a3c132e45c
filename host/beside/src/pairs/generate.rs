//! Random calls that are not refused.

use super::plain::pair_loop;
use crate::cases::pairs::Case;
use crate::draw::{order, set_times, some_depot, some_legs};
use crate::polish::generate::without_allowance;
use crate::random::Random;
use crate::tables::Tables;
use crate::trial::Drawn;

pub fn draw(random: &mut Random, _index: u64) -> Drawn {
    (Box::new(random_case(random)), None)
}

/// Longer routes, of which many are finished.
pub fn draw_long(random: &mut Random, _index: u64) -> Drawn {
    let stops = random.within(40, 160);
    let locations = stops + random.within(1, 40);
    let mut tables = Tables::of_legs(locations, some_legs(random, locations));
    let depot = some_depot(random, locations);
    let route = order(random, locations, depot, stops);
    if random.one_in(2) {
        set_times(random, &mut tables, depot, &route);
    }
    let mut long = without_allowance(random, 2);
    (long.tables, long.depot, long.route) = (tables, depot, route);
    long.allowance = random.below(1 << 18);
    (Box::new(Case::new(long)), None)
}

/// With an allowance near one that matters.
pub fn random_case(random: &mut Random) -> Case {
    let case = asked(random);
    let allowance = allowance(random, &case);
    case.with_allowance(allowance)
}

pub fn asked(random: &mut Random) -> Case {
    Case::new(without_allowance(random, 2))
}

/// None, one, few, or about as many as are examined until the loop is finished or has examined a given number.
fn allowance(random: &mut Random, case: &Case) -> u64 {
    match random.below(20) {
        0 => return 0,
        1 => return 1,
        2 => return random.below(60),
        _ => {}
    }
    let stops = case.asked().route.len();
    let doublings = random.within(4, if stops > 64 { 8 } else { 13 });
    let most = (1 << doublings) + random.below(1 << doublings);
    let paired = pair_loop(case, most);
    let whole = if paired.spent {
        paired.examined
    } else {
        u64::MAX - random.below(2)
    };
    let some = random.below(paired.examined + 1);
    let around = [
        paired.examined.saturating_sub(1),
        paired.examined,
        paired.examined + 1,
    ];
    random.pick([around[0], around[1], around[2], some, whole])
}
