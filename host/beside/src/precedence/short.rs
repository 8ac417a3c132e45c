//! Every call of a small kind: three locations, legs 0, 1 or 3, each list of pairs of a few; and the text case, with lists that are refused too.

use crate::cases::ends::Case;
use crate::cases::polish::{self, RESULT_PLACES};
use crate::draw::lists;
use crate::polish::bounds::text_case;
use crate::random::Random;
use crate::tables::Tables;
use crate::trial::Visit;

/// No pairs, one, some that contradict each other, one twice, the depot with a stop.
const PAIRS: [&[u32]; 8] = [
    &[],
    &[1, 2],
    &[2, 1],
    &[1, 2, 2, 1],
    &[2, 1, 2, 1],
    &[0, 1],
    &[1, 0, 0, 2],
    &[1, 2, 2, 0, 0, 1],
];

/// A member without its partner, one that is no location, equal ones.
const REFUSED: [&[u32]; 9] = [
    &[1],
    &[1, 2, 0],
    &[1, 3],
    &[3, 1],
    &[1, 2, 0, u32::MAX],
    &[1, 1],
    &[0, 0],
    &[1, 2, 2, 2],
    &[3, 3],
];

pub fn each(random: &mut Random, visit: Visit) {
    for pairs in PAIRS.into_iter().chain(REFUSED) {
        for allowance in [0, 6, 7, 10, 11, 100] {
            for route in [vec![1, 2], vec![1], vec![1, 2, 1], vec![2, 0, 1]] {
                let mut closed = text_case(allowance);
                closed.tables.pairs = Some(pairs.to_vec());
                closed.route = route;
                visit(Box::new(Case { closed, end: 0 }));
            }
        }
    }
    for pairs in PAIRS {
        for six in lists(&[0, 1, 3], 6) {
            let legs = vec![0, six[0], six[1], six[2], 0, six[3], six[4], six[5], 0];
            let mut tables = Tables::of_legs(3, legs);
            tables.latest[1] = random.pick([4, u32::MAX, u32::MAX]);
            tables.pairs = Some(pairs.to_vec());
            visit(Box::new(some_call(random, tables)));
        }
    }
}

/// Up to five stops, which repeat, to any end.
fn some_call(random: &mut Random, tables: Tables) -> Case {
    let stops = random.within(2, 5);
    let closed = polish::Case {
        k: random.within(2, 4),
        allowance: u64::MAX,
        tables,
        depot: 0,
        route: (0..stops).map(|_| random.index(3) as u32).collect(),
        room: RESULT_PLACES,
    };
    let end = random.index(3) as u32;
    Case { closed, end }
}
