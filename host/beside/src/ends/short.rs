//! Every call of a small kind: three locations, legs 0, 1 or 3, up to three stops, each end, no deadline or location 1 due at 1; and the text case.

use crate::cases::ends::Case;
use crate::cases::polish::{self, RESULT_PLACES};
use crate::draw::{lists, with_times};
use crate::polish::bounds::text_case;
use crate::random::Random;
use crate::tables::Tables;
use crate::trial::Visit;

pub fn each(random: &mut Random, visit: Visit) {
    for end in 0..4 {
        for allowance in [0, 3, 10, 11, 100] {
            let closed = text_case(allowance);
            visit(Box::new(Case { closed, end }));
        }
    }
    for six in lists(&[0, 1, 3], 6) {
        let legs = vec![0, six[0], six[1], six[2], 0, six[3], six[4], six[5], 0];
        let due = random.pick([1, u32::MAX]);
        let latest = vec![u32::MAX, due, u32::MAX];
        let tables = with_times(Tables::of_legs(3, legs), latest, vec![0; 3]);
        for route in [vec![], vec![1], vec![1, 2], vec![2, 1, 0], vec![1, 2, 1]] {
            each_end(&tables, &route, visit);
        }
    }
}

fn each_end(tables: &Tables, route: &[u32], visit: Visit) {
    for end in 0..3 {
        for k in 2..=4 {
            let closed = polish::Case {
                k,
                allowance: u64::MAX,
                tables: tables.clone(),
                depot: 0,
                route: route.to_vec(),
                room: RESULT_PLACES,
            };
            visit(Box::new(Case { closed, end }));
        }
    }
}
