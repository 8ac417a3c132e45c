//! The planted cases of polishing, where the one route that may be taken is told by pairs and not by deadlines: each stop before the next. The count of
//! candidates then shows where the scan found it. With some of those pairs other orders are taken too, and with one turned round that one is not.

use crate::cases::ends;
use crate::polish::planted::planted_case;
use crate::random::Random;
use crate::trial::Drawn;

pub fn draw(random: &mut Random, index: u64) -> Drawn {
    let mut closed = planted_case(random, index, 0);
    let mut target = closed.route.clone();
    target.sort_by_key(|&stop| closed.tables.latest[stop as usize]);
    closed.tables.latest.fill(u32::MAX);
    let mut pairs: Vec<[u32; 2]> = target.windows(2).map(|two| [two[0], two[1]]).collect();
    match random.below(3) {
        0 => {}
        1 => pairs.retain(|_| random.one_in(2)),
        _ => {
            let chosen = random.index(pairs.len());
            pairs
                .iter_mut()
                .skip(chosen)
                .take(1)
                .for_each(|pair| pair.reverse());
        }
    }
    closed.tables.pairs = Some(pairs.concat());
    let end = closed.depot;
    (Box::new(ends::Case { closed, end }), None)
}
