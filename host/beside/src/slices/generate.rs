//! Slices from any place, and places that are none.

use super::case::Case;
use super::plain::first_place;
use crate::cases::ends;
use crate::ends::plain::cut_sets;
use crate::polish::bounds::text_case;
use crate::precedence::generate::random_paired;
use crate::random::Random;
use crate::rules::pattern_count;
use crate::trial::{Drawn, Visit};

/// The ways in which a place is damaged, for each number.
pub const SETS: u64 = 7;

/// Every place of the text case with each allowance up to two passes, and one more cut than it has positions.
pub fn each(_random: &mut Random, visit: Visit) {
    for k in 2..=5 {
        for allowance in 0..=16 {
            let mut closed = text_case(allowance);
            closed.k = k;
            let asked = ends::Case {
                end: closed.depot,
                closed,
            };
            let sets = cut_sets(k, 0, asked.closed.route.len());
            if sets.is_empty() {
                visit(Box::new(Case {
                    asked: asked.clone(),
                    place: vec![9; k + 1],
                }));
            }
            for cuts in sets {
                for index in 0..pattern_count(k) as u64 {
                    let cuts = cuts.iter().map(|&cut| cut as u64);
                    let place = cuts.chain([index]).collect();
                    visit(Box::new(Case {
                        asked: asked.clone(),
                        place,
                    }));
                }
            }
        }
    }
}

pub fn draw(random: &mut Random, _index: u64) -> Drawn {
    (Box::new(anywhere(random)), Some(0))
}

fn anywhere(random: &mut Random) -> Case {
    let mut asked = random_paired(random);
    let k = asked.closed.k;
    let stops = random.index([13, 9, 8, 7][k - 2]);
    asked.closed.route.truncate(stops);
    asked.closed.allowance = if random.one_in(2) {
        random.below(60)
    } else {
        asked.closed.allowance.min(2000)
    };
    let sets = cut_sets(k, 0, asked.closed.route.len());
    let mut place = first_place(k);
    if let Some(cuts) = sets.get(random.index(sets.len())) {
        place = cuts.iter().map(|&cut| cut as u64).collect();
        place.push(random.below(pattern_count(k) as u64));
    }
    place.extend(vec![77; random.index(3)]);
    Case { asked, place }
}

pub fn draw_damaged(random: &mut Random, index: u64) -> Drawn {
    let mut case = anywhere(random);
    let (k, n) = (case.asked.closed.k, case.asked.closed.route.len() as u64);
    let bad_index = pattern_count(k) as u64 + random.pick([0, 1, u64::MAX - 383]);
    match index % SETS {
        0 => case.place[k] = bad_index,
        1 => case.place[k - 1] = random.pick([n + 1, u64::MAX]),
        2 => case.place[1] = case.place[0],
        3 => {
            case.place[k] = bad_index;
            case.place[0] = n + 1;
        }
        4 => case.place.truncate(k),
        5 => {
            let kept = random.index(k);
            case.place.truncate(kept);
        }
        _ => case.asked.closed.room = random.index(6),
    }
    (Box::new(case), None)
}
