//! Texts of the form, and those at its bounds.

use super::case::Text;
use crate::cases::ends;
use crate::cases::polish::{Case, RESULT_PLACES};
use crate::damage::{a_service_time, unknown};
use crate::ends::generate::random_ended;
use crate::polish::bounds::{late_text_case, served_text_case, text_case};
use crate::polish::damage::damage;
use crate::random::Random;
use crate::tables::{listed, Tables};
use crate::trial::{Drawn, Visit};

pub fn draw(random: &mut Random, _index: u64) -> Drawn {
    (Box::new(Text(good(random))), None)
}

/// Refusal numbers of what a text holds, the last of the stated order first.
const NUMBERS: [u32; 6] = [5, 24, 4, 23, 3, 1];

/// How many sets of them there are.
pub const SETS: u64 = 1 << NUMBERS.len();

pub fn draw_refused(random: &mut Random, index: u64) -> Drawn {
    (Box::new(Text(refused(random, index))), None)
}

/// A text of the form whose values are refused: a set of damages to them.
pub fn refused(random: &mut Random, index: u64) -> Vec<u8> {
    let mut case = random_ended(random);
    for (bit, &number) in NUMBERS.iter().enumerate() {
        if (index >> bit) & 1 == 1 {
            match number {
                // Another number of entries would be 10.
                23 => a_service_time(random, &mut case.closed.tables),
                24 => case.end = unknown(random, &case.closed.tables),
                _ => damage(random, &mut case.closed, number),
            }
        }
    }
    written_to(&case)
}

/// A text that is read, as long as its locations are few enough.
pub fn good(random: &mut Random) -> Vec<u8> {
    written_to(&random_ended(random))
}

/// A closed tour.
fn written(case: &Case) -> Vec<u8> {
    written_to(&ends::Case {
        closed: case.clone(),
        end: case.depot,
    })
}

/// A case as the program reads it; an allowance that no text can hold becomes the largest.
fn written_to(ended: &ends::Case) -> Vec<u8> {
    let mut ended = ended.clone();
    ended.closed.allowance = ended.closed.allowance.min(u64::from(u32::MAX));
    text_of(&ended)
}

/// The lines of a case, whatever its values are.
pub fn text_of(ended: &ends::Case) -> Vec<u8> {
    let case = &ended.closed;
    let allowance = case.allowance;
    let Tables {
        locations,
        legs,
        latest,
        service,
        ..
    } = &case.tables;
    let mut text = format!(
        "k={}\nallowance={allowance}\nlocations={locations}\ndepot={}\nend={}\n",
        case.k, case.depot, ended.end
    );
    for row in legs.chunks((*locations).max(1)) {
        text += &format!("legs={}\n", listed(row));
    }
    text += &format!("latest={}\nservice={}\n", listed(latest), listed(service));
    text += &format!("round={}\n", listed(&case.route));
    text.into_bytes()
}

pub fn each_bound(random: &mut Random, visit: Visit) {
    bounds(random, &mut |text| visit(Box::new(Text(text))));
}

/// Texts at the bounds of the form and of its values.
pub fn bounds(random: &mut Random, visit: &mut dyn FnMut(Vec<u8>)) {
    for end in 0..4 {
        let closed = text_case(100);
        visit(written_to(&ends::Case { closed, end }));
    }
    let mut visit = |case: &Case| visit(written(case));
    for allowance in [0, 3, 10, 11, 100, u64::MAX] {
        visit(&text_case(allowance));
    }
    for (latest, service) in [(11, 10), (12, 10), (9, 1_000_000), (9, 1_000_001)] {
        visit(&served_text_case(latest, service));
    }
    for (latest_of_1, latest_of_2) in [(0, 0), (u32::MAX, 0), (5, 9), (2, 1), (1, 1)] {
        visit(&late_text_case(latest_of_1, latest_of_2));
    }
    for entries in [0, 1, 2, 4] {
        let mut case = text_case(100);
        case.tables.service = vec![1_000_001; entries];
        visit(&case);
    }
    for stops in [0, 1, 511, 512, 513, 29_000] {
        visit(&stops_of_one_place(stops));
        // The last is the first late one.
        let mut late = stops_of_one_place(stops);
        late.tables.latest[0] = (7 * stops).saturating_sub(1) as u32;
        visit(&late);
    }
    for locations in [1, 95, 96, 97, 1000] {
        visit(&some_locations(random, locations));
    }
    // As long as a text may be, and by one byte longer.
    let empty = written(&stops_of_one_place(0)).len();
    for bytes in [59_999, 60_000, 60_001, 60_002, 61_001] {
        visit(&filled_up(bytes - empty));
    }
}

fn stops_of_one_place(stops: usize) -> Case {
    Case {
        k: 2,
        allowance: 1000,
        tables: Tables::of_legs(1, vec![7]),
        depot: 0,
        route: vec![0; stops],
        room: RESULT_PLACES,
    }
}

/// A route that takes so many bytes: each stop one digit and a comma but for the last, which may have two.
fn filled_up(bytes: usize) -> Case {
    let mut case = stops_of_one_place(bytes.div_ceil(2));
    if bytes % 2 == 0 {
        case.route.pop();
        case.route.extend([10]);
    }
    case
}

fn some_locations(random: &mut Random, locations: usize) -> Case {
    let legs = (0..locations * locations)
        .map(|_| random.below(9) as u32)
        .collect();
    Case {
        k: 3,
        allowance: 500,
        tables: Tables::of_legs(locations, legs),
        depot: 0,
        route: (0..locations as u32).collect(),
        room: RESULT_PLACES,
    }
}
