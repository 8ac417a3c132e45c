//! Problems, written into a lent text.

use crate::cases::ends::Case;
use crate::cases::polish;
use crate::damage::unknown;
use crate::ends::generate::random_ended;
use crate::ffi;
use crate::lent::{bits, filled, Lent};
use crate::polish::bounds::text_case;
use crate::polish::damage::damage;
use crate::random::Random;
use crate::rules::{first_refusal, MOST_BYTES};
use crate::tables::Tables;
use crate::text::generate::text_of;
use crate::text::reader::MOST_LOCATIONS;
use crate::trial::{put, Drawn, Reply, Trial, Visit};
use std::fmt::{Display, Formatter, Result as Written};

struct Problem {
    case: Case,
    /// Bytes of the lent text, and places of the result.
    text: usize,
    room: usize,
}

impl Problem {
    fn refusal(&self, size: usize) -> u32 {
        let closed = &self.case.closed;
        let beyond = closed.tables.locations > MOST_LOCATIONS
            || closed.allowance > u64::from(u32::MAX)
            || size > MOST_BYTES;
        match self.case.refusal() {
            0 => first_refusal(&[(31, beyond), (21, self.text < size || self.room < 1)]),
            number => number,
        }
    }
}

impl Trial for Problem {
    fn expected(&self) -> Reply {
        let text = text_of(&self.case);
        let code = self.refusal(text.len());
        let (mut lent, mut result) = (vec![0xee; self.text], filled(self.room));
        if code == 0 {
            lent[..text.len()].copy_from_slice(&text);
            put(&mut result, &[text.len() as u64]);
        }
        Reply::new(code, [("text", bits(&lent)), ("result", result)])
    }

    fn given(&self) -> Result<Reply, String> {
        let Case { closed, end } = &self.case;
        let tables = &closed.tables;
        let (no_text, room) = (vec![0xee; self.text], filled(self.room));
        let mut legs = Lent::new("legs", &tables.legs);
        let mut latest = Lent::new("latest", &tables.latest);
        let mut service = Lent::new("service", &tables.service);
        let mut route = Lent::new("route", &closed.route);
        let mut text = Lent::new("text", &no_text);
        let mut result = Lent::new("result", &room);
        let code = ffi::write_problem(
            closed.k,
            closed.allowance,
            tables.locations,
            legs.slice(),
            latest.slice(),
            service.slice(),
            closed.depot,
            *end,
            route.slice(),
            text.slice(),
            result.slice(),
        );
        for lent in [&legs, &latest, &service, &route] {
            lent.kept()?;
        }
        if code == 0 {
            let size = result.slice()[0] as usize;
            self.read_again(&text.slice()[..size])?;
        }
        Ok(Reply::new(code, [text.written()?, result.written()?]))
    }

    fn kind(&self, _expected: &Reply) -> &'static str {
        "written"
    }
}

impl Problem {
    /// "Reading the text back returns the problem."
    fn read_again(&self, text: &[u8]) -> Result<(), String> {
        let Case { closed, end } = &self.case;
        let tables = &closed.tables;
        let wanted = [&tables.legs, &tables.latest, &tables.service, &closed.route];
        let [mut legs, mut latest, mut service, mut route] = wanted.map(|list| vec![0; list.len()]);
        let mut result = [0; 6];
        let code = ffi::read_problem(
            text,
            &mut legs,
            &mut latest,
            &mut service,
            &mut route,
            &mut result,
        );
        let numbers = [
            closed.k as u64,
            closed.allowance,
            tables.locations as u64,
            u64::from(closed.depot),
            u64::from(*end),
            closed.route.len() as u64,
        ];
        let read = [&legs, &latest, &service, &route];
        if code == 0 && read == wanted && result == numbers {
            return Ok(());
        }
        Err(format!("read again: {code}, {result:?}\n"))
    }
}

impl Display for Problem {
    fn fmt(&self, out: &mut Formatter<'_>) -> Written {
        let (text, room) = (self.text, self.room);
        writeln!(out, "text: {text} bytes, result: {room} places")?;
        write!(out, "{}", self.case)
    }
}

fn some(random: &mut Random, case: Case) -> Problem {
    let size = text_of(&case).len();
    let near = (size + random.below(3) as usize).saturating_sub(1);
    Problem {
        text: random.pick([near, size, MOST_BYTES]).min(MOST_BYTES + 1),
        room: random.pick([0, 1, 1, 2]),
        case,
    }
}

pub fn draw(random: &mut Random, _index: u64) -> Drawn {
    let case = random_ended(random);
    (Box::new(some(random, case)), None)
}

/// Refusal numbers of what is written, the last of the stated order first.
const NUMBERS: [u32; 9] = [21, 31, 5, 24, 4, 23, 3, 2, 1];

/// How many sets of them there are.
pub const SETS: u64 = 1 << NUMBERS.len();

pub fn draw_refused(random: &mut Random, index: u64) -> Drawn {
    let case = random_ended(random);
    let mut problem = Problem {
        text: MOST_BYTES,
        room: 1,
        case,
    };
    for (bit, &number) in NUMBERS.iter().enumerate() {
        if (index >> bit) & 1 == 1 {
            match number {
                21 if random.one_in(2) => problem.text = random.below(40) as usize,
                21 => problem.room = 0,
                31 => problem.case.closed.allowance = (1 << 32) + random.below(9),
                24 => problem.case.end = unknown(random, &problem.case.closed.tables),
                _ => damage(random, &mut problem.case.closed, number),
            }
        }
    }
    (Box::new(problem), None)
}

/// So many locations with one leg between all of them.
fn square(locations: usize, leg: u32) -> Case {
    let legs = vec![leg; locations * locations];
    let closed = polish::Case {
        tables: Tables::of_legs(locations, legs),
        ..text_case(100)
    };
    Case { closed, end: 0 }
}

/// A case whose text has so many bytes: legs of more digits, from the first on.
fn of_bytes(bytes: usize) -> Case {
    let mut case = square(MOST_LOCATIONS, 0);
    let mut missing = bytes - text_of(&case).len();
    for leg in &mut case.closed.tables.legs {
        let more = missing.min(5);
        missing -= more;
        *leg = if more > 0 { 10u32.pow(more as u32) } else { 0 };
    }
    case
}

pub fn each_bound(_random: &mut Random, visit: Visit) {
    let mut cases = vec![Case {
        closed: text_case(100),
        end: 2,
    }];
    for allowance in [0, u64::from(u32::MAX), 1 << 32, u64::MAX] {
        cases.push(Case {
            closed: text_case(allowance),
            end: 0,
        });
    }
    for stops in [0, 1, 511, 512, 513] {
        let mut case = square(1, 7);
        case.closed.route = vec![0; stops];
        cases.push(case);
    }
    for locations in [3, 95, 96, 97, 1000, 1024, 1025] {
        cases.extend([0, 1_000_000, 1_000_001].map(|leg| square(locations, leg)));
    }
    cases.extend([59_999, 60_000, 60_001, 60_002].map(of_bytes));
    for case in cases {
        let size = text_of(&case).len();
        for text in [0, 3, size - 1, size, size + 1, MOST_BYTES] {
            for room in [0, 1, 2] {
                let (case, text) = (case.clone(), text.min(MOST_BYTES + 2));
                visit(Box::new(Problem { case, text, room }));
            }
        }
    }
}
