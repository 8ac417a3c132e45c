//! Texts, read into lent lists.

use crate::cases::ends::Case;
use crate::ffi;
use crate::lent::{bits, filled, filled_u32, Lent};
use crate::random::Random;
use crate::rules::{MOST_BYTES, MOST_STOPS};
use crate::text::damage::damaged_text;
use crate::text::generate::{bounds, good, refused};
use crate::text::reader::{read, MOST_LOCATIONS};
use crate::trial::{put, Drawn, Reply, Trial, Visit};
use std::fmt::{Display, Formatter, Result as Written};

const NUMBERS: usize = 6;

struct Text {
    text: Vec<u8>,
    /// Places for the legs, the deadlines, the service times, the stops and the numbers.
    rooms: [usize; 5],
}

/// Room for every problem.
const WHOLE: [usize; 5] = [
    MOST_LOCATIONS * MOST_LOCATIONS,
    MOST_LOCATIONS,
    MOST_LOCATIONS,
    MOST_STOPS,
    NUMBERS,
];

impl Text {
    /// With room for every problem, or with a place more or less than the text's problem needs.
    fn new(random: &mut Random, text: Vec<u8>) -> Self {
        let mut rooms = WHOLE;
        if let Some(case) = read(&text).filter(|_| random.one_in(2)) {
            rooms = needed(&case);
            let place = random.index(rooms.len());
            rooms[place] =
                (rooms[place] + random.pick([0, 1, 9])).saturating_sub(random.below(2) as usize);
        }
        Self { text, rooms }
    }

    fn refusal(&self, case: &Case) -> u32 {
        let short = needed(case)
            .iter()
            .zip(&self.rooms)
            .any(|(needed, lent)| lent < needed);
        match case.refusal() {
            0 if short => 21,
            number => number,
        }
    }
}

fn needed(case: &Case) -> [usize; 5] {
    let tables = &case.closed.tables;
    let lists = [
        &tables.legs,
        &tables.latest,
        &tables.service,
        &case.closed.route,
    ];
    let [legs, latest, service, route] = lists.map(Vec::len);
    [legs, latest, service, route, NUMBERS]
}

fn numbers(case: &Case) -> [u64; NUMBERS] {
    let closed = &case.closed;
    [
        closed.k as u64,
        closed.allowance,
        closed.tables.locations as u64,
        u64::from(closed.depot),
        u64::from(case.end),
        closed.route.len() as u64,
    ]
}

impl Trial for Text {
    fn expected(&self) -> Reply {
        let case = read(&self.text);
        let code = case.as_ref().map_or(10, |case| self.refusal(case));
        let [legs, latest, service, route, room] = self.rooms;
        let mut lists = [legs, latest, service, route].map(filled_u32);
        let mut result = filled(room);
        if let Some(case) = case.filter(|_| code == 0) {
            let tables = &case.closed.tables;
            let values = [
                &tables.legs,
                &tables.latest,
                &tables.service,
                &case.closed.route,
            ];
            for (list, values) in lists.iter_mut().zip(values) {
                list[..values.len()].copy_from_slice(values);
            }
            put(&mut result, &numbers(&case));
        }
        let [legs, latest, service, route] = lists.map(|list| bits(&list));
        let lent = [
            ("legs", legs),
            ("latest", latest),
            ("service", service),
            ("route", route),
            ("result", result),
        ];
        Reply::new(code, lent)
    }

    fn given(&self) -> Result<Reply, String> {
        let [legs, latest, service, route, room] = self.rooms;
        let lists = [legs, latest, service, route].map(filled_u32);
        let room = filled(room);
        let mut text = Lent::new("text", &self.text);
        let mut legs = Lent::new("legs", &lists[0]);
        let mut latest = Lent::new("latest", &lists[1]);
        let mut service = Lent::new("service", &lists[2]);
        let mut route = Lent::new("route", &lists[3]);
        let mut result = Lent::new("result", &room);
        let code = ffi::read_problem(
            text.slice(),
            legs.slice(),
            latest.slice(),
            service.slice(),
            route.slice(),
            result.slice(),
        );
        text.kept()?;
        if code == 0 {
            self.written_again(
                legs.slice(),
                latest.slice(),
                service.slice(),
                route.slice(),
                result.slice(),
            )?;
        }
        let lent = [
            legs.written()?,
            latest.written()?,
            service.written()?,
            route.written()?,
            result.written()?,
        ];
        Ok(Reply::new(code, lent))
    }

    fn kind(&self, expected: &Reply) -> &'static str {
        match expected.number(4, 5) {
            0 => "read, an empty round",
            _ => "read",
        }
    }
}

impl Text {
    /// "Writing a problem that was read returns its bytes."
    fn written_again(
        &self,
        legs: &[u32],
        latest: &[u32],
        service: &[u32],
        route: &[u32],
        result: &[u64],
    ) -> Result<(), String> {
        let (locations, stops) = (result[2] as usize, result[5] as usize);
        let (mut text, mut size) = (vec![0; MOST_BYTES], [0]);
        let code = ffi::write_problem(
            result[0] as usize,
            result[1],
            locations,
            &legs[..locations * locations],
            &latest[..locations],
            &service[..locations],
            result[3] as u32,
            result[4] as u32,
            &route[..stops],
            &mut text,
            &mut size,
        );
        if code == 0 && text[..size[0] as usize] == self.text {
            return Ok(());
        }
        Err(format!("written again: {code}, {} bytes\n", size[0]))
    }
}

impl Display for Text {
    fn fmt(&self, out: &mut Formatter<'_>) -> Written {
        writeln!(out, "rooms: {:?}", self.rooms)?;
        let shown = &self.text[..self.text.len().min(4000)];
        writeln!(out, "({} bytes)\n{}", self.text.len(), shown.escape_ascii())
    }
}

pub fn draw(random: &mut Random, _index: u64) -> Drawn {
    let text = good(random);
    (Box::new(Text::new(random, text)), None)
}

pub fn draw_refused(random: &mut Random, index: u64) -> Drawn {
    let text = refused(random, index);
    (Box::new(Text::new(random, text)), None)
}

pub fn draw_damaged(random: &mut Random, index: u64) -> Drawn {
    let text = good(random);
    let text = damaged_text(random, text, index);
    (Box::new(Text::new(random, text)), None)
}

/// Texts at their bounds; and room that is short by one, of each list.
pub fn each_bound(random: &mut Random, visit: Visit) {
    let mut texts = Vec::new();
    bounds(random, &mut |text| texts.push(text));
    for text in texts {
        if let Some(case) = read(&text) {
            for place in 0..WHOLE.len() {
                let mut rooms = needed(&case);
                visit(Box::new(Text {
                    text: text.clone(),
                    rooms,
                }));
                rooms[place] = rooms[place].saturating_sub(1);
                visit(Box::new(Text {
                    text: text.clone(),
                    rooms,
                }));
            }
        }
        visit(Box::new(Text { text, rooms: WHOLE }));
    }
}
