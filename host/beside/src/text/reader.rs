//! A text's meaning, written from document 01's "Text program" and the lines that document 02 adds: a reader that takes the lines apart, over the
//! unchanged Rust.

use crate::cases::ends::Case;
use crate::cases::polish::{self, RESULT_PLACES};
use crate::oracle::polish::{polish, Counts};
use crate::rules::MOST_BYTES;
use crate::tables::{listed, Tables};

pub const MOST_LOCATIONS: usize = 96;

/// A round polished by the unchanged Rust, with its lengths before and after.
struct Polished {
    counts: Counts,
    before: u64,
    after: u64,
    route: Vec<u32>,
}

/// What the program writes for a text.
pub fn answer(text: &[u8]) -> String {
    match taken(text) {
        Ok(case) => answered(&case),
        Err(number) => format!("refused={number}\n"),
    }
}

/// The lengths before and after of a text that is answered.
pub fn lengths(text: &[u8]) -> Option<(u64, u64)> {
    let Polished { before, after, .. } = polished(&taken(text).ok()?);
    Some((before, after))
}

/// The question of a text, or the number by which it is refused.
fn taken(text: &[u8]) -> Result<Case, u32> {
    let case = read(text).ok_or(10u32)?;
    match case.refusal() {
        0 => Ok(case),
        number => Err(number),
    }
}

fn polished(case: &Case) -> Polished {
    let mut route = case.closed.route.clone();
    let counts = polish(&case.as_closed(), case.closed.allowance, &mut route);
    Polished {
        counts,
        before: case.length(&case.closed.route),
        after: case.length(&route),
        route,
    }
}

fn answered(case: &Case) -> String {
    let Polished {
        counts,
        before,
        after,
        route,
    } = polished(case);
    let answer = if counts.spent { "spent" } else { "finished" };
    let (examined, accepted) = (counts.examined, counts.accepted);
    let (round, late) = (listed(&route), late(case, &route));
    format!("answer={answer}\nexamined={examined}\naccepted={accepted}\nbefore={before}\nafter={after}\nround={round}\nlate={late}\n")
}

/// The position, from 0, of the first late stop in the round that is printed.
fn late(case: &Case, round: &[u32]) -> String {
    let Case { closed, .. } = case;
    let position = closed.tables.late_position(closed.depot, round);
    if position == round.len() as u64 {
        return String::from("none");
    }
    position.to_string()
}

/// None where a text is not of the form.
pub fn read(text: &[u8]) -> Option<Case> {
    if text.len() > MOST_BYTES {
        return None;
    }
    let text = std::str::from_utf8(text).ok()?;
    let mut lines = text.strip_suffix('\n')?.split('\n');
    let k = number(value(lines.next(), "k")?)?;
    let allowance = number(value(lines.next(), "allowance")?)?;
    let locations = number(value(lines.next(), "locations")?)? as usize;
    let depot = number(value(lines.next(), "depot")?)?;
    let end = number(value(lines.next(), "end")?)?;
    if !(1..=MOST_LOCATIONS).contains(&locations) {
        return None;
    }
    let mut legs = Vec::new();
    for _ in 0..locations {
        legs.extend(row(value(lines.next(), "legs")?, locations)?);
    }
    let latest = row(value(lines.next(), "latest")?, locations)?;
    let service = row(value(lines.next(), "service")?, locations)?;
    let route = match value(lines.next(), "round")? {
        "" => Vec::new(),
        words => numbers(words)?,
    };
    if lines.next().is_some() {
        return None;
    }
    let closed = polish::Case {
        k: k as usize,
        allowance: u64::from(allowance),
        tables: Tables {
            locations,
            legs,
            latest,
            service,
            pairs: None,
        },
        depot,
        route,
        room: RESULT_PLACES,
    };
    Some(Case { closed, end })
}

pub fn value<'t>(line: Option<&'t str>, name: &str) -> Option<&'t str> {
    line?.strip_prefix(name)?.strip_prefix('=')
}

fn row(words: &str, entries: usize) -> Option<Vec<u32>> {
    numbers(words).filter(|row| row.len() == entries)
}

fn numbers(words: &str) -> Option<Vec<u32>> {
    words.split(',').map(number).collect()
}

/// 1 to 10 digits, no leading zero but in 0 itself, at most 4294967295.
pub fn number(word: &str) -> Option<u32> {
    let digits = word.bytes().all(|byte| byte.is_ascii_digit());
    let leading = word.len() > 1 && word.starts_with('0');
    if !digits || leading || !(1..=10).contains(&word.len()) {
        return None;
    }
    u32::try_from(word.parse::<u64>().ok()?).ok()
}
