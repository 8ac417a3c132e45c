//! Texts that were of the form and are damaged; some stay good.

use super::case::Text;
use super::generate::good;
use crate::random::Random;
use crate::trial::Drawn;

/// How many kinds of damage there are.
pub const KINDS: u64 = 14;

const BYTES: [u8; 20] = *b"0123456789,=\n\r\t -+k\xff";

/// Numbers that no text may hold, and some that it may.
const NUMBERS: [&str; 14] = [
    "",
    "0",
    "00",
    "01",
    "1",
    "97",
    "1000001",
    "4294967295",
    "4294967296",
    "9999999999",
    "0000000001",
    "10000000000",
    "-1",
    "18446744073709551617",
];

pub fn draw(random: &mut Random, index: u64) -> Drawn {
    let text = good(random);
    (Box::new(Text(damaged_text(random, text, index))), None)
}

/// A text damaged once or twice.
pub fn damaged_text(random: &mut Random, mut text: Vec<u8>, index: u64) -> Vec<u8> {
    damage(random, &mut text, index % KINDS);
    if random.one_in(4) {
        let kind = random.below(KINDS);
        damage(random, &mut text, kind);
    }
    text
}

fn damage(random: &mut Random, text: &mut Vec<u8>, kind: u64) {
    let place = random.index(text.len().max(1)).min(text.len());
    match kind {
        0 => text.truncate(place),
        1 => text.insert(place, random.pick(BYTES)),
        2 if !text.is_empty() => text[place] = random.pick(BYTES),
        3 if !text.is_empty() => drop(text.remove(place)),
        4 => drop(text.pop()),
        5 => text.push(random.pick(BYTES)),
        6 => text.extend(b"round=\n"),
        7 => replace_number(random, text),
        8 => replace_number_of_the_head(random, text),
        9 => in_lines(random, text, |lines, line, _| drop(lines.remove(line))),
        10 => in_lines(random, text, |lines, line, _| {
            lines.insert(line, lines[line].clone())
        }),
        11 => in_lines(random, text, |lines, line, other| lines.swap(line, other)),
        12 => in_lines(random, text, |lines, line, _| lines[line].extend(b",1")),
        _ => in_lines(random, text, |lines, line, _| lines[line].push(b'\r')),
    }
}

/// One of the numbers of a text becomes another.
fn replace_number(random: &mut Random, text: &mut Vec<u8>) {
    let starts: Vec<usize> = (1..text.len())
        .filter(|&at| matches!(text[at - 1], b'=' | b','))
        .collect();
    if starts.is_empty() {
        return;
    }
    let start = starts[random.index(starts.len())];
    replace_at(random, text, start);
}

/// One of the five numbers before the tables, which are few among many.
fn replace_number_of_the_head(random: &mut Random, text: &mut Vec<u8>) {
    let line = random.below(5) as usize;
    let ends = text.iter().enumerate().filter(|byte| *byte.1 == b'=');
    if let Some(start) = ends.map(|byte| byte.0 + 1).nth(line) {
        replace_at(random, text, start);
    }
}

fn replace_at(random: &mut Random, text: &mut Vec<u8>, start: usize) {
    let digits = text[start..]
        .iter()
        .take_while(|byte| byte.is_ascii_digit());
    let end = start + digits.count();
    let number = random.pick(NUMBERS);
    text.splice(start..end, number.bytes());
}

fn in_lines(
    random: &mut Random,
    text: &mut Vec<u8>,
    edit: impl Fn(&mut Vec<Vec<u8>>, usize, usize),
) {
    let mut lines: Vec<Vec<u8>> = text
        .split(|&byte| byte == b'\n')
        .map(<[u8]>::to_vec)
        .collect();
    let (line, other) = (random.index(lines.len()), random.index(lines.len()));
    edit(&mut lines, line, other);
    *text = lines.join(&b'\n');
}
