//! Inputs of several blocks, and those at the bounds.

use super::case::Input;
use crate::random::Random;
use crate::text::damage::{damaged_text, KINDS};
use crate::text::generate::{good, refused, SETS};
use crate::trial::{Drawn, Visit};

const NEXT: &[u8] = b"next\n";

/// The round of document 01's example.
const T: &str = "k=3\nallowance=100\nlocations=3\ndepot=0\nend=0\nlegs=0,5,1\nlegs=1,0,5\nlegs=5,1,0\nlatest=4294967295,4294967295,4294967295\nservice=0,0,0\nround=1,2\n";

pub fn draw(random: &mut Random, _index: u64) -> Drawn {
    (Box::new(Input(blocks(random))), None)
}

/// An input damaged anywhere, its separators too.
pub fn draw_damaged(random: &mut Random, index: u64) -> Drawn {
    let input = blocks(random);
    let input = match random.below(3) {
        0 => damaged_text(random, input, index % KINDS),
        1 => at_a_separator(random, input),
        _ => without_a_line_end(input),
    };
    (Box::new(Input(input)), None)
}

/// Some blocks, of which some are refused or empty.
fn blocks(random: &mut Random) -> Vec<u8> {
    let count = random.within(1, 9);
    let blocks: Vec<Vec<u8>> = (0..count).map(|_| block(random)).collect();
    blocks.join(NEXT)
}

fn block(random: &mut Random) -> Vec<u8> {
    match random.below(8) {
        0 => Vec::new(),
        1 => {
            let set = random.below(SETS);
            refused(random, set)
        }
        2 => {
            let (text, kind) = (good(random), random.below(KINDS));
            damaged_text(random, text, kind)
        }
        3 => T.as_bytes().to_vec(),
        _ => good(random),
    }
}

/// A byte put before, into or behind a separator, or taken out of it.
fn at_a_separator(random: &mut Random, mut input: Vec<u8>) -> Vec<u8> {
    let found: Vec<usize> = (0..input.len().saturating_sub(NEXT.len()))
        .filter(|&at| input[at..].starts_with(NEXT))
        .collect();
    if found.is_empty() {
        return input;
    }
    let place = found[random.index(found.len())] + random.index(NEXT.len());
    if random.one_in(2) {
        input.remove(place);
    } else {
        input.insert(place, random.pick(*b"x n\r\n\0"));
    }
    input
}

fn without_a_line_end(mut input: Vec<u8>) -> Vec<u8> {
    input.extend(b"\nnext");
    input
}

pub fn each_bound(random: &mut Random, visit: Visit) {
    let mut visit = |input: Vec<u8>| visit(Box::new(Input(input)));
    for input in [
        "",
        "n",
        "next",
        "next\n",
        "next\nnext",
        "xnext\n",
        "nextx\n",
        "next \n",
        "next\r\n",
        "NEXT\n",
        "\nnext\n",
        "next\nnext\n",
        "next\n\n",
    ] {
        visit(input.as_bytes().to_vec());
        visit([T, input].concat().into_bytes());
        visit([T, input, T].concat().into_bytes());
        visit([input, T].concat().into_bytes());
    }
    for separators in [62, 63, 64, 65, 1000] {
        visit(NEXT.repeat(separators));
        visit([T, "next\n"].concat().repeat(separators).into_bytes());
    }
    for bytes in [59_999, 60_000, 60_001, 60_002, 70_000] {
        visit(vec![b'x'; bytes]);
        visit(vec![b'\n'; bytes]);
        visit(filled_up(bytes));
    }
    // As many rounds as there may be, of every length.
    let texts: Vec<Vec<u8>> = (0..64).map(|_| small_round(random)).collect();
    for count in 1..=texts.len() {
        visit(texts[..count].join(NEXT));
    }
}

/// The example in front of a block that fills the input up to so many bytes.
fn filled_up(bytes: usize) -> Vec<u8> {
    let mut input = [T, "next\n"].concat().into_bytes();
    input.resize(bytes, b'0');
    input
}

/// A round of a few stops, as short as 64 of them ask.
fn small_round(random: &mut Random) -> Vec<u8> {
    let leg = random.below(1_000_000);
    let (first, last) = (random.below(900), random.below(900));
    format!("k=3\nallowance={}\nlocations=3\ndepot=0\nend=1\nlegs=0,{leg},{first}\nlegs={last},0,{leg}\nlegs=7,{first},0\nlatest=4294967295,4294967295,4294967295\nservice=0,0,0\nround=1,2,1,0\n", random.below(40)).into_bytes()
}
