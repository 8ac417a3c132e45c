//! The report's meaning, written from request (xi): the blocks taken apart line by line, each polished by the unchanged Rust.

use crate::rules::MOST_BYTES;
use crate::text::reader::lengths;

const MOST_BLOCKS: usize = 64;

/// What the program writes for an input.
pub fn report(input: &[u8]) -> String {
    let blocks = blocks(input);
    if input.len() > MOST_BYTES || blocks.len() > MOST_BLOCKS {
        return String::from("refused=30\n");
    }
    let accepted: Vec<(u64, u64)> = blocks.iter().filter_map(|block| lengths(block)).collect();
    let (rounds, refused) = (accepted.len(), blocks.len() - accepted.len());
    let before: u64 = accepted.iter().map(|lengths| lengths.0).sum();
    let after: u64 = accepted.iter().map(|lengths| lengths.1).sum();
    let mut afters: Vec<u64> = accepted.iter().map(|lengths| lengths.1).collect();
    afters.sort_unstable();
    let longest = shown(afters.last());
    let middle = shown(afters.get(rounds.saturating_sub(1) / 2));
    let saved = before - after;
    format!("rounds={rounds}\nrefused={refused}\nbefore={before}\nafter={after}\nsaved={saved}\nlongest={longest}\nmiddle={middle}\n")
}

fn shown(number: Option<&u64>) -> String {
    number.map_or(String::from("none"), u64::to_string)
}

/// A line `next` ends a block, and so does the input.
fn blocks(input: &[u8]) -> Vec<Vec<u8>> {
    let mut blocks = vec![Vec::new()];
    for line in input.split_inclusive(|&byte| byte == b'\n') {
        match line {
            b"next\n" => blocks.push(Vec::new()),
            _ => blocks.last_mut().expect("a block").extend(line),
        }
    }
    blocks
}
