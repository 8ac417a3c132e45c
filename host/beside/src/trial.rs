//! A call with its input, run by both sides, and where they differ.

use crate::random::Random;
use std::fmt::Display;
use std::thread;

/// The stack on which the host calls the library.
const SMALL_STACK: usize = 128 * 1024;

/// Expected in place of an answer where the Rust, asked in two ways, or the Rust and document 01 disagree.
pub const NO_ANSWER: u32 = u32::MAX;

/// Everything a caller sees after a call: what was returned, and each slice that may be written, by its bits.
#[derive(Debug, PartialEq, Eq)]
pub struct Reply {
    pub code: u32,
    pub lent: Vec<(&'static str, Vec<u64>)>,
}

impl Reply {
    pub fn new<const N: usize>(code: u32, lent: [(&'static str, Vec<u64>); N]) -> Self {
        Self {
            code,
            lent: Vec::from(lent),
        }
    }

    /// Place `index` of slice `slice`.
    pub fn number(&self, slice: usize, index: usize) -> u64 {
        self.lent[slice].1[index]
    }
}

/// Writes numbers to the first places of a result.
pub fn put(result: &mut [u64], numbers: &[u64]) {
    result[..numbers.len()].copy_from_slice(numbers);
}

pub trait Trial: Display + Sync {
    /// The reply of the Rust or of document 01; for refused input everything is as before.
    fn expected(&self) -> Reply;

    /// The library's reply; an error if it wrote where it must not.
    fn given(&self) -> Result<Reply, String>;

    /// Under what an answer is counted.
    fn kind(&self, _expected: &Reply) -> &'static str {
        "answered"
    }
}

/// A trial, and the refusal number it was made for, if it was made for one.
pub type Drawn = (Box<dyn Trial>, Option<u32>);

pub type Visit<'v> = &'v mut dyn FnMut(Box<dyn Trial>);

/// Where a family's trials come from.
pub enum Source {
    /// Always the same ones for a seed, one after the other.
    Each(fn(&mut Random, Visit)),
    /// So many for each thousand that are asked for, but at least so many.
    Drawn(u64, u64, fn(&mut Random, u64) -> Drawn),
    /// So many times for each thousand that are asked for, each time several, all of one index.
    Several(u64, fn(&mut Random, Visit)),
}

pub struct Family {
    pub call: &'static str,
    pub name: &'static str,
    pub small_stack: bool,
    pub source: Source,
}

impl Family {
    pub const fn new(call: &'static str, name: &'static str, source: Source) -> Self {
        Self {
            call,
            name,
            small_stack: false,
            source,
        }
    }

    /// Whether a name is the family's or its first word.
    pub fn is_of(&self, name: &str) -> bool {
        self.name == name || self.name.split('/').next() == Some(name)
    }

    /// The library is called on a small stack. A call that needs more ends the whole run.
    pub const fn on_small_stack(mut self) -> Self {
        self.small_stack = true;
        self
    }
}

/// The expected reply, and where the library's differs from it, if it does.
pub fn judge(trial: &dyn Trial, small_stack: bool) -> (Reply, Option<String>) {
    let expected = trial.expected();
    let given = if small_stack {
        on_small_stack(trial)
    } else {
        trial.given()
    };
    let difference = match given {
        Err(fault) => Some(fault),
        Ok(given) if given == expected => None,
        Ok(given) => Some(told(&expected, &given)),
    };
    (expected, difference)
}

fn on_small_stack(trial: &dyn Trial) -> Result<Reply, String> {
    thread::scope(|scope| {
        thread::Builder::new()
            .stack_size(SMALL_STACK)
            .spawn_scoped(scope, || trial.given())
            .expect("a thread")
            .join()
            .expect("a reply")
    })
}

fn told(expected: &Reply, given: &Reply) -> String {
    let mut lines = String::new();
    if expected.code != given.code {
        lines += &format!(
            "returned: expected {}, library {}\n",
            expected.code, given.code
        );
    }
    for ((name, wanted), (_, got)) in expected.lent.iter().zip(&given.lent) {
        if wanted != got {
            lines += &parted(name, wanted, got);
        }
    }
    lines
}

/// The first place where two slices differ, and the slices themselves if they are short.
fn parted(name: &str, wanted: &[u64], got: &[u64]) -> String {
    let place = wanted.iter().zip(got).position(|(one, other)| one != other);
    let mut lines = format!("{name}: differs at place {place:?}\n");
    if wanted.len() <= 600 {
        lines += &format!("{name}: expected {wanted:?}\n{name}: library  {got:?}\n");
    }
    lines
}

/// A trial with the damages of the set of this index, and the number that it is then refused with, 0 for the empty set.
pub fn damaged<C: Trial + 'static>(
    mut case: C,
    numbers: &[u32],
    index: u64,
    mut damage: impl FnMut(&mut C, u32),
) -> Drawn {
    let chosen = damages(numbers, index % (1 << numbers.len()));
    for &number in &chosen {
        damage(&mut case, number);
    }
    (Box::new(case), Some(chosen.last().copied().unwrap_or(0)))
}

/// The trial made for a set of damages: bit i of the set stands for number i of a list from the last of the stated order
/// to the first, so that the last damage made is the one that is refused.
fn damages(numbers: &[u32], set: u64) -> Vec<u32> {
    let chosen = |&(bit, _): &(usize, &u32)| (set >> bit) & 1 == 1;
    let pairs = numbers.iter().enumerate().filter(chosen);
    pairs.map(|(_, &number)| number).collect()
}
