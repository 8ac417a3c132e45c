//! Lent memory with canaries, the refusals and what it is to keep pairs, as the harness in beside/ has them.

#![allow(dead_code)]

#[path = "../../beside/src/in_order.rs"]
pub mod in_order;
#[path = "../../beside/src/lent.rs"]
pub mod lent;
#[path = "../../beside/src/rules.rs"]
pub mod rules;

use lent::{Lent, Place};
use mittenschist::Refusal;
use std::thread;

/// On the stack that a host's threads may have.
pub fn on_small_stack(work: fn()) {
    let thread = thread::Builder::new().stack_size(128 * 1024).spawn(work);
    thread.expect("a thread").join().expect("no panic");
}

/// The number of a safe function's answer, 0 where it is no refusal.
pub fn number<T>(answer: Result<T, Refusal>) -> u32 {
    answer.err().map_or(0, Refusal::number)
}

/// Neither the slice nor anything beside it was written.
pub fn kept<T: Place>(lent: &Lent<T>) {
    lent.kept().unwrap();
}

/// What a slice holds now; nothing beside it was written.
pub fn written<T: Place>(lent: &Lent<T>) -> Vec<u64> {
    lent.written().unwrap().1
}

/// The first places may be written, those beyond are as before.
pub fn kept_beyond<T: Place>(lent: &Lent<T>, before: &[T], places: usize) {
    assert_eq!(written(lent)[places..], lent::bits(before)[places..]);
}
