//! The oracle itself, on the runs of document 01 whose numbers it gives, and on the text case with a time spent at a stop and with late stops.

use crate::cases::ends;
use crate::cases::nearby::Case as Listing;
use crate::cases::polish::Case;
use crate::every::{missed_case, Every};
use crate::in_order::keeps_pairs;
use crate::nearby::document_case as nearby_case;
use crate::pairs::document::document_case as pair_case;
use crate::polish::bounds::{late_text_case, served_text_case, text_case};
use crate::run::pair_case::of_rounds as pair_case_by_run;
use crate::trial::Trial;
use crate::{oracle, trial::Reply};

/// What the Rust gives otherwise than the documents, if anything.
pub fn fault() -> Option<String> {
    let checks = [
        (
            "the text case",
            text(text_case(100)) == ([0, 11, 1, 15, 3, 2], vec![2, 1]),
        ),
        (
            "the text case, allowance 10",
            text(text_case(10)).0[..3] == [1, 10, 1],
        ),
        (
            "the text case, 10 seconds at 2 and 1 due at 11",
            text(served_text_case(11, 10)) == ([0, 7, 0, 15, 15, 2], vec![1, 2]),
        ),
        (
            "the text case, 10 seconds at 2 and 1 due at 12",
            text(served_text_case(12, 10)) == ([0, 11, 1, 15, 3, 2], vec![2, 1]),
        ),
        (
            "the text case, 1 and 2 due at 0",
            text(late_text_case(0, 0)) == ([0, 7, 0, 15, 15, 0], vec![1, 2]),
        ),
        (
            "the text case, 2 due at 0",
            text(late_text_case(u32::MAX, 0)) == ([0, 7, 0, 15, 15, 1], vec![1, 2]),
        ),
        (
            "the text case to location 1",
            text_to_1() == ([0, 11, 1, 11, 2, 2], vec![2, 1]),
        ),
        (
            "the text case, 1 before 2",
            text_with([1, 2]) == ([0, 7, 0, 15, 15, 2], vec![1, 2]),
        ),
        (
            "the text case, 2 before 1",
            text_with([2, 1]) == ([0, 11, 1, 15, 3, 2], vec![2, 1]),
        ),
        (
            "every visit counts, and the depot is none",
            !keeps_pairs(&[1, 2], &[1, 2, 1]) && keeps_pairs(&[0, 1], &[1]),
        ),
        ("the pair loop", pair_loop()),
        (
            "the pair case by polishing",
            oracle::run::run(&pair_case_by_run(1, u64::MAX), u64::MAX)
                == (vec![2, 1, 3, 4], vec![4, 12, 1, 1]),
        ),
        (
            "nearby, one nearer",
            nearby(&nearby_case(true)) == [1, 3, 4, 2, 3, 4],
        ),
        (
            "nearby, all alike",
            nearby(&nearby_case(false)) == [1, 2, 3, 1, 2, 4, 1, 3, 4, 2, 3, 4],
        ),
        ("nearby, a set missed", nearby(&missed_case()).is_empty()),
        ("every nearby set", every_nearby() == [1, 0, 1, 3, 4]),
        (
            "pattern 7 of k = 4",
            oracle::moves::reconnection_at(4, 7) == [0, 1, 3, 2, 4, 0],
        ),
        (
            "pattern 382 of k = 5",
            oracle::moves::reconnection_at(5, 382) == [0, 4, 3, 2, 1, 5, 30],
        ),
    ];
    let wrong = checks.iter().find(|check| !check.1);
    wrong.map(|check| String::from(check.0))
}

fn text_to_1() -> ([u64; 6], Vec<u64>) {
    let closed = text_case(100);
    numbers(ends::Case { closed, end: 1 }.expected())
}

/// With a pair.
fn text_with(pair: [u32; 2]) -> ([u64; 6], Vec<u64>) {
    let mut closed = text_case(100);
    closed.tables.pairs = Some(pair.to_vec());
    numbers(ends::Case { closed, end: 0 }.expected())
}

fn text(case: Case) -> ([u64; 6], Vec<u64>) {
    numbers(case.expected())
}

fn numbers(Reply { lent, .. }: Reply) -> ([u64; 6], Vec<u64>) {
    let mut numbers = [0; 6];
    numbers.copy_from_slice(&lent[1].1);
    (numbers, lent[0].1.clone())
}

/// 18 examined, 3 accepted, end B A C E.
fn pair_loop() -> bool {
    let (stops, numbers) = oracle::run::run_by_rust(&pair_case(u64::MAX).as_run(), u64::MAX);
    stops == [2, 1, 3, 4] && numbers == [4, 18, 3, 3]
}

fn nearby(case: &Listing) -> Vec<usize> {
    let (sets, more) = oracle::nearby::listed(case, 100);
    assert!(!more);
    sets
}

/// Both numbers, and the first set.
fn every_nearby() -> Vec<u64> {
    let Reply { lent, .. } = Every(missed_case()).expected();
    [&lent[1].1[..], &lent[0].1[..3]].concat()
}
