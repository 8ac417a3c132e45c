//! bench_lists: times polishing with own lists of patterns beside polishing with the built-in ones, in turn and on the same inputs, and prints Markdown
//! tables: the whole list in index order, where both do the same work; what judging 383 rows costs; and lists of few rows, by the candidate.

#![forbid(unsafe_code)]

use beside::cases::polish::Case;
use beside::lists::rows::Rows;
use beside::polish::measured::{self, CANDIDATES, KINDS, SIZES};
use beside::turns::{self, polished, ratio};
use std::hint::black_box;
use std::time::Duration;

/// Turns of each side; the best counts, since other work may share the machine.
const TURNS: usize = 15;

/// Candidates of a call with the whole list.
const LONG: u64 = 25 * CANDIDATES;

fn main() {
    whole_lists();
    judging();
    short_lists();
}

/// Six numbers of a call.
fn call(case: &Case, rows: Option<&Rows>) -> [u64; 6] {
    polished(case, rows, &mut Vec::new())
}

/// Best times of so many calls of each side, in turn.
fn timed(case: &Case, sides: [Option<&Rows>; 2], calls: u32) -> [Duration; 2] {
    let [mut first, mut second] = sides.map(|rows| {
        move || {
            black_box(call(black_box(case), rows));
        }
    });
    turns::timed(TURNS, calls, [&mut first, &mut second])
}

fn whole_lists() {
    println!("The whole list in index order\n\n| k | stops | table | built-in ms | list ms | list / built-in |\n|---|---|---|---|---|---|");
    for k in 2..=5 {
        for stops in SIZES {
            for kind in KINDS {
                let (mut case, rows) = (measured::case(kind, k, stops), Rows::whole(k));
                // A call long enough that what is done once a call does not count: see `judging`.
                case.allowance = LONG;
                assert_eq!(call(&case, None), call(&case, Some(&rows)));
                let [built_in, list] = timed(&case, [None, Some(&rows)], 1);
                println!(
                    "| {k} | {stops} | {kind} | {:.3} | {:.3} | {:.3} |",
                    built_in.as_secs_f64() * 1e3,
                    list.as_secs_f64() * 1e3,
                    ratio(list, built_in)
                );
            }
        }
    }
}

/// Calls that examine nothing: what a list costs before the scan, beside a finished pass of 20 stops with five cuts.
fn judging() {
    let rows = Rows::whole(5);
    let mut case = measured::case("quiet", 5, 20);
    case.allowance = u64::MAX;
    let [_, pass] = timed(&case, [None, Some(&rows)], 1);
    case.allowance = 0;
    let [built_in, list] = timed(&case, [None, Some(&rows)], 100);
    let judged = list.saturating_sub(built_in);
    println!("\nJudging 383 rows: {:.1} us, a finished pass of 20 stops with 5 cuts {:.1} us: {:.4} of it", judged.as_secs_f64() * 1e6, pass.as_secs_f64() * 1e6, ratio(judged, pass));
}

/// Nanoseconds a candidate of one row, of the rows of one order, and of all.
fn short_lists() {
    println!("\n| k | stops | rows | ns a candidate | all patterns, ns a candidate |\n|---|---|---|---|---|");
    for k in 3..=5 {
        let turns = 1 << (k - 1);
        for stops in [20, 64, 512] {
            for (name, rows) in [
                ("one", Rows::of(k, [turns - 1].into_iter())),
                ("of one order", Rows::of(k, turns - 1..2 * turns - 1)),
            ] {
                let case = measured::case("deadlines", k, stops);
                let examined = |rows| call(&case, rows)[1] as f64;
                let [all, some] = timed(&case, [None, Some(&rows)], 1);
                let each = |time: Duration, rows| time.as_nanos() as f64 / examined(rows);
                println!(
                    "| {k} | {stops} | {name} | {:.2} | {:.2} |",
                    each(some, Some(&rows)),
                    each(all, None)
                );
            }
        }
    }
}
