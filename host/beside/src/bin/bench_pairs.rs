//! bench_pairs: times polishing with pairs beside polishing with none, in turn and on the same inputs, and beside the Rust with the same pairs, and prints
//! Markdown tables: an empty list beside the entry without pairs; 16 and 64 pairs that the round keeps, and pairs that contradict each other, so that no
//! order keeps them, by the candidate. Every answer of a table with the Rust is checked first.

#![forbid(unsafe_code)]

use beside::cases::polish::Case;
use beside::lists::rows::Rows;
use beside::means::{highest, mean};
use beside::oracle::polish::polish_marked;
use beside::polish::measured::{self, KINDS};
use beside::precedence::lists::{broken_for_good, kept_by};
use beside::random::Random;
use beside::turns::{polished, ratio, timed};
use std::hint::black_box;
use std::process::ExitCode;
use std::time::{Duration, Instant};

/// Turns of each side, and the least time of one.
const TURNS: usize = 41;
const TURN: Duration = Duration::from_millis(2);

/// Turns of the Rust, which takes long.
const RUST_TURNS: usize = 3;

/// *good* is the route that polishing *busy* with none has come to, so that nothing is shorter; *polished* the one that polishing it with the pairs has come to, so
/// that much may be shorter that breaks a pair.
const PAIRED_KINDS: [&str; 5] = ["quiet", "busy", "deadlines", "good", "polished"];
const LONG_SIZES: [usize; 3] = [64, 128, 512];

/// The Rust fills a table of (stops + 1)² after each acceptance.
const MOST_STOPS_OF_RUST: usize = 128;

fn main() -> ExitCode {
    empty_lists();
    empty_lists_with_patterns();
    match pairs() {
        Ok(()) => ExitCode::SUCCESS,
        Err(row) => {
            println!("DIFFERENCE from the Rust: {row}");
            ExitCode::FAILURE
        }
    }
}

fn with_pairs(case: &Case, pairs: Option<Vec<u32>>) -> Case {
    let mut case = case.clone();
    case.tables.pairs = pairs;
    case
}

/// How many of these calls make a turn.
fn calls(mut call: impl FnMut()) -> u32 {
    let start = Instant::now();
    call();
    let calls = TURN.as_nanos() / start.elapsed().as_nanos().max(1);
    calls.clamp(1, 5000) as u32
}

/// Best times of both, the same number of calls in each turn.
fn both(one: &Case, other: &Case, rows: Option<&Rows>) -> [Duration; 2] {
    let (mut route, mut second) = (Vec::new(), Vec::new());
    let [mut one, mut other] = [(one, &mut route), (other, &mut second)].map(|(case, route)| {
        move || {
            black_box(polished(black_box(case), rows, route));
        }
    });
    let calls = calls(&mut one);
    timed(TURNS, calls, [&mut one, &mut other])
}

fn empty_lists() {
    println!("An empty list beside the entry without pairs\n\n| k | stops | table | without us | empty list us | empty list / without |\n|---|---|---|---|---|---|");
    for k in 2..=5 {
        for stops in [20, 64, 128] {
            for kind in KINDS {
                let case = measured::case(kind, k, stops);
                println!("| {k} | {stops} | {kind} |{}", told_empty(&case, None));
            }
        }
    }
}

fn empty_lists_with_patterns() {
    println!("\nThe same with the list of all patterns\n\n| k | stops | without us | empty list us | empty list / without |\n|---|---|---|---|---|");
    for k in 2..=5 {
        for stops in [20, 64] {
            let case = measured::case("deadlines", k, stops);
            let rows = Rows::whole(k);
            println!("| {k} | {stops} |{}", told_empty(&case, Some(&rows)));
        }
    }
}

fn told_empty(case: &Case, rows: Option<&Rows>) -> String {
    let empty = with_pairs(case, Some(Vec::new()));
    let answer = |case| polished(case, rows, &mut Vec::new());
    assert_eq!(answer(case), answer(&empty));
    let [without, with] = both(case, &empty, rows);
    let us = |time: Duration| time.as_nanos() as f64 / 1e3;
    let (one, other) = (us(without), us(with));
    format!(" {one:.2} | {other:.2} | {:.3} |", ratio(with, without))
}

/// Lists of pairs by their names: 16 and 64 that the route keeps, and 64 of which two contradict each other, at the route's ends, its beginning or its middle.
fn lists(route: &[u32]) -> Vec<(String, Vec<u32>)> {
    let mut random = Random::new(1958);
    let mut all = Vec::new();
    for count in [16, 64] {
        let kept = kept_by(&mut random, route, count);
        all.push((format!("{count} kept"), kept.concat()));
    }
    let last = route.len() - 1;
    for (name, at) in [
        ("across", [0, last]),
        ("in front", [0, 1]),
        ("in the middle", [last / 2, last / 2 + 1]),
    ] {
        let broken = broken_for_good(&mut random, route, 64, at);
        let name = format!("64, two against each other {name}");
        all.push((name, broken.concat()));
    }
    all
}

fn pairs() -> Result<(), String> {
    println!("\nPairs beside an empty list, and beside the Rust with the same pairs\n\n| k | stops | table | pairs | accepted, with none | accepted | ns a candidate, with none | ns | pairs / none | Rust ns | library / Rust |\n|---|---|---|---|---|---|---|---|---|---|---|");
    let mut means = String::new();
    for k in 2..=5 {
        let mut ratios_of = [Vec::new(), Vec::new(), Vec::new(), Vec::new()];
        for stops in LONG_SIZES {
            for kind in PAIRED_KINDS {
                let case = case_of(kind, k, stops);
                for (name, pairs) in lists(&case.route) {
                    let row = format!("| {k} | {stops} | {kind} | {name} |");
                    let mut case = with_pairs(&case, Some(pairs));
                    if kind == "polished" {
                        case = polished_further(case);
                    }
                    let ratios = row_of(&row, &case)?;
                    let group = match (name.ends_with("kept"), ratios.alike) {
                        (true, true) => 0,
                        (true, false) => 1,
                        (false, _) => 2,
                    };
                    ratios_of[group].push(ratios.to_none);
                    ratios_of[3].extend(ratios.to_rust);
                }
            }
        }
        let told = ratios_of.map(|ratios| {
            let (mean, highest) = (mean(&ratios), highest(&ratios));
            format!(" {mean:.3} | {highest:.3} |")
        });
        means += &format!("| {k} |{}\n", told.concat());
    }
    println!("\nGeometric means and highest rows: pairs that are kept, where as many are accepted as with none, so that both sides scan alike, and where not; pairs against each other; and all beside the Rust\n\n| k | kept / none, alike | highest | kept / none, otherwise | highest | against each other / none | highest | library / Rust | highest |\n|---|---|---|---|---|---|---|---|---|\n{means}");
    Ok(())
}

fn case_of(kind: &str, k: usize, stops: usize) -> Case {
    match kind {
        "good" => polished_further(measured::case("busy", k, stops)),
        "polished" => measured::case("busy", k, stops),
        _ => measured::case(kind, k, stops),
    }
}

/// Polished until nothing is left to take, or for long.
fn polished_further(case: Case) -> Case {
    let (mut route, mut long) = (Vec::new(), case.clone());
    long.allowance *= 50;
    polished(&long, None, &mut route);
    Case { route, ..case }
}

/// The time a candidate by that of an empty list, and by the Rust's where it was timed.
struct Ratios {
    /// As many were accepted as with an empty list.
    alike: bool,
    to_none: f64,
    to_rust: Option<f64>,
}

/// Prints a row.
fn row_of(row: &str, case: &Case) -> Result<Ratios, String> {
    let none = with_pairs(case, Some(Vec::new()));
    let numbers = |case: &Case| polished(case, None, &mut Vec::new());
    let (without, with) = (numbers(&none), numbers(case));
    let times = both(&none, case, None);
    let each = |time: Duration, numbers: [u64; 6]| time.as_nanos() as f64 / numbers[1] as f64;
    let (free, paired) = (each(times[0], without), each(times[1], with));
    let (accepted, of_none, to_none) = (with[2], without[2], paired / free);
    print!("{row} {of_none} | {accepted} | {free:.3} | {paired:.3} | {to_none:.3} |");
    let mut to_rust = None;
    if case.route.len() <= MOST_STOPS_OF_RUST {
        let rust = each(by_rust(row, case)?, with);
        to_rust = Some(paired / rust);
        println!(" {rust:.1} | {:.3} |", paired / rust);
    } else {
        println!(" | |");
    }
    Ok(Ratios {
        alike: accepted == of_none,
        to_none,
        to_rust,
    })
}

/// The Rust's best time, if it answers the same.
fn by_rust(row: &str, case: &Case) -> Result<Duration, String> {
    let mut route = Vec::new();
    let numbers = polished(case, None, &mut route);
    let handed_in: Vec<usize> = case.route.iter().map(|&stop| stop as usize).collect();
    let mut order = Vec::new();
    let mut call = || {
        order.clone_from(&handed_in);
        polish_marked(black_box(case), case.allowance, &mut order)
    };
    let counts = call();
    let mut again = || {
        black_box(call());
    };
    let calls = calls(&mut again);
    let [best] = timed(RUST_TURNS, calls, [&mut again]);
    let counted = [u64::from(counts.spent), counts.examined, counts.accepted];
    let same = |(&one, &other): (&usize, &u32)| one == other as usize;
    if counted == numbers[..3] && order.iter().zip(&route).all(same) {
        Ok(best)
    } else {
        Err(String::from(row))
    }
}
