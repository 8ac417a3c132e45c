//! bench_first_moves [seconds]: times the library on pairs of rounds of 48 stops, for each k beside a plain scan of all candidates in the same
//! run, and prints a Markdown table: milliseconds of a call, and the plain scan's time by the call's. Then it looks for pairs that take long, so many seconds
//! (60) for each k. Every reply is checked first: with two to four cuts by the plain scan, with five by rejoining and, of hard pairs, by the plain scan too.

#![forbid(unsafe_code)]

use beside::first_move::{adversary, hard, measured, plain, Case};
use beside::tables::listed;
use mittenschist::{find_move, reconnect, Move};
use std::env;
use std::process::ExitCode;
use std::time::{Duration, Instant};

/// The best of so many calls counts, since other work may share the machine.
const TURNS: usize = 9;

fn main() -> ExitCode {
    let seconds = env::args().nth(1).map_or(Ok(60), |word| word.parse());
    let Ok(seconds) = seconds else {
        eprintln!("usage: bench_first_moves [seconds]");
        return ExitCode::from(2);
    };
    let all = (2..=5).try_for_each(|k| table(k, Duration::from_secs(seconds)));
    match all {
        Ok(()) => ExitCode::SUCCESS,
        Err(found) => {
            println!("DIFFERENCE\n{found}");
            ExitCode::FAILURE
        }
    }
}

fn table(k: usize, search: Duration) -> Result<(), String> {
    let scan = plain_scan(&measured::no_move(k))?;
    println!(
        "\nk = {k}: the plain scan of all candidates takes {:.0} ms",
        milliseconds(scan)
    );
    println!("\n| pair | answer | ms | plain scan / library |\n|---|---|---|---|");
    for (name, case) in measured::rows(k) {
        check(&case)?;
        row(&name, &case, scan);
    }
    for ((name, case), found) in measured::hard_rows(k).into_iter().zip(hard::found()) {
        check(&case)?;
        if k == 5 && first(&case) != found {
            return Err(format!("{name} is told otherwise\n{case}"));
        }
        row(&name, &case, scan);
    }
    let (_, case) = adversary::slowest(k, search, &call);
    check(&case)?;
    row("the slowest that a search found", &case, scan);
    println!("\nit is {} to {}", listed(&case.old), listed(&case.wanted));
    Ok(())
}

fn milliseconds(time: Duration) -> f64 {
    time.as_nanos() as f64 / 1e6
}

type Found = Option<(usize, Vec<usize>)>;

fn first(case: &Case) -> Found {
    let found = find_move(case.k, &case.old, &case.wanted).expect("no refusal");
    found.map(|Move { pattern, cuts }| (pattern, cuts))
}

/// The time of a plain scan of everything, which must find nothing.
fn plain_scan(case: &Case) -> Result<Duration, String> {
    let start = Instant::now();
    let found = plain::first_of_all(case.k, &case.old, &case.wanted);
    let taken = start.elapsed();
    if found.is_none() && first(case).is_none() {
        Ok(taken)
    } else {
        Err(format!("{found:?} by the plain scan\n{case}"))
    }
}

fn check(case: &Case) -> Result<(), String> {
    let found = first(case);
    let wrong = match &found {
        _ if case.k < 5 => plain::first_of_all(case.k, &case.old, &case.wanted) != found,
        Some((pattern, cuts)) => {
            let mut out = vec![0; case.old.len()];
            let joined = reconnect(case.k, *pattern, cuts, &case.old, &mut out);
            joined.is_err() || out != case.wanted
        }
        None => false,
    };
    match wrong {
        true => Err(format!("{found:?} by the library\n{case}")),
        false => Ok(()),
    }
}

/// One call.
fn call(case: &Case) -> Duration {
    let start = Instant::now();
    std::hint::black_box(first(case));
    start.elapsed()
}

fn row(name: &str, case: &Case, scan: Duration) {
    let best = (0..TURNS).map(|_| call(case)).min().unwrap_or_default();
    let answer = match first(case) {
        None => String::from("none"),
        Some((pattern, cuts)) => format!("{} #{pattern}", listed(&cuts)),
    };
    let ratio = scan.as_secs_f64() / best.as_secs_f64();
    println!(
        "| {name} | {answer} | {:.3} | {ratio:.0} |",
        milliseconds(best)
    );
}
