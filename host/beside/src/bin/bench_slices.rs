//! bench_slices: times slices of polishing, and prints Markdown tables: how soon a slice of a million candidates comes back at 512 stops, over a search, and how
//! soon a polisher that was given a time; what a slice costs besides its candidates; and searches cut into slices of 10,000, 100,000 and 1,000,000 candidates beside
//! one call of as many, in turn and on the same inputs, where every sum and route is checked first.

#![forbid(unsafe_code)]

use beside::cases::polish::Case;
use beside::means::{highest, mean};
use beside::polish::measured;
use beside::precedence::lists::kept_by;
use beside::random::Random;
use beside::turns::{ratio, timed};
use mittenschist::{polish_route_with_pairs, Ending, Pair, Polished, Polisher, Tables};
use std::hint::black_box;
use std::process::ExitCode;
use std::time::{Duration, Instant};

/// The best of so many counts; of the searches beside one call that of more.
const TURNS: usize = 5;
const SEARCH_TURNS: usize = 11;

/// A search of the first table has at most so many slices.
const SLICES: usize = 100;
const MILLION: u64 = 1_000_000;

/// What a search of the second table may examine, and a case that ends sooner than the second is left out.
const SEARCH: u64 = 8 * MILLION;
const TOO_SHORT: u64 = 100_000;

/// *good* is the route that polishing *busy* has come to after 400 million candidates; *paired* is *busy* with 64 pairs that it keeps, *polished* the route
/// that polishing it has come to after as many.
const KINDS: [&str; 7] = [
    "quiet",
    "busy",
    "deadlines",
    "service",
    "good",
    "paired",
    "polished",
];

/// What a polisher is given, so many times over a search.
const TIME: Duration = Duration::from_millis(20);
const TIMES: usize = 25;

fn main() -> ExitCode {
    come_back();
    alone();
    match beside_one_call() {
        Ok(()) => ExitCode::SUCCESS,
        Err(row) => {
            println!("DIFFERENCE from one call: {row}");
            ExitCode::FAILURE
        }
    }
}

fn case_of(kind: &str, k: usize, stops: usize) -> (Case, Vec<Pair>) {
    let drawn = match kind {
        "good" | "paired" | "polished" => "busy",
        other => other,
    };
    let mut case = measured::case(drawn, k, stops);
    let mut pairs = Vec::new();
    if kind == "paired" || kind == "polished" {
        pairs = kept_by(&mut Random::new(1958), &case.route, 64);
    }
    if kind == "good" || kind == "polished" {
        whole(&mut case, &pairs, 400 * MILLION);
    }
    (case, pairs)
}

fn tables(case: &Case) -> Tables<'_> {
    Tables {
        locations: case.tables.locations,
        legs: &case.tables.legs,
        latest: &case.tables.latest,
        service: &case.tables.service,
    }
}

/// One call, which leaves the case's route polished.
fn whole(case: &mut Case, pairs: &[Pair], allowance: u64) -> Polished {
    let mut route = std::mem::take(&mut case.route);
    let polished = polish_route_with_pairs(
        case.k,
        allowance,
        &tables(case),
        case.depot,
        pairs,
        &mut route,
    );
    case.route = route;
    polished.expect("no refusal")
}

/// A search in slices of so many candidates, until it is finished or there were as many as allowed; each slice's time is told.
fn in_slices(
    case: &mut Case,
    pairs: &[Pair],
    allowance: u64,
    size: u64,
    mut took: impl FnMut(Duration),
) -> Polished {
    let mut route = std::mem::take(&mut case.route);
    let tables = tables(case);
    let mut polisher = Polisher::new(case.k, &tables, case.depot, pairs, &mut route);
    let mut sum: Option<Polished> = None;
    loop {
        let left = allowance - sum.map_or(0, |sum| sum.examined);
        let start = Instant::now();
        let slice = polisher.step(size.min(left)).expect("no refusal");
        took(start.elapsed());
        let all = sum.map_or(slice, |sum| sum.then(slice));
        if all.ending == Ending::Finished || all.examined == allowance {
            case.route = route;
            return all;
        }
        sum = Some(all);
    }
}

fn milliseconds(time: Duration) -> f64 {
    time.as_secs_f64() * 1e3
}

fn come_back() {
    println!("A slice of 1,000,000 candidates at 512 stops, and `run_for` 20 ms\n\n| k | table | slices | candidates | accepted | median ms | highest ms | `run_for` 20 ms, median | highest |\n|---|---|---|---|---|---|---|---|---|");
    for k in 2..=5 {
        for kind in KINDS {
            let (case, pairs) = case_of(kind, k, 512);
            let (sum, best) = best_times(&case, &pairs);
            println!(
                "| {k} | {kind} | {} | {} | {} |{}{}",
                best.len(),
                sum.examined,
                sum.accepted,
                told(best),
                told(given_a_time(case, &pairs))
            );
        }
    }
}

/// The median and the highest.
fn told(mut times: Vec<Duration>) -> String {
    times.sort_unstable();
    match times[..] {
        [] => String::from(" | |"),
        [.., highest] => {
            let median = times[times.len() / 2];
            format!(
                " {:.2} | {:.2} |",
                milliseconds(median),
                milliseconds(highest)
            )
        }
    }
}

/// When a polisher came back each time, but for the one in which it finished.
fn given_a_time(mut case: Case, pairs: &[Pair]) -> Vec<Duration> {
    let mut route = std::mem::take(&mut case.route);
    let tables = tables(&case);
    let mut polisher = Polisher::new(case.k, &tables, case.depot, pairs, &mut route);
    let mut times = Vec::new();
    for _ in 0..TIMES {
        let start = Instant::now();
        let ran = polisher.run_for(TIME).expect("no refusal");
        let took = start.elapsed();
        if ran.ending == Ending::Finished {
            break;
        }
        times.push(took);
    }
    times
}

/// Slices of one candidate, which cost what a slice costs.
fn alone() {
    println!("\nWhat a slice costs besides its candidates, us\n\n| stops | locations | k = 2 | k = 3 | k = 4 | k = 5 |\n|---|---|---|---|---|---|");
    for (stops, locations) in [(20, 21), (64, 65), (128, 129), (512, 513), (512, 1024)] {
        let each = [2, 3, 4, 5].map(|k| {
            let mut case = measured::case("quiet", k, locations - 1);
            case.route.truncate(stops);
            // Slices enough to begin at many patterns of a cut set.
            let slices = 200;
            let mut call = || {
                black_box(in_slices(&mut case.clone(), &[], slices, 1, |_| ()));
            };
            let [best] = timed(TURNS, 1, [&mut call]);
            format!(" {:.1} |", best.as_secs_f64() * 1e6 / slices as f64)
        });
        println!("| {stops} | {locations} |{}", each.concat());
    }
}

/// The best time of each slice of a search, which is the same in every turn.
fn best_times(case: &Case, pairs: &[Pair]) -> (Polished, Vec<Duration>) {
    let turn = || {
        let mut times = Vec::new();
        let tell = |took| times.push(took);
        let sum = in_slices(
            &mut case.clone(),
            pairs,
            SLICES as u64 * MILLION,
            MILLION,
            tell,
        );
        (sum, times)
    };
    let (sum, mut best) = turn();
    for _ in 1..TURNS {
        let again = turn();
        assert_eq!((again.0, again.1.len()), (sum, best.len()));
        for (best, time) in best.iter_mut().zip(again.1) {
            *best = time.min(*best);
        }
    }
    (sum, best)
}

fn beside_one_call() -> Result<(), String> {
    println!("\nSearches of 8,000,000 candidates in slices, beside one call\n\n| k | stops | table | candidates | one call ms | 10^6 | 10^5 | 10^4 |\n|---|---|---|---|---|---|---|---|");
    let mut ratios = [Vec::new(), Vec::new(), Vec::new()];
    for k in 2..=5 {
        for stops in [20, 64, 128, 512] {
            for kind in KINDS {
                let row = format!("| {k} | {stops} | {kind} |");
                if let Some(found) = row_of(&row, kind, k, stops)? {
                    for (ratios, ratio) in ratios.iter_mut().zip(found) {
                        ratios.push(ratio);
                    }
                }
            }
        }
    }
    let told = ratios.map(|ratios| format!(" {:.3} | {:.3} |", mean(&ratios), highest(&ratios)));
    println!("\nGeometric means and highest rows\n\n| 10^6 | highest | 10^5 | highest | 10^4 | highest |\n|---|---|---|---|---|---|\n|{}", told.concat());
    Ok(())
}

/// Prints a row, and gives the times of slices by that of one call; none for a case that soon ends.
fn row_of(row: &str, kind: &str, k: usize, stops: usize) -> Result<Option<[f64; 3]>, String> {
    let (case, pairs) = case_of(kind, k, stops);
    let mut polished = case.clone();
    let one = whole(&mut polished, &pairs, SEARCH);
    if one.examined < TOO_SHORT {
        return Ok(None);
    }
    let sizes = [MILLION, MILLION / 10, MILLION / 100];
    for size in sizes {
        let mut again = case.clone();
        let sum = in_slices(&mut again, &pairs, SEARCH, size, |_| ());
        if (sum, &again.route) != (one, &polished.route) {
            return Err(String::from(row));
        }
    }
    let mut by_one = || {
        black_box(whole(black_box(&mut case.clone()), &pairs, SEARCH));
    };
    let [mut million, mut tenth, mut hundredth] = sizes.map(|size| {
        let (case, pairs) = (&case, &pairs);
        move || {
            black_box(in_slices(
                black_box(&mut case.clone()),
                pairs,
                SEARCH,
                size,
                |_| (),
            ));
        }
    });
    let [whole, times @ ..] = timed(
        SEARCH_TURNS,
        1,
        [&mut by_one, &mut million, &mut tenth, &mut hundredth],
    );
    let found = times.map(|time| ratio(time, whole));
    let [million, tenth, hundredth] = found;
    println!(
        "{row} {} | {:.2} | {million:.3} | {tenth:.3} | {hundredth:.3} |",
        one.examined,
        milliseconds(whole)
    );
    Ok(Some(found))
}
