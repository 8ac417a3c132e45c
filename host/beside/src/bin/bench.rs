//! bench NEW.. [--old OLD..]: times the library and the Rust on the same inputs, in turn, and prints a Markdown table for polishing, one for the pair
//! loop, one for the run and one for the nearby listing: nanoseconds a candidate or a set; and one of every nearby cut set beside that listing, both the
//! library's. NEW and OLD are drivers (driver/driver.c) of an archive, which lies
//! in each of them at another place; with OLD the older archive is timed in the same turns.
//! A call that ends sooner is repeated until some two million candidates have been examined, so short routes include what a
//! call costs besides its candidates. The best of many turns counts, since other work may share the machine.

#![forbid(unsafe_code)]

use beside::cases::polish::Case;
use beside::draw::plane;
use beside::driver::{self, Driver};
use beside::every::{bounds, Every};
use beside::means::Means;
use beside::polish::measured::{self, CANDIDATES};
use beside::random::Random;
use beside::share::{share, Counted};
use beside::tables::Tables;
use beside::trial::{judge, Reply, Trial};
use beside::{cases, nearby, oracle};
use std::env;
use std::process::ExitCode;
use std::time::{Duration, Instant};

/// Rounds in which the Rust has a turn, and turns of each archive in a round. After these the archives go on alone until as many rounds bring
/// nothing better as there are places for an archive, more of them where the two are apart; but not beyond the longest.
const ROUNDS: usize = 5;
const TURNS: usize = 6;
const SHORT_TURNS: usize = 20;
const IDLE_ROUNDS: usize = 4;
const IDLE_ROUNDS_APART: usize = 16;
const CLEARLY: f64 = 0.995;
const APART: f64 = 0.025;
const LONGEST: Duration = Duration::from_secs(15);

/// Stops of the pair loop's routes; as many pairs as candidates, since it need not end.
const PAIR_SIZES: [usize; 2] = [64, 512];

/// Stops in each of eight rounds, by k.
const RUN_SIZES: [(usize, usize); 4] = [(2, 64), (3, 24), (4, 12), (5, 9)];
const RUN_ROUNDS: usize = 8;

/// Sets in a lent list.
const LISTED: [usize; 2] = [1_000, 100_000];

fn main() -> ExitCode {
    let words: Vec<String> = env::args().skip(1).collect();
    let mut sides = words.split(|word| word == "--old");
    let (new, old) = (sides.next().unwrap_or_default(), sides.next());
    if new.is_empty() || old.is_some_and(<[String]>::is_empty) || sides.next().is_some() {
        eprintln!("usage: bench NEW.. [--old OLD..]; tools/bench makes the drivers");
        return ExitCode::from(2);
    }
    match Bench::start(new, old).and_then(Bench::run) {
        Ok(()) => ExitCode::SUCCESS,
        Err(found) => {
            println!("DIFFERENCE\n{found}");
            ExitCode::FAILURE
        }
    }
}

/// The replies are compared with the Rust's before either side is timed.
fn same(trial: &dyn Trial) -> Result<Reply, String> {
    match judge(trial, false) {
        (_, Some(found)) => Err(format!("{found}{trial}")),
        (reply, None) => Ok(reply),
    }
}

/// The archives that are timed, and the ratios so far.
struct Bench {
    new: Vec<Driver>,
    old: Option<Vec<Driver>>,
    means: Means,
    /// Rows in which old and new reply otherwise.
    apart: Vec<String>,
}

/// Best times of a row, in nanoseconds.
struct Best {
    rust: f64,
    new: f64,
    /// None also where the two reply otherwise, since their times are of different work: an archive from before service times knows nothing of them.
    old: Option<f64>,
    apart: bool,
}

impl Best {
    fn ratios(&self) -> (f64, Option<f64>) {
        (self.new / self.rust, self.old.map(|old| self.new / old))
    }

    /// The cells of a row.
    fn told(&self) -> String {
        let (to_rust, to_old) = self.ratios();
        let mut cells = format!("{:.2} | {:.2} | {to_rust:.3}", self.rust, self.new);
        if let Some((old, ratio)) = self.old.zip(to_old) {
            cells += &format!(" | {old:.2} | {ratio:.3}");
        } else if self.apart {
            cells += " | | other reply";
        }
        cells
    }
}

impl Bench {
    fn start(new: &[String], old: Option<&[String]>) -> Result<Self, String> {
        let start = |programs: &[String]| {
            programs
                .iter()
                .map(|program| Driver::start(program))
                .collect()
        };
        Ok(Self {
            new: start(new)?,
            old: old.map(start).transpose()?,
            means: Means::default(),
            apart: Vec::new(),
        })
    }

    fn run(mut self) -> Result<(), String> {
        self.polishing()?;
        self.pair_loops()?;
        self.runs()?;
        self.listings()?;
        self.every_listings()?;
        println!("\n{}", self.means);
        if !self.apart.is_empty() {
            println!("\nOLD AND NEW REPLY OTHERWISE: {}", self.apart.join("; "));
        }
        Ok(())
    }

    fn table(&self, title: &str, columns: &str, unit: &str) {
        let mut columns =
            format!("| {columns} | Rust ns{unit} | library ns{unit} | library / Rust |");
        if self.old.is_some() {
            columns += &format!(" old ns{unit} | new / old |");
        }
        let lines = "---|".repeat(columns.matches('|').count() - 1);
        println!("{title}\n\n{columns}\n|{lines}");
    }

    fn polishing(&mut self) -> Result<(), String> {
        self.table(
            "Polishing",
            "k | stops | table | accepted a call | sets passed over",
            "",
        );
        let mut rows = Vec::new();
        measured::each(&mut |k, stops, kind| rows.push((k, stops, kind)));
        rows.into_iter()
            .try_for_each(|(k, stops, kind)| self.polish(k, stops, kind))
    }

    fn polish(&mut self, k: usize, stops: usize, kind: &'static str) -> Result<(), String> {
        let case = measured::case(kind, k, stops);
        let reply = same(&case)?;
        let counted = Counted {
            examined: reply.number(1, 1),
            accepted: reply.number(1, 2),
        };
        let passed = 100.0 * passed_over(&case, &counted)?;
        let name = format!("polishing, k = {k}, {stops} stops, {kind}");
        let best = self.timed(&name, &driver::polish(&case), &mut || polish_by_rust(&case))?;
        self.means.add(k, kind, &name, best.ratios());
        let accepted = counted.accepted;
        println!(
            "| {k} | {stops} | {kind} | {accepted} | {passed:.1} % | {} |",
            best.told()
        );
        Ok(())
    }

    /// Beside the Rust's run with k = 2 over the one round.
    fn pair_loops(&mut self) -> Result<(), String> {
        self.table(
            "\nThe pair loop",
            "stops | table | pairs a call | accepted a call",
            "",
        );
        for stops in PAIR_SIZES {
            for kind in measured::KINDS {
                let case = cases::pairs::Case::new(measured::case(kind, 2, stops));
                let reply = same(&case)?;
                let (examined, accepted) = (reply.number(1, 1), reply.number(1, 2));
                let name = format!("the pair loop, {stops} stops, {kind}");
                let by_rust = case.as_run();
                let best = self.timed(&name, &driver::pairs(&case), &mut || {
                    unchanged_run(&by_rust)
                })?;
                println!(
                    "| {stops} | {kind} | {examined} | {accepted} | {} |",
                    best.told()
                );
            }
        }
        Ok(())
    }

    fn runs(&mut self) -> Result<(), String> {
        let title = format!("\nThe run, {RUN_ROUNDS} rounds, all polished until finished");
        self.table(&title, "k | stops a round | candidates a call", "");
        for (k, stops) in RUN_SIZES {
            let case = run_case(k, stops);
            let reply = same(&case)?;
            let examined: u64 = (0..RUN_ROUNDS)
                .map(|round| reply.number(1, 4 * round + 1))
                .sum();
            let name = format!("the run, k = {k}, {stops} stops");
            let best = self.timed(&name, &driver::run(&case), &mut || run_by_rust(&case))?;
            println!("| {k} | {stops} | {examined} | {} |", best.told());
        }
        Ok(())
    }

    fn listings(&mut self) -> Result<(), String> {
        let title = "\nThe nearby listing, 512 positions, 5 cuts, 32 neighbours";
        self.table(title, "sets a call", " a set");
        for sets in LISTED {
            let case = nearby::widest(&mut Random::new(1958), sets);
            let count = same(&case)?.number(1, 0);
            let name = format!("the listing, {count} sets");
            let best = self.timed(&name, &driver::nearby(&case), &mut || list_by_rust(&case))?;
            println!("| {count} | {} |", best.told());
        }
        Ok(())
    }

    /// Every nearby cut set beside the listing above, both the library's: where there are many sets, and where there is none.
    fn every_listings(&mut self) -> Result<(), String> {
        println!("\nEvery nearby cut set, 512 positions, 5 cuts, 32 neighbours\n");
        println!("| sets a call | nearby ns a set | every ns a set | every / nearby |\n|---|---|---|---|");
        let mut longest = 0.0;
        for sets in LISTED {
            let case = nearby::widest(&mut Random::new(1958), sets);
            let ([near, every], count) = (self.both(&case)?, sets as f64);
            let (near_set, every_set, ratio) = (near / count, every / count, every / near);
            println!("| {sets} | {near_set:.2} | {every_set:.2} | {ratio:.3} |");
            longest = near;
        }
        let most = LISTED[LISTED.len() - 1];
        println!("\nNo set; beside nearby's call for {most} sets, near by position\n");
        println!(
            "| table | nearby us a call | every us a call | of that call |\n|---|---|---|---|"
        );
        for (name, table) in bounds::DEAD_ENDS {
            let case = bounds::of_most(table(&mut Random::new(1958)), most);
            let [near, every] = self.both(&case)?;
            let (near, every, ratio) = (near / 1000.0, every / 1000.0, every / longest);
            println!("| {name} | {near:.0} | {every:.0} | {ratio:.3} |");
        }
        Ok(())
    }

    /// Nanoseconds a call of both listings, the best of many turns. Both write as many sets.
    fn both(&mut self, case: &cases::nearby::Case) -> Result<[f64; 2], String> {
        let sets = same(case)?.number(1, 0);
        if same(&Every(case.clone()))?.number(1, 0) != sets {
            return Err(String::from("the listings write different numbers of sets"));
        }
        let asked = [driver::nearby(case), driver::every(case)];
        let mut best = [f64::INFINITY; 2];
        for round in 0..ROUNDS * self.new.len() {
            let place = round % self.new.len();
            for (question, best) in asked.iter().zip(&mut best) {
                *best = best.min(shortest(&mut self.new[place], question)?);
            }
        }
        // A driver counts a call that lists nothing as one set.
        Ok(best.map(|time| time * sets.max(1) as f64))
    }

    /// The best times of a case, its sides taken in turn: until none has become better for a while.
    fn timed(
        &mut self,
        name: &str,
        case: &str,
        by_rust: &mut dyn FnMut() -> Timed,
    ) -> Result<Best, String> {
        let mut sides: Vec<Side> = self
            .old
            .iter_mut()
            .chain([&mut self.new])
            .map(Side::of)
            .collect();
        let (start, mut rust) = (Instant::now(), f64::INFINITY);
        let (mut round, mut idle) = (0, 0);
        while round < ROUNDS || (!settled(&sides, idle) && start.elapsed() < LONGEST) {
            if round < ROUNDS {
                rust = rust.min(nanoseconds(by_rust));
            }
            let better = turns(&mut sides, round, case)?;
            idle = if better { 0 } else { idle + 1 };
            round += 1;
        }
        let (first, last) = (&sides[0], &sides[sides.len() - 1]);
        let apart = first.reply != last.reply;
        if apart {
            self.apart.push(String::from(name));
        }
        let (old, new) = (first.best, last.best);
        let old = (sides.len() > 1 && !apart).then_some(old);
        Ok(Best {
            rust,
            new,
            old,
            apart,
        })
    }
}

/// The best of a few short turns of a case.
fn shortest(driver: &mut Driver, case: &str) -> Result<f64, String> {
    driver.load(case)?;
    let mut best = f64::INFINITY;
    for _ in 0..SHORT_TURNS {
        best = best.min(driver.turn(1)?.nanoseconds);
    }
    Ok(best)
}

/// An archive that is timed on a case.
struct Side<'d> {
    drivers: &'d mut [Driver],
    best: f64,
    reply: u64,
}

impl<'d> Side<'d> {
    fn of(drivers: &'d mut Vec<Driver>) -> Self {
        Self {
            drivers,
            best: f64::INFINITY,
            reply: 0,
        }
    }

    /// The driver of a round.
    fn driver(&mut self, round: usize) -> &mut Driver {
        let place = round % self.drivers.len();
        &mut self.drivers[place]
    }

    /// One turn; whether it was clearly better than those before.
    fn turn(&mut self, round: usize) -> Result<bool, String> {
        let turn = self.driver(round).turn(CANDIDATES)?;
        let better = turn.nanoseconds < self.best * CLEARLY;
        self.best = self.best.min(turn.nanoseconds);
        self.reply = turn.reply;
        Ok(better)
    }
}

/// Whether rounds that bring nothing better need not be repeated.
fn settled(sides: &[Side], idle: usize) -> bool {
    let ratio = sides[sides.len() - 1].best / sides[0].best;
    let apart = (ratio - 1.0).abs() > APART;
    idle >= if apart {
        IDLE_ROUNDS_APART
    } else {
        IDLE_ROUNDS
    }
}

/// A round of turns; whether one of them was clearly better than those before.
fn turns(sides: &mut [Side], round: usize, case: &str) -> Result<bool, String> {
    let mut better = false;
    // Anew, since a case can lie better or worse in memory.
    for side in sides.iter_mut() {
        side.driver(round).load(case)?;
    }
    for _ in 0..TURNS {
        for side in sides.iter_mut() {
            better |= side.turn(round)?;
        }
    }
    Ok(better)
}

/// The share of cut sets passed over, counted beside; what is counted so must be what the library counts.
fn passed_over(case: &Case, by_library: &Counted) -> Result<f64, String> {
    let (counted, passed) = share(case);
    if counted == *by_library {
        Ok(passed)
    } else {
        Err(format!("{counted:?} where the library has {by_library:?}"))
    }
}

/// Stops in a plane; each round has its own.
fn run_case(k: usize, stops: usize) -> cases::run::Case {
    let mut random = Random::new(1958);
    let locations = RUN_ROUNDS * stops + 1;
    let tables = Tables::of_legs(locations, plane(&mut random, locations));
    let all: Vec<u32> = (1..locations as u32).collect();
    let rounds: Vec<(u32, Vec<u32>)> = all.chunks(stops).map(|round| (0, round.to_vec())).collect();
    cases::run::Case {
        allowance: 50 * CANDIDATES,
        ..cases::run::Case::of_rounds(k, tables, &rounds)
    }
}

/// One call: its time, and what it counts the time by.
type Timed = (Duration, u64);

fn nanoseconds(call: &mut dyn FnMut() -> Timed) -> f64 {
    let (mut time, mut counted) = (Duration::ZERO, 0);
    while counted < CANDIDATES && time < Duration::from_millis(300) {
        let once = call();
        time += once.0;
        counted += once.1.max(1);
    }
    time.as_nanos() as f64 / counted as f64
}

fn polish_by_rust(case: &Case) -> Timed {
    let mut route: Vec<usize> = case.route.iter().map(|&stop| stop as usize).collect();
    let start = Instant::now();
    let counts = oracle::polish::polish_stops(case, case.allowance, &mut route);
    (start.elapsed(), counts.examined)
}

/// With two cuts each round by the Rust's `polish_route`.
fn run_by_rust(case: &cases::run::Case) -> Timed {
    let start = Instant::now();
    let examined = oracle::run::examined(case, case.allowance);
    (start.elapsed(), examined)
}

fn unchanged_run(case: &cases::run::Case) -> Timed {
    let start = Instant::now();
    let examined = oracle::run::run_quietly(case, case.allowance);
    (start.elapsed(), examined)
}

fn list_by_rust(case: &cases::nearby::Case) -> Timed {
    let start = Instant::now();
    let (sets, _more) = oracle::nearby::listed(case, case.sets_room / case.k);
    (start.elapsed(), (sets.len() / case.k) as u64)
}
