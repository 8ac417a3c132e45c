//! compare [seed] [cases] [family [index]]: feeds the library and the Rust the same cases and compares all that a caller sees.
//! Family and index, as a difference prints them, run that one case again, given the same seed and cases; the first word of families runs
//! all of them. Exit 1 on a difference, where nothing was compared, or where one comparison takes too long.

#![forbid(unsafe_code)]

use beside::random::Random;
use beside::trial::{judge, Drawn, Family, Reply, Source, Trial};
use beside::watch::Watch;
use beside::{
    checks, desks, ends, every, first_move, in_shares, lists, moves, nearby, pairs, parts, polish,
    precedence, problems, run, season, slices, text, way_back,
};
use std::collections::BTreeMap;
use std::env;
use std::process::ExitCode;
use std::time::Duration;

const SEED: u64 = 1965;
const CASES: u64 = 150_000;
const MOST_PRINTED: u64 = 10;

/// The longest comparison takes a second or two, a good deal more on a busy machine.
const TOO_LONG: Duration = Duration::from_secs(180);

struct Settings {
    seed: u64,
    cases: u64,
    family: Option<String>,
    index: Option<u64>,
}

impl Settings {
    fn wants_family(&self, family: &Family) -> bool {
        self.family.as_ref().is_none_or(|name| family.is_of(name))
    }

    fn wants(&self, index: u64) -> bool {
        self.index.is_none_or(|only| only == index)
    }
}

/// What has been compared of a call.
#[derive(Default)]
struct Tally {
    compared: u64,
    differences: u64,
    kinds: BTreeMap<&'static str, u64>,
}

struct Tallies {
    calls: BTreeMap<&'static str, Tally>,
    differences: u64,
    watch: Watch,
}

impl Tallies {
    fn compare(&mut self, family: &Family, index: u64, trial: &dyn Trial) -> Reply {
        self.watch.begin(family.name, index);
        let (reply, difference) = judge(trial, family.small_stack);
        let kind = match reply.code {
            0 => trial.kind(&reply),
            _ => "refused",
        };
        let tally = self.calls.entry(family.call).or_default();
        tally.compared += 1;
        *tally.kinds.entry(kind).or_default() += 1;
        if let Some(found) = difference {
            self.report(family, index, trial, &found);
        }
        reply
    }

    fn report(&mut self, family: &Family, index: u64, trial: &dyn Trial, found: &str) {
        self.calls.entry(family.call).or_default().differences += 1;
        self.differences += 1;
        if self.differences <= MOST_PRINTED {
            println!("DIFFERENCE in {} {index}\n{found}{trial}", family.name);
        }
    }

    /// Prints what was compared, and says whether it is as it should be.
    fn print(&self) -> bool {
        for (call, tally) in &self.calls {
            let (compared, differences) = (tally.compared, tally.differences);
            println!("{compared:>9} {call}, {differences} differences");
            let kinds: Vec<String> = tally.kinds.iter().map(told).collect();
            println!("          expected: {}", kinds.join(", "));
        }
        let all: u64 = self.calls.values().map(|tally| tally.compared).sum();
        println!("{all} comparisons, {} differences", self.differences);
        if all == 0 {
            println!("nothing was compared");
        }
        all > 0 && self.differences == 0
    }
}

fn told((kind, count): (&&str, &u64)) -> String {
    format!("{count} {kind}")
}

fn main() -> ExitCode {
    let words: Vec<String> = env::args().skip(1).collect();
    let families = families();
    let Some(settings) = settings(&words, &families) else {
        let names: Vec<&str> = families.iter().map(|family| family.name).collect();
        eprintln!(
            "usage: compare [seed] [cases] [family [index]]; the families: {}",
            names.join(", ")
        );
        return ExitCode::from(2);
    };
    println!("seed {}, {} cases", settings.seed, settings.cases);
    if let Some(fault) = checks::fault() {
        println!("the Rust does not give what the documents say: {fault}");
        return ExitCode::FAILURE;
    }
    let mut tallies = Tallies {
        calls: BTreeMap::new(),
        differences: 0,
        watch: Watch::start(TOO_LONG),
    };
    for (salt, family) in (0..).zip(&families) {
        if settings.wants_family(family) {
            run_family(&mut tallies, &settings, family, salt);
        }
    }
    ExitCode::from(u8::from(!tallies.print()))
}

fn families() -> Vec<Family> {
    let mut all = Vec::from(polish::FAMILIES);
    all.extend(pairs::FAMILIES);
    all.extend(run::FAMILIES);
    all.extend(nearby::FAMILIES);
    all.extend(moves::FAMILIES);
    all.extend(parts::FAMILIES);
    all.extend(ends::FAMILIES);
    all.extend(first_move::FAMILIES);
    all.extend(lists::FAMILIES);
    all.extend(every::FAMILIES);
    all.extend(precedence::FAMILIES);
    all.extend(in_shares::FAMILIES);
    all.extend(problems::FAMILIES);
    all.extend(desks::FAMILIES);
    all.extend(way_back::FAMILIES);
    all.extend(slices::FAMILIES);
    match text::program() {
        Ok(_) => all.extend(text::FAMILIES),
        Err(reason) => println!("the text program is not compared: {reason}"),
    }
    match season::program() {
        Ok(_) => all.extend(season::FAMILIES),
        Err(reason) => println!("the season report is not compared: {reason}"),
    }
    all
}

fn settings(words: &[String], families: &[Family]) -> Option<Settings> {
    let number = |place: usize, usual: u64| {
        words
            .get(place)
            .map_or(Some(usual), |word| word.parse().ok())
    };
    let family = words.get(2);
    if family.is_some_and(|name| !families.iter().any(|family| family.is_of(name))) {
        return None;
    }
    Some(Settings {
        seed: number(0, SEED)?,
        cases: number(1, CASES)?,
        family: family.cloned(),
        index: match words.get(3) {
            Some(word) => Some(word.parse().ok()?),
            None => None,
        },
    })
}

fn run_family(tallies: &mut Tallies, settings: &Settings, family: &Family, salt: u64) {
    match family.source {
        Source::Each(each) => {
            let mut index = 0;
            let mut random = Random::of_case(settings.seed, salt, 0);
            each(&mut random, &mut |trial| {
                if settings.wants(index) {
                    tallies.compare(family, index, &*trial);
                }
                index += 1;
            });
        }
        Source::Drawn(share, least, draw) => {
            let cases = (settings.cases * share / 1000).max(least);
            for index in (0..cases).filter(|&index| settings.wants(index)) {
                let drawn = draw(&mut Random::of_case(settings.seed, salt, index), index);
                run_drawn(tallies, family, index, drawn);
            }
        }
        Source::Several(share, several) => {
            let cases = (settings.cases * share).div_ceil(1000);
            for index in (0..cases).filter(|&index| settings.wants(index)) {
                let mut random = Random::of_case(settings.seed, salt, index);
                several(&mut random, &mut |trial| {
                    tallies.compare(family, index, &*trial);
                });
            }
        }
    }
}

fn run_drawn(tallies: &mut Tallies, family: &Family, index: u64, drawn: Drawn) {
    let (trial, meant) = drawn;
    let reply = tallies.compare(family, index, &*trial);
    if let Some(number) = meant.filter(|&number| number != reply.code) {
        let fault = format!(
            "the harness expects {} where it meant {number}\n",
            reply.code
        );
        tallies.report(family, index, &*trial, &fault);
    }
}
