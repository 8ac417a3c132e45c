//! cargo run --release --example polish_rounds [--jobs N] [--seconds N] [--patterns LIST] [--pairs LIST] [--shares] FILE: polishes each round of a file and says what was saved, which stop is
//! late and which pair is not kept, if one is, a line for each round as it is done. The file has the form of the text program, with any number of lines `round=` at its
//! end, each of which the library reads; see rounds.txt beside this file. Each round has the whole allowance; with --shares they share it. With --seconds it stops in time, and on a
//! terminal a line shows how far it is. Exit 1 if the file is not of the form or a round is refused,
//! 2 if the words are not understood.

#![forbid(unsafe_code)]

mod board;
mod jobs;
mod options;
mod question;
mod shares;

use board::Board;
use jobs::{polish_all, Outcome};
use mittenschist::{Ending, Pair, PatternList, Polished};
use options::{Options, USAGE};
use question::Question;
use std::process::ExitCode;
use std::time::Instant;
use std::{env, fs};

fn main() -> ExitCode {
    let (file, jobs, seconds, lists, shares) = match Options::parse(env::args().skip(1)) {
        Ok(Options::Polish {
            file,
            jobs,
            seconds,
            patterns,
            pairs,
            shares,
        }) => (file, jobs, seconds, (patterns, pairs), shares),
        Ok(Options::Help) => {
            println!("{USAGE}");
            return ExitCode::SUCCESS;
        }
        Err(fault) => {
            eprintln!("{fault}\n{USAGE}");
            return ExitCode::from(2);
        }
    };
    match read(&file, lists.0.as_deref(), lists.1.as_deref()) {
        Ok(mut question) => {
            question.until = seconds.and_then(|seconds| Instant::now().checked_add(seconds));
            let board = &Board::of_terminal(question.rounds.len());
            let tell = &mut |line| board.tell(line);
            let refused = match shares {
                true => tell_shares(&question, tell),
                false => tell_all(&question, jobs, board, tell),
            };
            ExitCode::from(u8::from(refused))
        }
        Err(fault) => {
            eprintln!("{fault}");
            ExitCode::FAILURE
        }
    }
}

fn read(file: &str, patterns: Option<&str>, pairs: Option<&str>) -> Result<Question, String> {
    let mut question = read_as(file, Question::parse)?;
    if let Some(list) = patterns {
        let load = |text: &str| PatternList::load(text.as_bytes());
        let loaded = |text: &str| load(text).map_err(|refused| refused.to_string());
        question.patterns = Some(read_as(list, loaded)?);
    }
    if let Some(list) = pairs {
        question.pairs = read_as(list, question::pairs)?;
    }
    Ok(question)
}

/// What a file holds, or its name and what is wrong with it.
fn read_as<T>(file: &str, parse: impl Fn(&str) -> Result<T, String>) -> Result<T, String> {
    let text = fs::read_to_string(file).map_err(|fault| fault.to_string());
    text.and_then(|text| parse(&text))
        .map_err(|fault| format!("{file}: {fault}"))
}

/// Tells a line for each round and one for all; whether a round was refused.
fn tell_all(question: &Question, jobs: usize, board: &Board, tell: &mut dyn FnMut(String)) -> bool {
    let mut total = Total::default();
    polish_all(question, jobs, board, |outcome| {
        total.add(question, &outcome);
        let line = told(question, outcome);
        tell(format!("round {}: {line}", total.rounds));
    });
    tell(total.told());
    total.refused > 0
}

/// Tells a line for each round, or that the call was refused.
fn tell_shares(question: &Question, tell: &mut dyn FnMut(String)) -> bool {
    match shares::share_all(question) {
        Ok(lines) => {
            let numbered = (1..).zip(lines);
            numbered.for_each(|(number, line)| tell(format!("round {number}: {line}")));
            false
        }
        Err(refusal) => {
            tell(format!("refused ({}): {refusal}", refusal.number()));
            true
        }
    }
}

fn told(question: &Question, outcome: Outcome) -> String {
    match outcome {
        Ok((polished, route)) => {
            let late = polished.late.map(|at| told_late(question, &route, at));
            let broken = question.broken_pair(&route).map(told_broken);
            told_polished(question, &polished, &route)
                + &late.unwrap_or_default()
                + &broken.unwrap_or_default()
        }
        Err(refusal) => format!("refused ({}): {refusal}", refusal.number()),
    }
}

/// Whom to ring: the first stop that is late, counted from 1 as a person counts, when it is reached and when it was due.
fn told_late(question: &Question, route: &[u32], at: usize) -> String {
    let (number, stop) = (at + 1, route[at]);
    let reached = question.reached(&route[..=at]);
    let due = question.latest[stop as usize];
    format!("; stop {number}, location {stop}, is the first that is late: reached at second {reached}, due by second {due}")
}

fn told_broken([first, second]: Pair) -> String {
    format!("; location {second} comes before location {first}")
}

/// Whether the time was over before the allowance.
fn stopped(question: &Question, polished: &Polished) -> bool {
    polished.ending == Ending::Spent && polished.examined < question.allowance
}

fn told_polished(question: &Question, polished: &Polished, route: &[u32]) -> String {
    let ending = match polished.ending {
        Ending::Finished => "finished",
        Ending::Spent if stopped(question, polished) => "time over",
        Ending::Spent => "allowance spent",
    };
    let order: Vec<String> = route.iter().map(u32::to_string).collect();
    format!(
        "{} s before, {} s after, {} s saved; {ending} after {} candidates; order {}",
        polished.before,
        polished.after,
        polished.saved(),
        polished.examined,
        order.join(",")
    )
}

/// The rounds so far, and the seconds of those that were polished.
#[derive(Default)]
struct Total {
    rounds: usize,
    refused: usize,
    stopped: usize,
    before: u64,
    after: u64,
}

impl Total {
    fn add(&mut self, question: &Question, outcome: &Outcome) {
        self.rounds += 1;
        match outcome {
            Ok((polished, _)) => {
                self.stopped += usize::from(stopped(question, polished));
                self.before += polished.before;
                self.after += polished.after;
            }
            Err(_) => self.refused += 1,
        }
    }

    fn told(&self) -> String {
        let (rounds, before, after) = (self.rounds, self.before, self.after);
        let saved = before.saturating_sub(after);
        let mut line =
            format!("{rounds} rounds: {before} s before, {after} s after, {saved} s saved in all");
        if self.stopped > 0 {
            line += &format!("; {} stopped by the time", self.stopped);
        }
        if self.refused > 0 {
            line += &format!("; {} refused", self.refused);
        }
        line
    }
}

#[cfg(test)]
mod tests {
    use super::*;
    use mittenschist::Refusal;
    use std::time::Duration;

    fn lines(text: &str, jobs: usize) -> (Vec<String>, bool) {
        let mut lines = Vec::new();
        let refused = all_told(&Question::parse(text).unwrap(), jobs, &mut lines);
        (lines, refused)
    }

    fn all_told(question: &Question, jobs: usize, lines: &mut Vec<String>) -> bool {
        tell_all(question, jobs, &Board::silent(), &mut |line| {
            lines.push(line)
        })
    }

    #[test]
    fn the_file_beside_this_one() {
        let wanted = [
            "round 1: 23 s before, 5 s after, 18 s saved; finished after 74 candidates; order 2,1,3,4",
            "round 2: 5 s before, 5 s after, 0 s saved; finished after 70 candidates; order 4,3,1,2; \
             stop 2, location 3, is the first that is late: reached at second 32, due by second 20",
            "round 3: 7 s before, 7 s after, 0 s saved; finished after 7 candidates; order 3,4",
            "3 rounds: 35 s before, 17 s after, 18 s saved in all",
        ];
        for jobs in 1..5 {
            let (told, refused) = lines(include_str!("rounds.txt"), jobs);
            assert_eq!((&told[..], refused), (&wanted.map(String::from)[..], false));
        }
    }

    /// Three cuts whose two middle segments change places, and nothing is turned.
    #[test]
    fn with_one_pattern() {
        let mut question = Question::parse(include_str!("rounds.txt")).unwrap();
        let list = PatternList::load(b"k=3\npatterns=1\npattern=0213,0\n");
        question.patterns = Some(list.unwrap());
        let mut told = Vec::new();
        assert!(!all_told(&question, 1, &mut told));
        let first = "round 1: 23 s before, 5 s after, 18 s saved; finished after 11 candidates; order 2,1,3,4";
        assert_eq!(told[0], first);
    }

    /// The first round would have location 2 before location 1; the second breaks a pair, and no shorter order mends it.
    #[test]
    fn with_pairs() {
        let mut question = Question::parse(include_str!("rounds.txt")).unwrap();
        question.pairs = question::pairs("pair=1,2\npair=3,4\n").unwrap();
        let mut told = Vec::new();
        assert!(!all_told(&question, 1, &mut told));
        assert!(told[0].ends_with("order 3,4,1,2"));
        assert!(told[1].ends_with("due by second 20; location 4 comes before location 3"));
        assert!(told[2].ends_with("order 3,4"));
    }

    /// No time at all: every round is judged, and told as it is written.
    #[test]
    fn with_the_time_over() {
        let mut question = Question::parse(include_str!("rounds.txt")).unwrap();
        question.until = Some(Instant::now());
        question.rounds.insert(1, Err(Refusal::UnknownStop));
        for jobs in 1..3 {
            let mut told = Vec::new();
            assert!(all_told(&question, jobs, &mut told));
            let first = "round 1: 23 s before, 23 s after, 0 s saved; time over after 0 candidates; order 1,2,3,4; stop 3, ";
            assert!(told[0].starts_with(first));
            assert!(told[1].starts_with("round 2: refused (4)"));
            let last = "4 rounds: 35 s before, 35 s after, 0 s saved in all; 3 stopped by the time; 1 refused";
            assert_eq!(told[4], last);
        }
    }

    /// With five cuts these 400 stops take hours; an allowance that is reached is told as such.
    #[test]
    fn with_a_time_limit() {
        let head = include_str!("rounds.txt").replace("k=3", "k=5");
        let head = head.split("round=").next().unwrap();
        let long = vec!["0"; 400].join(",");
        let text = format!("{head}round={long}\n").replace("=1000000\n", "=4000000000\n");
        let mut question = Question::parse(&text).unwrap();
        question.until = Instant::now().checked_add(Duration::from_millis(60));
        let mut told = Vec::new();
        assert!(!all_told(&question, 1, &mut told));
        assert!(told[0].contains("; time over after "), "{told:?}");
        assert!(told[1].ends_with("; 1 stopped by the time"));
        question.until = Instant::now().checked_add(Duration::from_secs(3600));
        question.allowance = 50_000;
        told.clear();
        assert!(!all_told(&question, 1, &mut told));
        assert!(told[0].contains("; allowance spent after 50000 candidates; "));
    }

    /// 40 candidates for two rounds of four stops: the first keeps what it accepted in its 20, and the short one is passed over.
    #[test]
    fn in_shares() {
        let mut question = Question::parse(include_str!("rounds.txt")).unwrap();
        question.allowance = 40;
        let mut told = Vec::new();
        assert!(!tell_shares(&question, &mut |line| told.push(line)));
        let wanted = [
            "round 1: 23 s before, 5 s after; share spent after 20 candidates; order 2,1,3,4",
            "round 2: 5 s before, 5 s after; share spent after 20 candidates; order 4,3,1,2",
            "round 3: 7 s before, 7 s after; under 4 stops after 0 candidates; order 3,4",
        ];
        assert_eq!(told, wanted);
        question.rounds = vec![Ok(Vec::new()); 65];
        assert!(tell_shares(&question, &mut |line| told.push(line)));
    }

    #[test]
    fn a_refused_round_does_not_end_the_file() {
        let text = "k=3\nallowance=0\nlocations=1\ndepot=0\nend=0\nlegs=7\nlatest=0\nservice=0\nround=1\nround=\n";
        let wanted = [
            "round 1: refused (4): a depot or stop is not below the number of locations",
            "round 2: 7 s before, 7 s after, 0 s saved; finished after 0 candidates; order ",
            "2 rounds: 7 s before, 7 s after, 0 s saved in all; 1 refused",
        ];
        let (told, refused) = lines(text, 1);
        assert_eq!((&told[..], refused), (&wanted.map(String::from)[..], true));
    }

    /// The first round is late as it is written and is mended. What is spent at a stop delays the next one, not itself; the depot's time counts
    /// where it is a stop. The last stop of the second round is late too.
    #[test]
    fn the_first_late_stop_and_when_it_is_reached() {
        let text = "k=3\nallowance=9\nlocations=3\ndepot=0\nend=0\nlegs=0,5,1\nlegs=1,0,5\nlegs=5,1,0\nlatest=9,5,9\nservice=7,20,0\nround=1,2\nround=1,2,1\nround=0,1\n";
        let (told, _) = lines(text, 1);
        let late = |line: &String| line.split_once("; stop ").map(|parts| parts.1.to_string());
        let late: Vec<_> = told.iter().map(late).collect();
        let first = "is the first that is late: reached at second";
        let wanted = [
            None,
            Some(format!("2, location 2, {first} 30, due by second 9")),
            Some(format!("2, location 1, {first} 12, due by second 5")),
            None,
        ];
        assert_eq!(late, wanted);
    }

    /// Rounds of very different lengths, so that later ones are done first.
    #[test]
    fn many_jobs_tell_what_one_tells() {
        let text: String = include_str!("rounds.txt")
            .split_inclusive('\n')
            .take(12)
            .collect();
        let round = |number: usize| {
            let stops: Vec<String> = (0..(number * 37) % 60)
                .map(|place| (place * number % 5).to_string())
                .collect();
            format!("round={}\n", stops.join(","))
        };
        let text = text + &(0..40).map(round).collect::<String>();
        let alone = lines(&text, 1);
        assert_eq!(alone.0.len(), 41);
        assert_eq!(lines(&text, 8), alone);
        assert_eq!(lines(&text, 100), alone);
    }
}
