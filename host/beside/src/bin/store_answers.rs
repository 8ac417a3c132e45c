//! Prints the Rust's answers to the questions of crates/replay_answers, or with the argument `moves` of crates/replay_moves, in that program's
//! words: its file stdout. The questions are drawn by the same rule on both sides (`next`, `draw`, `filled`; crates/replay_drawing), and the
//! library is not called. The late position, of which the Rust knows only yes or no, is the harness's own. To an end harbour the Rust is asked over one more
//! location, which stands for depot and end. The pair loop's are of the Rust's run with two
//! cuts, the run's with two cuts of its `polish_route`.

#![forbid(unsafe_code)]

use beside::cases::{ends, nearby, pairs, polish, run};
use beside::checks;
use beside::moves::apply::Apply;
use beside::moves::case::Cutting;
use beside::moves::doable::Doable;
use beside::moves::undo::Undo;
use beside::tables::Tables;
use beside::trial::{Reply, Trial};
use std::process::ExitCode;

const SEEDS: u16 = 16;
const LOCATIONS: usize = 10;
const POSITIONS: usize = 12;

/// What lent places hold before a call.
const RESULT: u64 = 9;
const PLACE: u64 = 99;

fn main() -> ExitCode {
    if let Some(fault) = checks::fault() {
        eprintln!("the Rust does not give what the documents say: {fault}");
        return ExitCode::FAILURE;
    }
    match std::env::args().nth(1).as_deref() {
        None => searches(),
        Some("moves") => moves(),
        Some(other) => {
            eprintln!("store_answers: {other} is neither nothing nor moves");
            return ExitCode::FAILURE;
        }
    }
    ExitCode::SUCCESS
}

fn searches() {
    for seed in 0..SEEDS {
        say_polished(&polishing(seed, 9));
        say_polished(&polishing(seed, 5));
        say_paired(seed, polish::RESULT_PLACES + 1);
        ran(seed, 7);
        let end = u32::from(seed % 10);
        say_ended(seed, end);
        ran_to(seed, &[end, 9 - end]);
        let pairs = filled(65535 - seed, 9, 4);
        say_kept(seed, end, &pairs);
        ran_keeping(seed, &[end, 9 - end], &pairs);
        listed(seed);
    }
    refused_searches();
}

/// One question for each number, in the order of the program.
fn refused_searches() {
    let asked = || polish::Case {
        k: 3,
        ..polishing(1, 5)
    };
    let (mut k, mut locations, mut leg, mut service, mut depot, mut room) =
        (asked(), asked(), asked(), asked(), asked(), asked());
    k.k = 6;
    locations.tables.locations = 9;
    leg.tables.legs[0] = 1_000_001;
    // Before 4, which it would be too.
    service.tables.service[0] = 1_000_001;
    service.depot = 10;
    depot.depot = 10;
    room.room = 5;
    for case in [k, locations, leg, service, depot, room] {
        say_polished(&case);
    }
    say_paired(1, polish::RESULT_PLACES - 1);
    ran(1, 8);
    say_ended(1, 10);
    ran_to(1, &[0]);
    // Behind 24, before 5.
    say_kept(1, 10, &[3, 3]);
    say_kept(1, 9, &[3, 3]);
    ran_keeping(1, &[0], &[3, 4, 5]);
    listed(29);
}

fn moves() {
    for seed in 0..SEEDS {
        moved(seed);
    }
    refused_moves();
    refused_places();
}

fn next(state: u16) -> u16 {
    ((u32::from(state) * 25173 + 13849) % 65536) as u16
}

/// A number from 0 to span.
fn draw(state: u16, span: u16) -> u32 {
    (u32::from(state) / 8) % (u32::from(span) + 1)
}

fn filled(seed: u16, span: u16, places: usize) -> Vec<u32> {
    let mut state = seed;
    let place = |_| {
        state = next(state);
        draw(state, span)
    };
    (0..places).map(place).collect()
}

fn allowance_of(seed: u16) -> u64 {
    match seed % 3 {
        2 => u64::from(seed) * 20,
        _ => 1_000_000,
    }
}

fn cuts_of(seed: u16) -> usize {
    usize::from(2 + seed % 4)
}

/// The most seconds at a stop: none for every other four seeds.
fn service_of(seed: u16) -> u16 {
    seed / 4 % 2 * 40
}

fn tables(seed: u16) -> Tables {
    Tables {
        locations: LOCATIONS,
        legs: filled(seed, 99, LOCATIONS * LOCATIONS),
        latest: filled(seed, 799, LOCATIONS),
        service: filled(seed, service_of(seed), LOCATIONS),
        pairs: None,
    }
}

fn say(name: &str, reply: &Reply, result: &[u64], stops: &str, places: &[u64]) {
    let (code, result, places) = (reply.code, told(result), told(places));
    println!("{name} {code}{result} {stops}{places}");
}

fn told(numbers: &[u64]) -> String {
    numbers.iter().map(|number| format!(" {number}")).collect()
}

/// Lent places as the library's caller sees them: as before where the call is refused, else what was written and then the places beyond.
fn seen(reply: &Reply, lent: usize, written: usize, places: usize, before: u64) -> Vec<u64> {
    let kept = if reply.code == 0 { written } else { 0 };
    let mut numbers = reply.lent[lent].1[..kept].to_vec();
    numbers.resize(places, before);
    numbers
}

fn polishing(seed: u16, stops: usize) -> polish::Case {
    let mut tables = tables(seed);
    tables.legs[0] = 0;
    tables.service[0] = u32::from(service_of(seed));
    polish::Case {
        k: cuts_of(seed),
        allowance: allowance_of(seed),
        tables,
        depot: 0,
        route: filled(seed, 9, stops),
        room: polish::RESULT_PLACES + 1,
    }
}

fn say_polished(case: &polish::Case) {
    let reply = case.expected();
    let result = seen(&reply, 1, polish::RESULT_PLACES, case.room, RESULT);
    say("polish", &reply, &result, "route", &reply.lent[0].1);
}

/// Seven stops from location 0 to an end harbour.
fn ending(seed: u16, end: u32, pairs: Option<Vec<u32>>) -> ends::Case {
    let tables = Tables {
        pairs,
        ..tables(seed)
    };
    let closed = polish::Case {
        k: cuts_of(seed),
        allowance: allowance_of(seed),
        tables,
        depot: 0,
        route: filled(seed, 9, 7),
        room: polish::RESULT_PLACES + 1,
    };
    ends::Case { closed, end }
}

fn say_ending(name: &str, case: &ends::Case) {
    let reply = case.expected();
    let result = seen(&reply, 1, polish::RESULT_PLACES, 7, RESULT);
    say(name, &reply, &result, "route", &reply.lent[0].1);
}

fn say_ended(seed: u16, end: u32) {
    say_ending("ended", &ending(seed, end, None));
}

fn say_kept(seed: u16, end: u32, pairs: &[u32]) {
    say_ending("kept", &ending(seed, end, Some(pairs.to_vec())));
}

fn say_paired(seed: u16, room: usize) {
    let case = pairs::Case::new(polish::Case {
        k: 2,
        allowance: allowance_of(seed),
        tables: tables(seed),
        depot: 0,
        route: filled(seed, 9, 8),
        room,
    });
    let reply = case.expected();
    let result = seen(&reply, 1, polish::RESULT_PLACES, room, RESULT);
    say("pairs", &reply, &result, "route", &reply.lent[0].1);
}

fn ran(seed: u16, last: usize) {
    let case = run::Case {
        k: cuts_of(seed),
        allowance: allowance_of(seed),
        tables: tables(seed),
        stops: filled(seed, 9, 16),
        lengths: vec![6, 3, last],
        depots: vec![0, 1, 2],
        ends: None,
        pins: vec![0, (seed / 4 % 2) as u8, 0],
        room: 13,
        shares: false,
    };
    let reply = case.expected();
    let result = seen(&reply, 1, 12, case.room, RESULT);
    say("run", &reply, &result, "stops", &reply.lent[0].1);
}

/// Two rounds, each to its own end.
fn running_to(seed: u16, ends: &[u32], pairs: Option<Vec<u32>>) -> run::Case {
    let tables = Tables {
        pairs,
        ..tables(seed)
    };
    run::Case {
        k: cuts_of(seed),
        allowance: allowance_of(seed),
        tables,
        stops: filled(seed, 9, 11),
        lengths: vec![6, 5],
        depots: vec![0, 1],
        ends: Some(ends.to_vec()),
        pins: vec![0, 0],
        room: 9,
        shares: false,
    }
}

fn say_ran(name: &str, case: &run::Case) {
    let reply = case.expected();
    let result = seen(&reply, 1, 8, case.room, RESULT);
    say(name, &reply, &result, "stops", &reply.lent[0].1);
}

fn ran_to(seed: u16, ends: &[u32]) {
    say_ran("ran", &running_to(seed, ends, None));
}

fn ran_keeping(seed: u16, ends: &[u32], pairs: &[u32]) {
    say_ran("run kept", &running_to(seed, ends, Some(pairs.to_vec())));
}

fn listed(seed: u16) {
    let distances = filled(seed, 7, POSITIONS * POSITIONS);
    let case = nearby::Case {
        n: POSITIONS,
        distances: distances.into_iter().map(f64::from).collect(),
        k: cuts_of(seed),
        min_segment_len: usize::from(1 + seed / 4 % 2),
        max_nearby: usize::from(seed) + 4,
        sets_room: 40,
        room: 3,
    };
    let reply = case.expected();
    let result = seen(&reply, 1, 2, case.room, RESULT);
    let written = if reply.code == 0 {
        result[0] as usize * case.k
    } else {
        0
    };
    let sets = seen(&reply, 0, written, case.sets_room, PLACE);
    say("nearby", &reply, &result, "sets", &sets);
}

fn moved(seed: u16) {
    let pattern = usize::from(seed);
    say_move(3, pattern % 7, &[1; 3], &[1, 3, 6]);
    say_move(4, pattern * 6 % 47, &[1; 4], &[0, 2, 5, 7]);
    say_move(5, pattern * 54 % 383, &[1; 5], &[0, 1, 3, 6, 8]);
}

fn refused_moves() {
    say_move(6, 0, &[1; 3], &[1, 3, 6]);
    say_move(3, 7, &[1; 3], &[1, 3, 6]);
    say_move(3, 0, &[1; 3], &[3, 1, 6]);
    say_move(3, 0, &[1, 2, 1], &[1, 3, 6]);
    say_move(3, 0, &[1, 2, 1], &[3, 1, 6]);
    say_move(3, 0, &[1; 2], &[1, 3, 6]);
}

fn refused_places() {
    let three = || vec![11, 12, 13];
    apply(cutting(3, 0, &[1; 3], &[0, 1, 3]), three(), 2);
    undo(three(), vec![1, 2]);
    undo(three(), vec![1, 2, 3, 4]);
    doable(cutting(3, 0, &[1; 3], &[1, 3, 6]), 513);
}

fn cutting(k: usize, pattern: usize, rounds: &[usize], cuts: &[usize]) -> Cutting {
    Cutting {
        k,
        pattern,
        round: 1,
        cut_rounds: rounds.to_vec(),
        cut_positions: cuts.to_vec(),
    }
}

/// A move of eight stops: applied, undone with the first places of its journal, and whether it can be done.
fn say_move(k: usize, pattern: usize, rounds: &[usize], cuts: &[usize]) {
    let cutting = || cutting(k, pattern, rounds, cuts);
    let (route, journal) = apply(cutting(), (11..19).collect(), 9);
    undo(route, journal[..8].to_vec());
    doable(cutting(), 8);
}

/// The route and the journal after it.
fn apply(cutting: Cutting, route: Vec<u32>, room: usize) -> (Vec<u32>, Vec<u32>) {
    let stops = route.len();
    let case = Apply {
        cutting,
        route,
        room,
        undone: false,
    };
    let reply = case.expected();
    let journal = seen(&reply, 1, stops, room, PLACE);
    let (code, route) = (reply.code, &reply.lent[0].1);
    println!("move {code} route{} journal{}", told(route), told(&journal));
    (narrow(route), narrow(&journal))
}

fn narrow(stops: &[u64]) -> Vec<u32> {
    stops.iter().map(|&stop| stop as u32).collect()
}

fn undo(route: Vec<u32>, journal: Vec<u32>) {
    let reply = Undo { route, journal }.expected();
    println!("undo {} route{}", reply.code, told(&reply.lent[0].1));
}

fn doable(cutting: Cutting, n: usize) {
    let room = 2;
    let reply = Doable { cutting, n, room }.expected();
    let result = seen(&reply, 0, 1, room, RESULT);
    println!("doable {}{}", reply.code, told(&result));
}
