//! Random runs that are not refused.

use crate::cases::run::{Case, NUMBERS_A_ROUND};
use crate::draw::{order, set_times, some_depot, some_legs};
use crate::oracle::run::{examined, run};
use crate::random::Random;
use crate::rules::{MOST_ROUNDS, MOST_STOPS};
use crate::tables::Tables;
use crate::trial::Drawn;

pub fn draw(random: &mut Random, _index: u64) -> Drawn {
    (Box::new(random_run(random)), None)
}

/// Longer rounds, of which many are finished for k = 2 and few for k = 5.
pub fn draw_long(random: &mut Random, _index: u64) -> Drawn {
    (Box::new(long_run(random)), None)
}

pub fn long_run(random: &mut Random) -> Case {
    let k = random.within(2, 5);
    let most = [120, 30, 20, 14][k - 2];
    let rounds = random.within(1, 4);
    let lengths: Vec<usize> = (0..rounds).map(|_| random.within(8, most)).collect();
    let locations = most + random.within(1, 40);
    let mut case = of_lengths(random, k, locations, &lengths);
    case.allowance = random.below(1 << 17);
    case
}

/// With an allowance near one that matters.
pub fn random_run(random: &mut Random) -> Case {
    let mut case = small_run(random);
    case.allowance = allowance(random, &case);
    if random.one_in(4) {
        case.room += random.within(1, 9);
    }
    case
}

/// A few rounds, seldom many, mostly short ones.
pub fn small_run(random: &mut Random) -> Case {
    let k = random.within(2, 5);
    let rounds = match random.below(1000) {
        0 => MOST_ROUNDS,
        1..=30 => random.within(7, 20),
        31..=60 => 0,
        _ => random.within(1, 4),
    };
    let lengths: Vec<usize> = (0..rounds).map(|_| length(random, k)).collect();
    let longest = lengths.iter().copied().max().unwrap_or(0);
    let locations = match random.below(4) {
        0 => random.within(1, longest + 1),
        _ => longest + random.within(1, 4),
    };
    of_lengths(random, k, locations, &lengths)
}

fn length(random: &mut Random, k: usize) -> usize {
    match random.below(2000) {
        0 => random.within(100, MOST_STOPS),
        1..=20 => random.within(13, 40),
        21..=300 => random.within(0, 3),
        _ => random.within(4, [12, 10, 7, 6][k - 2]),
    }
}

fn of_lengths(random: &mut Random, k: usize, locations: usize, lengths: &[usize]) -> Case {
    let mut tables = Tables::of_legs(locations, some_legs(random, locations));
    let one_depot = some_depot(random, locations);
    let mut rounds = Vec::new();
    for &stops in lengths {
        let other = some_depot(random, locations);
        let depot = random.pick([one_depot, one_depot, other]);
        rounds.push((depot, order(random, locations, depot, stops)));
    }
    if !rounds.is_empty() && random.one_in(2) {
        let (depot, route) = &rounds[random.index(rounds.len())];
        set_times(random, &mut tables, *depot, route);
    }
    let mut case = Case::of_rounds(k, tables, &rounds);
    for pin in &mut case.pins {
        *pin = random.pick([0, 0, 0, 0, 0, 0, 1, 255]);
    }
    case.room = rounds.len() * NUMBERS_A_ROUND;
    case
}

/// None, one, few, or near where the Rust ends the run or one of its rounds.
fn allowance(random: &mut Random, case: &Case) -> u64 {
    match random.below(20) {
        0 => return 0,
        1 => return 1,
        2 => return random.below(60),
        _ => {}
    }
    let most = probe_size(random, case);
    let examined = examined(case, most);
    let ended = examined < most;
    match random.below(6) {
        0 => examined.saturating_sub(1),
        1 => examined,
        2 if ended => u64::MAX - random.below(2),
        3 => random.below(examined + 1),
        4 => after_a_round(random, case, most),
        _ => examined + 1,
    }
}

/// About as many candidates as the first rounds examine together.
fn after_a_round(random: &mut Random, case: &Case, most: u64) -> u64 {
    let (_, numbers) = run(case, most);
    let rounds = random.index(case.lengths.len() + 1);
    let examined = numbers.chunks(NUMBERS_A_ROUND).map(|round| round[1]);
    let sum: u64 = examined.take(rounds).sum();
    random.pick([sum.saturating_sub(1), sum, sum, sum + 1])
}

/// Keeps a case short: the Rust fills a table of (stops + 1)² after each acceptance.
fn probe_size(random: &mut Random, case: &Case) -> u64 {
    let longest = case.lengths.iter().copied().max().unwrap_or(0);
    if longest > 64 {
        return random.below(300);
    }
    let doublings = random.within(4, if longest > 12 { 12 } else { 14 });
    (1 << doublings) + random.below(1 << doublings)
}
