//! Runs at the bounds of document 01, and rounds of every length near the ones that matter.

use crate::cases::run::{Case, NUMBERS_A_ROUND};
use crate::draw::{capped, leg_table};
use crate::random::Random;
use crate::rules::{LONGEST_LEG, LONGEST_SERVICE, MOST_LOCATIONS, MOST_ROUNDS, MOST_STOPS};
use crate::tables::Tables;
use crate::trial::Visit;

/// Two rounds of each pair of lengths 0 to 6; one of 511, 512 and 513 stops.
pub fn each_length(random: &mut Random, visit: Visit) {
    for k in 2..=5 {
        for lengths in (0..49).map(|pair| [pair / 7, pair % 7]) {
            for allowance in [0, 1, 20, 700, 30_000] {
                let mut case = of_lengths(random, k, 8, &lengths);
                case.allowance = allowance;
                visit(Box::new(case));
            }
        }
        for length in [MOST_STOPS - 1, MOST_STOPS, MOST_STOPS + 1] {
            for allowance in [0, 1, 400, 4000] {
                let mut case = of_lengths(random, k, 20, &[length, 5]);
                case.allowance = allowance;
                visit(Box::new(case));
            }
        }
    }
}

pub fn each(random: &mut Random, visit: Visit) {
    for k in 2..=5 {
        for rounds in [0, 1, 2, 63, 64, 65] {
            each_number_of_rounds(random, k, rounds, visit);
        }
        visit(Box::new(longest(k)));
        visit(Box::new(fullest(random, k)));
        visit(Box::new(served(fullest(random, k))));
    }
    visit(Box::new(finished_at_the_bound()));
}

/// Room for the numbers, one place less, one more.
fn each_number_of_rounds(random: &mut Random, k: usize, rounds: usize, visit: Visit) {
    for room in [rounds * NUMBERS_A_ROUND, rounds * NUMBERS_A_ROUND + 1] {
        let lengths: Vec<usize> = (0..rounds).map(|_| random.within(0, 5)).collect();
        let mut case = of_lengths(random, k, 6, &lengths);
        case.room = room;
        case.allowance = random.pick([100, 3000, 50_000]);
        let short = Case {
            room: room.saturating_sub(1),
            ..case.clone()
        };
        visit(Box::new(case));
        visit(Box::new(short));
    }
}

/// Random legs and stops; some rounds pinned.
fn of_lengths(random: &mut Random, k: usize, locations: usize, lengths: &[usize]) -> Case {
    let tables = Tables::of_legs(locations, leg_table(random, locations));
    let place = |random: &mut Random| random.index(locations) as u32;
    let rounds: Vec<(u32, Vec<u32>)> = lengths
        .iter()
        .map(|&stops| (place(random), (0..stops).map(|_| place(random)).collect()))
        .collect();
    let mut case = Case::of_rounds(k, tables, &rounds);
    for pin in &mut case.pins {
        *pin = random.pick([0, 0, 0, 0, 1, 200]);
    }
    case
}

/// All legs of the greatest length, all rounds of the greatest size.
fn longest(k: usize) -> Case {
    let legs = vec![LONGEST_LEG; MOST_LOCATIONS * MOST_LOCATIONS];
    let round: Vec<u32> = (0..MOST_STOPS as u32).collect();
    let rounds = vec![(MOST_LOCATIONS as u32 - 1, round); MOST_ROUNDS];
    let mut case = Case::of_rounds(k, Tables::of_legs(MOST_LOCATIONS, legs), &rounds);
    case.allowance = 3000;
    case.pins = vec![255; MOST_ROUNDS];
    case.pins[MOST_ROUNDS - 1] = 0;
    case
}

/// All bounds at once, and legs that allow many changes.
fn fullest(random: &mut Random, k: usize) -> Case {
    let tables = Tables::of_legs(MOST_LOCATIONS, leg_table(random, MOST_LOCATIONS));
    let round: Vec<u32> = (0..MOST_STOPS as u32).rev().collect();
    let mut case = Case::of_rounds(k, tables, &vec![(1000, round); MOST_ROUNDS]);
    case.allowance = if k == 2 { 200_000 } else { 60 };
    case
}

/// The longest service times, and each stop due exactly when the first round reaches it.
fn served(mut case: Case) -> Case {
    case.tables.service = vec![LONGEST_SERVICE; MOST_LOCATIONS];
    let round = case.rounds()[0].to_vec();
    let arrivals = case.tables.arrivals(case.depots[0], &round);
    for (stop, seconds) in round.into_iter().zip(arrivals) {
        case.tables.latest[stop as usize] = capped(seconds);
    }
    case
}

/// Two cuts of 512 stops, all examined, and a round after them.
fn finished_at_the_bound() -> Case {
    let round = (0, vec![0; MOST_STOPS]);
    let mut case = Case::of_rounds(2, Tables::of_legs(1, vec![7]), &[round.clone(), round]);
    case.allowance = (MOST_STOPS * (MOST_STOPS + 1) / 2) as u64;
    case
}
