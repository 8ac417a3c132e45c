//! The pair loop as document 01 says it, line by line.

use crate::cases::pairs::Case;

/// What it comes to, and the route.
#[derive(Debug, PartialEq, Eq)]
pub struct Paired {
    pub spent: bool,
    pub examined: u64,
    pub accepted: u64,
    pub route: Vec<u32>,
}

pub fn pair_loop(case: &Case, allowance: u64) -> Paired {
    let mut paired = Paired {
        spent: false,
        examined: 0,
        accepted: 0,
        route: case.asked().route.clone(),
    };
    loop {
        let before = paired.accepted;
        for i in 0..paired.route.len().saturating_sub(1) {
            pairs_of(case, allowance, i, &mut paired);
        }
        if paired.spent || paired.accepted == before {
            return paired;
        }
    }
}

/// The stop before i and the stop at i are read once.
fn pairs_of(case: &Case, allowance: u64, i: usize, paired: &mut Paired) {
    let depot = case.asked().depot;
    let a = if i == 0 { depot } else { paired.route[i - 1] };
    let b = paired.route[i];
    for j in i + 1..paired.route.len() {
        if paired.spent || paired.examined == allowance {
            paired.spent = true;
            return;
        }
        paired.examined += 1;
        let c = paired.route[j];
        let e = paired.route.get(j + 1).copied().unwrap_or(depot);
        if shorter(case, [a, b, c, e]) {
            turn(case, i, j, paired);
        }
    }
}

fn shorter(case: &Case, [a, b, c, e]: [u32; 4]) -> bool {
    let leg = |from: u32, to: u32| u64::from(case.asked().tables.leg(from as usize, to as usize));
    leg(a, c) + leg(b, e) < leg(a, b) + leg(c, e)
}

/// Late, turned back.
fn turn(case: &Case, i: usize, j: usize, paired: &mut Paired) {
    let asked = case.asked();
    paired.route[i..=j].reverse();
    let late = asked.tables.late_position(asked.depot, &paired.route);
    if late < paired.route.len() as u64 {
        paired.route[i..=j].reverse();
    } else {
        paired.accepted += 1;
    }
}
