//! The pair case of document 01 by the run with two cuts, alone and twice, with every allowance up to its end.

use crate::cases::run::Case;
use crate::pairs::document::document_case;
use crate::random::Random;
use crate::trial::Visit;

/// What the scan examines of the pair case: two cut sets, of which the second is taken, and then all ten.
const CANDIDATES: u64 = 12;

pub fn of_rounds(rounds: usize, allowance: u64) -> Case {
    let one = document_case(allowance);
    let asked = one.asked();
    let round = (asked.depot, asked.route.clone());
    Case {
        allowance,
        ..Case::of_rounds(2, asked.tables.clone(), &vec![round; rounds])
    }
}

pub fn each(_random: &mut Random, visit: Visit) {
    for rounds in [1, 2] {
        for allowance in (0..=2 * CANDIDATES + 1).chain([u64::MAX]) {
            visit(Box::new(of_rounds(rounds, allowance)));
        }
    }
}
