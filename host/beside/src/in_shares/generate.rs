//! Random calls: those of the run with pairs, with an allowance that some shares end in.

use crate::cases::run::{Case, NUMBERS_A_ROUND};
use crate::oracle::shares::run_in_shares;
use crate::precedence::damage::damaged_run;
use crate::precedence::generate::random_paired_run;
use crate::random::Random;
use crate::run::generate::long_run;
use crate::trial::Drawn;

pub fn draw(random: &mut Random, _index: u64) -> Drawn {
    (Box::new(random_shared(random)), None)
}

/// Longer rounds, of which many are finished for k = 2 and few for k = 5.
pub fn draw_long(random: &mut Random, _index: u64) -> Drawn {
    (Box::new(in_shares(long_run(random))), None)
}

pub fn draw_damaged(random: &mut Random, index: u64) -> Drawn {
    let case = random_shared(random);
    damaged_run(random, case, index)
}

fn random_shared(random: &mut Random) -> Case {
    let mut case = in_shares(random_paired_run(random));
    if random.one_in(2) {
        case.allowance = around_a_share(random, &case);
    }
    case
}

fn in_shares(mut case: Case) -> Case {
    case.ends = Some(case.ends().to_vec());
    case.tables.pairs = Some(case.tables.pairs().to_vec());
    case.shares = true;
    case
}

/// As many candidates for every round as one of them examines, or one more or less in all.
fn around_a_share(random: &mut Random, case: &Case) -> u64 {
    let (_, numbers) = run_in_shares(case);
    let rounds = case.lengths.len();
    let examined = numbers[NUMBERS_A_ROUND * random.index(rounds) + 1];
    let whole = examined * random.within(1, rounds) as u64;
    random.pick([whole.saturating_sub(1), whole, whole + 1])
}
