//! Both replies to a listing of every nearby cut set.

use super::plain::Lists;
use super::Every;
use crate::cases::nearby::Case;
use crate::lent::{bits, filled, filled_usize, Lent};
use crate::trial::{put, Reply, Trial, NO_ANSWER};
use crate::{ffi, oracle};

impl Trial for Every {
    fn expected(&self) -> Reply {
        let case = &self.0;
        let mut code = case.refusal();
        let mut sets = filled_usize(case.sets_room);
        let mut result = filled(case.room);
        if code == 0 {
            let most = case.sets_room / case.k;
            let listed = Lists::of(case).listed(most + 1);
            let agreed = listed.as_ref().is_some_and(|sets| within(case, most, sets));
            if !agreed {
                code = NO_ANSWER;
            }
            let listed = listed.unwrap_or_default();
            let written = listed[..most.min(listed.len())].concat();
            sets[..written.len()].copy_from_slice(&written);
            let count = (written.len() / case.k) as u64;
            put(&mut result, &[count, u64::from(listed.len() > most)]);
        }
        Reply::new(code, [("sets", bits(&sets)), ("result", result)])
    }

    fn given(&self) -> Result<Reply, String> {
        let case = &self.0;
        let (sets, room) = (filled_usize(case.sets_room), filled(case.room));
        let mut distances = Lent::new("distances", &case.distances);
        let mut sets = Lent::new("sets", &sets);
        let mut result = Lent::new("result", &room);
        let code = ffi::every_nearby_cuts(
            case.n,
            distances.slice(),
            case.k,
            case.min_segment_len,
            case.max_nearby,
            sets.slice(),
            result.slice(),
        );
        distances.kept()?;
        Ok(Reply::new(code, [sets.written()?, result.written()?]))
    }

    fn kind(&self, expected: &Reply) -> &'static str {
        let case = &self.0;
        let count = expected.number(1, 0) as usize;
        match (count, expected.number(1, 1)) {
            (0, _) => "no set",
            (_, 0) if count * case.k > oracle::nearby::listed(case, count).0.len() => {
                "ended, with sets that the Rust misses"
            }
            (_, 0) => "ended",
            (_, _) => "more",
        }
    }
}

/// Whether the Rust's listing is a part of this one, in its order, and with two cuts the whole of it. Where there are more sets than fit, `listed` is not the
/// whole, and only with two cuts something is asked of it.
fn within(case: &Case, most: usize, listed: &[Vec<usize>]) -> bool {
    if case.k > 2 && listed.len() > most {
        return true;
    }
    let (old, more) = oracle::nearby::listed(case, most + 1);
    let mut old = old.chunks(case.k).peekable();
    if case.k == 2 {
        return old.eq(listed.iter().map(Vec::as_slice));
    }
    for set in listed {
        old.next_if(|next| *next == set.as_slice());
    }
    old.peek().is_none() && !more
}
