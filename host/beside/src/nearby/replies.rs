//! Both replies to a listing of nearby cuts.

use crate::cases::nearby::Case;
use crate::lent::{bits, filled, filled_usize, Lent};
use crate::trial::{put, Reply, Trial};
use crate::{ffi, oracle};

impl Trial for Case {
    fn expected(&self) -> Reply {
        let code = self.refusal();
        let mut sets = filled_usize(self.sets_room);
        let mut result = filled(self.room);
        if code == 0 {
            let (found, more) = oracle::nearby::listed(self, self.sets_room / self.k);
            sets[..found.len()].copy_from_slice(&found);
            let count = (found.len() / self.k) as u64;
            put(&mut result, &[count, u64::from(more)]);
        }
        Reply::new(code, [("sets", bits(&sets)), ("result", result)])
    }

    fn given(&self) -> Result<Reply, String> {
        let (sets, room) = (filled_usize(self.sets_room), filled(self.room));
        let mut distances = Lent::new("distances", &self.distances);
        let mut sets = Lent::new("sets", &sets);
        let mut result = Lent::new("result", &room);
        let code = ffi::nearby_cuts(
            self.n,
            distances.slice(),
            self.k,
            self.min_segment_len,
            self.max_nearby,
            sets.slice(),
            result.slice(),
        );
        distances.kept()?;
        Ok(Reply::new(code, [sets.written()?, result.written()?]))
    }

    fn kind(&self, expected: &Reply) -> &'static str {
        match (expected.number(1, 0), expected.number(1, 1)) {
            (0, _) => "no set",
            (_, 0) => "ended",
            (_, _) => "more",
        }
    }
}
