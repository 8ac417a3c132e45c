//! Searches cut up around the ends of cut sets and of stretches: after each slice, what one call of the Rust with as many candidates answers, and the
//! place of the next one.

use super::case::Case;
use super::plain::{Search, Standing};
use crate::cases::ends;
use crate::precedence::generate::random_paired;
use crate::random::Random;
use crate::rules::pattern_count;
use crate::trial::{Reply, Trial, Visit, NO_ANSWER};
use std::fmt::{Display, Formatter, Result as Written};

/// Slices of one search, and one more with the rest.
const MOST_SLICES: usize = 24;

/// One slice of a search.
struct Slice {
    /// One call with the candidates of all slices up to this one.
    whole: ends::Case,
    /// This slice, from where the one before it came to.
    own: Case,
    /// Candidates examined and accepted before it.
    before: [u64; 2],
    /// The route and the place that it is to come to, by the words.
    after: (Vec<u32>, Vec<u64>),
}

impl Trial for Slice {
    fn expected(&self) -> Reply {
        let Reply { code, lent } = self.whole.expected();
        let [route, result] = <[_; 2]>::try_from(lent).expect("two slices");
        let words: Vec<u64> = self.after.0.iter().map(|&stop| u64::from(stop)).collect();
        let code = if route.1 == words { code } else { NO_ANSWER };
        Reply::new(code, [route, ("place", self.after.1.clone()), result])
    }

    /// The numbers are summed up with those of the slices before.
    fn given(&self) -> Result<Reply, String> {
        let mut reply = self.own.given()?;
        let result = &mut reply.lent[2].1;
        if reply.code == 0 {
            if result[3] != self.whole.length(&self.own.asked.closed.route) {
                return Err(format!("{} seconds before this slice\n", result[3]));
            }
            result[1] += self.before[0];
            result[2] += self.before[1];
            result[3] = self.whole.length(&self.whole.closed.route);
        }
        Ok(reply)
    }

    fn kind(&self, expected: &Reply) -> &'static str {
        self.own.kind(expected)
    }
}

impl Display for Slice {
    fn fmt(&self, out: &mut Formatter<'_>) -> Written {
        let [examined, accepted] = self.before;
        write!(
            out,
            "{examined} candidates, {accepted} accepted before it: {}",
            self.own
        )
    }
}

/// A round, cut into slices of the sizes around those of a cut set and of a stretch, and cut around the ends that its search comes to.
pub fn draw(random: &mut Random, visit: Visit) {
    let mut asked = random_paired(random);
    let k = asked.closed.k;
    let stops = random.within(k - 1, [13, 9, 7, 6][k - 2]);
    asked.closed.route.truncate(stops);
    let search = Search::of(&asked);
    let around = |end: u64| [end.saturating_sub(1), end, end + 1];
    let stretch = search.stretch_ends().first().copied().unwrap_or(1);
    for size in [pattern_count(k) as u64, stretch]
        .into_iter()
        .flat_map(around)
    {
        if size > 0 {
            let points: Vec<u64> = (1..=MOST_SLICES as u64).map(|slice| slice * size).collect();
            play(&asked, &search, &points, visit);
        }
    }
    let ends = ends_of(&search, pattern_count(k) as u64, random);
    let mut points: Vec<u64> = ends.into_iter().flat_map(around).collect();
    points.sort_unstable();
    points.dedup();
    for points in points.chunks(MOST_SLICES) {
        play(&asked, &search, points, visit);
    }
}

/// After how many candidates of the search its passes and stretches end, and some of its cut sets.
fn ends_of(search: &Search, patterns: u64, random: &mut Random) -> Vec<u64> {
    let stretches = search.stretch_ends();
    let mut all = Vec::new();
    for (begins, over) in search.passes() {
        let sets = (over - begins) / patterns;
        let drawn = (0..4).map(|_| (1 + random.below(sets + 1)) * patterns);
        let ends: Vec<u64> = stretches.iter().copied().chain(drawn).collect();
        all.extend(
            ends.iter()
                .map(|end| begins + end)
                .filter(|&end| end < over),
        );
        all.push(over);
    }
    all
}

/// The slices of a search that is cut after these numbers of candidates, and one with the rest.
fn play(asked: &ends::Case, search: &Search, points: &[u64], visit: Visit) {
    let mut from = 0;
    for &to in points.iter().chain([&(search.examined + 1)]) {
        if to > from || from == 0 {
            visit(Box::new(slice(asked, search, from, to)));
        }
        if to >= search.examined {
            return;
        }
        from = to;
    }
}

fn slice(asked: &ends::Case, search: &Search, from: u64, to: u64) -> Slice {
    let Standing { route, place, .. } = search.after(from);
    let mut whole = asked.clone();
    whole.closed.allowance = to;
    let mut own = asked.clone();
    own.closed.allowance = to - from;
    own.closed.route = route.to_vec();
    let after = search.after(to);
    Slice {
        whole,
        own: Case { asked: own, place },
        before: [from, search.after(from).accepted],
        after: (after.route.to_vec(), after.place),
    }
}
