//! Slices that go on from one another: route, ending and the sums are those of one call with the sum of the allowances.

use super::case::Case;
use super::plain::first_place;
use crate::cases::ends;
use crate::precedence::generate::{long_paired, random_paired};
use crate::random::Random;
use crate::rules::{bad_cuts, bad_pattern};
use crate::trial::{Drawn, Reply, Trial};
use std::fmt::{Display, Formatter, Result as Written};

struct Whole {
    asked: ends::Case,
    allowances: Vec<u64>,
}

pub fn draw(random: &mut Random, _index: u64) -> Drawn {
    let asked = random_paired(random);
    (Box::new(in_slices(random, asked)), None)
}

/// Longer routes.
pub fn draw_long(random: &mut Random, _index: u64) -> Drawn {
    let asked = long_paired(random);
    (Box::new(in_slices(random, asked)), None)
}

/// The allowance cut anywhere, so that a slice may have none of it.
fn in_slices(random: &mut Random, asked: ends::Case) -> Whole {
    let whole = asked.closed.allowance;
    let small = random.one_in(2);
    let mut allowances = Vec::new();
    let mut left = whole;
    for _ in 0..random.index(9) {
        let most = if small { left.min(20) } else { left };
        let part = random.below(most + 1);
        allowances.push(part);
        left -= part;
    }
    allowances.push(left);
    Whole { asked, allowances }
}

impl Trial for Whole {
    fn expected(&self) -> Reply {
        self.asked.expected()
    }

    fn given(&self) -> Result<Reply, String> {
        let (k, stops) = (self.asked.closed.k, self.asked.closed.route.len());
        let mut asked = self.asked.clone();
        let mut place = [first_place(k), vec![77, 78]].concat();
        let (mut examined, mut accepted, mut before) = (0, 0, None);
        for (turn, &allowance) in self.allowances.iter().enumerate() {
            asked.closed.allowance = allowance;
            let slice = Case {
                asked: asked.clone(),
                place: place.clone(),
            };
            let reply = slice.given()?;
            let [route, next, mut result] =
                <[_; 3]>::try_from(reply.lent).map_err(|_| "three slices")?;
            if reply.code != 0 {
                return Ok(Reply::new(reply.code, [route, result]));
            }
            let finished = result.1[0] == 0;
            let held: Vec<usize> = next.1[..k].iter().map(|&cut| cut as usize).collect();
            let is_place = !bad_cuts(k, stops, &held) && !bad_pattern(k, next.1[k] as usize);
            let is_first = next.1[..=k] == first_place(k)[..];
            if next.1[k + 1..] != [77, 78] || if finished { !is_first } else { !is_place } {
                return Err(format!("slice {turn} hands back the place {:?}", next.1));
            }
            examined += result.1[1];
            accepted += result.1[2];
            let first = *before.get_or_insert(result.1[3]);
            if finished || turn + 1 == self.allowances.len() {
                result.1[1] = examined;
                result.1[2] = accepted;
                result.1[3] = first;
                return Ok(Reply::new(0, [route, result]));
            }
            asked.closed.route = route.1.iter().map(|&stop| stop as u32).collect();
            place = next.1;
        }
        Err(String::from("no slice"))
    }

    fn kind(&self, expected: &Reply) -> &'static str {
        self.asked.kind(expected)
    }
}

impl Display for Whole {
    fn fmt(&self, out: &mut Formatter<'_>) -> Written {
        write!(out, "allowances={:?} {}", self.allowances, self.asked)
    }
}
