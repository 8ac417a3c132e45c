//! One input, and what both sides make of it.

use super::{program, report};
use crate::program::{bytes, given, reply, show};
use crate::trial::{Reply, Trial};
use std::fmt::{Display, Formatter, Result as Written};

pub struct Input(pub Vec<u8>);

impl Trial for Input {
    fn expected(&self) -> Reply {
        reply(report::report(&self.0).as_bytes())
    }

    fn given(&self) -> Result<Reply, String> {
        given(program(), &self.0)
    }

    fn kind(&self, expected: &Reply) -> &'static str {
        let bytes = bytes(expected);
        let is = |line: &str| {
            bytes
                .windows(line.len())
                .any(|part| part == line.as_bytes())
        };
        match () {
            () if bytes.starts_with(b"refused=30") => "refused 30",
            () if bytes.starts_with(b"rounds=0\n") => "no round accepted",
            () if is("\nrefused=0\n") => "all rounds accepted",
            () => "some rounds accepted",
        }
    }
}

impl Display for Input {
    fn fmt(&self, out: &mut Formatter<'_>) -> Written {
        show(&self.0, out)
    }
}
