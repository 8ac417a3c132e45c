//! One text, and what both sides make of it.

use super::{program, reader};
use crate::program::{bytes, given, reply, show};
use crate::trial::{Reply, Trial};
use std::fmt::{Display, Formatter, Result as Written};

pub struct Text(pub Vec<u8>);

impl Trial for Text {
    fn expected(&self) -> Reply {
        reply(reader::answer(&self.0).as_bytes())
    }

    fn given(&self) -> Result<Reply, String> {
        given(program(), &self.0)
    }

    fn kind(&self, expected: &Reply) -> &'static str {
        let bytes = bytes(expected);
        let kinds: [(&[u8], &str); 3] = [
            (b"refused=10\n", "refused 10"),
            (b"refused=", "refused by value"),
            (b"answer=spent", "spent"),
        ];
        let found = kinds.iter().find(|kind| bytes.starts_with(kind.0));
        match found {
            Some(kind) => kind.1,
            None if bytes.ends_with(b"late=none\n") => "finished",
            None => "finished and late",
        }
    }
}

impl Display for Text {
    fn fmt(&self, out: &mut Formatter<'_>) -> Written {
        show(&self.0, out)
    }
}
