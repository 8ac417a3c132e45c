//! Numbers of an answer that this crate has no name for. The library is proved never to give one, so the archive is of another version,
//! and nothing it wrote can be read.

/// Ends the call: no reading of such a number is right.
#[cold]
pub(crate) fn unknown(what: &str, number: u64) -> ! {
    panic!("the library's {what} is {number}, which this crate does not know: the archive is of another version");
}

/// The lowest late position of a route of so many stops; their number stands for none.
pub(crate) fn late_position(position: u64, stops: usize) -> Option<usize> {
    match position as usize {
        late if late < stops => Some(late),
        none if none == stops => None,
        _ => unknown("late position", position),
    }
}

/// 0 or 1, as no or yes.
pub(crate) fn yes(what: &str, number: u64) -> bool {
    match number {
        0 => false,
        1 => true,
        other => unknown(what, other),
    }
}

#[cfg(test)]
mod tests {
    use super::{late_position, yes};

    #[test]
    fn no_and_yes() {
        assert!(!yes("answer", 0));
        assert!(yes("answer", 1));
    }

    #[test]
    #[should_panic(expected = "the library's answer is 2")]
    fn neither() {
        yes("answer", 2);
    }

    #[test]
    fn late_below_the_number_of_stops() {
        let told = [0, 1, 2].map(|position| late_position(position, 2));
        assert_eq!(told, [Some(0), Some(1), None]);
        assert_eq!(late_position(0, 0), None);
    }

    #[test]
    #[should_panic(expected = "the library's late position is 3")]
    fn late_behind_the_route() {
        late_position(3, 2);
    }
}
