use std::error::Error;
use std::fmt::{Display, Formatter, Result as Written};

/// Why a call was refused, in the stated order: where several apply, the first of this list is given.
///
/// ```
/// use mittenschist::{next_cut_set, Refusal};
///
/// let refused = next_cut_set(6, 4, &mut [0, 1]).unwrap_err();
/// assert_eq!(refused, Refusal::CutCount);
/// assert_eq!(refused.number(), 1);
/// assert_eq!(refused.to_string(), "k is not from 2 to 5");
/// ```
#[derive(Clone, Copy, Debug, PartialEq, Eq, Hash)]
#[non_exhaustive]
pub enum Refusal {
    /// 10: a text that is not of the form, or longer than 60,000 bytes.
    TextForm,
    /// 1: k outside 2 to 5.
    CutCount,
    /// 26: patterns outside 1 to 383, not the announced number, or orders not k + 1 for each mask.
    RowCount,
    /// 27: an order that is no permutation of 0 to k with 0 first and k last, or a mask with a bit outside 1 to k − 1.
    RowShape,
    /// 28: a pattern that changes nothing, or that stands earlier in the list.
    RowRepeated,
    /// 2: locations outside 1 to 1,024, or a table or deadlines of another size.
    TableSize,
    /// 3: a leg above 1,000,000 seconds.
    LongLeg,
    /// 23: service not one entry for each location, or an entry above 1,000,000 seconds.
    ServiceList,
    /// 4: a depot or stop not below the locations.
    UnknownStop,
    /// 24: an end harbour not below the locations.
    UnknownEnd,
    /// 29: more than 64 pairs, a member without its partner or not below the locations, or a pair of equal members.
    Pairs,
    /// 5: more than 512 stops, more than 64 rounds, or lists of rounds whose sizes disagree.
    RoundSize,
    /// 6: a pattern index not below the number of patterns for k.
    PatternIndex,
    /// 7: not k cuts, a cut above the number of stops, or cuts that do not rise.
    Cuts,
    /// 8: a cut that names another round.
    OtherRound,
    /// 9: shortest segment or neighbours out of range, a float table of another size, or an entry that is no number.
    NearbyInput,
    /// 25: the first move of rounds whose lengths differ or are above 48.
    MoveRounds,
    /// 31: a problem to be written with more than 96 locations, an allowance above 4294967295 or a text longer than 60,000 bytes.
    TextBounds,
    /// 21: a lent buffer or journal that is too short.
    Room,
    /// 22: undo with a journal of another length than the route.
    JournalLength,
    /// A number that this crate has no name for: the archive is of another version.
    Other(u32),
}

impl Refusal {
    /// The number that the C function returns for it.
    pub fn number(self) -> u32 {
        match self {
            Self::TextForm => 10,
            Self::CutCount => 1,
            Self::RowCount => 26,
            Self::RowShape => 27,
            Self::RowRepeated => 28,
            Self::TableSize => 2,
            Self::LongLeg => 3,
            Self::ServiceList => 23,
            Self::UnknownStop => 4,
            Self::UnknownEnd => 24,
            Self::Pairs => 29,
            Self::RoundSize => 5,
            Self::PatternIndex => 6,
            Self::Cuts => 7,
            Self::OtherRound => 8,
            Self::NearbyInput => 9,
            Self::MoveRounds => 25,
            Self::TextBounds => 31,
            Self::Room => 21,
            Self::JournalLength => 22,
            Self::Other(number) => number,
        }
    }

    fn of(number: u32) -> Self {
        match number {
            10 => Self::TextForm,
            1 => Self::CutCount,
            26 => Self::RowCount,
            27 => Self::RowShape,
            28 => Self::RowRepeated,
            2 => Self::TableSize,
            3 => Self::LongLeg,
            23 => Self::ServiceList,
            4 => Self::UnknownStop,
            24 => Self::UnknownEnd,
            29 => Self::Pairs,
            5 => Self::RoundSize,
            6 => Self::PatternIndex,
            7 => Self::Cuts,
            8 => Self::OtherRound,
            9 => Self::NearbyInput,
            25 => Self::MoveRounds,
            31 => Self::TextBounds,
            21 => Self::Room,
            22 => Self::JournalLength,
            number => Self::Other(number),
        }
    }

    /// What a C function returned: 0, or the number of a refusal.
    pub(crate) fn check(returned: u32) -> Result<(), Self> {
        match returned {
            0 => Ok(()),
            number => Err(Self::of(number)),
        }
    }
}

impl Display for Refusal {
    fn fmt(&self, out: &mut Formatter<'_>) -> Written {
        let words = match self {
            Self::TextForm => "the text is not of the form, or is longer than 60,000 bytes",
            Self::RowCount => {
                "the patterns are not from 1 to 383, not the announced number, or their orders do not fit their masks"
            }
            Self::RowShape => {
                "an order is no permutation of 0 to k with 0 first and k last, or a mask has a bit outside 1 to k - 1"
            }
            Self::RowRepeated => "a pattern changes nothing or stands earlier in the list",
            Self::CutCount => "k is not from 2 to 5",
            Self::TableSize => {
                "locations are not from 1 to 1,024, or a table or the deadlines do not fit them"
            }
            Self::LongLeg => "a leg is longer than 1,000,000 seconds",
            Self::ServiceList => {
                "service is not one entry for each location, or one is longer than 1,000,000 seconds"
            }
            Self::UnknownStop => "a depot or stop is not below the number of locations",
            Self::UnknownEnd => "an end harbour is not below the number of locations",
            Self::Pairs => {
                "more than 64 pairs, or a member of one has no partner, is not below the number of locations or equals its partner"
            }
            Self::RoundSize => {
                "more than 512 stops or 64 rounds, or lists of rounds whose sizes disagree"
            }
            Self::PatternIndex => "the pattern index is not below the number of patterns for k",
            Self::Cuts => "not k cuts, or a cut is above the number of stops, or they do not rise",
            Self::OtherRound => "a cut names another round",
            Self::NearbyInput => {
                "the shortest segment is not from 1 to 512, the neighbours are not from 0 to 32, \
                 the distances do not fit the positions, or one of them is no number"
            }
            Self::MoveRounds => "the two rounds differ in length or have more than 48 stops",
            Self::TextBounds => {
                "no text holds the problem: more than 96 locations, an allowance above 4294967295, or more than 60,000 bytes"
            }
            Self::Room => "a lent buffer or journal is too short",
            Self::JournalLength => "the journal is not as long as the route",
            Self::Other(number) => return write!(out, "refused with number {number}"),
        };
        out.write_str(words)
    }
}

impl Error for Refusal {}

#[cfg(test)]
mod tests {
    use super::Refusal;

    #[test]
    fn numbers_and_names_agree() {
        for number in 1..40 {
            let refused = Refusal::check(number).unwrap_err();
            assert_eq!(refused.number(), number);
            assert!(!refused.to_string().is_empty());
        }
        assert_eq!(Refusal::check(0), Ok(()));
    }

    #[test]
    fn no_two_say_the_same() {
        let words = |number| Refusal::of(number).to_string();
        for one in 1..40 {
            assert!((one + 1..40).all(|other| words(one) != words(other)));
        }
    }
}
