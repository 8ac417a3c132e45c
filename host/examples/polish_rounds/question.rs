//! The files of rounds and of pairs. A file of rounds is read by the library, round by round, each after the lines before the first of them.

use mittenschist::{Harbours, Pair, PatternList, Problem, Refusal, Tables};
use std::time::{Duration, Instant};

pub struct Question {
    pub k: usize,
    pub allowance: u64,
    pub locations: usize,
    pub harbours: Harbours,
    pub legs: Vec<u32>,
    pub latest: Vec<u32>,
    pub service: Vec<u32>,
    /// The stops of each round, or why it is refused.
    pub rounds: Vec<Result<Vec<u32>, Refusal>>,
    /// The patterns that are tried, where they are not all of them.
    pub patterns: Option<PatternList>,
    /// The pairs that each round is to keep.
    pub pairs: Vec<Pair>,
    /// When polishing is to stop.
    pub until: Option<Instant>,
}

impl Question {
    pub fn parse(text: &str) -> Result<Self, String> {
        let start = text.find("\nround=").map_or(text.len(), |at| at + 1);
        let (head, rounds) = text.split_at(start);
        let before = head.lines().count();
        let read = |round: &str| Problem::read(&[head, round].concat().into_bytes());
        let Problem {
            k,
            allowance,
            locations,
            legs,
            latest,
            service,
            harbours,
            ..
        } = read("round=\n").map_err(|refusal| format!("lines 1 to {before}: {refusal}"))?;
        let mut question = Self {
            k,
            allowance,
            locations,
            harbours,
            legs,
            latest,
            service,
            rounds: Vec::new(),
            patterns: None,
            pairs: Vec::new(),
            until: None,
        };
        for (number, line) in (before + 1..).zip(rounds.split_inclusive('\n')) {
            let round = read(line).map(|problem| problem.route);
            if round == Err(Refusal::TextForm) {
                return Err(format!("line {number}: {}", Refusal::TextForm));
            }
            question.rounds.push(round);
        }
        match question.rounds.is_empty() {
            true => Err(format!(
                "line {}: expected round=, as no round was given",
                before + 1
            )),
            false => Ok(question),
        }
    }

    pub fn tables(&self) -> Tables<'_> {
        Tables {
            locations: self.locations,
            legs: &self.legs,
            latest: &self.latest,
            service: &self.service,
        }
    }

    /// How long polishing may still take.
    pub fn time_left(&self) -> Duration {
        let left = |until: Instant| until.saturating_duration_since(Instant::now());
        self.until.map_or(Duration::MAX, left)
    }

    /// When the last of these stops is reached, by the legs up to it and the service at the stops before it. For stops that the library
    /// has taken.
    pub fn reached(&self, stops: &[u32]) -> u64 {
        let from = [self.harbours.depot]
            .into_iter()
            .chain(stops.iter().copied());
        let legs = from.zip(stops).map(|(from, &to)| self.leg(from, to));
        let before = stops.iter().rev().skip(1);
        let service = before.map(|&stop| self.service[stop as usize]);
        legs.chain(service).map(u64::from).sum()
    }

    /// The first pair that these stops do not keep: a visit of its second comes before one of its first.
    pub fn broken_pair(&self, stops: &[u32]) -> Option<Pair> {
        let broken = |&&[first, second]: &&Pair| {
            let from = stops.iter().position(|&stop| stop == second);
            from.is_some_and(|from| stops[from..].contains(&first))
        };
        self.pairs.iter().find(broken).copied()
    }

    fn leg(&self, from: u32, to: u32) -> u32 {
        self.legs[from as usize * self.locations + to as usize]
    }
}

/// The lines `pair=`, each with two locations.
pub fn pairs(text: &str) -> Result<Vec<Pair>, String> {
    let numbered = (1..).zip(text.lines());
    let pair = |(number, line): (usize, &str)| {
        let words = line
            .strip_prefix("pair=")
            .and_then(|rest| rest.split_once(','));
        let fault = || format!("line {number}: pair= wants two locations");
        let (first, second) = words.ok_or_else(fault)?;
        let parsed = |word: &str| word.parse().map_err(|_| fault());
        Ok([parsed(first)?, parsed(second)?])
    };
    numbered.map(pair).collect()
}

#[cfg(test)]
mod tests {
    use super::{pairs, Question};
    use mittenschist::Refusal;

    #[test]
    fn pairs_line_by_line() {
        assert_eq!(pairs(""), Ok(Vec::new()));
        assert_eq!(pairs("pair=1,2\npair=2,0\n"), Ok(vec![[1, 2], [2, 0]]));
        let fault = |text| pairs(text).unwrap_err();
        for text in ["pair=1,2\npair=1\n", "pair=1,2\n\n", "pair=0,1\npair=1,x"] {
            assert_eq!(fault(text), "line 2: pair= wants two locations");
        }
        assert_eq!(fault("pair=1,2,3"), "line 1: pair= wants two locations");
    }

    const HEAD: &str = "k=2\nallowance=1\nlocations=2\ndepot=0\nend=1\nlegs=0,1\nlegs=1,0\nlatest=1,2\nservice=0,0\n";

    fn fault(text: &str) -> String {
        Question::parse(text).err().unwrap()
    }

    #[test]
    fn rounds_one_by_one() {
        let question = Question::parse(&format!("{HEAD}round=1\nround=2\nround=\n")).unwrap();
        let rounds = [Ok(vec![1]), Err(Refusal::UnknownStop), Ok(vec![])];
        assert_eq!(question.rounds, rounds);
        assert_eq!(
            (question.k, question.allowance, question.locations),
            (2, 1, 2)
        );
        assert_eq!((question.harbours.depot, question.harbours.end), (0, 1));
        assert_eq!(
            (&question.legs[..], &question.latest[..]),
            (&[0, 1, 1, 0][..], &[1, 2][..])
        );
    }

    #[test]
    fn says_which_lines_are_wrong() {
        let form = Refusal::TextForm;
        assert_eq!(fault(""), format!("lines 1 to 0: {form}"));
        assert_eq!(fault("k=2\nround=1\n"), format!("lines 1 to 1: {form}"));
        let long = HEAD.replace("0,1", "0,1000001");
        assert_eq!(
            fault(&format!("{long}round=1\n")),
            format!("lines 1 to 9: {}", Refusal::LongLeg)
        );
        for line in ["rounds=2\n", "round=01\n", "round=1", "round=1\r\n", "\n"] {
            let text = format!("{HEAD}round=1\n{line}");
            assert_eq!(fault(&text), format!("line 11: {form}"));
        }
    }

    #[test]
    fn no_round() {
        assert_eq!(
            fault(HEAD),
            "line 10: expected round=, as no round was given"
        );
    }
}
