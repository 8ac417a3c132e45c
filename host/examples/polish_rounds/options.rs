//! The words of the command line.

use std::time::Duration;

/// What is printed for `--help`, and after a word that is not understood.
pub const USAGE: &str = "\
usage: polish_rounds [--jobs N] [--seconds N] [--patterns LIST] [--pairs LIST] [--shares] FILE
Polishes each round of a file and says what was saved and which stop is the first that is late, a line for each round in the file's order.
FILE has the lines k=, allowance=, locations=, depot=, end=, a line legs= for each location, latest=, service=, and then any number of lines round=.
Each round has the whole allowance. With --jobs N, N rounds are polished at a time. On a terminal a line says meanwhile how far they are.
With --seconds N polishing stops after so many seconds, 0.5 too: rounds that are not finished then keep what was saved, and the others are as they were.
With --patterns LIST only the patterns of that file are tried, in their order: the lines k=, patterns= and, for each pattern, pattern= with the digits of its
order, a comma and its mask; its k counts, not that of FILE.
With --pairs LIST each round keeps the pairs of that file: lines pair= with two locations and a comma between them, of which every visit of the first comes
before every visit of the second. A round that is left as it was says which pair it does not keep.
With --shares the rounds of 4 stops or more, of at most 64, share the allowance; it goes with neither --jobs nor --patterns.
--seconds goes with neither --patterns nor --shares, which polish in one call.";

#[derive(Debug, PartialEq)]
pub enum Options {
    Help,
    Polish {
        file: String,
        jobs: usize,
        /// How long the rounds may take together.
        seconds: Option<Duration>,
        /// A file of patterns.
        patterns: Option<String>,
        /// A file of pairs.
        pairs: Option<String>,
        /// Whether the rounds share the allowance.
        shares: bool,
    },
}

impl Options {
    /// Says what is wrong where the words are not those of the usage.
    pub fn parse(words: impl Iterator<Item = String>) -> Result<Self, String> {
        let (mut file, mut jobs, mut patterns, mut pairs) = (None, None, None, None);
        let (mut seconds, mut shares) = (None, false);
        let mut words = words;
        while let Some(word) = words.next() {
            match word.as_str() {
                "--help" | "-h" => return Ok(Self::Help),
                "--jobs" => jobs = Some(jobs_of(words.next())?),
                "--seconds" => seconds = Some(seconds_of(words.next())?),
                "--patterns" => patterns = Some(words.next().ok_or("--patterns wants a file")?),
                "--pairs" => pairs = Some(words.next().ok_or("--pairs wants a file")?),
                "--shares" => shares = true,
                option if option.starts_with('-') => return Err(format!("no option {option}")),
                _ if file.is_some() => {
                    return Err(format!("one file is enough: {word} is too much"))
                }
                _ => file = Some(word),
            }
        }
        let file = file.ok_or("no file of rounds")?;
        if shares && (jobs.is_some() || patterns.is_some()) {
            return Err(String::from(
                "--shares goes with neither --jobs nor --patterns",
            ));
        }
        if seconds.is_some() && (patterns.is_some() || shares) {
            return Err(String::from(
                "--seconds goes with neither --patterns nor --shares",
            ));
        }
        Ok(Self::Polish {
            file,
            jobs: jobs.unwrap_or(1),
            seconds,
            patterns,
            pairs,
            shares,
        })
    }
}

fn jobs_of(word: Option<String>) -> Result<usize, String> {
    let jobs = word.as_deref().map_or(Ok(0), str::parse);
    match jobs {
        Ok(jobs) if jobs > 0 => Ok(jobs),
        _ => Err(String::from("--jobs wants a number from 1 up")),
    }
}

fn seconds_of(word: Option<String>) -> Result<Duration, String> {
    let seconds = word.and_then(|word| word.parse().ok());
    let time = seconds.and_then(|seconds| Duration::try_from_secs_f64(seconds).ok());
    time.ok_or_else(|| String::from("--seconds wants a number from 0 up"))
}

#[cfg(test)]
mod tests {
    use super::Options;
    use std::time::Duration;

    fn parsed(words: &str) -> Result<Options, String> {
        Options::parse(words.split_whitespace().map(String::from))
    }

    fn polish(jobs: usize) -> Result<Options, String> {
        Ok(Options::Polish {
            file: String::from("a.txt"),
            jobs,
            seconds: None,
            patterns: None,
            pairs: None,
            shares: false,
        })
    }

    #[test]
    fn a_time_limit() {
        let seconds = |words: &str| match parsed(words) {
            Ok(Options::Polish { seconds, .. }) => Ok(seconds),
            Ok(Options::Help) => panic!("help"),
            Err(fault) => Err(fault),
        };
        assert_eq!(seconds("a.txt"), Ok(None));
        let limits = [("0", 0), ("2", 2000), ("0.25", 250), ("1e2", 100_000)];
        for (word, milliseconds) in limits {
            let limit = Duration::from_millis(milliseconds);
            assert_eq!(
                seconds(&format!("--seconds {word} --jobs 2 a.txt")),
                Ok(Some(limit))
            );
        }
        for word in ["", "x", "-1", "nan", "inf", "1e30"] {
            let fault = String::from("--seconds wants a number from 0 up");
            assert_eq!(seconds(&format!("a.txt --seconds {word}")), Err(fault));
        }
        let fault = String::from("--seconds goes with neither --patterns nor --shares");
        assert_eq!(seconds("--seconds 1 --shares a.txt"), Err(fault.clone()));
        assert_eq!(seconds("--patterns b.txt --seconds 1 a.txt"), Err(fault));
    }

    #[test]
    fn shares_go_alone() {
        let shares = |words| match parsed(words) {
            Ok(Options::Polish { shares, .. }) => Ok(shares),
            Ok(Options::Help) => panic!("help"),
            Err(fault) => Err(fault),
        };
        assert_eq!(shares("--shares a.txt"), Ok(true));
        assert_eq!(shares("a.txt --pairs c.txt"), Ok(false));
        let fault = String::from("--shares goes with neither --jobs nor --patterns");
        assert_eq!(shares("--jobs 2 a.txt --shares"), Err(fault.clone()));
        assert_eq!(shares("--shares --patterns b.txt a.txt"), Err(fault));
    }

    #[test]
    fn files_of_patterns_and_pairs() {
        let words = "--patterns b.txt a.txt --pairs c.txt";
        let Ok(Options::Polish {
            file,
            patterns,
            pairs,
            ..
        }) = parsed(words)
        else {
            panic!("not understood");
        };
        assert_eq!(
            (file.as_str(), patterns.as_deref(), pairs.as_deref()),
            ("a.txt", Some("b.txt"), Some("c.txt"))
        );
        for option in ["--patterns", "--pairs"] {
            let fault = format!("{option} wants a file");
            assert_eq!(parsed(&format!("a.txt {option}")), Err(fault));
        }
    }

    #[test]
    fn a_file_and_jobs() {
        assert_eq!(parsed("a.txt"), polish(1));
        assert_eq!(parsed("--jobs 4 a.txt"), polish(4));
        assert_eq!(parsed("a.txt --jobs 2"), polish(2));
        assert_eq!(parsed("--help"), Ok(Options::Help));
        assert_eq!(parsed("a.txt -h"), Ok(Options::Help));
    }

    #[test]
    fn says_what_is_wrong() {
        let fault = |words| parsed(words).unwrap_err();
        assert_eq!(fault(""), "no file of rounds");
        assert_eq!(
            fault("a.txt b.txt"),
            "one file is enough: b.txt is too much"
        );
        assert_eq!(fault("--fast a.txt"), "no option --fast");
        for words in [
            "--jobs",
            "--jobs 0 a.txt",
            "--jobs x a.txt",
            "--jobs -1 a.txt",
        ] {
            assert_eq!(fault(words), "--jobs wants a number from 1 up");
        }
    }
}
