//! The line on a terminal that shows how far the rounds are, and is written over. Where standard output or standard error is no terminal there is none.

use mittenschist::Progress;
use std::collections::BTreeMap;
use std::io::{self, IsTerminal, Write};
use std::sync::{Mutex, MutexGuard, PoisonError};
use std::time::Duration;

/// How long a line stands before it is written over.
const PAUSE: Duration = Duration::from_millis(100);

/// A longer line would be broken, and only its last part written over.
const WIDTH: usize = 79;

/// What the line tells.
#[derive(Default)]
struct Line {
    rounds: usize,
    /// The rounds that are being polished, by their places in the file.
    present: BTreeMap<usize, String>,
    /// How many letters stand on the terminal now.
    shown: usize,
}

impl Line {
    /// The letters that take the place of those that stand there: of the first of the rounds, which the next line of the output waits for.
    fn rewritten(&mut self) -> String {
        let mut text = match self.present.first_key_value() {
            Some((place, told)) => format!("round {} of {}: {told}", place + 1, self.rounds),
            None => String::new(),
        };
        text.truncate(WIDTH);
        let covered = self.shown;
        self.shown = text.len();
        format!("\r{text:covered$}")
    }

    /// The letters that leave the line empty.
    fn cleared(&mut self) -> String {
        let covered = self.shown;
        self.shown = 0;
        match covered {
            0 => String::new(),
            _ => format!("\r{:covered$}\r", ""),
        }
    }
}

pub struct Board(Option<Mutex<Line>>);

impl Board {
    /// Shows nothing.
    #[cfg(test)]
    pub fn silent() -> Self {
        Self(None)
    }

    /// For so many rounds.
    pub fn of_terminal(rounds: usize) -> Self {
        let terminal = io::stdout().is_terminal() && io::stderr().is_terminal();
        let line = Line {
            rounds,
            ..Line::default()
        };
        Self(terminal.then(|| Mutex::new(line)))
    }

    /// How long a round may be polished until it is to be shown again.
    pub fn pause(&self) -> Duration {
        self.0.as_ref().map_or(Duration::MAX, |_| PAUSE)
    }

    pub fn show(&self, place: usize, progress: &Progress) {
        if let Some(mut line) = self.line() {
            line.present.insert(place, told(progress));
            write(&line.rewritten());
        }
    }

    /// A round is no longer polished.
    pub fn leave(&self, place: usize) {
        if let Some(mut line) = self.line() {
            line.present.remove(&place);
        }
    }

    /// A line of the output, above the one that is written over.
    pub fn tell(&self, told: String) {
        let mut line = self.line();
        if let Some(line) = &mut line {
            write(&line.cleared());
        }
        println!("{told}");
    }

    fn line(&self) -> Option<MutexGuard<'_, Line>> {
        let line = self.0.as_ref()?;
        Some(line.lock().unwrap_or_else(PoisonError::into_inner))
    }
}

fn told(progress: &Progress) -> String {
    format!(
        "{} s saved, {:.1} % of a pass, {} candidates",
        progress.saved,
        100.0 * progress.share(),
        progress.examined
    )
}

/// A terminal that is gone is no reason to stop.
fn write(letters: &str) {
    let _ = io::stderr().write_all(letters.as_bytes());
}

#[cfg(test)]
mod tests {
    use super::{told, Board, Line, WIDTH};
    use mittenschist::Progress;
    use std::time::Duration;

    const PROGRESS: Progress = Progress {
        saved: 12,
        examined: 3456,
        accepted: 3,
        passed: 1,
        cut_sets: 8,
    };

    #[test]
    fn the_first_round_is_shown_and_covers_what_stood_there() {
        let mut line = Line {
            rounds: 9,
            ..Line::default()
        };
        assert_eq!(line.cleared(), "");
        line.present.insert(4, told(&PROGRESS));
        let first = "round 5 of 9: 12 s saved, 12.5 % of a pass, 3456 candidates";
        assert_eq!(line.rewritten(), format!("\r{first}"));
        line.present.insert(3, String::from("short"));
        let covering = format!("\r{:59}", "round 4 of 9: short");
        assert_eq!(first.len(), 59);
        assert_eq!(line.rewritten(), covering);
        assert_eq!(line.rewritten(), "\rround 4 of 9: short");
        assert_eq!(line.cleared(), format!("\r{:19}\r", ""));
        assert_eq!(line.cleared(), "");
    }

    #[test]
    fn no_longer_than_a_terminal_is_wide() {
        let progress = Progress {
            saved: u64::MAX,
            examined: u64::MAX,
            ..PROGRESS
        };
        let mut line = Line::default();
        line.present.insert(0, told(&progress));
        assert_eq!(line.rewritten().len(), 1 + WIDTH);
    }

    #[test]
    fn nothing_without_a_terminal() {
        let board = Board::silent();
        assert_eq!(board.pause(), Duration::MAX);
        board.show(0, &PROGRESS);
        board.leave(0);
    }
}
