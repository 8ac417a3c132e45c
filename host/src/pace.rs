//! How many candidates a slice may have that is to come back in time.

use std::time::Duration;

/// The first slice has so many, and none has fewer: with no speed known yet, and small enough to come back at once.
const FEWEST: u64 = 1024;

/// A slice takes no longer than this where its candidates cost what the last ones did. They may cost several times as much.
const SOON: Duration = Duration::from_millis(10);

/// No slice has more than so many times the candidates of the one before it.
const GROWTH: u64 = 8;

/// What the last slice had and took.
#[derive(Clone, Copy, Debug, Default)]
pub(crate) struct Pace(Option<(u64, Duration)>);

impl Pace {
    pub(crate) fn learn(&mut self, examined: u64, took: Duration) {
        self.0 = Some((examined, took));
    }

    /// Candidates that take a quarter of the time left, going by the last slice, so that even four times as long is in time.
    pub(crate) fn fit(&self, left: Duration) -> u64 {
        let Some((examined, took)) = self.0 else {
            return FEWEST;
        };
        let aim = (left / 4).min(SOON).as_nanos();
        let fitting = u128::from(examined) * aim / took.as_nanos().max(1);
        let most = examined.saturating_mul(GROWTH);
        fitting.min(u128::from(most)).max(u128::from(FEWEST)) as u64
    }
}

#[cfg(test)]
mod tests {
    use super::{Pace, FEWEST};
    use std::time::Duration;

    const LONG: Duration = Duration::from_secs(60);

    fn after(examined: u64, took: Duration) -> Pace {
        let mut pace = Pace::default();
        pace.learn(examined, took);
        pace
    }

    #[test]
    fn begins_small_and_grows() {
        assert_eq!(Pace::default().fit(LONG), FEWEST);
        assert_eq!(after(FEWEST, Duration::ZERO).fit(LONG), 8 * FEWEST);
        assert_eq!(after(0, Duration::ZERO).fit(LONG), FEWEST);
    }

    #[test]
    fn ten_milliseconds_or_a_quarter_of_what_is_left() {
        let pace = after(1_000_000, Duration::from_millis(5));
        assert_eq!(pace.fit(LONG), 2_000_000);
        assert_eq!(pace.fit(Duration::from_millis(20)), 1_000_000);
        assert_eq!(pace.fit(Duration::from_millis(2)), 100_000);
        assert_eq!(pace.fit(Duration::ZERO), FEWEST);
    }

    #[test]
    fn no_number_is_too_large() {
        assert_eq!(after(u64::MAX, Duration::ZERO).fit(LONG), u64::MAX);
        let slow = after(u64::MAX, Duration::MAX);
        assert_eq!(slow.fit(Duration::MAX), FEWEST);
    }
}
