//! The polisher: its slices add up, it stays finished, it tells how far it is, keeps to a time, and leaves the route as far as it got.

#![forbid(unsafe_code)]

use mittenschist::{
    polish_route, polish_route_with_pairs, Ending, Harbours, Pair, Place, Polished, Polisher,
    Refusal, Tables,
};
use std::time::{Duration, Instant};

const STOPS: u32 = 12;
const LOCATIONS: usize = STOPS as usize + 1;

fn legs() -> Vec<u32> {
    let leg = |place: u32| 1 + place.wrapping_mul(2_654_435_761) % 997;
    (0..(LOCATIONS * LOCATIONS) as u32).map(leg).collect()
}

fn stops() -> Vec<u32> {
    (1..=STOPS).collect()
}

/// Something is accepted here for every k.
fn tables(legs: &[u32]) -> Tables<'_> {
    Tables::without_service(LOCATIONS, legs, &[u32::MAX; LOCATIONS])
}

fn whole(k: usize, allowance: u64) -> (Polished, Vec<u32>) {
    let mut route = stops();
    let polished = polish_route(k, allowance, &tables(&legs()), 0, &mut route);
    (polished.unwrap(), route)
}

/// Sums by steps, by the iterator and by the time are those of one call.
#[test]
fn sums_are_those_of_one_call() {
    let legs = legs();
    for k in 2..=4 {
        let (one, best) = whole(k, u64::MAX);
        assert!(one.accepted > 1);
        let mut route = stops();
        let mut polisher = Polisher::new(k, &tables(&legs), 0, &[], &mut route);
        let mut sum = polisher.step(0).unwrap();
        while sum.ending == Ending::Spent {
            sum = sum.then(polisher.step(sum.examined % 97 + 1).unwrap());
        }
        assert_eq!((sum, &route), (one, &best));
        let mut route = stops();
        let mut polisher = Polisher::new(k, &tables(&legs), 0, &[], &mut route);
        let last = polisher.slices(1000).last().unwrap().unwrap();
        assert_eq!((last.examined, last.accepted), (one.examined, one.accepted));
        assert_eq!((last.saved, polisher.route()), (one.saved(), &best[..]));
        let mut route = stops();
        let mut polisher = Polisher::new(k, &tables(&legs), 0, &[], &mut route);
        assert_eq!(polisher.run_for(Duration::MAX), Ok(one));
        assert_eq!(route, best);
    }
}

/// At every number of candidates: what is then dropped leaves what one call with that allowance leaves, and another polisher goes on from there.
#[test]
fn dropped_in_the_middle() {
    let legs = legs();
    let (one, best) = whole(3, u64::MAX);
    for allowance in (0..one.examined).step_by(29) {
        let mut route = stops();
        let mut polisher = Polisher::new(3, &tables(&legs), 0, &[], &mut route);
        let (first, place) = (polisher.step(allowance).unwrap(), polisher.place());
        assert_eq!((first, route.clone()), whole(3, allowance));
        let mut polisher = Polisher::at(place, &tables(&legs), 0, &[], &mut route);
        assert_eq!(first.then(polisher.step(u64::MAX).unwrap()), one);
        assert_eq!(route, best);
    }
    assert!(whole(3, one.examined / 2).1 != stops());
}

/// Not 0 again: the route is finished, whatever is asked of it.
#[test]
fn finished_stays_finished() {
    let legs = legs();
    let mut route = stops();
    let mut polisher = Polisher::new(2, &tables(&legs), 0, &[], &mut route);
    let finished = polisher.step(u64::MAX).unwrap();
    let progress = polisher.progress();
    assert_eq!((polisher.is_finished(), progress.share()), (true, 1.0));
    assert_eq!(polisher.place(), Place::first(2));
    for _ in 0..3 {
        for answer in [
            polisher.step(u64::MAX),
            polisher.step(0),
            polisher.run_for(Duration::MAX),
            polisher.run_within(0, Duration::ZERO),
        ] {
            let again = Polished {
                examined: 0,
                accepted: 0,
                before: finished.after,
                ..finished
            };
            assert_eq!(answer, Ok(again));
        }
        assert_eq!(polisher.slices(5).next(), None);
        assert_eq!(polisher.progress(), progress);
    }
}

/// With nothing to gain the share rises from 0 to 1, and is the cut sets that were examined whole by those there are.
#[test]
fn the_share_of_a_pass() {
    let tables = Tables::without_service(1, &[0], &[u32::MAX]);
    for (k, patterns) in [(2, 1), (3, 7), (4, 47), (5, 383)] {
        for stops in k - 1..8 {
            let mut route = vec![0; stops];
            let mut polisher = Polisher::new(k, &tables, 0, &[], &mut route);
            let all = polisher.progress().cut_sets;
            assert_eq!(polisher.progress().share(), 0.0);
            let mut last = 0;
            for progress in polisher.slices(patterns / 2 + 1) {
                let progress = progress.unwrap();
                last = progress.examined;
                let share = (last / patterns) as f64 / all as f64;
                assert_eq!(progress.share(), share);
            }
            assert_eq!(last, all * patterns);
            assert_eq!(polisher.progress().share(), 1.0);
        }
    }
}

/// An acceptance begins the pass anew.
#[test]
fn the_share_falls_when_something_is_accepted() {
    let legs = legs();
    let mut route = stops();
    let mut polisher = Polisher::new(2, &tables(&legs), 0, &[], &mut route);
    let mut before = polisher.progress();
    let mut fallen = 0;
    while polisher.step(1).unwrap().ending == Ending::Spent {
        let now = polisher.progress();
        match now.accepted > before.accepted {
            true => {
                assert_eq!(now.passed, 0);
                assert!(now.saved > before.saved);
                fallen += 1;
            }
            false => assert_eq!(now.passed, before.passed + 1),
        }
        before = now;
    }
    assert!(fallen > 1);
}

/// More cuts than the route has positions: nothing is examined.
#[test]
fn a_route_without_a_cut_set() {
    let tables = Tables::without_service(1, &[0], &[u32::MAX]);
    let mut route = [0; 3];
    let mut polisher = Polisher::new(5, &tables, 0, &[], &mut route);
    assert_eq!(
        (polisher.progress().share(), polisher.is_finished()),
        (1.0, false)
    );
    let mut slices = polisher.slices(0);
    assert_eq!(
        slices.next().map(|progress| progress.unwrap().examined),
        Some(0)
    );
    assert_eq!(slices.next(), None);
    assert!(polisher.is_finished());
}

/// Slices of none would never end.
#[test]
fn slices_of_none_are_of_one() {
    let tables = Tables::without_service(1, &[0], &[u32::MAX]);
    let mut route = [0; 3];
    let mut polisher = Polisher::new(2, &tables, 0, &[], &mut route);
    assert_eq!(polisher.slices(0).count(), 6);
}

#[test]
fn refused_with_the_route_as_before() {
    let legs = legs();
    let whole = tables(&legs);
    let short = Tables {
        service: &[0; 2],
        ..whole
    };
    let refused = |k, tables: &Tables, harbours: Harbours, pairs: &[Pair], route: &mut [u32]| {
        let before = route.to_vec();
        let mut polisher = Polisher::new(k, tables, harbours, pairs, route);
        let refused = polisher.step(100).unwrap_err();
        assert_eq!(polisher.run_for(Duration::ZERO), Err(refused));
        assert!(polisher.slices(3).eq([Err(refused)]));
        let progress = polisher.progress();
        assert_eq!(
            (progress.examined, progress.saved, progress.passed),
            (0, 0, 0)
        );
        assert_eq!(
            (polisher.place(), polisher.is_finished()),
            (Place::first(k), false)
        );
        assert_eq!(route, before);
        refused
    };
    let closed = Harbours::from(0);
    let route = &mut stops()[..];
    for k in [0, 1, 6, usize::MAX] {
        assert_eq!(refused(k, &whole, closed, &[], route), Refusal::CutCount);
    }
    assert_eq!(refused(3, &short, closed, &[], route), Refusal::ServiceList);
    let away = Harbours { depot: 0, end: 13 };
    assert_eq!(refused(3, &whole, away, &[], route), Refusal::UnknownEnd);
    assert_eq!(refused(3, &whole, closed, &[[1, 1]], route), Refusal::Pairs);
    assert_eq!(
        refused(3, &whole, closed, &[], &mut [13]),
        Refusal::UnknownStop
    );
    let long = &mut [0; 513];
    assert_eq!(refused(3, &whole, closed, &[], long), Refusal::RoundSize);
}

/// A place of a longer route.
#[test]
fn a_place_that_is_none_here() {
    let tables = Tables::without_service(1, &[0], &[u32::MAX]);
    let mut long = [0; 9];
    let mut polisher = Polisher::new(2, &tables, 0, &[], &mut long);
    polisher.step(8).unwrap();
    let place = polisher.place();
    let mut route = [0; 3];
    let mut polisher = Polisher::at(place, &tables, 0, &[], &mut route);
    assert_eq!(polisher.step(9), Err(Refusal::Cuts));
    assert!((0.0..=1.0).contains(&polisher.progress().share()));
    assert_eq!(polisher.place(), place);
}

/// Some hours of candidates: it comes back when its time is over, having done something; on a busy machine later.
#[test]
fn comes_back_when_the_time_is_over() {
    let locations = 513;
    let leg = |place: u32| 1 + place.wrapping_mul(2_654_435_761) % 997;
    let legs: Vec<u32> = (0..locations * locations).map(leg).collect();
    let latest = vec![u32::MAX; locations as usize];
    let tables = Tables::without_service(locations as usize, &legs, &latest);
    for k in [3, 5] {
        let mut route: Vec<u32> = (1..locations).collect();
        let mut polisher = Polisher::new(k, &tables, 0, &[], &mut route);
        let mut sum: Option<Polished> = None;
        for milliseconds in [0, 1, 40, 200] {
            let (time, start) = (Duration::from_millis(milliseconds), Instant::now());
            let ran = polisher.run_for(time).unwrap();
            let took = start.elapsed();
            assert_eq!(ran.ending, Ending::Spent);
            assert!(ran.examined >= 1024 && took >= time);
            assert!(took < time + Duration::from_secs(5), "{took:?}");
            sum = Some(sum.map_or(ran, |sum| sum.then(ran)));
        }
        let sum = sum.unwrap();
        let mut again: Vec<u32> = (1..locations).collect();
        let one = polish_route_with_pairs(k, sum.examined, &tables, 0, &[], &mut again);
        assert_eq!((Ok(sum), again), (one, route));
    }
}

/// The allowance to the candidate, whatever the time.
#[test]
fn within_an_allowance() {
    let legs = legs();
    let (one, _) = whole(3, u64::MAX);
    for allowance in [0, 1, 1023, 1024, 1025, one.examined - 1, one.examined] {
        let mut route = stops();
        let mut polisher = Polisher::new(3, &tables(&legs), 0, &[], &mut route);
        let ran = polisher.run_within(allowance, Duration::MAX).unwrap();
        assert_eq!((ran, route), whole(3, allowance));
    }
}
