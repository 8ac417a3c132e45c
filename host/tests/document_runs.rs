//! The runs of document 01, with no service times, and runs with them and with late stops, by the safe functions, with canaries around what is
//! lent.

#![forbid(unsafe_code)]

mod support;

use mittenschist::{
    every_nearby_cuts, find_move, k_opt_do_move, k_opt_is_doable, k_opt_undo_move, nearby_cuts,
    next_cut_set, pair_loop, polish_route, polish_route_with_pairs, polish_slice,
    polish_with_patterns, polish_with_patterns_and_pairs, reconnection_at, route_feasible,
    route_length, run_in_shares, run_list_k_opt, run_list_k_opt_with_pairs, way_back, which_of_two,
    Deadline, Ending, Harbours, Move, Pair, PairLooped, PatternList, Patterns, Place, Polished,
    Refusal, RoundReply, RoundState, Rounds, Tables,
};
use support::lent::Lent;
use support::{kept, written};

const NO_DEADLINE: u32 = u32::MAX;
const TEXT_LEGS: [u32; 9] = [0, 5, 1, 1, 0, 5, 5, 1, 0];
const PAIR_LEGS: [u32; 25] = [
    0, 10, 1, 5, 1, 10, 0, 1, 1, 1, 1, 1, 0, 10, 10, 5, 1, 10, 0, 1, 1, 1, 10, 1, 0,
];

/// The text case: what polishing answers, and the route.
fn text_case(k: usize, allowance: u64, latest_of_1: u32) -> (Polished, Vec<u64>) {
    served_text_case(k, allowance, latest_of_1, 0)
}

/// With so many seconds spent at location 2.
fn served_text_case(
    k: usize,
    allowance: u64,
    latest_of_1: u32,
    service_of_2: u32,
) -> (Polished, Vec<u64>) {
    let latest = [NO_DEADLINE, latest_of_1, NO_DEADLINE];
    timed_text_case(k, allowance, &latest, &[0, 0, service_of_2])
}

fn timed_text_case(
    k: usize,
    allowance: u64,
    latest: &[u32],
    service: &[u32],
) -> (Polished, Vec<u64>) {
    let tables = Tables {
        locations: 3,
        legs: &TEXT_LEGS,
        latest,
        service,
    };
    let mut route = Lent::new("route", &[1, 2]);
    let polished = polish_route(k, allowance, &tables, 0, route.slice()).unwrap();
    (polished, written(&route))
}

/// No stop is late.
fn polished(ending: Ending, examined: u64, accepted: u64, after: u64) -> Polished {
    Polished {
        ending,
        examined,
        accepted,
        before: 15,
        after,
        late: None,
    }
}

/// As it was handed in, with a late stop.
fn unchanged(ending: Ending, examined: u64, late: usize) -> (Polished, Vec<u64>) {
    let late = Some(late);
    let kept = polished(ending, examined, 0, 15);
    (Polished { late, ..kept }, vec![1, 2])
}

#[test]
fn the_text_case() {
    let changed = (polished(Ending::Finished, 11, 1, 3), vec![2, 1]);
    assert_eq!(text_case(3, 100, NO_DEADLINE), changed);
    assert_eq!(text_case(3, 11, NO_DEADLINE), changed);
    assert_eq!(text_case(3, u64::MAX, 2), changed);
    // Location 1 is reached at second 5, or 2 in the better order.
    let late = unchanged(Ending::Finished, 7, 0);
    assert_eq!(text_case(3, 100, 1), late);
}

/// The first of the late stops is told, of the route handed back: also where no cut set is left or none was examined.
#[test]
fn the_text_case_with_late_stops() {
    let late = |k, allowance, latest_of_1, latest_of_2| {
        let latest = [NO_DEADLINE, latest_of_1, latest_of_2];
        timed_text_case(k, allowance, &latest, &[0; 3])
    };
    let finished = |examined, late| unchanged(Ending::Finished, examined, late);
    assert_eq!(late(3, 100, 0, 0), finished(7, 0));
    assert_eq!(late(3, 100, NO_DEADLINE, 0), finished(7, 1));
    assert_eq!(late(4, 100, NO_DEADLINE, 0), finished(0, 1));
    assert_eq!(late(3, 0, 0, 0), unchanged(Ending::Spent, 0, 0));
    assert_eq!(late(3, 3, 4, 9), unchanged(Ending::Spent, 3, 0));
    // What is accepted mends it.
    let mended = (polished(Ending::Spent, 4, 1, 3), vec![2, 1]);
    assert_eq!(late(3, 4, 4, 9), mended);
}

/// An empty route has no late stop, and a number of stops of 0.
#[test]
fn nothing_late_of_nothing() {
    let tables = Tables::without_service(1, &[7], &[0]);
    for k in 2..=5 {
        let polished = polish_route(k, 9, &tables, 0, &mut []).unwrap();
        assert_eq!((polished.late, polished.before), (None, 7));
        let polished = polish_route(k, 9, &tables, 0, &mut [0, 0]).unwrap();
        assert_eq!((polished.late, polished.before), (Some(0), 21));
    }
}

/// The better order reaches location 1 after 2 seconds of legs and what is spent at location 2.
#[test]
fn the_text_case_with_service() {
    let changed = (polished(Ending::Finished, 11, 1, 3), vec![2, 1]);
    let unchanged = (polished(Ending::Finished, 7, 0, 15), vec![1, 2]);
    // In time as it was handed in: location 1 is reached at second 5.
    assert_eq!(served_text_case(3, 100, 11, 10), unchanged);
    assert_eq!(served_text_case(3, 100, 12, 10), changed);
    assert_eq!(served_text_case(3, 100, NO_DEADLINE, 1_000_000), changed);
}

/// A stop's own service does not count, nor the depot's at the start; each visit counts, and the depot's where it is a stop.
#[test]
fn which_service_counts() {
    let check = |latest_of_1: u32, route: &[u32]| {
        let latest = [NO_DEADLINE, latest_of_1];
        let tables = Tables {
            locations: 2,
            legs: &[1; 4],
            latest: &latest,
            service: &[5, 10],
        };
        route_feasible(&tables, 0, route).unwrap()
    };
    assert_eq!(check(1, &[1]), Deadline::Kept);
    assert_eq!(check(0, &[1]), Deadline::Late(0));
    assert_eq!(check(11, &[1, 1]), Deadline::Late(1));
    assert_eq!(check(11, &[1, 1, 1]), Deadline::Late(1));
    assert_eq!(check(0, &[0, 1, 1]), Deadline::Late(1));
    assert_eq!(check(12, &[1, 1]), Deadline::Kept);
    assert_eq!(check(6, &[0, 1]), Deadline::Late(1));
    assert_eq!(check(7, &[0, 1]), Deadline::Kept);
}

/// 23 stands after 3 and before 4.
#[test]
fn service_in_the_stated_order() {
    let check = |leg: u32, service: &[u32], depot: u32| {
        let (legs, latest) = ([leg], [NO_DEADLINE]);
        let tables = Tables {
            locations: 1,
            legs: &legs,
            latest: &latest,
            service,
        };
        route_feasible(&tables, depot, &[0, 0]).err()
    };
    assert_eq!(check(7, &[1_000_000], 0), None);
    assert_eq!(check(7, &[1_000_001], 0), Some(Refusal::ServiceList));
    for service in [&[][..], &[0, 0], &[u32::MAX]] {
        assert_eq!(check(7, service, 1), Some(Refusal::ServiceList));
        assert_eq!(check(1_000_001, service, 1), Some(Refusal::LongLeg));
    }
}

#[test]
fn the_text_case_at_other_allowances_and_cuts() {
    let spent = |examined, accepted, after| polished(Ending::Spent, examined, accepted, after);
    assert_eq!(text_case(3, 10, NO_DEADLINE), (spent(10, 1, 3), vec![2, 1]));
    assert_eq!(text_case(3, 3, NO_DEADLINE), (spent(3, 0, 15), vec![1, 2]));
    let none = polished(Ending::Finished, 0, 0, 15);
    assert_eq!(text_case(4, 0, NO_DEADLINE), (none, vec![1, 2]));
}

#[test]
fn bounds() {
    let tables = |legs: &'static [u32]| Tables {
        locations: 1,
        legs,
        latest: &[0],
        service: &[0],
    };
    let polish = |legs, stops| polish_route(2, 5, &tables(legs), 0, &mut vec![0; stops]);
    assert!(polish(&[1_000_000], 512).is_ok());
    assert_eq!(polish(&[1_000_000], 513), Err(Refusal::RoundSize));
    assert_eq!(polish(&[1_000_001], 513), Err(Refusal::LongLeg));
    let longest = route_length(&tables(&[1_000_000]), 0, &[0; 512]);
    assert_eq!(longest, Ok(513_000_000));
}

#[test]
fn the_most_locations() {
    let polish = |locations: usize| {
        let legs = vec![1; locations * locations];
        let latest = vec![NO_DEADLINE; locations];
        let service = vec![1_000_000; locations];
        let tables = Tables {
            locations,
            legs: &legs,
            latest: &latest,
            service: &service,
        };
        polish_route(5, 1000, &tables, 1023, &mut [1023, 0, 5, 7])
    };
    assert_eq!(polish(1024).map(|polished| polished.before), Ok(5));
    assert_eq!(polish(1025), Err(Refusal::TableSize));
}

/// The pair case: what the pair loop answers, and the stops.
fn pair_case(allowance: u64, latest_of_a: u32) -> (PairLooped, Vec<u64>) {
    let mut latest = [NO_DEADLINE; 5];
    latest[1] = latest_of_a;
    let tables = Tables::without_service(5, &PAIR_LEGS, &latest);
    let mut route = Lent::new("route", &[1, 2, 3, 4]);
    let paired = pair_loop(allowance, &tables, 0, route.slice()).unwrap();
    (paired, written(&route))
}

/// Lengths on the way: 23, 5, 18, 5. A spent route keeps what was accepted.
#[test]
fn the_pair_loop() {
    let paired = |ending, examined, accepted, after| PairLooped {
        ending,
        examined,
        accepted,
        before: 23,
        after,
        late: None,
    };
    let finished = (paired(Ending::Finished, 18, 3, 5), vec![2, 1, 3, 4]);
    assert_eq!(pair_case(100, NO_DEADLINE), finished);
    assert_eq!(pair_case(18, NO_DEADLINE), finished);
    let spent = |examined, accepted, after| paired(Ending::Spent, examined, accepted, after);
    let way = [
        (0, spent(0, 0, 23), vec![1, 2, 3, 4]),
        (1, spent(1, 1, 5), vec![2, 1, 3, 4]),
        (2, spent(2, 2, 18), vec![3, 1, 2, 4]),
        (8, spent(8, 3, 5), vec![2, 1, 3, 4]),
        (17, spent(17, 3, 5), vec![2, 1, 3, 4]),
    ];
    for (allowance, answer, route) in way {
        assert_eq!(pair_case(allowance, NO_DEADLINE), (answer, route));
    }
    // A is reached at second 10, or 2 in the first shorter order.
    let late = PairLooped {
        late: Some(0),
        ..paired(Ending::Finished, 6, 0, 23)
    };
    assert_eq!(pair_case(100, 1), (late, vec![1, 2, 3, 4]));
}

/// "T carries 0 there"; to location 1 it is 11 seconds, and 2 when polished. The end harbour's deadline and service play no part.
#[test]
fn the_text_case_to_another_end() {
    let latest = [NO_DEADLINE; 3];
    let tables = Tables::without_service(3, &TEXT_LEGS, &latest);
    let to = |end| Harbours { depot: 0, end };
    let mut route = [1, 2];
    let polished = polish_route(3, 100, &tables, to(1), &mut route).unwrap();
    assert_eq!((polished.before, polished.after), (11, 2));
    assert_eq!((polished.examined, route), (11, [2, 1]));
    assert_eq!(
        polish_route(3, 100, &tables, to(3), &mut route),
        Err(Refusal::UnknownEnd)
    );
    assert_eq!(route_length(&tables, to(1), &[]), Ok(5));
    assert_eq!(route_length(&tables, 0, &[]), Ok(0));
    // Location 0, the end, was due at second 0, and takes nine seconds.
    let closing = Tables {
        latest: &[0, NO_DEADLINE, NO_DEADLINE],
        service: &[9, 0, 0],
        ..tables
    };
    let mut route = [1, 2];
    let polished = polish_route(3, 100, &closing, to(0), &mut route).unwrap();
    assert_eq!((polished.after, polished.late, route), (3, None, [2, 1]));
}

/// A round to each location: four stops, of which the last is nearest to its own end.
#[test]
fn a_run_to_ends() {
    let latest = [NO_DEADLINE; 3];
    let tables = Tables::without_service(3, &TEXT_LEGS, &latest);
    let mut stops = [1, 2, 1, 2, 1, 2, 1, 2];
    let lengths = [4, 4];
    let depots = [0, 0];
    let run = |stops: &mut [u32], ends: &[u32]| {
        let rounds = Rounds {
            stops,
            lengths: &lengths,
            depots: &depots,
            ends,
            pins: &[0, 0],
        };
        run_list_k_opt(3, 10_000, &tables, rounds)
    };
    let replies = run(&mut stops, &[1, 2]).unwrap();
    for (round, end) in stops.chunks(4).zip([1, 2]) {
        let mut alone = [1, 2, 1, 2];
        let polished = polish_route(3, 10_000, &tables, Harbours { depot: 0, end }, &mut alone);
        assert_eq!(
            (round, polished.unwrap().ending),
            (&alone[..], Ending::Finished)
        );
    }
    assert!(replies
        .iter()
        .all(|reply| reply.state == RoundState::Changed));
    assert_eq!(run(&mut stops, &[1, 3]), Err(Refusal::UnknownEnd));
    assert_eq!(run(&mut stops, &[1]), Err(Refusal::RoundSize));
}

/// No pair below two stops, also with no allowance; and a route that ends longer.
#[test]
fn the_pair_loop_at_its_bounds() {
    let pairs = |legs: &[u32], allowance, route: &mut [u32]| {
        let latest = [NO_DEADLINE; 3];
        let tables = Tables::without_service(3, legs, &latest);
        pair_loop(allowance, &tables, 0, route)
    };
    for route in [&mut [][..], &mut [1]] {
        let none = pairs(&TEXT_LEGS, 0, route).unwrap();
        assert_eq!((none.ending, none.examined), (Ending::Finished, 0));
        assert_eq!(none.saved(), 0);
    }
    let spent = pairs(&TEXT_LEGS, 0, &mut [1, 2]).unwrap();
    assert_eq!((spent.ending, spent.examined), (Ending::Spent, 0));
    let longer = pairs(&[0, 9, 1, 7, 0, 2, 4, 9, 0], 100, &mut [1, 2]).unwrap();
    assert_eq!((longer.ending, longer.accepted), (Ending::Finished, 1));
    assert_eq!(longer.saved(), -2);
    assert!(pairs(&TEXT_LEGS, 300_000, &mut [0; 512]).is_ok());
    let long = pairs(&TEXT_LEGS, 9, &mut [0; 513]);
    assert_eq!(long, Err(Refusal::RoundSize));
    let unknown = pairs(&TEXT_LEGS, 9, &mut [3; 513]);
    assert_eq!(unknown, Err(Refusal::UnknownStop));
}

/// The pair case by a run with k = 2: what it answers, and the stops.
fn pair_case_by_run(allowance: u64) -> (Vec<RoundReply>, Vec<u64>) {
    let latest = [NO_DEADLINE; 5];
    let tables = Tables::without_service(5, &PAIR_LEGS, &latest);
    let mut stops = Lent::new("stops", &[1, 2, 3, 4]);
    let rounds = Rounds {
        stops: stops.slice(),
        lengths: &[4],
        depots: &[0],
        ends: &[0],
        pins: &[0],
    };
    let replies = run_list_k_opt(2, allowance, &tables, rounds).unwrap();
    (replies, written(&stops))
}

#[test]
fn the_run_with_two_cuts() {
    let reply = |state, examined, accepted, applied| RoundReply {
        state,
        examined,
        accepted,
        applied,
    };
    let changed = reply(RoundState::Changed, 12, 1, 1);
    for allowance in [12, u64::MAX] {
        let answer = pair_case_by_run(allowance);
        assert_eq!(answer, (vec![changed], vec![2, 1, 3, 4]));
    }
    let spent = reply(RoundState::Spent, 11, 1, 0);
    assert_eq!(pair_case_by_run(11), (vec![spent], vec![1, 2, 3, 4]));
    let not_reached = reply(RoundState::NotReached, 0, 0, 0);
    assert_eq!(pair_case_by_run(0), (vec![not_reached], vec![1, 2, 3, 4]));
}

#[test]
fn patterns() {
    let pattern = |k, index| reconnection_at(k, index).map(|found| (found.order, found.mask));
    let three = (0..7).map(|index| pattern(3, index).unwrap());
    let (kept, swapped) = (vec![0, 1, 2, 3], vec![0, 2, 1, 3]);
    let masks = [(&kept, 2), (&kept, 4), (&kept, 6), (&swapped, 0)];
    let more = [(&swapped, 2), (&swapped, 4), (&swapped, 6)];
    let wanted = masks.into_iter().chain(more);
    assert!(three.eq(wanted.map(|(order, mask)| (order.clone(), mask))));
    assert_eq!(pattern(4, 7), Ok((vec![0, 1, 3, 2, 4], 0)));
    assert_eq!(pattern(5, 382), Ok((vec![0, 4, 3, 2, 1, 5], 30)));
    assert_eq!(pattern(5, 383), Err(Refusal::PatternIndex));
}

#[test]
fn cut_sets_of_four_stops() {
    for (k, count) in [(3, 10), (4, 5), (5, 1)] {
        let first: Vec<usize> = (0..k).collect();
        let mut cuts = Lent::new("cuts", &first);
        let mut sets = 1;
        while next_cut_set(k, 4, cuts.slice()).unwrap() {
            sets += 1;
        }
        assert_eq!(sets, count);
        assert_eq!(written(&cuts).last(), Some(&4));
    }
}

fn listed(from_1_to_3: f64) -> Vec<u64> {
    let mut distances = [2.0; 25];
    distances[8] = from_1_to_3;
    let mut sets = Lent::new("sets", &[0; 30]);
    let listing = nearby_cuts(5, &distances, 3, 1, 4, sets.slice()).unwrap();
    assert!(!listing.more);
    written(&sets)[..3 * listing.sets].to_vec()
}

#[test]
fn nearby() {
    assert_eq!(listed(1.0), [1, 3, 4, 2, 3, 4]);
    assert_eq!(listed(2.0), [1, 2, 3, 1, 2, 4, 1, 3, 4, 2, 3, 4]);
}

/// Cut 2, whose neighbours lie too low, has its sibling 3 dropped with it by the first listing.
#[test]
fn every_nearby() {
    let mut distances = [2.0; 25];
    for (from, to) in [(1, 2), (1, 3), (2, 0), (2, 1), (3, 4)] {
        distances[5 * from + to] = 1.0;
    }
    let mut sets = Lent::new("sets", &[0; 7]);
    let missed = nearby_cuts(5, &distances, 3, 1, 2, sets.slice()).unwrap();
    assert_eq!((missed.sets, missed.more), (0, false));
    kept(&sets);
    let listing = every_nearby_cuts(5, &distances, 3, 1, 2, sets.slice()).unwrap();
    assert_eq!((listing.sets, listing.more), (1, false));
    assert_eq!(written(&sets), [1, 3, 4, 0, 0, 0, 0]);
}

#[test]
fn apply_and_undo() {
    let mut route = Lent::new("route", &[11, 12, 13, 14]);
    let mut journal = Lent::new("journal", &[9; 6]);
    let rounds = [0, 0, 0];
    let cuts = [1, 2, 4];
    assert_eq!(k_opt_is_doable(3, 3, 0, 4, &rounds, &cuts), Ok(true));
    k_opt_do_move(3, 3, 0, &rounds, &cuts, route.slice(), journal.slice()).unwrap();
    assert_eq!(written(&route), [11, 13, 14, 12]);
    assert_eq!(written(&journal), [11, 12, 13, 14, 9, 9]);
    let undone = k_opt_undo_move(route.slice(), journal.slice());
    assert_eq!(undone, Err(Refusal::JournalLength));
    k_opt_undo_move(route.slice(), &journal.slice()[..4]).unwrap();
    kept(&route);
}

#[test]
fn unordered_cuts_that_name_another_round() {
    let (mut route, mut journal) = ([11, 12, 13, 14], [0; 4]);
    let mut apply = |cuts: [usize; 2]| {
        let doable = k_opt_is_doable(2, 0, 0, 4, &[7, 0], &cuts).unwrap();
        let applied = k_opt_do_move(2, 0, 0, &[7, 0], &cuts, &mut route, &mut journal);
        (doable, applied)
    };
    assert_eq!(apply([3, 1]), (true, Err(Refusal::Cuts)));
    assert_eq!(apply([1, 3]), (true, Err(Refusal::OtherRound)));
    assert_eq!(apply([1, 5]), (false, Err(Refusal::Cuts)));
}

/// The first move that makes one round of another, as the request's runs give it.
#[test]
fn first_moves() {
    let first = |k, old: &[u32], wanted: &[u32]| find_move(k, old, wanted);
    let found = |pattern, cuts: &[usize]| {
        let cuts = cuts.to_vec();
        Ok(Some(Move { pattern, cuts }))
    };
    assert_eq!(first(2, &[], &[]), Ok(None));
    assert_eq!(first(2, &[1], &[1]), found(0, &[0, 1]));
    assert_eq!(first(3, &[1, 2], &[1, 2]), found(0, &[0, 1, 2]));
    assert_eq!(first(3, &[1, 2], &[2, 1]), found(3, &[0, 1, 2]));
    assert_eq!(first(3, &[1], &[1]), Ok(None));
    let long = [7; 513];
    assert_eq!(first(2, &long[..48], &long[..48]), found(0, &[0, 1]));
    assert_eq!(first(2, &long[..49], &long[..49]), Err(Refusal::MoveRounds));
    assert_eq!(first(2, &long[..3], &long[..4]), Err(Refusal::MoveRounds));
    assert_eq!(first(2, &long, &long), Err(Refusal::RoundSize));
    assert_eq!(first(6, &long, &long), Err(Refusal::CutCount));
}

/// The way back of a move, as the request's runs give it.
#[test]
fn ways_back() {
    let back = |pattern, n, cuts: &[usize]| {
        let back = way_back(3, pattern, n, cuts)?;
        Ok::<_, Refusal>((back.pattern, back.cuts))
    };
    assert_eq!(back(3, 4, &[0, 1, 4]), Ok((3, vec![0, 3, 4])));
    assert_eq!(back(4, 4, &[0, 1, 4]), Ok((5, vec![0, 3, 4])));
    assert_eq!(back(5, 4, &[0, 1, 4]), Ok((4, vec![0, 3, 4])));
    // Segments of one stop: pattern 1 would restore too.
    assert_eq!(back(0, 2, &[0, 1, 2]), Ok((0, vec![0, 1, 2])));
}

/// How many patterns are their own inverses.
#[test]
fn own_inverses() {
    let counts = [(2, 1), (3, 7), (4, 47), (5, 383)].map(|(k, patterns)| {
        let cuts: Vec<usize> = (0..k).collect();
        let own = |&pattern: &usize| way_back(k, pattern, k, &cuts).unwrap().pattern == pattern;
        (0..patterns).filter(own).count()
    });
    assert_eq!(counts, [1, 5, 19, 75]);
}

/// The cases of ruling B57.
#[test]
fn lists_of_patterns() {
    let load =
        |lines: &str| PatternList::load(lines.as_bytes()).map(|list| list.lent().masks.len());
    let one = |row: &str| load(&format!("k=3\npatterns=1\npattern={row}\n"));
    assert_eq!(one("0213,6"), Ok(1));
    assert_eq!(one(",2"), Err(Refusal::RowShape));
    assert_eq!(one("0213,8"), Err(Refusal::RowShape));
    assert_eq!(one("0213,1"), Err(Refusal::RowShape));
    assert_eq!(one("0123,0"), Err(Refusal::RowRepeated));
    for row in ["0213", "0213,06", "0x13,2"] {
        assert_eq!(one(row), Err(Refusal::TextForm));
    }
    assert_eq!(load("k=3\npatterns=0\n"), Err(Refusal::RowCount));
    let two = |announced: &str, first: &str, second: &str| {
        load(&format!(
            "k=3\npatterns={announced}\npattern={first}\npattern={second}\n"
        ))
    };
    assert_eq!(two("3", "0213,0", "0213,2"), Err(Refusal::RowCount));
    assert_eq!(
        two("4294967296", "0213,0", "0213,2"),
        Err(Refusal::TextForm)
    );
    assert_eq!(two("2", "0213,0", "0213,0"), Err(Refusal::RowRepeated));
    assert_eq!(two("1", "0213,0", ",2"), Err(Refusal::RowCount));
    let three = "k=3\npatterns=3\npattern=0213,0\npattern=0213,0\npattern=03,0\n";
    assert_eq!(load(three), Err(Refusal::RowShape));
    assert_eq!(
        load("k=9\npatterns=1\npattern=,2\n"),
        Err(Refusal::CutCount)
    );
}

/// The text case with all seven patterns, and without the one that exchanges the two stops and turns neither.
#[test]
fn the_text_case_with_own_patterns() {
    let tables = Tables::without_service(3, &TEXT_LEGS, &[NO_DEADLINE; 3]);
    let polish = |skipped: usize| {
        let rows = (0..7).filter(|&index| index != skipped);
        let rows: Vec<_> = rows
            .map(|index| reconnection_at(3, index).unwrap())
            .collect();
        let orders = rows
            .iter()
            .flat_map(|row| row.order.iter().map(|&segment| segment as u8));
        let (orders, masks): (Vec<u8>, Vec<u8>) = (
            orders.collect(),
            rows.iter().map(|row| row.mask as u8).collect(),
        );
        let patterns = Patterns {
            k: 3,
            orders: &orders,
            masks: &masks,
        };
        let mut route = [1, 2];
        polish_with_patterns(patterns, 100, &tables, 0, &mut route)
            .map(|polished| (polished.examined, route))
    };
    assert_eq!(polish(7), Ok((11, [2, 1])));
    assert_eq!(polish(3), Ok((10, [2, 1])));
}

/// The text case with these pairs, and another round: what is answered, and the route.
fn paired(pairs: &[Pair], round: &[u32]) -> (Polished, Vec<u64>) {
    let tables = Tables::without_service(3, &TEXT_LEGS, &[NO_DEADLINE; 3]);
    let mut route = Lent::new("route", round);
    let polished = polish_route_with_pairs(3, 100, &tables, 0, pairs, route.slice());
    (polished.unwrap(), written(&route))
}

/// The cases of ruling B59.
#[test]
fn the_text_case_with_pairs() {
    let kept = (polished(Ending::Finished, 7, 0, 15), vec![1, 2]);
    let changed = (polished(Ending::Finished, 11, 1, 3), vec![2, 1]);
    assert_eq!(paired(&[[1, 2]], &[1, 2]), kept);
    assert_eq!(paired(&[[2, 1]], &[1, 2]), changed);
    assert_eq!(paired(&[], &[1, 2]), changed);
    // Twice the same; and two that contradict each other.
    assert_eq!(paired(&[[2, 1], [2, 1]], &[1, 2]), changed);
    assert_eq!(paired(&[[2, 1], [1, 2]], &[1, 2]), kept);
    // The depot at the start and at the end is no visit.
    assert_eq!(paired(&[[0, 1], [2, 0]], &[1, 2]), changed);
}

/// 1, 2, 1 breaks (1, 2), and so does every order of 0, 1, 1 with 2 in front of a 1: so polishing goes where the visits of 1 come first, or nowhere.
#[test]
fn every_visit_counts() {
    let after = |pairs: &[Pair], round: &[u32]| {
        let (polished, route) = paired(pairs, round);
        (polished.accepted, route)
    };
    assert_eq!(after(&[], &[1, 2, 1]), (1, vec![2, 1, 1]));
    assert_eq!(after(&[[2, 1]], &[1, 2, 1]), (1, vec![2, 1, 1]));
    // 1, 1, 2 is the only order that keeps it, and is not shorter.
    assert_eq!(after(&[[1, 2]], &[1, 2, 1]), (0, vec![1, 2, 1]));
    // 1 alone keeps every pair.
    assert_eq!(after(&[[0, 1]], &[1]), (0, vec![1]));
    assert_eq!(after(&[[2, 1], [1, 2]], &[1]), (0, vec![1]));
}

/// 29, behind 24 and before 5.
#[test]
fn pairs_that_are_refused() {
    let tables = Tables::without_service(3, &TEXT_LEGS, &[NO_DEADLINE; 3]);
    let polish = |end, pairs: &[Pair], stops| {
        let harbours = Harbours { depot: 0, end };
        let answer = polish_route_with_pairs(2, 9, &tables, harbours, pairs, &mut vec![0; stops]);
        answer.err()
    };
    let most = [[1, 2]; 64];
    let more = [[1, 2]; 65];
    assert_eq!(polish(0, &most, 512), None);
    assert_eq!(polish(0, &more, 512), Some(Refusal::Pairs));
    assert_eq!(polish(0, &more, 513), Some(Refusal::Pairs));
    assert_eq!(polish(3, &more, 513), Some(Refusal::UnknownEnd));
    assert_eq!(polish(0, &most, 513), Some(Refusal::RoundSize));
    for wrong in [[1, 1], [0, 3], [u32::MAX, 0]] {
        assert_eq!(polish(0, &[[1, 2], wrong], 2), Some(Refusal::Pairs));
    }
}

/// With a list of patterns, and in a run: one list of pairs for all rounds.
#[test]
fn lists_and_runs_with_pairs() {
    let tables = Tables::without_service(3, &TEXT_LEGS, &[NO_DEADLINE; 3]);
    let exchange = Patterns {
        k: 3,
        orders: &[0, 2, 1, 3],
        masks: &[0],
    };
    for (pairs, examined, after) in [([1, 2], 1, [1, 2]), ([2, 1], 2, [2, 1])] {
        let mut route = [1, 2];
        let answer =
            polish_with_patterns_and_pairs(exchange, 100, &tables, 0, &[pairs], &mut route);
        assert_eq!((answer.unwrap().examined, route), (examined, after));
    }
    let run = |pairs: &[Pair]| {
        let mut stops = [1, 1, 2, 2, 1, 1, 2, 2];
        let rounds = Rounds {
            stops: &mut stops,
            lengths: &[4, 4],
            depots: &[0, 0],
            ends: &[0, 1],
            pins: &[0, 0],
        };
        let replies = run_list_k_opt_with_pairs(2, 1000, &tables, rounds, pairs).unwrap();
        (replies.iter().map(|reply| reply.state).collect(), stops)
    };
    let states = |state| vec![state, state];
    let kept = (states(RoundState::Unchanged), [1, 1, 2, 2, 1, 1, 2, 2]);
    let changed = (states(RoundState::Changed), [2, 2, 1, 1, 2, 2, 1, 1]);
    assert_eq!(run(&[[1, 2]]), kept);
    assert_eq!(run(&[[2, 1]]), changed);
    assert_eq!(run(&[]), changed);
}

/// The text case in slices of each size. Its one cut set has seven patterns: the fourth is accepted, and then all seven are examined once more. After each
/// slice the sums and the route are those of one call, and the place is that of the next candidate.
#[test]
fn the_text_case_in_slices() {
    let tables = Tables::without_service(3, &TEXT_LEGS, &[NO_DEADLINE; 3]);
    for allowance in 1..=12 {
        let mut route = Lent::new("route", &[1, 2]);
        let mut place = Place::first(3);
        let mut sum: Option<Polished> = None;
        while sum.map_or(true, |sum| sum.ending == Ending::Spent) {
            let slice =
                polish_slice(allowance, &tables, 0, &[], route.slice(), &mut place).unwrap();
            let all = sum.map_or(slice, |sum| sum.then(slice));
            let handed_in = sum.map_or(0, |sum| sum.examined) + allowance;
            assert_eq!((all, written(&route)), text_case(3, handed_in, NO_DEADLINE));
            let next = match (all.ending, all.examined) {
                (Ending::Finished, _) => 0,
                (Ending::Spent, examined) if examined < 4 => examined,
                (Ending::Spent, examined) => examined - 4,
            };
            assert_eq!((place.cuts(), place.pattern()), (&[0, 1, 2][..], next));
            sum = Some(all);
        }
        assert_eq!(sum.map(|sum| sum.examined), Some(11));
    }
}

/// With nothing to gain four stops and three cuts are a pass of ten cut sets with seven patterns: the place after each number of candidates, and after a slice of none.
#[test]
fn the_place_after_each_candidate() {
    let tables = Tables::without_service(1, &[0], &[NO_DEADLINE]);
    let (mut place, mut route) = (Place::first(3), [0; 4]);
    let mut cuts = [0, 1, 2];
    for examined in 0..70 {
        assert_eq!(place.cuts(), cuts.map(|cut| cut as u64));
        assert_eq!(place.pattern(), examined % 7);
        let mut slice =
            |allowance| polish_slice(allowance, &tables, 0, &[], &mut route, &mut place);
        let none = slice(0).unwrap();
        assert_eq!((none.ending, none.examined), (Ending::Spent, 0));
        let one = slice(1).unwrap();
        assert_eq!(one.ending == Ending::Finished, examined == 69);
        if examined % 7 == 6 && examined < 69 {
            assert!(next_cut_set(3, 4, &mut cuts).unwrap());
        }
    }
    assert_eq!(place, Place::first(3));
    // More cuts than positions: finished at once.
    let mut place = Place::first(5);
    let none = polish_slice(9, &tables, 0, &[], &mut [0; 3], &mut place).unwrap();
    assert_eq!((none.ending, none.examined), (Ending::Finished, 0));
}

/// To another end, with a pair, with service and deadlines, in slices of each size up to a pass.
#[test]
fn slices_with_all_that_polishing_takes() {
    let tables = Tables {
        locations: 5,
        legs: &PAIR_LEGS,
        latest: &[NO_DEADLINE, NO_DEADLINE, NO_DEADLINE, 40, NO_DEADLINE],
        service: &[0, 3, 0, 0, 7],
    };
    let harbours = Harbours { depot: 0, end: 3 };
    for k in 2..=4 {
        for pairs in [&[][..], &[[2, 4], [1, 3]]] {
            let mut whole = [1, 2, 3, 4];
            let one = polish_route_with_pairs(k, 900, &tables, harbours, pairs, &mut whole);
            for allowance in 1..=70 {
                let (mut place, mut route) = (Place::first(k), [1, 2, 3, 4]);
                let slices = std::iter::from_fn(|| {
                    let slice =
                        polish_slice(allowance, &tables, harbours, pairs, &mut route, &mut place);
                    Some(slice.unwrap())
                });
                let slices = slices.scan(false, |over, slice| {
                    let over = std::mem::replace(over, slice.ending == Ending::Finished);
                    (!over).then_some(slice)
                });
                assert_eq!(slices.reduce(Polished::then), one.ok());
                assert_eq!(route, whole);
            }
        }
    }
}

/// Rounds with no leg between any two places, so that nothing is accepted: 70 candidates for four stops and three cuts. States and candidates examined.
fn shared(allowance: u64, lengths: &[usize], pins: &[u8]) -> Vec<(RoundState, u64)> {
    let tables = Tables::without_service(1, &[0], &[NO_DEADLINE]);
    let (mut stops, harbours) = (vec![0; lengths.iter().sum()], vec![0; lengths.len()]);
    let rounds = Rounds {
        stops: &mut stops,
        lengths,
        depots: &harbours,
        ends: &harbours,
        pins,
    };
    let replies = run_in_shares(3, allowance, &tables, rounds, &[]).unwrap();
    let told = |reply: &RoundReply| (reply.state, reply.examined);
    replies.iter().map(told).collect()
}

#[test]
fn shares_of_the_allowance() {
    use RoundState::{Pinned, Short, Spent, Unchanged};
    let two = |allowance| shared(allowance, &[4, 4], &[0, 0]);
    assert_eq!(two(71), [(Spent, 36), (Spent, 35)]);
    assert_eq!(two(150), [(Unchanged, 70), (Unchanged, 70)]);
    assert_eq!(two(145), [(Unchanged, 70), (Unchanged, 70)]);
    assert_eq!(two(139), [(Unchanged, 70), (Spent, 69)]);
    assert_eq!(two(1), [(Spent, 1), (Spent, 0)]);
    assert_eq!(shared(0, &[4, 4], &[1, 255]), [(Pinned, 0), (Pinned, 0)]);
    let between = |allowance| shared(allowance, &[4, 5, 3, 4], &[0, 1, 0, 0]);
    let (pinned, short) = ((Pinned, 0), (Short, 0));
    let finished = (Unchanged, 70);
    assert_eq!(between(150), [finished, pinned, short, finished]);
    assert_eq!(between(3), [(Spent, 2), pinned, short, (Spent, 1)]);
}

/// The pair case twice with two cuts, where the second candidate is taken: a spent round keeps it, and the next one still starts.
#[test]
fn a_spent_round_keeps_its_changes() {
    let tables = Tables::without_service(5, &PAIR_LEGS, &[NO_DEADLINE; 5]);
    let mut stops = [1, 2, 3, 4, 1, 2, 3, 4];
    let rounds = Rounds {
        stops: &mut stops,
        lengths: &[4, 4],
        depots: &[0, 0],
        ends: &[0, 0],
        pins: &[0, 0],
    };
    let spent = |examined| RoundReply {
        state: RoundState::Spent,
        examined,
        accepted: 1,
        applied: 1,
    };
    let replies = run_in_shares(2, 5, &tables, rounds, &[]);
    assert_eq!(replies, Ok(vec![spent(3), spent(2)]));
    assert_eq!(stops, [2, 1, 3, 4, 2, 1, 3, 4]);
}

/// Where a list lies in memory, and how long it is.
fn place(list: &[u32]) -> (*const u32, usize) {
    (list.as_ptr(), list.len())
}

/// The text case's tables, with lists of two desks: the list that comes back is one of them, not a copy.
#[test]
fn the_desks_own_list() {
    let which = |latest_of_1: u32, end: u32, pairs: &[Pair], first: &[u32], second: &[u32]| {
        let latest = [NO_DEADLINE, latest_of_1, NO_DEADLINE];
        let tables = Tables::without_service(3, &TEXT_LEGS, &latest);
        let handed = which_of_two(&tables, Harbours { depot: 0, end }, pairs, first, second);
        let lists = [first, second, &first[..0]];
        let own = lists
            .map(place)
            .iter()
            .position(|&list| list == place(handed));
        own.expect("neither a list nor the empty part")
    };
    let (first, second, neither) = (0, 1, 2);
    let free = |one: &[u32], other: &[u32]| which(NO_DEADLINE, 0, &[], one, other);
    assert_eq!(free(&[1, 2], &[2, 1]), second);
    assert_eq!(free(&[2, 1], &[1, 2]), first);
    // Equal lists in two places, and one list twice.
    assert_eq!(free(&[2, 1], &vec![2, 1]), first);
    let list = [1, 2];
    assert_eq!(free(&list, &list), first);
    // 6 seconds and 3, then 10 and 4 to another end.
    assert_eq!(free(&[1], &[2, 1]), second);
    assert_eq!(which(NO_DEADLINE, 2, &[], &[1], &[2, 1, 0, 2]), second);
    // An empty list has the one leg.
    assert_eq!(free(&[1, 2], &[]), second);
    // Deadlines and pairs.
    assert_eq!(which(4, 0, &[], &[1, 2], &[2, 1]), second);
    assert_eq!(which(1, 0, &[], &[1, 2], &[2, 1]), neither);
    assert_eq!(which(NO_DEADLINE, 0, &[[1, 2]], &[1, 2], &[2, 1]), first);
    let both_ways = [[1, 2], [2, 1]];
    assert_eq!(which(NO_DEADLINE, 0, &both_ways, &[1, 2], &[2, 1]), neither);
    // What polishing would refuse.
    assert_eq!(free(&[1, 2], &[3]), neither);
    assert_eq!(free(&[3], &[1, 2]), neither);
    assert_eq!(free(&[1, 2], &[0; 513]), neither);
    assert_eq!(which(NO_DEADLINE, 3, &[], &[1, 2], &[2, 1]), neither);
    assert_eq!(which(NO_DEADLINE, 0, &[[1, 1]], &[1, 2], &[2, 1]), neither);
}
