//! Calls over one route: polishing in its forms and the pair loop lend the same slices, and answer the same six numbers.

use crate::cases::polish::Case;
use crate::ffi;
use crate::lent::{bits, filled, Lent};
use crate::oracle::polish::Counts;
use crate::trial::{put, Reply};

/// What the library is lent, beside what is handed over by value.
pub struct Slices<'s> {
    pub legs: &'s [u32],
    pub latest: &'s [u32],
    pub service: &'s [u32],
    /// Of the calls that take them.
    pub pairs: &'s [u32],
    pub route: &'s mut [u32],
    pub result: &'s mut [u64],
}

/// The library's reply to a call; an error if it wrote where it must not.
pub fn given(case: &Case, call: impl FnOnce(Slices) -> u32) -> Result<Reply, String> {
    let room = filled(case.room);
    let mut legs = Lent::new("legs", &case.tables.legs);
    let mut latest = Lent::new("deadlines", &case.tables.latest);
    let mut service = Lent::new("service", &case.tables.service);
    let mut pairs = Lent::new("pairs", case.tables.pairs());
    let mut route = Lent::new("route", &case.route);
    let mut result = Lent::new("result", &room);
    let code = call(Slices {
        legs: legs.slice(),
        latest: latest.slice(),
        service: service.slice(),
        pairs: pairs.slice(),
        route: route.slice(),
        result: result.slice(),
    });
    legs.kept()?;
    latest.kept()?;
    service.kept()?;
    pairs.kept()?;
    Ok(Reply::new(code, [route.written()?, result.written()?]))
}

/// Polishes to an end harbour: with the orders and masks of a list of patterns or with all of them, and with pairs if the tables have a list of them.
pub fn polish(case: &Case, end: u32, rows: Option<(&[u8], &[u8])>, lent: Slices) -> u32 {
    let (k, allowance, depot) = (case.k, case.allowance, case.depot);
    let locations = case.tables.locations;
    let Slices {
        legs,
        latest,
        service,
        pairs,
        route,
        result,
    } = lent;
    match (rows, &case.tables.pairs) {
        (None, None) => ffi::polish_route_to_end(
            k, allowance, locations, legs, latest, service, depot, end, route, result,
        ),
        (None, Some(_)) => ffi::polish_route_with_pairs(
            k, allowance, locations, legs, latest, service, depot, end, pairs, route, result,
        ),
        (Some((orders, masks)), None) => ffi::polish_with_patterns(
            k, orders, masks, allowance, locations, legs, latest, service, depot, end, route,
            result,
        ),
        (Some((orders, masks)), Some(_)) => ffi::polish_with_patterns_and_pairs(
            k, orders, masks, allowance, locations, legs, latest, service, depot, end, pairs,
            route, result,
        ),
    }
}

/// The expected reply: after a refusal all is as before, else the counts and the route that they are of, from the depot to this end; or another number
/// where there is no answer.
pub fn expected(
    case: &Case,
    end: u32,
    refused: u32,
    answer: impl FnOnce() -> Result<(Counts, Vec<u32>), u32>,
) -> Reply {
    let mut result = filled(case.room);
    let mut route = case.route.clone();
    let mut code = refused;
    if refused == 0 {
        match answer() {
            Ok((counts, after)) => {
                put(&mut result, &six_numbers(case, end, counts, &after));
                route = after;
            }
            Err(number) => code = number,
        }
    }
    Reply::new(code, [("route", bits(&route)), ("result", result)])
}

fn six_numbers(case: &Case, end: u32, counts: Counts, after: &[u32]) -> [u64; 6] {
    let length = |route: &[u32]| case.tables.length_to(case.depot, end, route);
    [
        u64::from(counts.spent),
        counts.examined,
        counts.accepted,
        length(&case.route),
        length(after),
        case.tables.late_position(case.depot, after),
    ]
}
