//! A length of 0 may have a null pointer.

use super::*;
use std::ptr::{null, null_mut};

const LEGS: [u32; 1] = [7];
const LATEST: [u32; 1] = [0];
const SERVICE: [u32; 1] = [3];

// Each pointer below is null with a length of 0, or comes with the length of what it points to.

#[test]
fn polish_an_empty_route() {
    let mut result = [9; 6];
    // SAFETY: as said above.
    let returned = unsafe {
        mittenschist_polish_route(
            2,
            1,
            1,
            LEGS.as_ptr(),
            1,
            LATEST.as_ptr(),
            1,
            SERVICE.as_ptr(),
            1,
            0,
            null_mut(),
            0,
            result.as_mut_ptr(),
            6,
        )
    };
    assert_eq!((returned, result), (0, [0, 0, 0, 7, 7, 0]));
}

#[test]
fn pairs_of_nothing() {
    let mut result = [9; 6];
    let (legs, latest, service) = (LEGS.as_ptr(), LATEST.as_ptr(), SERVICE.as_ptr());
    // SAFETY: as said above.
    let mut pairs = |locations, depot, lent| unsafe {
        mittenschist_pair_loop(
            0,
            locations,
            legs,
            1,
            latest,
            1,
            service,
            1,
            depot,
            null_mut(),
            0,
            result.as_mut_ptr(),
            lent,
        )
    };
    let returned = [
        pairs(2, 0, 6),
        pairs(1, 1, 6),
        pairs(1, 0, 5),
        pairs(1, 0, 6),
    ];
    assert_eq!((returned, result), ([2, 4, 21, 0], [0, 0, 0, 7, 7, 0]));
}

#[test]
fn polish_nothing() {
    // SAFETY: as said above.
    let polish = |k, locations| unsafe {
        let (read, write) = (null(), null_mut());
        mittenschist_polish_route(
            k,
            1,
            locations,
            read,
            0,
            read,
            0,
            read,
            0,
            0,
            write,
            0,
            null_mut(),
            0,
        )
    };
    assert_eq!((polish(1, 0), polish(2, 0), polish(2, 1)), (1, 2, 2));
}

#[test]
fn no_service() {
    let mut result = [9; 6];
    // SAFETY: as said above.
    let returned = unsafe {
        mittenschist_polish_route(
            2,
            1,
            1,
            LEGS.as_ptr(),
            1,
            LATEST.as_ptr(),
            1,
            null(),
            0,
            1,
            null_mut(),
            0,
            result.as_mut_ptr(),
            6,
        )
    };
    assert_eq!((returned, result), (23, [9; 6]));
}

/// The one leg, which goes to the end harbour; and an end that is no location.
#[test]
fn polish_an_empty_route_to_an_end() {
    let legs = [0, 5, 7, 0];
    let (latest, service) = ([0; 2], [0; 2]);
    let mut result = [9; 6];
    // SAFETY: as said above.
    let mut polish = |end| unsafe {
        mittenschist_polish_route_to_end(
            2,
            1,
            2,
            legs.as_ptr(),
            4,
            latest.as_ptr(),
            2,
            service.as_ptr(),
            2,
            0,
            end,
            null_mut(),
            0,
            result.as_mut_ptr(),
            6,
        )
    };
    assert_eq!((polish(2), polish(1)), (24, 0));
    assert_eq!(result, [0, 0, 0, 5, 5, 0]);
}

#[test]
fn run_no_rounds_to_no_ends() {
    // SAFETY: as said above.
    let returned = unsafe {
        mittenschist_run_list_k_opt_to_ends(
            2,
            1,
            1,
            LEGS.as_ptr(),
            1,
            LATEST.as_ptr(),
            1,
            SERVICE.as_ptr(),
            1,
            null_mut(),
            0,
            null(),
            0,
            null(),
            0,
            null(),
            0,
            null(),
            0,
            null_mut(),
            0,
        )
    };
    assert_eq!(returned, 0);
}

#[test]
fn the_length_of_nothing_to_an_end() {
    let legs = [0, 5, 7, 0];
    let mut result = [9; 1];
    // SAFETY: as said above.
    let mut length = |end| unsafe {
        mittenschist_route_length_to_end(
            2,
            legs.as_ptr(),
            4,
            1,
            end,
            null(),
            0,
            result.as_mut_ptr(),
            1,
        )
    };
    assert_eq!((length(2), length(0), result), (24, 0, [7]));
}

#[test]
fn run_no_rounds() {
    // SAFETY: as said above.
    let returned = unsafe {
        mittenschist_run_list_k_opt(
            2,
            1,
            1,
            LEGS.as_ptr(),
            1,
            LATEST.as_ptr(),
            1,
            SERVICE.as_ptr(),
            1,
            null_mut(),
            0,
            null(),
            0,
            null(),
            0,
            null(),
            0,
            null_mut(),
            0,
        )
    };
    assert_eq!(returned, 0);
}

#[test]
fn no_moves() {
    let mut result = [9];
    // SAFETY: as said above.
    let returned = unsafe {
        [
            mittenschist_k_opt_do_move(2, 0, 0, null(), 0, null(), 0, null_mut(), 0, null_mut(), 0),
            mittenschist_k_opt_undo_move(null_mut(), 0, null(), 0),
            mittenschist_k_opt_is_doable(2, 0, 0, 0, null(), 0, null(), 0, result.as_mut_ptr(), 1),
            mittenschist_k_opt_is_doable(2, 0, 0, 0, null(), 0, null(), 0, null_mut(), 0),
        ]
    };
    assert_eq!((returned, result), ([7, 0, 0, 21], [0]));
}

#[test]
fn list_no_positions() {
    for listing in [mittenschist_nearby_cuts, mittenschist_every_nearby_cuts] {
        let (mut sets, mut result) = ([9; 2], [9; 2]);
        // SAFETY: as said above.
        let returned = unsafe {
            [
                listing(
                    0,
                    null(),
                    0,
                    2,
                    1,
                    4,
                    sets.as_mut_ptr(),
                    2,
                    result.as_mut_ptr(),
                    2,
                ),
                listing(0, null(), 0, 2, 1, 4, null_mut(), 0, null_mut(), 0),
            ]
        };
        assert_eq!((returned, sets, result), ([0, 21], [9, 9], [0, 0]));
    }
}

#[test]
fn parts_of_nothing() {
    // SAFETY: as said above.
    let returned = unsafe {
        [
            mittenschist_reconnection_at(2, 0, null_mut(), 0),
            mittenschist_next_cut_set(2, 0, null_mut(), 0, null_mut(), 0),
            mittenschist_reconnect(2, 0, null(), 0, null(), 0, null_mut(), 0),
            mittenschist_route_length(1, null(), 0, 0, null(), 0, null_mut(), 0),
            mittenschist_delta(2, 0, null(), 0, 1, null(), 0, 0, null(), 0, null_mut(), 0),
            mittenschist_route_feasible(
                1,
                null(),
                0,
                null(),
                0,
                null(),
                0,
                0,
                null(),
                0,
                null_mut(),
                0,
            ),
        ]
    };
    assert_eq!(returned, [21, 7, 7, 2, 2, 2]);
}

#[test]
fn an_empty_route_has_a_length_and_no_late_stop() {
    let (legs, latest, service) = (LEGS.as_ptr(), LATEST.as_ptr(), SERVICE.as_ptr());
    let (mut length, mut late, mut change) = ([9], [9], [9]);
    // SAFETY: as said above.
    let returned = unsafe {
        [
            mittenschist_route_length(1, legs, 1, 0, null(), 0, length.as_mut_ptr(), 1),
            mittenschist_route_feasible(
                1,
                legs,
                1,
                latest,
                1,
                service,
                1,
                0,
                null(),
                0,
                late.as_mut_ptr(),
                1,
            ),
            mittenschist_delta(
                2,
                0,
                null(),
                0,
                1,
                legs,
                1,
                0,
                null(),
                0,
                change.as_mut_ptr(),
                1,
            ),
        ]
    };
    assert_eq!((returned, length, late, change), ([0, 0, 7], [7], [0], [9]));
}

/// No move turns nothing into nothing; a place too few, and one stop beside none.
#[test]
fn the_first_move_of_nothing() {
    let mut result = [9; 4];
    // SAFETY: as said above.
    let mut find = |wanted: &[u32], lent| unsafe {
        let first = if wanted.is_empty() {
            null()
        } else {
            wanted.as_ptr()
        };
        mittenschist_find_move(2, null(), 0, first, wanted.len(), result.as_mut_ptr(), lent)
    };
    let returned = [find(&[7], 4), find(&[], 3), find(&[], 4)];
    assert_eq!((returned, result), ([25, 21, 0], [0, 9, 9, 9]));
}

/// Empty lists keep everything and are equally long; with no tables there is neither.
#[test]
fn which_of_nothing() {
    // SAFETY: as said above.
    let which = |locations| unsafe {
        let none = null();
        mittenschist_which_of_two(
            locations,
            LEGS.as_ptr(),
            1,
            LATEST.as_ptr(),
            1,
            SERVICE.as_ptr(),
            1,
            0,
            0,
            none,
            0,
            none,
            0,
            none,
            0,
        )
    };
    assert_eq!([which(1), which(2), which(0)], [1, 0, 0]);
}

/// No cuts, and then no room.
#[test]
fn the_way_back_of_nothing() {
    // SAFETY: as said above.
    let returned = unsafe {
        let cuts = [0, 1];
        [
            mittenschist_way_back(2, 0, 0, null(), 0, null_mut(), 0),
            mittenschist_way_back(2, 0, 1, cuts.as_ptr(), 2, null_mut(), 0),
        ]
    };
    assert_eq!(returned, [7, 21]);
}

/// No text, no rows and no room.
#[test]
fn lists_of_nothing() {
    // SAFETY: as said above.
    let loaded = unsafe {
        mittenschist_load_patterns(null(), 0, null_mut(), 0, null_mut(), 0, null_mut(), 0)
    };
    // SAFETY: as said above.
    let polish = |k| unsafe {
        let (rows, read, write) = (null(), null(), null_mut());
        mittenschist_polish_with_patterns(
            k,
            rows,
            0,
            rows,
            0,
            1,
            1,
            read,
            0,
            read,
            0,
            read,
            0,
            0,
            0,
            write,
            0,
            null_mut(),
            0,
        )
    };
    assert_eq!((loaded, polish(1), polish(2)), (10, 1, 26));
}

/// No pairs are none, with a null pointer too; one that is wrong is refused behind an end that is no location.
#[test]
fn pairs_that_are_none() {
    let legs = [0, 5, 7, 0];
    let (latest, service) = ([0; 2], [0; 2]);
    let mut result = [9; 6];
    // SAFETY: as said above.
    let mut polish = |end, pairs: &[u32]| unsafe {
        mittenschist_polish_route_with_pairs(
            2,
            1,
            2,
            legs.as_ptr(),
            4,
            latest.as_ptr(),
            2,
            service.as_ptr(),
            2,
            0,
            end,
            if pairs.is_empty() {
                null()
            } else {
                pairs.as_ptr()
            },
            pairs.len(),
            null_mut(),
            0,
            result.as_mut_ptr(),
            6,
        )
    };
    let returned = [polish(2, &[0]), polish(1, &[0]), polish(1, &[])];
    assert_eq!((returned, result), ([24, 29, 0], [0, 0, 0, 5, 5, 0]));
}

#[test]
fn lists_and_rounds_of_nothing_with_no_pairs() {
    let (legs, latest, service) = (LEGS.as_ptr(), LATEST.as_ptr(), SERVICE.as_ptr());
    // SAFETY: as said above.
    let returned = unsafe {
        [
            mittenschist_polish_with_patterns_and_pairs(
                2,
                null(),
                0,
                null(),
                0,
                1,
                1,
                legs,
                1,
                latest,
                1,
                service,
                1,
                0,
                0,
                null(),
                0,
                null_mut(),
                0,
                null_mut(),
                0,
            ),
            mittenschist_run_list_k_opt_with_pairs(
                2,
                1,
                1,
                legs,
                1,
                latest,
                1,
                service,
                1,
                null_mut(),
                0,
                null(),
                0,
                null(),
                0,
                null(),
                0,
                null(),
                0,
                null(),
                0,
                null_mut(),
                0,
            ),
            mittenschist_run_in_shares(
                2,
                1,
                1,
                legs,
                1,
                latest,
                1,
                service,
                1,
                null_mut(),
                0,
                null(),
                0,
                null(),
                0,
                null(),
                0,
                null(),
                0,
                null(),
                0,
                null_mut(),
                0,
            ),
        ]
    };
    assert_eq!(returned, [26, 0, 0]);
}

#[test]
fn texts_of_nothing() {
    let (legs, latest, service) = (LEGS.as_ptr(), LATEST.as_ptr(), SERVICE.as_ptr());
    let mut size = [0];
    // SAFETY: as said above.
    let returned = unsafe {
        [
            mittenschist_read_problem(
                null(),
                0,
                null_mut(),
                0,
                null_mut(),
                0,
                null_mut(),
                0,
                null_mut(),
                0,
                null_mut(),
                0,
            ),
            mittenschist_write_problem(
                2,
                1,
                1,
                legs,
                1,
                latest,
                1,
                service,
                1,
                0,
                0,
                null(),
                0,
                null_mut(),
                0,
                size.as_mut_ptr(),
                1,
            ),
        ]
    };
    assert_eq!((returned, size), ([10, 21], [0]));
}
