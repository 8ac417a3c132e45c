//! The C functions as they are, on slices: each returns 0 or the refusal number, and writes the rest to what is lent. The only unsafe code.

// In every wrapper each pointer comes with the length of the slice it is taken from, and the borrows keep what is written apart
// from everything else that is lent. The library takes any contents and keeps no pointer.

extern "C" {
    fn mittenschist_polish_route(
        k: usize,
        allowance: u64,
        locations: usize,
        legs: *const u32,
        legs_len: usize,
        latest: *const u32,
        latest_len: usize,
        service: *const u32,
        service_len: usize,
        depot: u32,
        route: *mut u32,
        route_len: usize,
        result: *mut u64,
        result_len: usize,
    ) -> u32;
    fn mittenschist_polish_route_to_end(
        k: usize,
        allowance: u64,
        locations: usize,
        legs: *const u32,
        legs_len: usize,
        latest: *const u32,
        latest_len: usize,
        service: *const u32,
        service_len: usize,
        depot: u32,
        end: u32,
        route: *mut u32,
        route_len: usize,
        result: *mut u64,
        result_len: usize,
    ) -> u32;
    fn mittenschist_polish_route_with_pairs(
        k: usize,
        allowance: u64,
        locations: usize,
        legs: *const u32,
        legs_len: usize,
        latest: *const u32,
        latest_len: usize,
        service: *const u32,
        service_len: usize,
        depot: u32,
        end: u32,
        pairs: *const u32,
        pairs_len: usize,
        route: *mut u32,
        route_len: usize,
        result: *mut u64,
        result_len: usize,
    ) -> u32;
    fn mittenschist_polish_slice(
        k: usize,
        allowance: u64,
        locations: usize,
        legs: *const u32,
        legs_len: usize,
        latest: *const u32,
        latest_len: usize,
        service: *const u32,
        service_len: usize,
        depot: u32,
        end: u32,
        pairs: *const u32,
        pairs_len: usize,
        route: *mut u32,
        route_len: usize,
        place: *mut u64,
        place_len: usize,
        result: *mut u64,
        result_len: usize,
    ) -> u32;
    fn mittenschist_write_problem(
        k: usize,
        allowance: u64,
        locations: usize,
        legs: *const u32,
        legs_len: usize,
        latest: *const u32,
        latest_len: usize,
        service: *const u32,
        service_len: usize,
        depot: u32,
        end: u32,
        route: *const u32,
        route_len: usize,
        text: *mut u8,
        text_len: usize,
        result: *mut u64,
        result_len: usize,
    ) -> u32;
    fn mittenschist_read_problem(
        text: *const u8,
        text_len: usize,
        legs: *mut u32,
        legs_len: usize,
        latest: *mut u32,
        latest_len: usize,
        service: *mut u32,
        service_len: usize,
        route: *mut u32,
        route_len: usize,
        result: *mut u64,
        result_len: usize,
    ) -> u32;
    fn mittenschist_which_of_two(
        locations: usize,
        legs: *const u32,
        legs_len: usize,
        latest: *const u32,
        latest_len: usize,
        service: *const u32,
        service_len: usize,
        depot: u32,
        end: u32,
        pairs: *const u32,
        pairs_len: usize,
        first: *const u32,
        first_len: usize,
        second: *const u32,
        second_len: usize,
    ) -> u32;
    fn mittenschist_load_patterns(
        text: *const u8,
        text_len: usize,
        orders: *mut u8,
        orders_len: usize,
        masks: *mut u8,
        masks_len: usize,
        result: *mut u64,
        result_len: usize,
    ) -> u32;
    fn mittenschist_polish_with_patterns(
        k: usize,
        orders: *const u8,
        orders_len: usize,
        masks: *const u8,
        masks_len: usize,
        allowance: u64,
        locations: usize,
        legs: *const u32,
        legs_len: usize,
        latest: *const u32,
        latest_len: usize,
        service: *const u32,
        service_len: usize,
        depot: u32,
        end: u32,
        route: *mut u32,
        route_len: usize,
        result: *mut u64,
        result_len: usize,
    ) -> u32;
    fn mittenschist_polish_with_patterns_and_pairs(
        k: usize,
        orders: *const u8,
        orders_len: usize,
        masks: *const u8,
        masks_len: usize,
        allowance: u64,
        locations: usize,
        legs: *const u32,
        legs_len: usize,
        latest: *const u32,
        latest_len: usize,
        service: *const u32,
        service_len: usize,
        depot: u32,
        end: u32,
        pairs: *const u32,
        pairs_len: usize,
        route: *mut u32,
        route_len: usize,
        result: *mut u64,
        result_len: usize,
    ) -> u32;
    fn mittenschist_pair_loop(
        allowance: u64,
        locations: usize,
        legs: *const u32,
        legs_len: usize,
        latest: *const u32,
        latest_len: usize,
        service: *const u32,
        service_len: usize,
        depot: u32,
        route: *mut u32,
        route_len: usize,
        result: *mut u64,
        result_len: usize,
    ) -> u32;
    fn mittenschist_run_list_k_opt(
        k: usize,
        allowance: u64,
        locations: usize,
        legs: *const u32,
        legs_len: usize,
        latest: *const u32,
        latest_len: usize,
        service: *const u32,
        service_len: usize,
        stops: *mut u32,
        stops_len: usize,
        lengths: *const usize,
        lengths_len: usize,
        depots: *const u32,
        depots_len: usize,
        pins: *const u8,
        pins_len: usize,
        result: *mut u64,
        result_len: usize,
    ) -> u32;
    fn mittenschist_run_list_k_opt_to_ends(
        k: usize,
        allowance: u64,
        locations: usize,
        legs: *const u32,
        legs_len: usize,
        latest: *const u32,
        latest_len: usize,
        service: *const u32,
        service_len: usize,
        stops: *mut u32,
        stops_len: usize,
        lengths: *const usize,
        lengths_len: usize,
        depots: *const u32,
        depots_len: usize,
        ends: *const u32,
        ends_len: usize,
        pins: *const u8,
        pins_len: usize,
        result: *mut u64,
        result_len: usize,
    ) -> u32;
    fn mittenschist_run_list_k_opt_with_pairs(
        k: usize,
        allowance: u64,
        locations: usize,
        legs: *const u32,
        legs_len: usize,
        latest: *const u32,
        latest_len: usize,
        service: *const u32,
        service_len: usize,
        stops: *mut u32,
        stops_len: usize,
        lengths: *const usize,
        lengths_len: usize,
        depots: *const u32,
        depots_len: usize,
        ends: *const u32,
        ends_len: usize,
        pins: *const u8,
        pins_len: usize,
        pairs: *const u32,
        pairs_len: usize,
        result: *mut u64,
        result_len: usize,
    ) -> u32;
    fn mittenschist_run_in_shares(
        k: usize,
        allowance: u64,
        locations: usize,
        legs: *const u32,
        legs_len: usize,
        latest: *const u32,
        latest_len: usize,
        service: *const u32,
        service_len: usize,
        stops: *mut u32,
        stops_len: usize,
        lengths: *const usize,
        lengths_len: usize,
        depots: *const u32,
        depots_len: usize,
        ends: *const u32,
        ends_len: usize,
        pins: *const u8,
        pins_len: usize,
        pairs: *const u32,
        pairs_len: usize,
        result: *mut u64,
        result_len: usize,
    ) -> u32;
    fn mittenschist_find_move(
        k: usize,
        old: *const u32,
        old_len: usize,
        wanted: *const u32,
        wanted_len: usize,
        result: *mut u64,
        result_len: usize,
    ) -> u32;
    fn mittenschist_way_back(
        k: usize,
        pattern: usize,
        n: usize,
        cuts: *const usize,
        cuts_len: usize,
        result: *mut u64,
        result_len: usize,
    ) -> u32;
    fn mittenschist_nearby_cuts(
        n: usize,
        distances: *const f64,
        distances_len: usize,
        k: usize,
        min_segment_len: usize,
        max_nearby: usize,
        sets: *mut usize,
        sets_len: usize,
        result: *mut u64,
        result_len: usize,
    ) -> u32;
    fn mittenschist_every_nearby_cuts(
        n: usize,
        distances: *const f64,
        distances_len: usize,
        k: usize,
        min_segment_len: usize,
        max_nearby: usize,
        sets: *mut usize,
        sets_len: usize,
        result: *mut u64,
        result_len: usize,
    ) -> u32;
    fn mittenschist_k_opt_do_move(
        k: usize,
        pattern: usize,
        round: usize,
        cut_rounds: *const usize,
        cut_rounds_len: usize,
        cut_positions: *const usize,
        cut_positions_len: usize,
        route: *mut u32,
        route_len: usize,
        journal: *mut u32,
        journal_len: usize,
    ) -> u32;
    fn mittenschist_k_opt_undo_move(
        route: *mut u32,
        route_len: usize,
        journal: *const u32,
        journal_len: usize,
    ) -> u32;
    fn mittenschist_k_opt_is_doable(
        k: usize,
        pattern: usize,
        round: usize,
        n: usize,
        cut_rounds: *const usize,
        cut_rounds_len: usize,
        cut_positions: *const usize,
        cut_positions_len: usize,
        result: *mut u64,
        result_len: usize,
    ) -> u32;
    fn mittenschist_reconnection_at(
        k: usize,
        pattern: usize,
        result: *mut u64,
        result_len: usize,
    ) -> u32;
    fn mittenschist_next_cut_set(
        k: usize,
        n: usize,
        cuts: *mut usize,
        cuts_len: usize,
        result: *mut u64,
        result_len: usize,
    ) -> u32;
    fn mittenschist_reconnect(
        k: usize,
        pattern: usize,
        cuts: *const usize,
        cuts_len: usize,
        route: *const u32,
        route_len: usize,
        out: *mut u32,
        out_len: usize,
    ) -> u32;
    fn mittenschist_route_length(
        locations: usize,
        legs: *const u32,
        legs_len: usize,
        depot: u32,
        route: *const u32,
        route_len: usize,
        result: *mut u64,
        result_len: usize,
    ) -> u32;
    fn mittenschist_route_length_to_end(
        locations: usize,
        legs: *const u32,
        legs_len: usize,
        depot: u32,
        end: u32,
        route: *const u32,
        route_len: usize,
        result: *mut u64,
        result_len: usize,
    ) -> u32;
    fn mittenschist_delta(
        k: usize,
        pattern: usize,
        cuts: *const usize,
        cuts_len: usize,
        locations: usize,
        legs: *const u32,
        legs_len: usize,
        depot: u32,
        route: *const u32,
        route_len: usize,
        result: *mut i64,
        result_len: usize,
    ) -> u32;
    fn mittenschist_delta_to_end(
        k: usize,
        pattern: usize,
        cuts: *const usize,
        cuts_len: usize,
        locations: usize,
        legs: *const u32,
        legs_len: usize,
        depot: u32,
        end: u32,
        route: *const u32,
        route_len: usize,
        result: *mut i64,
        result_len: usize,
    ) -> u32;
    fn mittenschist_route_feasible(
        locations: usize,
        legs: *const u32,
        legs_len: usize,
        latest: *const u32,
        latest_len: usize,
        service: *const u32,
        service_len: usize,
        depot: u32,
        route: *const u32,
        route_len: usize,
        result: *mut u64,
        result_len: usize,
    ) -> u32;
}

/// Polishes `route`. The result begins with 0 finished or 1 spent, candidates examined, candidates accepted, length before, length
/// after, and the lowest late position of the route handed back, or the number of its stops if none is late.
#[must_use]
#[allow(clippy::too_many_arguments)]
pub fn polish_route(
    k: usize,
    allowance: u64,
    locations: usize,
    legs: &[u32],
    latest: &[u32],
    service: &[u32],
    depot: u32,
    route: &mut [u32],
    result: &mut [u64],
) -> u32 {
    // SAFETY: as said above.
    unsafe {
        mittenschist_polish_route(
            k,
            allowance,
            locations,
            legs.as_ptr(),
            legs.len(),
            latest.as_ptr(),
            latest.len(),
            service.as_ptr(),
            service.len(),
            depot,
            route.as_mut_ptr(),
            route.len(),
            result.as_mut_ptr(),
            result.len(),
        )
    }
}

/// Polishes `route`, which ends in the harbour `end`. The result is as above.
#[must_use]
#[allow(clippy::too_many_arguments)]
pub fn polish_route_to_end(
    k: usize,
    allowance: u64,
    locations: usize,
    legs: &[u32],
    latest: &[u32],
    service: &[u32],
    depot: u32,
    end: u32,
    route: &mut [u32],
    result: &mut [u64],
) -> u32 {
    // SAFETY: as said above.
    unsafe {
        mittenschist_polish_route_to_end(
            k,
            allowance,
            locations,
            legs.as_ptr(),
            legs.len(),
            latest.as_ptr(),
            latest.len(),
            service.as_ptr(),
            service.len(),
            depot,
            end,
            route.as_mut_ptr(),
            route.len(),
            result.as_mut_ptr(),
            result.len(),
        )
    }
}

/// As [`polish_route_to_end`], with pairs that are kept: their members end to end.
#[must_use]
#[allow(clippy::too_many_arguments)]
pub fn polish_route_with_pairs(
    k: usize,
    allowance: u64,
    locations: usize,
    legs: &[u32],
    latest: &[u32],
    service: &[u32],
    depot: u32,
    end: u32,
    pairs: &[u32],
    route: &mut [u32],
    result: &mut [u64],
) -> u32 {
    // SAFETY: as said above.
    unsafe {
        mittenschist_polish_route_with_pairs(
            k,
            allowance,
            locations,
            legs.as_ptr(),
            legs.len(),
            latest.as_ptr(),
            latest.len(),
            service.as_ptr(),
            service.len(),
            depot,
            end,
            pairs.as_ptr(),
            pairs.len(),
            route.as_mut_ptr(),
            route.len(),
            result.as_mut_ptr(),
            result.len(),
        )
    }
}

/// As [`polish_route_with_pairs`], from a place on: k cuts and the index of a pattern, read and written.
#[must_use]
#[allow(clippy::too_many_arguments)]
pub fn polish_slice(
    k: usize,
    allowance: u64,
    locations: usize,
    legs: &[u32],
    latest: &[u32],
    service: &[u32],
    depot: u32,
    end: u32,
    pairs: &[u32],
    route: &mut [u32],
    place: &mut [u64],
    result: &mut [u64],
) -> u32 {
    // SAFETY: as said above.
    unsafe {
        mittenschist_polish_slice(
            k,
            allowance,
            locations,
            legs.as_ptr(),
            legs.len(),
            latest.as_ptr(),
            latest.len(),
            service.as_ptr(),
            service.len(),
            depot,
            end,
            pairs.as_ptr(),
            pairs.len(),
            route.as_mut_ptr(),
            route.len(),
            place.as_mut_ptr(),
            place.len(),
            result.as_mut_ptr(),
            result.len(),
        )
    }
}

/// The text begins with the problem's lines; the result with their number of bytes.
#[must_use]
#[allow(clippy::too_many_arguments)]
pub fn write_problem(
    k: usize,
    allowance: u64,
    locations: usize,
    legs: &[u32],
    latest: &[u32],
    service: &[u32],
    depot: u32,
    end: u32,
    route: &[u32],
    text: &mut [u8],
    result: &mut [u64],
) -> u32 {
    // SAFETY: as said above.
    unsafe {
        mittenschist_write_problem(
            k,
            allowance,
            locations,
            legs.as_ptr(),
            legs.len(),
            latest.as_ptr(),
            latest.len(),
            service.as_ptr(),
            service.len(),
            depot,
            end,
            route.as_ptr(),
            route.len(),
            text.as_mut_ptr(),
            text.len(),
            result.as_mut_ptr(),
            result.len(),
        )
    }
}

/// The lists begin with the problem's; the result with k, allowance, locations, depot, end and the number of stops.
#[must_use]
pub fn read_problem(
    text: &[u8],
    legs: &mut [u32],
    latest: &mut [u32],
    service: &mut [u32],
    route: &mut [u32],
    result: &mut [u64],
) -> u32 {
    // SAFETY: as said above.
    unsafe {
        mittenschist_read_problem(
            text.as_ptr(),
            text.len(),
            legs.as_mut_ptr(),
            legs.len(),
            latest.as_mut_ptr(),
            latest.len(),
            service.as_mut_ptr(),
            service.len(),
            route.as_mut_ptr(),
            route.len(),
            result.as_mut_ptr(),
            result.len(),
        )
    }
}

/// 1 for the first list, 2 for the second, 0 for neither: no refusal number.
#[must_use]
#[allow(clippy::too_many_arguments)]
pub fn which_of_two(
    locations: usize,
    legs: &[u32],
    latest: &[u32],
    service: &[u32],
    depot: u32,
    end: u32,
    pairs: &[u32],
    first: &[u32],
    second: &[u32],
) -> u32 {
    // SAFETY: as said above.
    unsafe {
        mittenschist_which_of_two(
            locations,
            legs.as_ptr(),
            legs.len(),
            latest.as_ptr(),
            latest.len(),
            service.as_ptr(),
            service.len(),
            depot,
            end,
            pairs.as_ptr(),
            pairs.len(),
            first.as_ptr(),
            first.len(),
            second.as_ptr(),
            second.len(),
        )
    }
}

/// The orders and masks of the rows into the first places; the result begins with k and the number of rows.
#[must_use]
pub fn load_patterns(text: &[u8], orders: &mut [u8], masks: &mut [u8], result: &mut [u64]) -> u32 {
    // SAFETY: as said above.
    unsafe {
        mittenschist_load_patterns(
            text.as_ptr(),
            text.len(),
            orders.as_mut_ptr(),
            orders.len(),
            masks.as_mut_ptr(),
            masks.len(),
            result.as_mut_ptr(),
            result.len(),
        )
    }
}

/// As [`polish_route_to_end`], with the rows of a list.
#[allow(clippy::too_many_arguments)]
#[must_use]
pub fn polish_with_patterns(
    k: usize,
    orders: &[u8],
    masks: &[u8],
    allowance: u64,
    locations: usize,
    legs: &[u32],
    latest: &[u32],
    service: &[u32],
    depot: u32,
    end: u32,
    route: &mut [u32],
    result: &mut [u64],
) -> u32 {
    // SAFETY: as said above.
    unsafe {
        mittenschist_polish_with_patterns(
            k,
            orders.as_ptr(),
            orders.len(),
            masks.as_ptr(),
            masks.len(),
            allowance,
            locations,
            legs.as_ptr(),
            legs.len(),
            latest.as_ptr(),
            latest.len(),
            service.as_ptr(),
            service.len(),
            depot,
            end,
            route.as_mut_ptr(),
            route.len(),
            result.as_mut_ptr(),
            result.len(),
        )
    }
}

/// As [`polish_with_patterns`], with pairs that are kept.
#[allow(clippy::too_many_arguments)]
#[must_use]
pub fn polish_with_patterns_and_pairs(
    k: usize,
    orders: &[u8],
    masks: &[u8],
    allowance: u64,
    locations: usize,
    legs: &[u32],
    latest: &[u32],
    service: &[u32],
    depot: u32,
    end: u32,
    pairs: &[u32],
    route: &mut [u32],
    result: &mut [u64],
) -> u32 {
    // SAFETY: as said above.
    unsafe {
        mittenschist_polish_with_patterns_and_pairs(
            k,
            orders.as_ptr(),
            orders.len(),
            masks.as_ptr(),
            masks.len(),
            allowance,
            locations,
            legs.as_ptr(),
            legs.len(),
            latest.as_ptr(),
            latest.len(),
            service.as_ptr(),
            service.len(),
            depot,
            end,
            pairs.as_ptr(),
            pairs.len(),
            route.as_mut_ptr(),
            route.len(),
            result.as_mut_ptr(),
            result.len(),
        )
    }
}

/// The pair loop over `route`. The result begins with 0 finished or 1 spent, pairs examined, pairs accepted, length before, length
/// after, which may be above it, and the lowest late position of the route handed back, or the number of its stops if none is late.
#[must_use]
#[allow(clippy::too_many_arguments)]
pub fn pair_loop(
    allowance: u64,
    locations: usize,
    legs: &[u32],
    latest: &[u32],
    service: &[u32],
    depot: u32,
    route: &mut [u32],
    result: &mut [u64],
) -> u32 {
    // SAFETY: as said above.
    unsafe {
        mittenschist_pair_loop(
            allowance,
            locations,
            legs.as_ptr(),
            legs.len(),
            latest.as_ptr(),
            latest.len(),
            service.as_ptr(),
            service.len(),
            depot,
            route.as_mut_ptr(),
            route.len(),
            result.as_mut_ptr(),
            result.len(),
        )
    }
}

/// Polishes rounds whose stops lie end to end. The result begins with four numbers a round: state, examined, accepted, applied.
#[must_use]
#[allow(clippy::too_many_arguments)]
pub fn run_list_k_opt(
    k: usize,
    allowance: u64,
    locations: usize,
    legs: &[u32],
    latest: &[u32],
    service: &[u32],
    stops: &mut [u32],
    lengths: &[usize],
    depots: &[u32],
    pins: &[u8],
    result: &mut [u64],
) -> u32 {
    // SAFETY: as said above.
    unsafe {
        mittenschist_run_list_k_opt(
            k,
            allowance,
            locations,
            legs.as_ptr(),
            legs.len(),
            latest.as_ptr(),
            latest.len(),
            service.as_ptr(),
            service.len(),
            stops.as_mut_ptr(),
            stops.len(),
            lengths.as_ptr(),
            lengths.len(),
            depots.as_ptr(),
            depots.len(),
            pins.as_ptr(),
            pins.len(),
            result.as_mut_ptr(),
            result.len(),
        )
    }
}

/// Polishes rounds that end in other harbours. The result is as above.
#[must_use]
#[allow(clippy::too_many_arguments)]
pub fn run_list_k_opt_to_ends(
    k: usize,
    allowance: u64,
    locations: usize,
    legs: &[u32],
    latest: &[u32],
    service: &[u32],
    stops: &mut [u32],
    lengths: &[usize],
    depots: &[u32],
    ends: &[u32],
    pins: &[u8],
    result: &mut [u64],
) -> u32 {
    // SAFETY: as said above.
    unsafe {
        mittenschist_run_list_k_opt_to_ends(
            k,
            allowance,
            locations,
            legs.as_ptr(),
            legs.len(),
            latest.as_ptr(),
            latest.len(),
            service.as_ptr(),
            service.len(),
            stops.as_mut_ptr(),
            stops.len(),
            lengths.as_ptr(),
            lengths.len(),
            depots.as_ptr(),
            depots.len(),
            ends.as_ptr(),
            ends.len(),
            pins.as_ptr(),
            pins.len(),
            result.as_mut_ptr(),
            result.len(),
        )
    }
}

/// As [`run_list_k_opt_to_ends`], with pairs that every round keeps.
#[must_use]
#[allow(clippy::too_many_arguments)]
pub fn run_list_k_opt_with_pairs(
    k: usize,
    allowance: u64,
    locations: usize,
    legs: &[u32],
    latest: &[u32],
    service: &[u32],
    stops: &mut [u32],
    lengths: &[usize],
    depots: &[u32],
    ends: &[u32],
    pins: &[u8],
    pairs: &[u32],
    result: &mut [u64],
) -> u32 {
    // SAFETY: as said above.
    unsafe {
        mittenschist_run_list_k_opt_with_pairs(
            k,
            allowance,
            locations,
            legs.as_ptr(),
            legs.len(),
            latest.as_ptr(),
            latest.len(),
            service.as_ptr(),
            service.len(),
            stops.as_mut_ptr(),
            stops.len(),
            lengths.as_ptr(),
            lengths.len(),
            depots.as_ptr(),
            depots.len(),
            ends.as_ptr(),
            ends.len(),
            pins.as_ptr(),
            pins.len(),
            pairs.as_ptr(),
            pairs.len(),
            result.as_mut_ptr(),
            result.len(),
        )
    }
}

/// As [`run_list_k_opt_with_pairs`], with a share of the allowance for each round that is polished; none is in state 0.
#[must_use]
#[allow(clippy::too_many_arguments)]
pub fn run_in_shares(
    k: usize,
    allowance: u64,
    locations: usize,
    legs: &[u32],
    latest: &[u32],
    service: &[u32],
    stops: &mut [u32],
    lengths: &[usize],
    depots: &[u32],
    ends: &[u32],
    pins: &[u8],
    pairs: &[u32],
    result: &mut [u64],
) -> u32 {
    // SAFETY: as said above.
    unsafe {
        mittenschist_run_in_shares(
            k,
            allowance,
            locations,
            legs.as_ptr(),
            legs.len(),
            latest.as_ptr(),
            latest.len(),
            service.as_ptr(),
            service.len(),
            stops.as_mut_ptr(),
            stops.len(),
            lengths.as_ptr(),
            lengths.len(),
            depots.as_ptr(),
            depots.len(),
            ends.as_ptr(),
            ends.len(),
            pins.as_ptr(),
            pins.len(),
            pairs.as_ptr(),
            pairs.len(),
            result.as_mut_ptr(),
            result.len(),
        )
    }
}

/// The result begins with 1, the pattern's index and k cuts; or with 0, and the rest kept.
#[must_use]
pub fn find_move(k: usize, old: &[u32], wanted: &[u32], result: &mut [u64]) -> u32 {
    // SAFETY: as said above.
    unsafe {
        mittenschist_find_move(
            k,
            old.as_ptr(),
            old.len(),
            wanted.as_ptr(),
            wanted.len(),
            result.as_mut_ptr(),
            result.len(),
        )
    }
}

/// The result begins with the index of the pattern of the way back, then its k cuts.
#[must_use]
pub fn way_back(k: usize, pattern: usize, n: usize, cuts: &[usize], result: &mut [u64]) -> u32 {
    // SAFETY: as said above.
    unsafe {
        mittenschist_way_back(
            k,
            pattern,
            n,
            cuts.as_ptr(),
            cuts.len(),
            result.as_mut_ptr(),
            result.len(),
        )
    }
}

/// Lists cut sets by nearness. The result begins with the number of sets written and 0 ended or 1 more.
#[must_use]
pub fn nearby_cuts(
    n: usize,
    distances: &[f64],
    k: usize,
    min_segment_len: usize,
    max_nearby: usize,
    sets: &mut [usize],
    result: &mut [u64],
) -> u32 {
    // SAFETY: as said above.
    unsafe {
        mittenschist_nearby_cuts(
            n,
            distances.as_ptr(),
            distances.len(),
            k,
            min_segment_len,
            max_nearby,
            sets.as_mut_ptr(),
            sets.len(),
            result.as_mut_ptr(),
            result.len(),
        )
    }
}

/// Lists every nearby cut set. The result begins with the number of sets written and 0 ended or 1 more.
#[must_use]
pub fn every_nearby_cuts(
    n: usize,
    distances: &[f64],
    k: usize,
    min_segment_len: usize,
    max_nearby: usize,
    sets: &mut [usize],
    result: &mut [u64],
) -> u32 {
    // SAFETY: as said above.
    unsafe {
        mittenschist_every_nearby_cuts(
            n,
            distances.as_ptr(),
            distances.len(),
            k,
            min_segment_len,
            max_nearby,
            sets.as_mut_ptr(),
            sets.len(),
            result.as_mut_ptr(),
            result.len(),
        )
    }
}

/// Applies a move to `route` and puts the old stops into the journal.
#[must_use]
pub fn k_opt_do_move(
    k: usize,
    pattern: usize,
    round: usize,
    cut_rounds: &[usize],
    cut_positions: &[usize],
    route: &mut [u32],
    journal: &mut [u32],
) -> u32 {
    // SAFETY: as said above.
    unsafe {
        mittenschist_k_opt_do_move(
            k,
            pattern,
            round,
            cut_rounds.as_ptr(),
            cut_rounds.len(),
            cut_positions.as_ptr(),
            cut_positions.len(),
            route.as_mut_ptr(),
            route.len(),
            journal.as_mut_ptr(),
            journal.len(),
        )
    }
}

/// Puts the stops of the journal back.
#[must_use]
pub fn k_opt_undo_move(route: &mut [u32], journal: &[u32]) -> u32 {
    // SAFETY: as said above.
    unsafe {
        mittenschist_k_opt_undo_move(
            route.as_mut_ptr(),
            route.len(),
            journal.as_ptr(),
            journal.len(),
        )
    }
}

/// The result begins with 0 no or 1 yes.
#[must_use]
pub fn k_opt_is_doable(
    k: usize,
    pattern: usize,
    round: usize,
    n: usize,
    cut_rounds: &[usize],
    cut_positions: &[usize],
    result: &mut [u64],
) -> u32 {
    // SAFETY: as said above.
    unsafe {
        mittenschist_k_opt_is_doable(
            k,
            pattern,
            round,
            n,
            cut_rounds.as_ptr(),
            cut_rounds.len(),
            cut_positions.as_ptr(),
            cut_positions.len(),
            result.as_mut_ptr(),
            result.len(),
        )
    }
}

/// The result begins with k + 1 piece numbers and the mask.
#[must_use]
pub fn reconnection_at(k: usize, pattern: usize, result: &mut [u64]) -> u32 {
    // SAFETY: as said above.
    unsafe { mittenschist_reconnection_at(k, pattern, result.as_mut_ptr(), result.len()) }
}

/// The result begins with 1 moved, or 0 and the cuts kept.
#[must_use]
pub fn next_cut_set(k: usize, n: usize, cuts: &mut [usize], result: &mut [u64]) -> u32 {
    // SAFETY: as said above.
    unsafe {
        mittenschist_next_cut_set(
            k,
            n,
            cuts.as_mut_ptr(),
            cuts.len(),
            result.as_mut_ptr(),
            result.len(),
        )
    }
}

/// Writes the rejoined route to the first places of `out`.
#[must_use]
pub fn reconnect(k: usize, pattern: usize, cuts: &[usize], route: &[u32], out: &mut [u32]) -> u32 {
    // SAFETY: as said above.
    unsafe {
        mittenschist_reconnect(
            k,
            pattern,
            cuts.as_ptr(),
            cuts.len(),
            route.as_ptr(),
            route.len(),
            out.as_mut_ptr(),
            out.len(),
        )
    }
}

/// The result begins with the length.
#[must_use]
pub fn route_length(
    locations: usize,
    legs: &[u32],
    depot: u32,
    route: &[u32],
    result: &mut [u64],
) -> u32 {
    // SAFETY: as said above.
    unsafe {
        mittenschist_route_length(
            locations,
            legs.as_ptr(),
            legs.len(),
            depot,
            route.as_ptr(),
            route.len(),
            result.as_mut_ptr(),
            result.len(),
        )
    }
}

/// The result begins with the length from the depot to `end`.
#[must_use]
pub fn route_length_to_end(
    locations: usize,
    legs: &[u32],
    depot: u32,
    end: u32,
    route: &[u32],
    result: &mut [u64],
) -> u32 {
    // SAFETY: as said above.
    unsafe {
        mittenschist_route_length_to_end(
            locations,
            legs.as_ptr(),
            legs.len(),
            depot,
            end,
            route.as_ptr(),
            route.len(),
            result.as_mut_ptr(),
            result.len(),
        )
    }
}

/// The result begins with the length after minus the length before.
#[must_use]
#[allow(clippy::too_many_arguments)]
pub fn delta(
    k: usize,
    pattern: usize,
    cuts: &[usize],
    locations: usize,
    legs: &[u32],
    depot: u32,
    route: &[u32],
    result: &mut [i64],
) -> u32 {
    // SAFETY: as said above.
    unsafe {
        mittenschist_delta(
            k,
            pattern,
            cuts.as_ptr(),
            cuts.len(),
            locations,
            legs.as_ptr(),
            legs.len(),
            depot,
            route.as_ptr(),
            route.len(),
            result.as_mut_ptr(),
            result.len(),
        )
    }
}

/// The result begins with the length after minus the length before, to `end`.
#[must_use]
#[allow(clippy::too_many_arguments)]
pub fn delta_to_end(
    k: usize,
    pattern: usize,
    cuts: &[usize],
    locations: usize,
    legs: &[u32],
    depot: u32,
    end: u32,
    route: &[u32],
    result: &mut [i64],
) -> u32 {
    // SAFETY: as said above.
    unsafe {
        mittenschist_delta_to_end(
            k,
            pattern,
            cuts.as_ptr(),
            cuts.len(),
            locations,
            legs.as_ptr(),
            legs.len(),
            depot,
            end,
            route.as_ptr(),
            route.len(),
            result.as_mut_ptr(),
            result.len(),
        )
    }
}

/// The result begins with the lowest late position, or the number of stops if none is late.
#[must_use]
pub fn route_feasible(
    locations: usize,
    legs: &[u32],
    latest: &[u32],
    service: &[u32],
    depot: u32,
    route: &[u32],
    result: &mut [u64],
) -> u32 {
    // SAFETY: as said above.
    unsafe {
        mittenschist_route_feasible(
            locations,
            legs.as_ptr(),
            legs.len(),
            latest.as_ptr(),
            latest.len(),
            service.as_ptr(),
            service.len(),
            depot,
            route.as_ptr(),
            route.len(),
            result.as_mut_ptr(),
            result.len(),
        )
    }
}

#[cfg(test)]
mod tests;
