//! Every run of one small kind: two locations, a round of four stops between a pinned and a short one.

use crate::cases::run::Case;
use crate::draw::{lists, with_times};
use crate::random::Random;
use crate::tables::Tables;
use crate::trial::Visit;

/// Legs 0 or 1, each location due at 1 or never, every k, allowance 0, 1, 40 or plenty. With a second spent at one location or both, each is due at
/// 1, at 2 or never, and the allowance is 40 or plenty.
pub fn each(_random: &mut Random, visit: Visit) {
    for latest in lists(&[1, u32::MAX], 2) {
        each_route(&latest, &[0; 2], &[0, 1, 40, 5000], visit);
    }
    for service in [[0, 1], [1, 0], [1, 1]] {
        for latest in lists(&[1, 2, u32::MAX], 2) {
            each_route(&latest, &service, &[40, 5000], visit);
        }
    }
}

fn each_route(latest: &[u32], service: &[u32], allowances: &[u64], visit: Visit) {
    for legs in lists(&[0, 1], 4) {
        let tables = Tables::of_legs(2, legs);
        let tables = with_times(tables, latest.to_vec(), service.to_vec());
        for route in lists(&[0, 1], 4) {
            each_call(&tables, &route, allowances, visit);
        }
    }
}

fn each_call(tables: &Tables, route: &[u32], allowances: &[u64], visit: Visit) {
    let others = [(0, vec![1, 0, 1, 0]), (1, vec![0, 1])];
    for k in 2..=5 {
        for &allowance in allowances {
            let rounds = [
                others[0].clone(),
                (0, route.to_vec()),
                others[1].clone(),
                (1, route.to_vec()),
            ];
            let mut case = Case::of_rounds(k, tables.clone(), &rounds);
            case.allowance = allowance;
            case.pins[0] = 1;
            visit(Box::new(case));
        }
    }
}
