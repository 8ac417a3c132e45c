use crate::one_route::{Asked, PLACES};
use crate::pools;
use crate::support::lent::Lent;
use crate::support::rules::{first_refusal, too_many_stops};
use crate::support::{kept, number, on_small_stack};
use mittenschist::{raw, Ending};

struct Case<'c>(Asked<'c>);

impl Case<'_> {
    fn refusal(&self, room: usize) -> u32 {
        let Asked { tables, route, .. } = self.0;
        first_refusal(&[
            (2, tables.bad_size()),
            (3, tables.bad_leg()),
            (23, tables.bad_service()),
            (4, tables.unknown(&[self.0.depot], route)),
            (5, too_many_stops(route.len())),
            (21, room < PLACES),
        ])
    }

    /// Nothing is said of the lengths: the route can grow.
    fn check(&self) {
        let asked = &self.0;
        asked.call(self.refusal(asked.room), |lent| {
            raw::pair_loop(
                asked.allowance,
                asked.tables.locations,
                lent.legs,
                lent.latest,
                lent.service,
                asked.depot,
                lent.route,
                lent.result,
            )
        });
    }

    fn check_safe(&self) {
        let mut route = Lent::new("route", self.0.route);
        let (tables, depot) = (self.0.tables.lent(), self.0.depot);
        let answer = mittenschist::pair_loop(self.0.allowance, &tables, depot, route.slice());
        assert_eq!(number(answer), self.refusal(PLACES));
        match answer {
            Ok(paired) => {
                assert!(paired.ending == Ending::Finished || paired.examined == self.0.allowance);
                assert!(paired.accepted > 0 || paired.saved() == 0);
                let late = self.0.tables.late_position(depot, route.slice());
                assert_eq!(paired.late.unwrap_or(self.0.route.len()) as u64, late);
            }
            Err(_) => kept(&route),
        }
    }
}

fn every_call() {
    for tables in &pools::tables() {
        for route in &pools::routes() {
            for depot in pools::PLACES {
                for (allowance, room) in [(9, 0), (0, 5), (0, 6), (1, 6), (900, 8)] {
                    let case = Case(Asked {
                        allowance,
                        tables,
                        depot,
                        route,
                        room,
                    });
                    case.check();
                    case.check_safe();
                }
            }
        }
    }
}

#[test]
fn numbers_in_order() {
    every_call();
}

#[test]
fn on_128_kib() {
    on_small_stack(every_call);
}
