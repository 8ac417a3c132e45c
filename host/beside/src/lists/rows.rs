//! Patterns as a caller lends them.

use crate::ends::plain::Pattern;
use crate::oracle::moves::reconnection_at;
use crate::random::Random;
use crate::rules::{bad_row, bad_rows, pattern_count, MOST_ROWS};
use crate::tables::listed;

#[derive(Clone, Debug, PartialEq)]
pub struct Rows {
    pub orders: Vec<u8>,
    pub masks: Vec<u8>,
}

impl Rows {
    /// The patterns with these indices, by the Rust.
    pub fn of(k: usize, indices: impl Iterator<Item = usize>) -> Self {
        let mut rows = Self {
            orders: Vec::new(),
            masks: Vec::new(),
        };
        for index in indices {
            let numbers = reconnection_at(k, index)
                .into_iter()
                .map(|number| number as u8);
            rows.orders.extend(numbers.clone().take(k + 1));
            rows.masks.extend(numbers.skip(k + 1));
        }
        rows
    }

    pub fn whole(k: usize) -> Self {
        Self::of(k, 0..pattern_count(k))
    }

    /// A few in any order, one, those of one order, or all but in another order.
    pub fn some(random: &mut Random, k: usize) -> Self {
        let count = pattern_count(k);
        let mut indices: Vec<usize> = (0..count).collect();
        let turns = 1 << (k - 1);
        let first = random.index(count);
        match random.below(4) {
            0 => indices = vec![first],
            1 => indices.retain(|index| (index + 1) / turns == (first + 1) / turns),
            2 => random.shuffle(&mut indices),
            _ => {
                random.shuffle(&mut indices);
                indices.truncate(1 + random.index(7));
            }
        }
        Self::of(k, indices.into_iter())
    }

    pub fn set(&mut self, k: usize, row: usize, order: &[u8], mask: u8) {
        self.orders[row * (k + 1)..(row + 1) * (k + 1)].copy_from_slice(order);
        self.masks[row] = mask;
    }

    /// Each order with its mask; of a list whose orders fit its masks.
    pub fn each(&self, k: usize) -> Vec<(&[u8], u64)> {
        let masks = self.masks.iter().map(|&mask| u64::from(mask));
        self.orders.chunks(k + 1).zip(masks).collect()
    }

    /// 26.
    pub fn bad_count(&self, k: usize) -> bool {
        !(1..=MOST_ROWS).contains(&self.masks.len())
            || Some(self.orders.len())
                != k.checked_add(1)
                    .and_then(|row| row.checked_mul(self.masks.len()))
    }

    /// 26, 27 and 28, of which the later are asked where the earlier do not apply.
    pub fn rules(&self, k: usize) -> [(u32, bool); 3] {
        let count = self.bad_count(k);
        let rows = if count { Vec::new() } else { self.each(k) };
        let shape = rows.iter().any(|&(order, mask)| bad_row(k, order, mask));
        [(26, count), (27, shape), (28, !shape && bad_rows(&rows))]
    }

    /// As the scan of the documents takes them.
    pub fn patterns(&self, k: usize) -> Vec<Pattern> {
        let pattern = |(order, mask): (&[u8], u64)| {
            let middle: Vec<usize> = order[1..k]
                .iter()
                .map(|&segment| segment as usize)
                .collect();
            let reversed = middle.iter().map(|segment| (mask >> segment) & 1 == 1);
            (middle.clone(), reversed.collect())
        };
        self.each(k).into_iter().map(pattern).collect()
    }

    pub fn told(&self) -> String {
        format!(
            "orders={}\nmasks={}\n",
            listed(&self.orders),
            listed(&self.masks)
        )
    }
}
