//! Texts of lists: what they hold, by a reader written from document 02, and what the library makes of them.

use super::rows::Rows;
use crate::ffi;
use crate::lent::{bits, filled, Lent};
use crate::random::Random;
use crate::rules::{bad_k, bad_row, bad_rows, first_refusal, pattern_count, MOST_BYTES, MOST_ROWS};
use crate::text::damage::damaged_text;
use crate::text::reader::{number, value};
use crate::trial::{put, Drawn, Reply, Trial, Visit};
use std::fmt::{Display, Formatter, Result as Written};

/// A list as a text tells it: an order of any length, and a mask that need not be a byte.
struct Told {
    k: usize,
    announced: usize,
    rows: Vec<(Vec<u8>, u64)>,
}

/// None where a text is not of the form.
fn read(text: &[u8]) -> Option<Told> {
    if text.len() > MOST_BYTES {
        return None;
    }
    let text = std::str::from_utf8(text).ok()?;
    let mut lines = text.strip_suffix('\n')?.split('\n');
    let k = number(value(lines.next(), "k")?)? as usize;
    let announced = number(value(lines.next(), "patterns")?)? as usize;
    let rows = lines.map(row).collect::<Option<_>>()?;
    Some(Told { k, announced, rows })
}

fn row(line: &str) -> Option<(Vec<u8>, u64)> {
    let (order, mask) = value(Some(line), "pattern")?.split_once(',')?;
    let digits = order.bytes().all(|byte| byte.is_ascii_digit());
    let order = order.bytes().map(|byte| byte.wrapping_sub(b'0')).collect();
    digits.then_some((order, u64::from(number(mask)?)))
}

struct Text {
    text: Vec<u8>,
    orders: usize,
    masks: usize,
    room: usize,
}

impl Text {
    /// With room for every list.
    fn new(text: impl Into<Vec<u8>>) -> Self {
        Self {
            text: text.into(),
            orders: 2298,
            masks: MOST_ROWS,
            room: 2,
        }
    }

    fn refusal(&self, told: &Told) -> u32 {
        let Told {
            k,
            announced,
            ref rows,
        } = *told;
        let lent: Vec<(&[u8], u64)> = rows
            .iter()
            .map(|(order, mask)| (&order[..], *mask))
            .collect();
        let count = rows.len() != announced || !(1..=MOST_ROWS).contains(&rows.len());
        let shape = !bad_k(k) && lent.iter().any(|&(order, mask)| bad_row(k, order, mask));
        let short = self.orders < rows.len() * k.saturating_add(1)
            || self.masks < rows.len()
            || self.room < 2;
        first_refusal(&[
            (1, bad_k(k)),
            (26, count),
            (27, shape),
            (28, !bad_k(k) && !shape && bad_rows(&lent)),
            (21, short),
        ])
    }
}

impl Trial for Text {
    fn expected(&self) -> Reply {
        let told = read(&self.text);
        let code = told.as_ref().map_or(10, |told| self.refusal(told));
        let (mut orders, mut masks) = (vec![0xee; self.orders], vec![0xee; self.masks]);
        let mut result = filled(self.room);
        if let Some(told) = told.filter(|_| code == 0) {
            put(&mut result, &[told.k as u64, told.rows.len() as u64]);
            for (place, (order, mask)) in told.rows.iter().enumerate() {
                orders[place * (told.k + 1)..][..=told.k].copy_from_slice(order);
                masks[place] = *mask as u8;
            }
        }
        let lent = [
            ("orders", bits(&orders)),
            ("masks", bits(&masks)),
            ("result", result),
        ];
        Reply::new(code, lent)
    }

    fn given(&self) -> Result<Reply, String> {
        let (no_orders, no_masks) = (vec![0xee; self.orders], vec![0xee; self.masks]);
        let room = filled(self.room);
        let mut text = Lent::new("text", &self.text);
        let mut orders = Lent::new("orders", &no_orders);
        let mut masks = Lent::new("masks", &no_masks);
        let mut result = Lent::new("result", &room);
        let code = ffi::load_patterns(text.slice(), orders.slice(), masks.slice(), result.slice());
        text.kept()?;
        let lent = [orders.written()?, masks.written()?, result.written()?];
        Ok(Reply::new(code, lent))
    }
}

impl Display for Text {
    fn fmt(&self, out: &mut Formatter<'_>) -> Written {
        let (orders, masks, room) = (self.orders, self.masks, self.room);
        writeln!(
            out,
            "orders: {orders} bytes, masks: {masks} bytes, result: {room} places"
        )?;
        writeln!(out, "{}", String::from_utf8_lossy(&self.text))
    }
}

/// The text of a list.
fn written(k: usize, announced: usize, rows: &Rows) -> Vec<u8> {
    let mut text = format!("k={k}\npatterns={announced}\n");
    for (order, mask) in rows.each(k) {
        let digits: String = order.iter().map(u8::to_string).collect();
        text += &format!("pattern={digits},{mask}\n");
    }
    text.into_bytes()
}

fn some(random: &mut Random) -> Text {
    let k = random.within(2, 5);
    let rows = match random.below(8) {
        0 => Rows::whole(k),
        _ => Rows::some(random, k),
    };
    let count = rows.masks.len();
    let mut text = Text::new(written(k, count, &rows));
    text.orders = rows.orders.len() + random.pick([0, 0, 1, 60]);
    text.masks = count + random.pick([0, 0, 1, 60]);
    text.room = random.pick([2, 2, 3]);
    text
}

/// Texts of good lists, and now and then a place too few.
pub fn draw(random: &mut Random, _index: u64) -> Drawn {
    let mut text = some(random);
    match random.below(16) {
        0 => text.orders = random.index(text.orders + 1),
        1 => text.masks = random.index(text.masks + 1),
        2 => text.room = random.index(3),
        _ => {}
    }
    (Box::new(text), None)
}

pub fn draw_damaged(random: &mut Random, index: u64) -> Drawn {
    let mut text = some(random);
    text.text = damaged_text(random, text.text, index);
    (Box::new(text), None)
}

/// Those of ruling B57, and what stands first where several apply.
pub fn each_ruling(_random: &mut Random, visit: Visit) {
    let lines = [
        "k=3\npatterns=1\npattern=,2\n",
        "k=3\npatterns=1\npattern=0213\n",
        "k=3\npatterns=1\npattern=0213,06\n",
        "k=3\npatterns=1\npattern=0213,8\n",
        "k=3\npatterns=1\npattern=0213,1\n",
        "k=3\npatterns=1\npattern=0213,256\n",
        "k=3\npatterns=1\npattern=0213,258\n",
        "k=3\npatterns=1\npattern=0x13,2\n",
        "k=3\npatterns=0\n",
        "k=3\npatterns=2\npattern=0213,0\n",
        "k=3\npatterns=4294967296\npattern=0213,0\n",
        "k=3\npatterns=4294967295\npattern=0213,0\n",
        "k=9\npatterns=1\npattern=,2\n",
        "k=3\npatterns=1\npattern=0123,0\n",
        "k=3\npatterns=2\npattern=0213,0\npattern=0213,0\n",
        "k=3\npatterns=3\npattern=0213,0\npattern=0213,0\npattern=021,0\n",
        "k=3\npatterns=3\npattern=021,0\npattern=0213,0\npattern=0213,0\n",
        "k=3\npatterns=9\npattern=021,0\npattern=0213,0\npattern=0213,0\n",
        "k=3\npatterns=1\npattern=00213,0\n",
        "k=3\npatterns=1\npattern=02134567890123456789,0\n",
        "k=3\npatterns=1\npattern=0213,4294967295\n",
        "k=3\npatterns=1\npattern=0213,4294967296\n",
        "k=3\npatterns=1\npattern=0213,0",
        "k=3\npatterns=1\npattern=0213,0\n\n",
        "k=3\npatterns=1\n",
        "k=3\n",
        "",
    ];
    for text in lines {
        visit(Box::new(Text::new(text)));
    }
}

/// Every room of a short list, whole lists, and texts at the bounds.
pub fn each_bound(_random: &mut Random, visit: Visit) {
    for k in 2..=5 {
        let (rows, count) = (Rows::whole(k), pattern_count(k));
        visit(Box::new(Text::new(written(k, count, &rows))));
        for announced in [count - 1, count + 1] {
            visit(Box::new(Text::new(written(k, announced, &rows))));
        }
    }
    let two = Rows::of(3, 3..5);
    for orders in 6..10 {
        for (masks, room) in [(1, 2), (2, 1), (2, 2), (3, 3), (0, 0)] {
            let text = Text::new(written(3, 2, &two));
            visit(Box::new(Text {
                orders,
                masks,
                room,
                ..text
            }));
        }
    }
    // 384 rows of which one stands twice; and a text as long as may be, and longer, by an order of many digits.
    let rows = Rows::of(5, (0..MOST_ROWS).chain([7]));
    visit(Box::new(Text::new(written(5, MOST_ROWS + 1, &rows))));
    for bytes in [MOST_BYTES - 1, MOST_BYTES, MOST_BYTES + 1] {
        let empty = "k=2\npatterns=1\npattern=,0\n".len();
        let digits = "1".repeat(bytes - empty);
        let text = format!("k=2\npatterns=1\npattern={digits},0\n");
        visit(Box::new(Text::new(text)));
    }
    // As many rows as a text has room for.
    let rows = "pattern=,0\n".repeat(5450);
    visit(Box::new(Text::new(format!("k=2\npatterns=5450\n{rows}"))));
}
