use crate::support::lent::{bits, filled, Lent};
use crate::support::{kept, kept_beyond, number, on_small_stack, written};
use mittenschist::{raw, PatternList};

/// Texts, and what they are refused with where there is room.
fn texts() -> Vec<(Vec<u8>, u32)> {
    let text = |lines: &str, number| (lines.as_bytes().to_vec(), number);
    let mut long = b"k=2\npatterns=1\npattern=".to_vec();
    long.resize(60_001, b'1');
    vec![
        text("k=3\npatterns=2\npattern=0213,0\npattern=0123,6\n", 0),
        text("k=2\npatterns=1\npattern=012,2\n", 0),
        text("k=5\npatterns=1\npattern=043215,30\n", 0),
        text("", 10),
        text("k=3\n", 10),
        text("k=3\npatterns=1\npattern=0213\n", 10),
        text("k=3\npatterns=1\npattern=0213,4294967296\n", 10),
        text("k=6\npatterns=0\n", 1),
        text("k=3\npatterns=0\n", 26),
        text("k=3\npatterns=2\npattern=,2\n", 26),
        text("k=3\npatterns=1\npattern=,2\n", 27),
        text("k=3\npatterns=1\npattern=0213,258\n", 27),
        text("k=3\npatterns=1\npattern=0123,0\n", 28),
        (vec![0xff; 100], 10),
        (long, 10),
    ]
}

fn check(text: &[u8], refused: u32, orders_room: usize, masks_room: usize, room: usize) {
    let (no_orders, no_masks) = (vec![7; orders_room], vec![9; masks_room]);
    let before = filled(room);
    let mut lines = Lent::new("text", text);
    let mut orders = Lent::new("orders", &no_orders);
    let mut masks = Lent::new("masks", &no_masks);
    let mut result = Lent::new("result", &before);
    let returned = raw::load_patterns(lines.slice(), orders.slice(), masks.slice(), result.slice());
    kept(&lines);
    if returned != 0 {
        kept(&orders);
        kept(&masks);
        kept(&result);
    }
    let loaded = PatternList::load(text);
    assert_eq!(number(loaded.clone()), refused);
    let Ok(list) = loaded else {
        return assert_eq!(returned, refused);
    };
    let list = list.lent();
    let (bytes, rows) = (list.orders.len(), list.masks.len());
    let short = orders_room < bytes || masks_room < rows || room < 2;
    assert_eq!(returned, if short { 21 } else { 0 });
    if !short {
        assert_eq!(written(&result)[..2], [list.k as u64, rows as u64]);
        assert_eq!(written(&orders)[..bytes], bits(list.orders));
        assert_eq!(written(&masks)[..rows], bits(list.masks));
        kept_beyond(&result, &before, 2);
        kept_beyond(&orders, &no_orders, bytes);
        kept_beyond(&masks, &no_masks, rows);
    }
}

fn every_text() {
    for (text, refused) in &texts() {
        for orders in [0, 2, 3, 6, 7, 8, 2298] {
            for masks in [0, 1, 2, 383] {
                for room in [0, 1, 2, 3] {
                    check(text, *refused, orders, masks, room);
                }
            }
        }
    }
}

#[test]
fn numbers_in_order() {
    every_text();
}

#[test]
fn on_128_kib() {
    on_small_stack(every_text);
}
