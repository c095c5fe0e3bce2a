//! The updates of `late_updates.sh`, put into a `BTreeMap` by time, order and arrival: a measure to hold beside it.
//!
//!     rustc -O bench/late_updates_in_a_btree_map.rs -o /tmp/btree && /tmp/btree

use std::collections::BTreeMap;
use std::hint::black_box;
use std::time::Instant;

/// Puts updates whose times are the multiples of `stride`, modulo `count`.
fn put_all(count: u32, stride: u32) -> usize {
    let mut updates: BTreeMap<(i64, u32, u64), (u8, u32)> = BTreeMap::new();
    let mut time = 0u64;
    for arrival in 0..count {
        updates.insert((time as i64, 0, u64::from(arrival)), (1, 0));
        time = (time + u64::from(stride)) % u64::from(count);
    }
    updates.len()
}

fn micros(count: u32, stride: u32) -> u128 {
    let start = Instant::now();
    black_box(put_all(count, stride));
    start.elapsed().as_micros()
}

fn main() {
    for count in [50_000, 200_000, 800_000] {
        let rising = micros(count, 1);
        let shuffled = micros(count, 19_997) * 100 / rising;
        let falling = micros(count, count - 1) * 100 / rising;
        println!("{count} updates in a BTreeMap: rising {rising} us, shuffled {shuffled}%, falling {falling}% of that");
    }
}
