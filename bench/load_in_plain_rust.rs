//! Loads an events file of `load` into maps of the standard library, and counts the neighbours of each node: a measure in
//! plain Rust to hold beside the program. It reads edges with one whole number alone, checks nothing and refuses nothing.
//!
//!     rustc -O bench/load_in_plain_rust.rs -o /tmp/load && /tmp/load EVENTS

use std::collections::{HashMap, HashSet};

/// An update: when it happens, its number in the order of arrival, and its value.
type Update = (i64, u32, i64);

fn number<'t>(names: &mut HashMap<&'t str, u32>, name: &'t str) -> u32 {
    let next = names.len() as u32;
    *names.entry(name).or_insert(next)
}

fn main() {
    let path = std::env::args().nth(1).expect("an events file");
    let text = std::fs::read_to_string(path).expect("text");
    let (mut nodes, mut layers) = (HashMap::new(), HashMap::new());
    let mut histories: HashMap<(u32, u32, u32), Vec<Update>> = HashMap::new();
    for (arrival, line) in text.lines().enumerate() {
        let mut fields = line.split(',').skip(1);
        let mut field = || fields.next().expect("a field");
        let time: i64 = field().parse().expect("a time");
        let source = number(&mut nodes, field());
        let target = number(&mut nodes, field());
        let layer = number(&mut layers, field());
        let value: i64 = field()["w:i=".len()..].parse().expect("a value");
        let updates = histories.entry((source, target, layer)).or_default();
        let place = updates.partition_point(|update| update.0 <= time);
        updates.insert(place, (time, arrival as u32, value));
    }
    let pairs: HashSet<(u32, u32)> = histories.keys().map(|edge| (edge.0, edge.1)).collect();
    let mut both = vec![0u32; nodes.len()];
    for &(source, target) in &pairs {
        both[source as usize] += 1;
        if source != target && !pairs.contains(&(target, source)) {
            both[target as usize] += 1;
        }
    }
    let most = both.iter().max().copied().unwrap_or(0);
    println!("{} edges, at most {most} neighbours", histories.len());
}
