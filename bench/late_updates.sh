#!/bin/sh
# Puts updates of one entity in rising, shuffled and falling order of time, and prints how long the
# first takes and the others in percent of it. The program is written, proved and built in a folder of
# its own, over the crates of this repository. Where rustc is there, the same is printed of a BTreeMap.
#
#     sh bench/late_updates.sh
set -eu

root=$(cd "$(dirname "$0")/.." && pwd)
work=$(mktemp -d)
trap 'rm -rf "$work"' EXIT

mkdir -p "$work/crates/late_updates/src" "$work/crates/late_updates/proofs/put_all" "$work/crates/late_updates/proofs/main"
for crate in graph_model world_laws chunk_list time_column time_history; do
    mkdir "$work/crates/$crate"
    for part in src specs proofs out; do
        if [ -d "$root/crates/$crate/$part" ]; then
            cp -R "$root/crates/$crate/$part" "$work/crates/$crate/"
        fi
    done
done
grep -E '^(graph_model|world_laws|chunk_list|time_column|time_history):' "$root/crates.txt" > "$work/crates.txt"
echo 'late_updates: graph_model time_column time_history' >> "$work/crates.txt"

cat > "$work/crates/late_updates/src/main.rt" <<'END'
//! Puts updates of one entity in rising, shuffled and falling order of time, and prints how long each took.
#![tactic(auto)]

ghost use Rattle.std.specs.Prelude.{◌≡◌, ◌^◌, ◌<◌, ◌≤◌};

use std::alloc::{AllocError, Global};
use std::io;
use std::marker::Brand;
use std::mem::size_of;
use std::sync::ledger::{Blank, Ledger};
use std::time::Instant;
use time_column::Steps;
use time_history::{History, KeyValues, Kind, Update};

/// Puts updates whose times are the multiples of `stride`, modulo `count`.
fn put_all<L: Ledger>(
    alloc: Global,
    count: u32,
    stride: u32,
    blank: Blank,
) -> Result<u32, AllocError>
    requires name { blank.name ≡ L.name }
    requires parts { blank.parts ≡ L.parts }
    requires one { blank.parts ≡ 1 }
    requires some { 0 < count }
    requires fits { count < 2 ^ 31 }
    requires stride { stride ≤ count }
{
    let mut steps = Steps::<L>::new(blank);
    let mut history = History::new(alloc);
    let mut time = 0;
    for i in 0..count {
        let update = Update {
            time: time as i64,
            order: 0,
            arrival: i as u64,
            kind: Kind::Add,
            props: KeyValues::new(alloc),
        };
        history.put(update, &mut steps)?;
        time = (time + stride) % count;
    }
    Ok(history.len())
}

/// How many updates, in turn.
const COUNTS: [u32; 3] = [50_000, 200_000, 800_000];

fn main(rt: HostRuntime) -> io::Result<()> {
    let alloc = rt.alloc();
    let size = size_of::<History>();
    println!(rt; "a history takes {size} bytes")?;
    for count in COUNTS {
        let start = Instant::now(&rt)?;
        let _ = put_all::<Brand>(alloc, count, 1, Blank::new(1))?;
        let rising = start.elapsed(&rt)?.as_micros();
        let start = Instant::now(&rt)?;
        let _ = put_all::<Brand>(alloc, count, 19_997, Blank::new(1))?;
        let shuffled = start.elapsed(&rt)?.as_micros();
        let start = Instant::now(&rt)?;
        let _ = put_all::<Brand>(alloc, count, count - 1, Blank::new(1))?;
        let falling = start.elapsed(&rt)?.as_micros();
        let base = rising.max(1);
        let shuffled = shuffled * 100 / base;
        let falling = falling * 100 / base;
        println!(rt; "{count} updates: rising {rising} us, shuffled {shuffled}%, falling {falling}% of that")?;
    }
    Ok(())
}
END

cat > "$work/crates/late_updates/proofs/put_all/Invariants.antt" <<'END'
use Rattle.std.proofs.Common.{◌≡◌, ◌<◌, length, false}
use Rattle.std.specs.List.{All}
use Rattle.time_history.specs.declared.updates.Update.{Update}
use Rattle.time_history.specs.Kinds.{is_node}
use Rattle.late_updates.proofs.put_all.Given as goal

abbrev pub invariant-loop-i : goal.invariant-loop-i
invariant-loop-i g l = record {
  len : length l.history.updates ≡ l.i;
  time : l.time < l.count;
  arrived : All (λ (u : Update). u.arrival < l.i) l.history.updates;
  edges : All (λ (u : Update). is_node u.kind ≡ false) l.history.updates;
}
END

cat > "$work/crates/late_updates/proofs/put_all/Answers.antt" <<'END'
use Rattle.std.proofs.Common.{◌≡◌, ◌+◌, ◌<◌, ℕ, List, length, ap, arith, subst, sym, refl, false, ◌∙◌, to_z, w64}
use Rattle.std.specs.List.{All}
use Rattle.time_history.specs.declared.updates.Update.{Update}
use Rattle.time_history.specs.declared.updates.Kind.TheVariants.{Add}
use Rattle.time_history.specs.Kinds.{is_node}
use Rattle.time_history.specs.Updates.{placed}
use Rattle.time_history.proofs.Placed.{length-placed, All-placed}
use Rattle.late_updates.proofs.put_all.Goals as goal

arrived : (u : Update) (us vs : List Update) (i : ℕ) → vs ≡ placed u us → u.arrival ≡ i → All (λ (x : Update). x.arrival < i) us → All (λ (x : Update). x.arrival < i + 1) vs
arrived u us vs i e a h = subst (All (λ (x : Update). x.arrival < i + 1)) (sym e) (All-placed (λ (x : Update). x.arrival < i + 1) u us (λ k d lt. omega (arith, h k d lt)) (omega arith))

edges : (u : Update) (us vs : List Update) → vs ≡ placed u us → is_node u.kind ≡ false → All (λ (x : Update). is_node x.kind ≡ false) us → All (λ (x : Update). is_node x.kind ≡ false) vs
edges u us vs e a h = subst (All (λ (x : Update). is_node x.kind ≡ false)) (sym e) (All-placed (λ (x : Update). is_node x.kind ≡ false) u us h a)

pub loop-i-preserved : goal.loop-i-preserved
loop-i-preserved g c =
    let e = c.in_ok-put.ensures.ok in
    let inv = c.loop-i.invariant in
    let u : Update = record { time = to_z w64 c.loop-i.time; order = 0; arrival = c.loop-i.i; kind = Add; props = c.new.result } in
    let us = c.loop-i.history.updates in
    record {
      len = omega (arith, ap length e, length-placed u us, inv.len);
      time = omega (arith, c.requires.some);
      arrived = arrived u us c.put.new.self.updates c.loop-i.i e refl inv.arrived;
      edges = edges u us c.put.new.self.updates e refl inv.edges;
    }
END

cat > "$work/crates/late_updates/proofs/main/Invariants.antt" <<'END'
use Rattle.late_updates.proofs.main.Given as goal

abbrev pub ghosts-put_all : goal.ghosts-put_all
ghosts-put_all a = record { name = a.blank.name; parts = a.blank.parts }
END

cd "$work/crates/late_updates"
rt run > "$work/log" 2>&1 || { tail -20 "$work/log"; exit 1; }
grep -E '^[0-9]+ updates:|^a history takes' "$work/log"

# The same updates in a BTreeMap of plain Rust, where its compiler is there.
if command -v rustc > /dev/null; then
    rustc -O "$root/bench/late_updates_in_a_btree_map.rs" -o "$work/btree"
    "$work/btree"
fi
