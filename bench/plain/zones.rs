// SPDX-License-Identifier: Apache-2.0
//! Plain pruning of zones by arrays of bounds, for timing beside `vortex_bench`: the same zones and predicates.
//! Standard input names the workload; prints how many zones the last of ten prunings skips, or without a predicate how many there are.
use std::hint::black_box;
use std::io::Read;

const REPEATS: usize = 10;

/// The bounds of a column: a low and a high value a zone, and whether they are known.
struct Bounds {
    high: Vec<i64>,
    known: Vec<bool>,
}

/// A comparison: this column is above a number.
struct Above {
    column: usize,
    number: i64,
}

fn columns_of(zones: i64, columns: usize) -> Vec<Bounds> {
    let of_one = |_| Bounds {
        high: (0..zones).map(|place| place + 100).collect(),
        known: vec![true; zones as usize],
    };
    (0..columns).map(of_one).collect()
}

fn leaves_of(zones: i64, columns: usize, leaves: usize) -> Vec<Above> {
    let last = zones - 100;
    let number = |leaf| if leaf + 1 == leaves { last } else { 0 };
    (0..leaves).map(|leaf| Above { column: leaf % columns, number: number(leaf) }).collect()
}

/// The zones of which some comparison is false for each value.
fn skipped(columns: &[Bounds], leaves: &[Above]) -> Vec<usize> {
    let zones = columns[0].high.len();
    let never = |zone: usize| {
        leaves.iter().any(|leaf| {
            let bounds = &columns[leaf.column];
            bounds.known[zone] && bounds.high[zone] <= leaf.number
        })
    };
    (0..zones).filter(|&zone| never(zone)).collect()
}

fn main() {
    let mut name = String::new();
    std::io::stdin().read_to_string(&mut name).expect("standard input");
    let (zones, columns) = match name.split('_').next() {
        Some("long") => (1_000_000, 1),
        Some("table") => (1_000_000, 3),
        _ => (20_000, 30),
    };
    let leaves = match name.trim().rsplit('_').next() {
        Some("leaves") => 16,
        Some("comparison") => 1,
        _ => 0,
    };
    let (columns, leaves) = (columns_of(zones, columns), leaves_of(zones, columns, leaves));
    let repeats = if leaves.is_empty() { 0 } else { REPEATS };
    let mut found = 0;
    for _ in 0..repeats {
        found = skipped(black_box(&columns), black_box(&leaves)).len();
    }
    println!("{}", if repeats == 0 { zones as usize } else { found });
}
