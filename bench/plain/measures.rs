// SPDX-License-Identifier: Apache-2.0
//! The statistics of large columns in one pass, in plain Rust: the same work as `vortex_bench` does.
//!
//! Reads from standard input which work: numbers or texts, made alone, measured, or checked.
use std::hint::black_box;
use std::io::Read;

const NUMBERS: usize = 2_000_000;
const TEXTS: usize = 300_000;
const REPEATS: usize = 50;

/// The statistics of a column of optional values.
#[derive(PartialEq, Clone)]
struct Stats<T> {
    is_constant: bool,
    is_sorted: bool,
    is_strict_sorted: bool,
    range: Option<(T, T)>,
    sum: Option<i64>,
    nulls: u64,
    size: u64,
}

impl<T> Stats<T> {
    /// How many there are.
    fn len(&self) -> usize {
        5 + if self.range.is_some() { 2 } else { 0 } + usize::from(self.sum.is_some())
    }
}

/// What a pass has found so far: the least, the greatest and the last value, and whether they ascend.
struct Pass<K> {
    nulls: u64,
    found: Option<(K, K, K)>,
    is_sorted: bool,
    is_strict_sorted: bool,
}

impl<K: Ord + Copy> Pass<K> {
    fn new() -> Self {
        Pass { nulls: 0, found: None, is_sorted: true, is_strict_sorted: true }
    }

    fn push(&mut self, value: Option<K>) {
        match (value, &mut self.found) {
            (None, _) => self.nulls += 1,
            (Some(value), None) => self.found = Some((value, value, value)),
            (Some(value), Some((least, greatest, last))) => {
                let order = (*last).cmp(&value);
                self.is_sorted &= order.is_le();
                self.is_strict_sorted &= order.is_lt();
                *least = value.min(*least);
                *greatest = value.max(*greatest);
                *last = value;
            }
        }
    }

    fn stats(self, sum: Option<i64>) -> Stats<K> {
        let is_same = self.found.is_none_or(|(least, greatest, _)| self.nulls == 0 && least == greatest);
        Stats {
            is_constant: is_same,
            is_sorted: self.is_sorted,
            is_strict_sorted: self.is_strict_sorted,
            range: self.found.map(|(least, greatest, _)| (least, greatest)),
            sum,
            nulls: self.nulls,
            size: 0,
        }
    }
}

fn of_numbers(values: &[Option<i64>]) -> Stats<i64> {
    let mut pass = Pass::new();
    let mut sum: i128 = 0;
    for value in values {
        sum += i128::from(value.unwrap_or(0));
        pass.push(*value);
    }
    pass.stats(i64::try_from(sum).ok())
}

fn of_texts(values: &[Option<String>]) -> Stats<&str> {
    let mut pass = Pass::new();
    for value in values {
        pass.push(value.as_deref());
    }
    pass.stats(None)
}

/// The statistics with the two texts copied.
fn owned(stats: Stats<&str>) -> Stats<String> {
    Stats {
        is_constant: stats.is_constant,
        is_sorted: stats.is_sorted,
        is_strict_sorted: stats.is_strict_sorted,
        range: stats.range.map(|(least, greatest)| (least.to_owned(), greatest.to_owned())),
        sum: stats.sum,
        nulls: stats.nulls,
        size: stats.size,
    }
}

fn next(number: i64) -> i64 {
    number.wrapping_mul(6_364_136_223_846_793_005).wrapping_add(1_442_695_040_888_963_407)
}

fn is_null(number: i64) -> bool {
    number / 4_294_967_296 % 8 == 0
}

fn made<T>(count: usize, value: impl Fn(i64) -> T) -> Vec<Option<T>> {
    let mut number = 1;
    let mut values = Vec::with_capacity(count);
    for _ in 0..count {
        number = next(number);
        values.push(if is_null(number) { None } else { Some(value(number)) });
    }
    values
}

fn numbers() -> Vec<Option<i64>> {
    made(NUMBERS, |number| number / 1_000_000_000)
}

fn texts() -> Vec<Option<String>> {
    made(TEXTS, |number| number.to_string())
}

/// How many statistics are made, which are made fifty times.
fn measured<T>(stats: impl Fn() -> Stats<T>) -> usize {
    let mut count = 0;
    for _ in 0..REPEATS {
        count = black_box(stats()).len();
    }
    count
}

/// How many statistics are made, which are then found to be true fifty times.
fn checked<T: PartialEq>(stats: impl Fn() -> Stats<T>) -> usize {
    let claimed = stats();
    for _ in 0..REPEATS {
        if black_box(stats()) != claimed {
            return 0;
        }
    }
    claimed.len()
}

fn main() {
    let mut name = String::new();
    std::io::stdin().read_to_string(&mut name).expect("standard input");
    let count = match name.trim() {
        "made_numbers" => numbers().len(),
        "measured_numbers" => {
            let values = numbers();
            measured(|| of_numbers(black_box(&values)))
        }
        "checked_numbers" => {
            let values = numbers();
            checked(|| of_numbers(black_box(&values)))
        }
        "made_texts" => texts().len(),
        "measured_texts" => {
            let values = texts();
            measured(|| owned(of_texts(black_box(&values))))
        }
        "checked_texts" => {
            let values = texts();
            checked(|| of_texts(black_box(&values)))
        }
        _ => 0,
    };
    println!("{count}");
}
