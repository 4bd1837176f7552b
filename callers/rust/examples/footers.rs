// SPDX-License-Identifier: Apache-2.0
//! Measures the chunks of a table, keeps their statistics in a file, and later reads the chunks alone that a predicate
//! doesn't rule out.
//!
//! usage: footers [FILE]    keeps the file where it is named, and else removes it
use foalmorrow::{col, Answer, Column, DType, Kind, Predicate, Stat, ZoneMap};
use std::error::Error;
use std::path::{Path, PathBuf};

const SCOPE: [(&str, DType); 2] = [
    ("temperature", DType { kind: Kind::I64, nullable: false }),
    ("city", DType { kind: Kind::Utf8, nullable: false }),
];

/// The rows of a chunk, as a reader would bring them: temperatures, and the cities as one text with where each of
/// them ends.
fn chunk(day: i64) -> (Vec<i64>, String, Vec<u64>) {
    let temperatures = (0..6).map(|hour| 4 * day + hour).collect();
    let cities = ["Bern", "Bonn", "Brno"].map(|city| format!("{city}{day}"));
    let ends = (0..6).scan(0, |end, row| {
        *end += cities[row % 3].len() as u64;
        Some(*end)
    });
    (temperatures, (0..6).map(|row| cities[row % 3].as_str()).collect(), ends.collect())
}

/// A writer: keeps the statistics of each chunk, true of it by proof.
fn write(path: &Path) -> Result<(), Box<dyn Error>> {
    let mut map = ZoneMap::new(&SCOPE, &[Stat::Min, Stat::Max, Stat::NullCount])?;
    for day in 0..6 {
        let (temperatures, cities, ends) = chunk(day);
        map.push(&[Column::numbers(&temperatures), Column::texts(&cities, &ends)])?;
    }
    Ok(map.save(path, "six days")?)
}

/// A reader, later: fetches the chunks that the predicate doesn't rule out.
fn read(path: &Path) -> Result<(), Box<dyn Error>> {
    let map = ZoneMap::load(path)?;
    let wanted: Predicate = col("temperature").gt(20_i64).and(col("city").like("B%"));
    for (day, answer) in (0..).zip(map.prune(&wanted)?) {
        match answer {
            Answer::Skip => println!("day {day}: left unread"),
            Answer::Read => println!("day {day}: {:?}", chunk(day).0.iter().filter(|it| **it > 20).collect::<Vec<_>>()),
            Answer::Whole => println!("day {day}: all of {:?}", chunk(day).0),
        }
    }
    Ok(())
}

fn main() -> Result<(), Box<dyn Error>> {
    let named = std::env::args_os().nth(1).map(PathBuf::from);
    let path = named.clone().unwrap_or_else(|| std::env::temp_dir().join(format!("footers-{}", std::process::id())));
    write(&path)?;
    let done = read(&path);
    if named.is_none() {
        std::fs::remove_file(&path)?;
    }
    done
}
