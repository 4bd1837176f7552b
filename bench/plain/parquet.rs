// SPDX-License-Identifier: Apache-2.0
//! A plain reader of Parquet footers: which row groups `COLUMN > NUMBER` leaves to be read, COLUMN being flat and of INT64.
//!
//! usage: parquet FOOTER COLUMN NUMBER RUNS
//!
//! Prints the least time of so many runs in milliseconds, and how many row groups are read. It reads a footer in one pass, and
//! of each row group the chunk of that column alone, as `vortex_parquet_prune` does; nothing of it is proved.
use std::env;
use std::fs;
use std::time::Instant;

/// How deep values may nest.
const LEVELS: u8 = 32;

/// What is left of a footer.
struct Reader<'a>(&'a [u8]);

/// A field of a struct: its number and its kind.
type Field = (i64, u8);

impl<'a> Reader<'a> {
    fn byte(&mut self) -> Option<u8> {
        let (first, rest) = self.0.split_first()?;
        self.0 = rest;
        Some(*first)
    }

    fn bytes(&mut self, count: u64) -> Option<&'a [u8]> {
        let (found, rest) = self.0.split_at_checked(usize::try_from(count).ok()?)?;
        self.0 = rest;
        Some(found)
    }

    fn varint(&mut self) -> Option<u64> {
        let mut found = 0;
        for shift in (0..64).step_by(7) {
            let byte = self.byte()?;
            found |= u64::from(byte & 0x7f) << shift;
            if byte < 0x80 {
                return Some(found);
            }
        }
        None
    }

    fn number(&mut self) -> Option<i64> {
        let raw = self.varint()?;
        Some((raw >> 1) as i64 ^ -((raw & 1) as i64))
    }

    fn binary(&mut self) -> Option<&'a [u8]> {
        let count = self.varint()?;
        self.bytes(count)
    }

    /// The next field of a struct, whose number counts from the one before; `None` inside at its end.
    fn field(&mut self, before: &mut i64) -> Option<Option<Field>> {
        let head = self.byte()?;
        if head == 0 {
            return Some(None);
        }
        *before = if head >> 4 == 0 { self.number()? } else { *before + i64::from(head >> 4) };
        Some(Some((*before, head & 15)))
    }

    /// The kind of a list's items, and how many there are.
    fn list(&mut self) -> Option<(u8, u64)> {
        let head = self.byte()?;
        let count = if head >> 4 == 15 { self.varint()? } else { u64::from(head >> 4) };
        (count <= self.0.len() as u64).then_some((head & 15, count))
    }

    fn skip(&mut self, kind: u8, levels: u8) -> Option<()> {
        let deeper = levels.checked_sub(1)?;
        match kind {
            1 | 2 => {}
            3 => drop(self.byte()?),
            4..=6 => drop(self.varint()?),
            7 => drop(self.bytes(8)?),
            8 => drop(self.binary()?),
            9 | 10 => {
                let (item, count) = self.list()?;
                for _ in 0..count {
                    if item < 3 {
                        self.byte()?;
                    } else {
                        self.skip(item, deeper)?;
                    }
                }
            }
            12 => {
                let mut number = 0;
                while let Some((_, kind)) = self.field(&mut number)? {
                    self.skip(kind, deeper)?;
                }
            }
            _ => return None,
        }
        Some(())
    }

    /// Hands each field of a struct to a reader of it, and skips those that it leaves.
    fn each_field(&mut self, mut read: impl FnMut(&mut Self, Field) -> Option<bool>) -> Option<()> {
        let mut number = 0;
        while let Some(field) = self.field(&mut number)? {
            if !read(self, field)? {
                self.skip(field.1, LEVELS)?;
            }
        }
        Some(())
    }
}

/// The number of a bound.
fn bound(bytes: &[u8]) -> Option<i64> {
    Some(i64::from_le_bytes(bytes.try_into().ok()?))
}

/// The place of a column of a flat schema.
fn place_of(reader: &mut Reader<'_>, column: &[u8]) -> Option<u64> {
    let (_, count) = reader.list()?;
    let mut found = None;
    for place in 0..count {
        reader.each_field(|reader, field| {
            let is_name = field == (4, 8);
            if is_name && reader.binary()? == column && place > 0 {
                found = Some(place - 1);
            }
            Some(is_name)
        })?;
    }
    found
}

/// The greatest value of a column chunk, if it is told.
fn greatest_of(reader: &mut Reader<'_>) -> Option<Option<i64>> {
    let mut found = None;
    reader.each_field(|reader, field| {
        if field != (3, 12) {
            return Some(false);
        }
        reader.each_field(|reader, field| {
            if field != (12, 12) {
                return Some(false);
            }
            reader.each_field(|reader, field| {
                let is_greatest = field == (5, 8);
                if is_greatest {
                    found = bound(reader.binary()?);
                }
                Some(is_greatest)
            })?;
            Some(true)
        })?;
        Some(true)
    })?;
    Some(found)
}

/// How many row groups are left to be read, and how many rows they have.
fn left(footer: &[u8], column: &[u8], number: i64) -> Option<(u64, i64)> {
    let mut reader = Reader(footer);
    let (mut wanted, mut groups, mut rows) = (None, 0, 0);
    reader.each_field(|reader, field| match field {
        (2, 9) => {
            wanted = Some(place_of(reader, column)?);
            Some(true)
        }
        (4, 9) => {
            let (_, count) = reader.list()?;
            for _ in 0..count {
                let (mut greatest, mut own) = (None, 0);
                reader.each_field(|reader, field| match field {
                    (1, 9) => {
                        let (_, count) = reader.list()?;
                        for place in 0..count {
                            if Some(place) == wanted {
                                greatest = greatest_of(reader)?;
                            } else {
                                reader.skip(12, LEVELS)?;
                            }
                        }
                        Some(true)
                    }
                    (3, 6) => {
                        own = reader.number()?;
                        Some(true)
                    }
                    _ => Some(false),
                })?;
                if greatest.is_none_or(|greatest| greatest > number) {
                    groups += 1;
                    rows += own;
                }
            }
            Some(true)
        }
        _ => Some(false),
    })?;
    wanted.map(|_| (groups, rows))
}

fn main() {
    let words: Vec<String> = env::args().collect();
    let footer = fs::read(&words[1]).expect("the footer is read");
    let (number, runs) = (words[3].parse().expect("a number"), words[4].parse::<usize>().expect("a count"));
    let mut least = f64::MAX;
    let mut found = None;
    for _ in 0..runs {
        let start = Instant::now();
        found = left(&footer, words[2].as_bytes(), number);
        least = least.min(start.elapsed().as_secs_f64());
    }
    let (groups, rows) = found.expect("a footer with that column");
    println!("{:.2} {groups} {rows}", 1000.0 * least);
}
