// SPDX-License-Identifier: Apache-2.0
//! What a scan finds, and its text.
use crate::bits::Bits;
use crate::log::Stats;
use crate::places::Places;
use crate::predicate::Node;
use crate::prune::{self, Known};
use crate::rows::Test;
use crate::table::{Part, Table};
use std::io::{Result, Write};

/// How many bytes are written at once.
const BUFFER: usize = 65_536;

/// How many rows are written between two looks at how much stands to be written.
const ROWS: usize = 4096;

/// What statistics prove of a part.
#[derive(Clone, Copy, PartialEq, Eq)]
enum Verdict {
    Skipped,
    Whole,
    Tested,
}

pub fn write(mut table: Table, predicate: &Node, output: &mut impl Write) -> Result<()> {
    let parts = table.take_parts();
    let verdicts = verdicts(&table, &parts, predicate);
    output.write_all(b"skipped")?;
    write_parts(&verdicts, Verdict::Skipped, output)?;
    output.write_all(b"\nrows")?;
    write_rows(&selected(&table, &parts, &verdicts, predicate), &parts, &verdicts, output)?;
    output.write_all(b"\n")?;
    if verdicts.contains(&Verdict::Whole) {
        output.write_all(b"whole")?;
        write_parts(&verdicts, Verdict::Whole, output)?;
        output.write_all(b"\n")?;
    }
    Ok(())
}

fn verdicts(table: &Table, parts: &[Part], predicate: &Node) -> Vec<Verdict> {
    let mut known = vec![Stats::default(); table.columns.len()];
    let verdict = |part: &Part| {
        let entries = part.entries(&table.log);
        entries.iter().for_each(|entry| entry.note(&mut known));
        let told = Known { stats: &known, log: &table.log, rows: u64::from(part.rows) };
        let verdict = if prune::is_falsified(predicate, &told) {
            Verdict::Skipped
        } else if prune::is_satisfied(predicate, &told) {
            Verdict::Whole
        } else {
            Verdict::Tested
        };
        entries.iter().for_each(|entry| known[entry.column()] = Stats::default());
        verdict
    };
    parts.iter().map(verdict).collect()
}

/// The rows of the parts that a test selects.
fn selected(table: &Table, parts: &[Part], verdicts: &[Verdict], predicate: &Node) -> Bits {
    let (mut rows, mut first) = (Bits::default(), 0);
    for (part, verdict) in parts.iter().zip(verdicts) {
        let end = first + part.rows as usize;
        if *verdict == Verdict::Tested {
            rows.put_all(first..end);
        }
        first = end;
    }
    let test = Test { columns: &table.columns };
    for (block, word) in rows.words_mut() {
        *word = test.select(predicate, block, *word);
    }
    rows
}

fn write_rows(selected: &Bits, parts: &[Part], verdicts: &[Verdict], output: &mut impl Write) -> Result<()> {
    let (mut first, mut places) = (0, Places::new());
    for (number, (part, verdict)) in parts.iter().zip(verdicts).enumerate() {
        let end = first + part.rows as usize;
        if *verdict != Verdict::Skipped {
            places.begin_part(number);
        }
        for start in (first..end).step_by(ROWS) {
            let rows = start..end.min(start + ROWS);
            match verdict {
                Verdict::Skipped => break,
                Verdict::Whole => rows.for_each(|row| places.push(row - first)),
                Verdict::Tested => selected.for_each(rows, |row| places.push(row - first)),
            }
            places.hand_over(BUFFER, output)?;
        }
        first = end;
    }
    places.hand_over(0, output)
}

fn write_parts(verdicts: &[Verdict], wanted: Verdict, output: &mut impl Write) -> Result<()> {
    let mut places = Places::new();
    for (place, verdict) in verdicts.iter().enumerate() {
        if *verdict == wanted {
            places.push(place);
            places.hand_over(BUFFER, output)?;
        }
    }
    places.hand_over(0, output)
}
