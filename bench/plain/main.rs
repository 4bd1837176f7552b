// SPDX-License-Identifier: Apache-2.0
//! Prunes and selects as the proved program does, in plain Rust: the baseline of the benchmarks, and an independent
//! answer to compare with. Reads the text of parts and a predicate from standard input and prints what a scan finds.
mod answer;
mod bits;
mod like;
mod log;
mod places;
mod plain_rows;
mod predicate;
mod prune;
mod rows;
mod table;
mod text;
mod values;
mod words;

use std::io::{BufWriter, Read, Write};
use text::Draft;

const LIMIT: usize = 16_777_216;

/// How many bytes are asked for at once.
const BUFFER: usize = 65_536;

fn main() {
    let mut output = BufWriter::with_capacity(BUFFER, std::io::stdout().lock());
    let told = match read(std::io::stdin().lock()) {
        Ok(draft) => answer(draft, &mut output),
        Err(word) => output.write_all(word.as_bytes()).map(|()| 1),
    };
    let written = told.and_then(|status| output.flush().map(|()| status));
    std::process::exit(written.unwrap_or(1));
}

/// Reads a text to its end, of which it holds the line that has begun.
fn read(mut input: impl Read) -> Result<Draft, &'static str> {
    let mut draft = Draft::default();
    let mut buffer = vec![0; BUFFER];
    // So many bytes of the buffer are held, the first of them without the end of a line.
    let (mut held, mut searched, mut total) = (0, 0, 0);
    loop {
        if held == buffer.len() {
            buffer.resize(2 * held, 0);
        }
        let count = match input.read(&mut buffer[held..]) {
            Ok(count) => count,
            Err(error) if error.kind() == std::io::ErrorKind::Interrupted => continue,
            Err(_) => return Err("read\n"),
        };
        total += count;
        if total > LIMIT {
            return Err("input\n");
        }
        if count == 0 {
            break;
        }
        held += count;
        // Up to the last line feed stand whole lines.
        let Some(last) = buffer[searched..held].iter().rposition(|b| *b == b'\n') else {
            searched = held;
            continue;
        };
        let end = searched + last + 1;
        draft.push_lines(&buffer[..end]);
        buffer.copy_within(end..held, 0);
        held -= end;
        searched = held;
    }
    if held > 0 && !draft.is_bad {
        draft.push(&buffer[..held]);
    }
    Ok(draft)
}

fn answer(draft: Draft, output: &mut impl Write) -> std::io::Result<i32> {
    let Draft { table, predicate, lines, is_bad, .. } = draft;
    match predicate {
        Some(predicate) if !is_bad && predicate.is_bool() => answer::write(table, &predicate, output).map(|()| 0),
        Some(_) if !is_bad => output.write_all(b"predicate\n").map(|()| 1),
        _ => writeln!(output, "line {}: bad", lines + usize::from(!is_bad)).map(|()| 2),
    }
}
