// SPDX-License-Identifier: Apache-2.0
//! Sets of rows: a bit for each, 64 in a word.
use std::ops::Range;

/// A set of rows, with words up to the last one that was put in.
#[derive(Default)]
pub struct Bits(Vec<u64>);

impl Bits {
    pub fn put(&mut self, row: usize) {
        let block = row / 64;
        if block >= self.0.len() {
            self.0.resize(block + 1, 0);
        }
        self.0[block] |= 1 << (row % 64);
    }

    pub fn remove(&mut self, row: usize) {
        if let Some(word) = self.0.get_mut(row / 64) {
            *word &= !(1 << (row % 64));
        }
    }

    pub fn put_all(&mut self, rows: Range<usize>) {
        let blocks = rows.end.div_ceil(64);
        if blocks > self.0.len() {
            self.0.resize(blocks, 0);
        }
        for block in rows.start / 64..blocks {
            self.0[block] |= within(block, &rows);
        }
    }

    /// The word of the rows from 64 times a number on.
    pub fn word(&self, block: usize) -> u64 {
        self.0.get(block).copied().unwrap_or(0)
    }

    /// The words that aren't empty, each with its block.
    pub fn words_mut(&mut self) -> impl Iterator<Item = (usize, &mut u64)> {
        self.0.iter_mut().enumerate().filter(|(_, word)| **word != 0)
    }

    pub fn for_each(&self, rows: Range<usize>, mut does: impl FnMut(usize)) {
        for block in rows.start / 64..rows.end.div_ceil(64) {
            ones(self.word(block) & within(block, &rows)).for_each(|place| does(64 * block + place));
        }
    }
}

/// The bits of a block whose rows lie in a range that reaches into it.
fn within(block: usize, rows: &Range<usize>) -> u64 {
    let first = rows.start.saturating_sub(64 * block);
    let last = (rows.end - 64 * block).min(64) - 1;
    u64::MAX << first & u64::MAX >> (63 - last)
}

/// The places of the bits that are set.
#[inline(always)]
pub fn ones(mut word: u64) -> impl Iterator<Item = usize> {
    std::iter::from_fn(move || {
        let place = (word != 0).then(|| word.trailing_zeros() as usize);
        word &= word.wrapping_sub(1);
        place
    })
}
