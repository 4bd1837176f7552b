// SPDX-License-Identifier: Apache-2.0
//! Words that end with a number, mostly many in a row that begin alike.
use std::io::{Result, Write};

/// Room for all of a word but its last two digits: a space, two numbers below 2^32 and a colon.
const ROOM: usize = 32;

pub struct Places {
    text: Vec<u8>,
    /// What the next words begin with, and behind it the digits of so many hundreds.
    front: [u8; ROOM],
    given: usize,
    filled: usize,
    hundreds: usize,
}

impl Places {
    pub fn new() -> Places {
        let mut places = Places { text: Vec::new(), front: [b' '; ROOM], given: 0, filled: 0, hundreds: 0 };
        places.begin(1);
        places
    }

    /// From here on words begin with a space and the place of a part.
    pub fn begin_part(&mut self, part: usize) {
        let end = self.put_digits(1, part);
        self.front[end] = b':';
        self.begin(end + 1);
    }

    fn begin(&mut self, given: usize) {
        (self.given, self.filled, self.hundreds) = (given, given, 0);
    }

    /// The front is copied whole, as that takes two instructions, and cut behind the digits.
    #[inline(always)]
    pub fn push(&mut self, number: usize) {
        let (hundreds, rest) = (number / 100, number % 100);
        if hundreds != self.hundreds {
            self.hundreds = hundreds;
            self.filled = if hundreds == 0 { self.given } else { self.put_digits(self.given, hundreds) };
        }
        self.text.extend_from_slice(&self.front);
        self.text.truncate(self.text.len() - ROOM + self.filled);
        if number < 10 {
            self.text.push(b'0' + number as u8);
        } else {
            self.text.extend_from_slice(&PAIRS[rest]);
        }
    }

    /// Writes the words that aren't written yet, if they have more than so many bytes.
    pub fn hand_over(&mut self, most: usize, output: &mut impl Write) -> Result<()> {
        if self.text.len() > most {
            output.write_all(&self.text)?;
            self.text.clear();
        }
        Ok(())
    }

    /// Puts decimal digits at a place of the front, and answers the place behind them.
    fn put_digits(&mut self, at: usize, number: usize) -> usize {
        let end = at + number.checked_ilog10().map_or(1, |tens| tens as usize + 1);
        let mut rest = number;
        for digit in self.front[at..end].iter_mut().rev() {
            *digit = b'0' + (rest % 10) as u8;
            rest /= 10;
        }
        end
    }
}

/// The digits of the numbers below 100.
const PAIRS: [[u8; 2]; 100] = {
    let mut pairs = [[b'0'; 2]; 100];
    let mut number = 0;
    while number < 100 {
        pairs[number] = [b'0' + (number / 10) as u8, b'0' + (number % 10) as u8];
        number += 1;
    }
    pairs
};
