// SPDX-License-Identifier: Apache-2.0
//! Bytes of the input, looked at eight at a time: digits, the ends of texts and of lines.

/// Eight bytes as a number; the first of them is the lowest.
type Word = u64;

const ONES: Word = Word::MAX / 255;
const HIGHEST: Word = ONES << 7;

#[inline(always)]
fn first_word(bytes: &[u8]) -> Option<Word> {
    bytes.first_chunk().map(|eight| Word::from_le_bytes(*eight))
}

/// How many bytes stand before the first whose highest bit is set.
#[inline(always)]
fn bytes_before(flags: Word) -> usize {
    flags.trailing_zeros() as usize / 8
}

/// The highest bit of the first byte that is this one, and of none before it.
#[inline(always)]
fn flags_of(byte: u8, word: Word) -> Word {
    let differing = word ^ (ONES * Word::from(byte));
    differing.wrapping_sub(ONES) & !differing & HIGHEST
}

/// How many digits a word begins with: behind them a byte is too small for one, or too large.
#[inline(always)]
fn digits_of(word: Word) -> usize {
    let too_small = word.wrapping_sub(ONES * 0x30);
    let too_large = word.wrapping_add(ONES * 0x46);
    bytes_before((too_small | too_large) & HIGHEST)
}

/// The number of so many digits, 1 to 8, that a word begins with. Zeros are shifted in before them; then neighbours are
/// put together to numbers of two digits, and the four of them are multiplied by their weights.
#[inline(always)]
fn value_of(word: Word, digits: usize) -> u64 {
    const EVERY_OTHER_PAIR: u64 = 0xff_0000_00ff;
    let digits = word.wrapping_sub(ONES * 0x30) << (64 - 8 * digits);
    let pairs = digits.wrapping_mul(10).wrapping_add(digits >> 8);
    let first = (pairs & EVERY_OTHER_PAIR).wrapping_mul(100 + (1_000_000 << 32));
    let second = (pairs >> 16 & EVERY_OTHER_PAIR).wrapping_mul(1 + (10_000 << 32));
    first.wrapping_add(second) >> 32
}

/// The number that bytes begin with, of 19 digits at most, and what stands behind it.
#[inline(always)]
pub fn number(bytes: &[u8]) -> Option<(u64, &[u8])> {
    let Some(word) = first_word(bytes) else { return digit_by_digit(0, 0, bytes) };
    match digits_of(word) {
        0 => None,
        digits @ 1..=7 => Some((value_of(word, digits), &bytes[digits..])),
        _ => longer_number(value_of(word, 8), &bytes[8..]),
    }
}

/// The same where eight digits stand before the bytes.
#[inline(always)]
fn longer_number(front: u64, bytes: &[u8]) -> Option<(u64, &[u8])> {
    const POWERS_OF_TEN: [u64; 8] = [1, 10, 100, 1000, 10_000, 100_000, 1_000_000, 10_000_000];
    let Some(word) = first_word(bytes) else { return digit_by_digit(front, 8, bytes) };
    let (number, rest) = match digits_of(word) {
        0 => return Some((front, bytes)),
        digits @ 1..=7 => return Some((front * POWERS_OF_TEN[digits] + value_of(word, digits), &bytes[digits..])),
        _ => (front * 100_000_000 + value_of(word, 8), &bytes[8..]),
    };
    match rest {
        [b'0'..=b'9', ..] => digit_by_digit(number, 16, rest),
        _ => Some((number, rest)),
    }
}

/// The same where so many digits stand before the bytes.
#[inline(never)]
fn digit_by_digit(front: u64, digits: usize, bytes: &[u8]) -> Option<(u64, &[u8])> {
    let (mut number, mut rest) = (front, bytes);
    while let [digit @ b'0'..=b'9', after @ ..] = rest {
        number = number.wrapping_mul(10).wrapping_add(u64::from(digit - b'0'));
        rest = after;
    }
    (1..=19).contains(&(digits + bytes.len() - rest.len())).then_some((number, rest))
}

/// How many bytes of a text are plain: before a quote, a backslash, a line feed or what isn't ASCII.
#[inline(always)]
pub fn plain_text(bytes: &[u8]) -> Option<usize> {
    let mut rest = bytes;
    while let Some(word) = first_word(rest) {
        let flags = flags_of(b'"', word) | flags_of(b'\\', word) | flags_of(b'\n', word) | word & HIGHEST;
        if flags != 0 {
            return Some(bytes.len() - rest.len() + bytes_before(flags));
        }
        rest = &rest[8..];
    }
    let ends = |b: &u8| matches!(b, b'"' | b'\\' | b'\n' | 128..);
    rest.iter().position(ends).map(|place| bytes.len() - rest.len() + place)
}

/// The place of the first line feed.
pub fn line_end(bytes: &[u8]) -> Option<usize> {
    let mut rest = bytes;
    while let Some(word) = first_word(rest) {
        let flags = flags_of(b'\n', word);
        if flags != 0 {
            return Some(bytes.len() - rest.len() + bytes_before(flags));
        }
        rest = &rest[8..];
    }
    rest.iter().position(|b| *b == b'\n').map(|place| bytes.len() - rest.len() + place)
}
