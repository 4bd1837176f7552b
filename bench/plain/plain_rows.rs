// SPDX-License-Identifier: Apache-2.0
//! Rows and values in plain form, read from their bytes: one space before each value, and ASCII alone in texts.
use crate::bits::Bits;
use crate::table::{match_cells, Cells, Column, Strings};
use crate::values::{Kind, Scalar};
use crate::words;

/// A type of whole numbers.
pub trait Whole: Copy + Ord + Default {
    const IS_SIGNED: bool;

    /// The number of a size, where the type has it.
    fn of(size: u64, is_negative: bool) -> Option<Self>;
}

macro_rules! whole {
    ($is_signed:literal: $($number:ty)*) => {
        $(impl Whole for $number {
            const IS_SIGNED: bool = $is_signed;

            #[inline(always)]
            fn of(size: u64, is_negative: bool) -> Option<$number> {
                if size > <$number>::MAX as u64 + u64::from($is_signed && is_negative) {
                    return None;
                }
                let number = size as $number;
                Some(if $is_signed && is_negative { number.wrapping_neg() } else { number })
            }
        })*
    };
}

whole!(true: i8 i16 i32 i64);
whole!(false: u8 u16 u32 u64);

/// The number that a line begins with, and what stands behind it.
#[inline(always)]
pub fn whole<T: Whole>(line: &[u8]) -> Option<(T, &[u8])> {
    let is_negative = T::IS_SIGNED && line.first() == Some(&b'-');
    let (size, rest) = words::number(&line[usize::from(is_negative)..])?;
    Some((T::of(size, is_negative)?, rest))
}

#[inline(always)]
fn truth(line: &[u8]) -> Option<(bool, &[u8])> {
    match line.strip_prefix(b"true") {
        Some(rest) => Some((true, rest)),
        None => Some((false, line.strip_prefix(b"false")?)),
    }
}

/// The number, truth or text that a line begins with, where it has plain form, and what stands behind it.
#[inline(always)]
pub fn value(line: &[u8], kind: Kind) -> Option<(Scalar<'_>, &[u8])> {
    match (kind, line) {
        (Kind::Signed(bits), _) => {
            let (number, rest) = whole::<i64>(line)?;
            matches!(number >> (bits - 1), 0 | -1).then_some((Scalar::Signed(number), rest))
        }
        (Kind::Unsigned(bits), _) => {
            let (number, rest) = whole::<u64>(line)?;
            (number <= u64::MAX >> (64 - bits)).then_some((Scalar::Unsigned(number), rest))
        }
        (Kind::Bool, _) => truth(line).map(|(b, rest)| (Scalar::Bool(b), rest)),
        (Kind::Utf8, [b'"', text @ ..]) => {
            let (text, rest) = text.split_at(words::plain_text(text)?);
            Some((Scalar::Bytes(text), rest.strip_prefix(b"\"")?))
        }
        _ => None,
    }
}

/// Pushes the rows in plain form that lines begin with, the first of them at a place. What stands behind them is
/// answered, how many they are, and whether none of the next row's values were pushed.
pub fn push<'a>(columns: &mut [Column], first: usize, text: &'a [u8]) -> (&'a [u8], usize, bool) {
    if let [Column { cells, nulls, dtype, .. }] = columns {
        let nulls = dtype.nullable.then_some(nulls);
        match_cells!(cells, numbers values => return push_numbers(values, nulls, text), _ => {});
    }
    let (mut rest, mut rows) = (text, 0);
    while let Some(after) = behind_row(rest) {
        let Some(after) = push_row(columns, first + rows, after) else { return (rest, rows, false) };
        rest = after;
        rows += 1;
    }
    (rest, rows, true)
}

/// What stands behind the word `row`, where a space follows it.
#[inline(always)]
fn behind_row(text: &[u8]) -> Option<&[u8]> {
    (text.first_chunk()? == b"row ").then(|| &text[3..])
}

/// Pushes the rows of an only column of numbers, of which each has all of its values or none.
fn push_numbers<'a, T: Whole>(
    values: &mut Vec<T>,
    mut nulls: Option<&mut Bits>,
    text: &'a [u8],
) -> (&'a [u8], usize, bool) {
    let (mut rest, first) = (text, values.len());
    while let Some([b' ', value @ ..]) = behind_row(rest) {
        let after = match (whole(value), &mut nulls) {
            (Some((number, [b'\n', after @ ..])), _) => {
                values.push(number);
                after
            }
            (None, Some(nulls)) => {
                let Some(after) = value.strip_prefix(b"null\n") else { break };
                nulls.put(values.len());
                values.push(T::default());
                after
            }
            _ => break,
        };
        rest = after;
    }
    (rest, values.len() - first, true)
}

/// Pushes the values of a row up to the end of its line.
#[inline(always)]
fn push_row<'a>(columns: &mut [Column], row: usize, values: &'a [u8]) -> Option<&'a [u8]> {
    let mut rest = values;
    for column in columns {
        // Asked once, so that neither a space, a sign and eight digits nor a word is looked for behind the end.
        if rest.len() < 10 {
            return None;
        }
        let [b' ', value @ ..] = rest else { return None };
        rest = push_value(column, row, value)?;
    }
    rest.strip_prefix(b"\n")
}

/// Pushes the value that a line begins with, and answers what stands behind it.
#[inline(always)]
fn push_value<'a>(column: &mut Column, row: usize, line: &'a [u8]) -> Option<&'a [u8]> {
    if column.dtype.nullable {
        if let [b'n', b'u', b'l', b'l', rest @ ..] = line {
            column.push_null(row);
            return Some(rest);
        }
    }
    match_cells!(
        &mut column.cells,
        numbers values => {
            let (number, rest) = whole(line)?;
            values.push(number);
            Some(rest)
        },
        Cells::Bool(values) => {
            let (b, rest) = truth(line)?;
            values.push(b);
            Some(rest)
        }
        Cells::Texts(texts) => push_text(texts, line.strip_prefix(b"\"")?),
        Cells::Bytes(bytes) => Some(push_bytes(bytes, line.strip_prefix(b"x")?)),
        Cells::Null => None,
    )
}

/// Pushes a text up to its quote.
#[inline(always)]
fn push_text<'a>(texts: &mut Strings, text: &'a [u8]) -> Option<&'a [u8]> {
    let mut rest = text;
    loop {
        let end = words::plain_text(rest)?;
        texts.heap.extend_from_slice(&rest[..end]);
        match &rest[end..] {
            [b'"', after @ ..] => {
                texts.end();
                return Some(after);
            }
            [b'\\', escaped @ (b'"' | b'\\'), after @ ..] => {
                texts.heap.push(*escaped);
                rest = after;
            }
            _ => return None,
        }
    }
}

/// Pushes the bytes of which a line begins with the digits.
#[inline(always)]
fn push_bytes<'a>(bytes: &mut Strings, digits: &'a [u8]) -> &'a [u8] {
    let mut rest = digits;
    while let [high, low, after @ ..] = rest {
        let (high, low) = (DIGITS[usize::from(*high)], DIGITS[usize::from(*low)]);
        if high | low > 15 {
            break;
        }
        bytes.heap.push(high << 4 | low);
        rest = after;
    }
    bytes.end();
    rest
}

/// The value of each byte that is a hexadecimal digit, and 16 of each other.
const DIGITS: [u8; 256] = {
    let mut table = [16; 256];
    let mut b = 0;
    while b < 256 {
        if let Some(value) = (b as u8 as char).to_digit(16) {
            table[b] = value as u8;
        }
        b += 1;
    }
    table
};
