// SPDX-License-Identifier: Apache-2.0
//! The rows that satisfy a predicate, found for 64 rows together, a bit for each.
use crate::bits::ones;
use crate::like::Pattern;
use crate::predicate::{Comparison, Node, Op};
use crate::table::{match_cells, Cells, Column, Strings};
use crate::values::{Kind, Scalar, Value};
use std::cmp::Ordering;

/// Some of 64 rows: of the others any truth may be told.
#[derive(Clone, Copy)]
struct Asked {
    block: usize,
    rows: u64,
}

/// Where a node is true among 64 rows and where it is false; on the others it is null.
#[derive(Clone, Copy)]
struct Truths {
    trues: u64,
    falses: u64,
}

const NULL: Truths = Truths { trues: 0, falses: 0 };

impl Truths {
    /// Truths that are null on some rows.
    fn but(nulls: u64, trues: u64) -> Truths {
        Truths { trues: trues & !nulls, falses: !(trues | nulls) }
    }

    fn nulls(self) -> u64 {
        !(self.trues | self.falses)
    }

    /// The other side of an AND is asked only of rows that this one doesn't decide.
    #[inline(always)]
    fn and(self, asked: Asked, other: impl FnOnce(Asked) -> Truths) -> Truths {
        let rows = asked.rows & !self.falses;
        if rows == 0 {
            return self;
        }
        let other = other(Asked { rows, ..asked });
        Truths { trues: self.trues & other.trues, falses: self.falses | other.falses }
    }

    /// The same of an OR.
    #[inline(always)]
    fn or(self, asked: Asked, other: impl FnOnce(Asked) -> Truths) -> Truths {
        let rows = asked.rows & !self.trues;
        if rows == 0 {
            return self;
        }
        let other = other(Asked { rows, ..asked });
        Truths { trues: self.trues | other.trues, falses: self.falses & other.falses }
    }

    fn turned_if(self, turns: bool) -> Truths {
        if turns { Truths { trues: self.falses, falses: self.trues } } else { self }
    }

    /// A comparison of truths, of which false is the lesser.
    fn compared(self, by: Comparison, other: Truths) -> Truths {
        let nulls = self.nulls() | other.nulls();
        let holds = holding(by, |order| match order {
            Ordering::Less => !self.trues & other.trues,
            Ordering::Equal => !(self.trues ^ other.trues),
            Ordering::Greater => self.trues & !other.trues,
        });
        Truths::but(nulls, holds)
    }
}

pub struct Test<'a> {
    pub columns: &'a [Column],
}

impl Test<'_> {
    /// Those of some rows of a block that satisfy a predicate.
    pub fn select(&self, predicate: &Node, block: usize, rows: u64) -> u64 {
        self.truths(predicate, Asked { block, rows }).trues & rows
    }

    fn truths(&self, e: &Node, asked: Asked) -> Truths {
        match &e.op {
            Op::And(sides) => {
                let [left, right] = &**sides;
                self.truths(left, asked).and(asked, |asked| self.truths(right, asked))
            }
            Op::Or(sides) => {
                let [left, right] = &**sides;
                self.truths(left, asked).or(asked, |asked| self.truths(right, asked))
            }
            Op::Not(x) => self.truths(x, asked).turned_if(true),
            Op::IsNull(x) => Truths::but(0, self.nulls(x, asked)),
            Op::IsNotNull(x) => Truths::but(0, !self.nulls(x, asked)),
            Op::Compare(by, sides) => self.compare(*by, &sides[0], &sides[1], asked),
            Op::Between(lower, upper, operands) => {
                let by = |strict: bool| if strict { Comparison::Lt } else { Comparison::Le };
                self.between(by(*lower), by(*upper), operands, asked)
            }
            Op::Like { negated, ignores_case, pattern, sides } => {
                self.like(*ignores_case, pattern.as_ref(), sides, asked).turned_if(*negated)
            }
            Op::Literal(Some(Value::Bool(b))) => Truths::but(0, if *b { u64::MAX } else { 0 }),
            Op::Literal(_) => NULL,
            Op::Column(place) => against(Comparison::Eq, &self.columns[*place], Scalar::Bool(true), asked),
        }
    }

    fn between(&self, lower: Comparison, upper: Comparison, [x, l, u]: &[Node; 3], asked: Asked) -> Truths {
        if x.dtype.kind != Kind::Bool {
            return self.compare(lower, l, x, asked).and(asked, |asked| self.compare(upper, x, u, asked));
        }
        // An operand with operands of its own is looked at once.
        let [x, l, u] = [x, l, u].map(|e| self.truths(e, asked));
        l.compared(lower, x).and(asked, |_| x.compared(upper, u))
    }

    fn nulls(&self, e: &Node, asked: Asked) -> u64 {
        match &e.op {
            Op::Column(place) => self.columns[*place].nulls_of(asked.block),
            Op::Literal(value) => if value.is_none() { u64::MAX } else { 0 },
            _ => self.truths(e, asked).nulls(),
        }
    }

    fn compare(&self, by: Comparison, left: &Node, right: &Node, asked: Asked) -> Truths {
        match (&left.op, &right.op) {
            (Op::Column(place), Op::Literal(Some(value))) => against(by, &self.columns[*place], value.scalar(), asked),
            (Op::Literal(Some(value)), Op::Column(place)) => {
                against(mirrored(by), &self.columns[*place], value.scalar(), asked)
            }
            _ if left.dtype.kind == Kind::Bool => self.truths(left, asked).compared(by, self.truths(right, asked)),
            _ => each(asked, |row| {
                let order = self.scalar(left, row)?.cmp(&self.scalar(right, row)?);
                Some(test(by)(order))
            }),
        }
    }

    fn like(&self, ignores_case: bool, pattern: Option<&Pattern>, sides: &[Node; 2], asked: Asked) -> Truths {
        let text = |e, row| match self.scalar(e, row)? {
            Scalar::Bytes(bytes) => Some(std::str::from_utf8(bytes).expect("a text")),
            _ => None,
        };
        each(asked, |row| match pattern {
            Some(pattern) => Some(pattern.matches(text(&sides[0], row)?)),
            None => Some(Pattern::read(text(&sides[1], row)?, ignores_case).matches(text(&sides[0], row)?)),
        })
    }

    /// The value of a column or a literal on a row.
    fn scalar<'b>(&'b self, e: &'b Node, row: usize) -> Option<Scalar<'b>> {
        let column = match &e.op {
            Op::Literal(value) => return value.as_ref().map(Value::scalar),
            Op::Column(place) => &self.columns[*place],
            _ => unreachable!("a column or a literal"),
        };
        if column.is_null(row) {
            return None;
        }
        Some(match &column.cells {
            Cells::Null => return None,
            Cells::Bool(values) => Scalar::Bool(values[row]),
            Cells::I8(values) => Scalar::Signed(values[row].into()),
            Cells::I16(values) => Scalar::Signed(values[row].into()),
            Cells::I32(values) => Scalar::Signed(values[row].into()),
            Cells::I64(values) => Scalar::Signed(values[row]),
            Cells::U8(values) => Scalar::Unsigned(values[row].into()),
            Cells::U16(values) => Scalar::Unsigned(values[row].into()),
            Cells::U32(values) => Scalar::Unsigned(values[row].into()),
            Cells::U64(values) => Scalar::Unsigned(values[row]),
            Cells::Texts(strings) | Cells::Bytes(strings) => Scalar::Bytes(strings.get(row)),
        })
    }
}

/// The truths of a test on the rows that are asked of.
#[inline(always)]
fn each(asked: Asked, test: impl Fn(usize) -> Option<bool>) -> Truths {
    let mut truths = NULL;
    for place in ones(asked.rows) {
        match test(64 * asked.block + place) {
            Some(true) => truths.trues |= 1 << place,
            Some(false) => truths.falses |= 1 << place,
            None => {}
        }
    }
    truths
}

/// A column compared with a literal of its type.
fn against(by: Comparison, column: &Column, literal: Scalar, asked: Asked) -> Truths {
    let Asked { block, rows } = asked;
    let nulls = column.nulls_of(block);
    let numbers = |literal: u64| {
        match_cells!(&column.cells, numbers values => compared(by, values, literal as _, block), _ => 0)
    };
    let holds = match (literal, &column.cells) {
        _ if rows & !nulls == 0 => 0,
        (Scalar::Signed(literal), _) => numbers(literal as u64),
        (Scalar::Unsigned(literal), _) => numbers(literal),
        (Scalar::Bool(literal), Cells::Bool(values)) => compared(by, values, literal, block),
        (Scalar::Bytes(literal), Cells::Texts(strings) | Cells::Bytes(strings)) => {
            strings_compared(by, strings, literal, Asked { block, rows: rows & !nulls })
        }
        _ => unreachable!("operands of one type"),
    };
    Truths::but(nulls, holds)
}

/// The values of a block that compare so with a literal.
fn compared<T: Copy + Ord + Default>(by: Comparison, values: &[T], literal: T, block: usize) -> u64 {
    let values = &values[64 * block..];
    let mut padded = [T::default(); 64];
    let values = values.first_chunk().unwrap_or_else(|| {
        padded[..values.len()].copy_from_slice(values);
        &padded
    });
    holding(by, |order| match order {
        Ordering::Less => passing(values, |value| value < literal),
        Ordering::Equal => passing(values, |value| value == literal),
        Ordering::Greater => passing(values, |value| value > literal),
    })
}

/// The values that pass a test: first a byte for each, which vector instructions find, and then the lowest bits of
/// eight bytes, which a product gathers in its highest byte.
#[inline(always)]
fn passing<T: Copy>(values: &[T; 64], test: impl Fn(T) -> bool) -> u64 {
    const GATHERING: u64 = 0x0102_0408_1020_4080;
    let mut bytes = [0; 64];
    for (byte, value) in bytes.iter_mut().zip(values) {
        *byte = u8::from(test(*value));
    }
    let gathered = |eight: &[u8; 8]| u64::from_le_bytes(*eight).wrapping_mul(GATHERING) >> 56;
    bytes.as_chunks().0.iter().rev().fold(0, |bits, eight| bits << 8 | gathered(eight))
}

/// The texts or bytes that compare so with a literal. Mostly their first eight bytes tell.
fn strings_compared(by: Comparison, strings: &Strings, literal: &[u8], asked: Asked) -> u64 {
    let front = front_of(literal);
    let test = test(by);
    each(asked, |row| {
        let bytes = strings.get(row);
        let order = front_of(bytes).cmp(&front).then_with(|| bytes.cmp(literal));
        Some(test(order))
    })
    .trues
}

/// The first eight bytes as a number that is ordered as they are; zeros stand for those that aren't there.
#[inline(always)]
fn front_of(bytes: &[u8]) -> u64 {
    let mut front = [0; 8];
    let len = bytes.len().min(8);
    front[..len].copy_from_slice(&bytes[..len]);
    u64::from_be_bytes(front)
}

/// Where a comparison holds, of where values have an order: a comparison is one of the three, or all but one.
#[inline(always)]
fn holding(by: Comparison, of: impl Fn(Ordering) -> u64) -> u64 {
    match by {
        Comparison::Eq => of(Ordering::Equal),
        Comparison::Ne => !of(Ordering::Equal),
        Comparison::Gt => of(Ordering::Greater),
        Comparison::Ge => !of(Ordering::Less),
        Comparison::Lt => of(Ordering::Less),
        Comparison::Le => !of(Ordering::Greater),
    }
}

fn test(by: Comparison) -> fn(Ordering) -> bool {
    match by {
        Comparison::Eq => Ordering::is_eq,
        Comparison::Ne => Ordering::is_ne,
        Comparison::Gt => Ordering::is_gt,
        Comparison::Ge => Ordering::is_ge,
        Comparison::Lt => Ordering::is_lt,
        Comparison::Le => Ordering::is_le,
    }
}

fn mirrored(by: Comparison) -> Comparison {
    match by {
        Comparison::Gt => Comparison::Lt,
        Comparison::Ge => Comparison::Le,
        Comparison::Lt => Comparison::Gt,
        Comparison::Le => Comparison::Ge,
        same => same,
    }
}
