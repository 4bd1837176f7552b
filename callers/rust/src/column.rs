// SPDX-License-Identifier: Apache-2.0
//! Types, and columns of values that are lent.
use crate::error::{Error, Place};
use crate::raw;
use std::marker::PhantomData;

/// A kind of values. The numbers are the header's.
#[derive(Clone, Copy, Debug, PartialEq, Eq, Hash)]
#[repr(u8)]
pub enum Kind {
    Null,
    Bool,
    U8,
    U16,
    U32,
    U64,
    I8,
    I16,
    I32,
    I64,
    Utf8,
    Binary,
}

impl Kind {
    /// Every kind, by the header's numbers.
    pub const EVERY: [Kind; 12] = [
        Kind::Null,
        Kind::Bool,
        Kind::U8,
        Kind::U16,
        Kind::U32,
        Kind::U64,
        Kind::I8,
        Kind::I16,
        Kind::I32,
        Kind::I64,
        Kind::Utf8,
        Kind::Binary,
    ];

    /// Returns how many bytes each value takes; `None` of texts and bytes.
    #[must_use]
    pub fn width(self) -> Option<usize> {
        match self {
            Kind::Null => Some(0),
            Kind::Bool | Kind::U8 | Kind::I8 => Some(1),
            Kind::U16 | Kind::I16 => Some(2),
            Kind::U32 | Kind::I32 => Some(4),
            Kind::U64 | Kind::I64 => Some(8),
            Kind::Utf8 | Kind::Binary => None,
        }
    }
}

impl std::fmt::Display for Kind {
    /// Writes the kind's word in the language of predicates.
    fn fmt(&self, f: &mut std::fmt::Formatter<'_>) -> std::fmt::Result {
        f.write_str(match self {
            Kind::Null => "null",
            Kind::Bool => "bool",
            Kind::U8 => "u8",
            Kind::U16 => "u16",
            Kind::U32 => "u32",
            Kind::U64 => "u64",
            Kind::I8 => "i8",
            Kind::I16 => "i16",
            Kind::I32 => "i32",
            Kind::I64 => "i64",
            Kind::Utf8 => "utf8",
            Kind::Binary => "binary",
        })
    }
}

/// The type of a column: a kind of values, and whether null is one of them.
#[derive(Clone, Copy, Debug, PartialEq, Eq, Hash)]
pub struct DType {
    pub kind: Kind,
    /// Whether null is a value; of [`Kind::Null`] it is in any case.
    pub nullable: bool,
}

impl DType {
    // Whether both types have the same values.
    pub(crate) fn is_same(self, other: DType) -> bool {
        self.kind == other.kind && (self.kind == Kind::Null || self.nullable == other.nullable)
    }

    // Whether no value of the type is null.
    pub(crate) fn is_without_null(self) -> bool {
        self.kind != Kind::Null && !self.nullable
    }
}

/// Numbers that stand in memory as the library reads them.
pub trait Number: Copy + private::Sealed {
    const KIND: Kind;
}

mod private {
    pub trait Sealed {}
}

macro_rules! numbers {
    ($($number:ty => $kind:ident),*) => {
        $(impl private::Sealed for $number {}
        impl Number for $number {
            const KIND: Kind = Kind::$kind;
        })*
    };
}

numbers!(u8 => U8, u16 => U16, u32 => U32, u64 => U64, i8 => I8, i16 => I16, i32 => I32, i64 => I64);

/// A column of values that the caller keeps: numbers, truths, or texts and bytes with their ends.
#[derive(Clone, Copy, Debug)]
pub struct Column<'a> {
    dtype: DType,
    rows: usize,
    size: u64,
    start: u64,
    values: &'a [u8],
    ends: &'a [u64],
    nulls: &'a [u8],
}

impl<'a> Column<'a> {
    fn new(kind: Kind, rows: usize, values: &'a [u8], ends: &'a [u64]) -> Self {
        let dtype = DType { kind, nullable: false };
        Column { dtype, rows, size: values.len() as u64, start: 0, values, ends, nulls: &[] }
    }

    /// Lends a column of numbers.
    #[must_use]
    pub fn numbers<T: Number>(numbers: &'a [T]) -> Self {
        // SAFETY: a `Number` is an integer, whose bytes may be read as such. On machines that keep the lowest byte
        // first, they are in the order that the library reads.
        let bytes =
            unsafe { std::slice::from_raw_parts(numbers.as_ptr().cast::<u8>(), std::mem::size_of_val(numbers)) };
        Column::new(T::KIND, numbers.len(), bytes, &[])
    }

    /// Lends a column of truths.
    #[must_use]
    pub fn truths(truths: &'a [bool]) -> Self {
        // SAFETY: a `bool` is one byte, 0 or 1.
        let bytes = unsafe { std::slice::from_raw_parts(truths.as_ptr().cast::<u8>(), truths.len()) };
        Column::new(Kind::Bool, truths.len(), bytes, &[])
    }

    /// Lends a column of texts, which stand in one heap: text i runs from the end before it to `ends[i]`.
    #[must_use]
    pub fn texts(heap: &'a str, ends: &'a [u64]) -> Self {
        Column::new(Kind::Utf8, ends.len(), heap.as_bytes(), ends)
    }

    /// Lends a column of byte strings, which stand in one heap as texts do.
    #[must_use]
    pub fn binary(heap: &'a [u8], ends: &'a [u64]) -> Self {
        Column::new(Kind::Binary, ends.len(), heap, ends)
    }

    /// Makes a column of so many nulls, of the type that has no other value.
    #[must_use]
    pub fn nulls(rows: usize) -> Self {
        let column = Column::new(Kind::Null, rows, &[], &[]);
        Column { dtype: DType { kind: Kind::Null, nullable: true }, ..column }
    }

    /// Makes the column nullable. A byte for each row says which are null: 0 for a value. Of no bytes no row is null.
    ///
    /// Any other number of bytes is refused by the calls that take the column, with `BadLength`.
    #[must_use]
    pub fn with_nulls(self, nulls: &'a [u8]) -> Self {
        let dtype = DType { nullable: true, ..self.dtype };
        Column { dtype, nulls, ..self }
    }

    /// Declares another size in bytes, which `UncompressedSizeInBytes` tells.
    #[must_use]
    pub fn with_size(self, size: u64) -> Self {
        Column { size, ..self }
    }

    /// Returns the type of the values.
    #[must_use]
    pub fn dtype(&self) -> DType {
        self.dtype
    }

    /// Returns the number of values.
    #[must_use]
    pub fn rows(&self) -> usize {
        self.rows
    }

    // Refuses an array of nulls that isn't of the rows.
    pub(crate) fn checked(&self) -> Result<(), Error> {
        match self.nulls.len() {
            0 => Ok(()),
            len if len == self.rows => Ok(()),
            len => Err(Error::BadLength(Place { row: Some(len.min(self.rows)), ..Place::default() })),
        }
    }

    pub(crate) fn raw(&self) -> raw::Values<'a> {
        raw::Values {
            kind: self.dtype.kind as u8,
            nullable: u8::from(self.dtype.nullable),
            rows: self.rows,
            size: self.size,
            start: self.start,
            values: self.values.as_ptr(),
            values_len: self.values.len(),
            ends: self.ends.as_ptr(),
            ends_len: self.ends.len(),
            nulls: self.nulls.as_ptr(),
            nulls_len: self.nulls.len(),
            lent: PhantomData,
        }
    }
}
