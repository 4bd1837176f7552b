// SPDX-License-Identifier: Apache-2.0
//! Statistics and their values.
use crate::column::{DType, Kind};
use std::fmt;

/// A kind of statistic. The numbers are the header's.
#[derive(Clone, Copy, Debug, PartialEq, Eq, Hash)]
#[repr(u8)]
pub enum Stat {
    IsConstant,
    IsSorted,
    IsStrictSorted,
    Max,
    Min,
    Sum,
    NullCount,
    UncompressedSizeInBytes,
}

impl Stat {
    /// Every statistic, by the header's numbers.
    pub const EVERY: [Stat; 8] = [
        Stat::IsConstant,
        Stat::IsSorted,
        Stat::IsStrictSorted,
        Stat::Max,
        Stat::Min,
        Stat::Sum,
        Stat::NullCount,
        Stat::UncompressedSizeInBytes,
    ];

    /// Returns the kind of the statistic's value in a column of this type; `None` where the type has no such statistic.
    #[must_use]
    pub fn kind(self, dtype: DType) -> Option<Kind> {
        match self {
            Stat::IsConstant | Stat::IsSorted | Stat::IsStrictSorted => Some(Kind::Bool),
            Stat::Max | Stat::Min => (dtype.kind != Kind::Null).then_some(dtype.kind),
            Stat::Sum => match dtype.kind {
                Kind::Bool | Kind::U8 | Kind::U16 | Kind::U32 | Kind::U64 => Some(Kind::U64),
                Kind::I8 | Kind::I16 | Kind::I32 | Kind::I64 => Some(Kind::I64),
                Kind::Null | Kind::Utf8 | Kind::Binary => None,
            },
            Stat::NullCount | Stat::UncompressedSizeInBytes => Some(Kind::U64),
        }
    }
}

impl fmt::Display for Stat {
    /// Writes the statistic's word in the language of the program.
    fn fmt(&self, f: &mut fmt::Formatter<'_>) -> fmt::Result {
        f.write_str(match self {
            Stat::IsConstant => "is_constant",
            Stat::IsSorted => "is_sorted",
            Stat::IsStrictSorted => "is_strict_sorted",
            Stat::Max => "max",
            Stat::Min => "min",
            Stat::Sum => "sum",
            Stat::NullCount => "null_count",
            Stat::UncompressedSizeInBytes => "uncompressed_size_in_bytes",
        })
    }
}

/// How a statistic's value is known.
#[derive(Clone, Copy, Debug, PartialEq, Eq, Hash)]
pub enum Precision<T> {
    Absent,
    Exact(T),
    /// A bound: at least the greatest value or the count, at most the least value; of other statistics it says
    /// nothing.
    Inexact(T),
}

impl Precision<Value> {
    // How it is known, and its bytes; what is absent takes the same room. `None` where the value isn't of this kind.
    pub(crate) fn bytes(&self, kind: Kind) -> Option<(u8, Vec<u8>)> {
        Some(match self {
            Precision::Absent => (0, vec![0; kind.width().unwrap_or(0)]),
            Precision::Exact(value) => (1, value.bytes(kind)?),
            Precision::Inexact(value) => (2, value.bytes(kind)?),
        })
    }
}

/// A value of a column or a statistic.
#[derive(Clone, Debug, PartialEq, Eq, Hash)]
pub enum Value {
    Bool(bool),
    /// A number of a type without a sign.
    Unsigned(u64),
    /// A number of a type with one.
    Signed(i64),
    Utf8(String),
    Binary(Vec<u8>),
}

impl Value {
    // The value of a kind that the library wrote.
    pub(crate) fn read(kind: Kind, bytes: &[u8]) -> Option<Value> {
        let unsigned = || {
            let mut all = [0; 8];
            all.get_mut(..bytes.len())?.copy_from_slice(bytes);
            Some(u64::from_le_bytes(all))
        };
        Some(match kind {
            Kind::Null => return None,
            Kind::Bool => Value::Bool(*bytes.first()? != 0),
            Kind::U8 | Kind::U16 | Kind::U32 | Kind::U64 => Value::Unsigned(unsigned()?),
            Kind::I8 | Kind::I16 | Kind::I32 | Kind::I64 => {
                let shift = 64 - 8 * u32::try_from(bytes.len()).ok()?;
                Value::Signed((unsigned()? << shift).cast_signed() >> shift)
            }
            Kind::Utf8 => Value::Utf8(String::from_utf8(bytes.to_vec()).ok()?),
            Kind::Binary => Value::Binary(bytes.to_vec()),
        })
    }

    // The bytes of a value of a kind.
    fn bytes(&self, kind: Kind) -> Option<Vec<u8>> {
        let width = kind.width();
        match (self, kind) {
            (Value::Bool(truth), Kind::Bool) => Some(vec![u8::from(*truth)]),
            (Value::Utf8(text), Kind::Utf8) => Some(text.as_bytes().to_vec()),
            (Value::Binary(bytes), Kind::Binary) => Some(bytes.clone()),
            (Value::Unsigned(number), Kind::U8 | Kind::U16 | Kind::U32 | Kind::U64) => {
                let bytes = number.to_le_bytes();
                bytes[width?..].iter().all(|byte| *byte == 0).then(|| bytes[..width.unwrap_or(8)].to_vec())
            }
            (Value::Signed(number), Kind::I8 | Kind::I16 | Kind::I32 | Kind::I64) => {
                let bytes = number.to_le_bytes()[..width?].to_vec();
                (Value::read(kind, &bytes) == Some(self.clone())).then_some(bytes)
            }
            _ => None,
        }
    }
}
