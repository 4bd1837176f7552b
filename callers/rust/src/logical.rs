// SPDX-License-Identifier: Apache-2.0
//! Logical types: what a column's values mean, over the kinds of values that the library knows.
use crate::column::{DType, Kind};
use crate::literal::Literal;
use crate::stat::Stat;
use crate::time::Unit;
use std::fmt;
use std::str::FromStr;

/// A type of values that stand as values of a kind, in their own order. `docs/TYPES.md` says of each how.
#[derive(Clone, Debug, PartialEq, Eq, Hash)]
pub enum Logical {
    /// Days since 1970-01-01, as `i32`.
    Date,
    /// Units since midnight, as `i64`.
    Time(Unit),
    /// Units since 1970-01-01 00:00:00 as `i64`: in UTC where the column has a zone, which says how they are shown.
    Timestamp(Unit, Option<String>),
    /// A number of `precision` digits, at most 18, `scale` of them behind the point, as `i64`.
    Decimal { precision: u8, scale: u8 },
    /// A floating number in the order of its bits, as `i32`.
    Float32,
    /// A floating number in the order of its bits, as `i64`.
    Float64,
    /// 16 bytes.
    Uuid,
    /// So many bytes.
    FixedBinary(u32),
    /// A text of a list.
    Enum,
    /// A type without a mapping, of whose values nothing is known but which are null.
    Unmapped(String),
}

impl Logical {
    /// Returns the kind of values that the type is mapped onto.
    #[must_use]
    pub fn kind(&self) -> Kind {
        match self {
            Logical::Date | Logical::Float32 => Kind::I32,
            Logical::Time(_) | Logical::Timestamp(..) | Logical::Decimal { .. } | Logical::Float64 => Kind::I64,
            Logical::Uuid | Logical::FixedBinary(_) | Logical::Unmapped(_) => Kind::Binary,
            Logical::Enum => Kind::Utf8,
        }
    }

    /// Returns the type of a column of such values.
    #[must_use]
    pub fn dtype(&self, nullable: bool) -> DType {
        DType { kind: self.kind(), nullable }
    }

    // The kind, the unit, the digits and those behind the point by which the library knows the type in SQL, if it does.
    pub(crate) fn field(&self) -> Option<[u8; 4]> {
        match self {
            Logical::Date => Some([12, 0, 0, 0]),
            Logical::Time(unit) => Some([13, unit.number(), 0, 0]),
            Logical::Timestamp(unit, None) => Some([14, unit.number(), 0, 0]),
            Logical::Timestamp(unit, Some(_)) => Some([15, unit.number(), 0, 0]),
            Logical::Decimal { precision, scale } => Some([16, 0, *precision, *scale]),
            Logical::Float32
            | Logical::Float64
            | Logical::Uuid
            | Logical::FixedBinary(_)
            | Logical::Enum
            | Logical::Unmapped(_) => None,
        }
    }

    // Whether a column of the type has a statistic. Only decimals have a sum of their own.
    pub(crate) fn has(&self, stat: Stat) -> bool {
        match self {
            Logical::Unmapped(_) => stat == Stat::NullCount,
            Logical::Decimal { .. } => true,
            _ => stat != Stat::Sum,
        }
    }

    // Whether a plain value is one of the type by itself: 16 bytes of a UUID, bytes of a column of one length, a text of an
    // enumeration. A number is none, as it says nothing of its unit.
    pub(crate) fn takes(&self, literal: &Literal) -> bool {
        match (self, literal) {
            (Logical::Uuid, Literal::Binary(bytes)) => bytes.len() == 16,
            (Logical::FixedBinary(_), Literal::Binary(_)) | (Logical::Enum, Literal::Utf8(_)) => true,
            _ => false,
        }
    }

    // Whether two columns of the type may be compared as they stand: not where nothing says what NaN means, and not where
    // no values are known.
    pub(crate) fn compares_as_it_stands(&self) -> bool {
        !matches!(self, Logical::Float32 | Logical::Float64 | Logical::Unmapped(_))
    }

    // Whether the order of the numbers, texts or bytes is that of the values.
    pub(crate) fn has_order(&self) -> bool {
        !matches!(self, Logical::Enum | Logical::Unmapped(_))
    }

    // Whether values of both types are mapped alike: a zone's name and a number of digits have no part in it.
    pub(crate) fn is_mapped_as(&self, other: &Logical) -> bool {
        match (self, other) {
            (Logical::Timestamp(a, zone), Logical::Timestamp(b, other)) => a == b && zone.is_some() == other.is_some(),
            (Logical::Decimal { scale: a, .. }, Logical::Decimal { scale: b, .. }) => a == b,
            _ => self == other,
        }
    }
}

impl fmt::Display for Logical {
    /// Writes the type's word in a file of footers.
    fn fmt(&self, f: &mut fmt::Formatter<'_>) -> fmt::Result {
        match self {
            Logical::Date => f.write_str("date"),
            Logical::Time(unit) => write!(f, "time[{}]", unit.word()),
            Logical::Timestamp(unit, None) => write!(f, "timestamp[{}]", unit.word()),
            Logical::Timestamp(unit, Some(zone)) => write!(f, "timestamp[{}, {zone}]", unit.word()),
            Logical::Decimal { precision, scale } => write!(f, "decimal({precision}, {scale})"),
            Logical::Float32 => f.write_str("float32"),
            Logical::Float64 => f.write_str("float64"),
            Logical::Uuid => f.write_str("uuid"),
            Logical::FixedBinary(size) => write!(f, "fixed_binary({size})"),
            Logical::Enum => f.write_str("enum"),
            Logical::Unmapped(name) => write!(f, "unmapped({name})"),
        }
    }
}

/// A word that names no logical type.
#[derive(Clone, Debug, PartialEq, Eq)]
pub struct NoLogical(pub String);

impl fmt::Display for NoLogical {
    fn fmt(&self, f: &mut fmt::Formatter<'_>) -> fmt::Result {
        write!(f, "there is no logical type {}", self.0)
    }
}

impl std::error::Error for NoLogical {}

impl FromStr for Logical {
    type Err = NoLogical;

    /// Reads the word that [`Logical`] is written as.
    fn from_str(word: &str) -> Result<Self, NoLogical> {
        let found = match word {
            "date" => Some(Logical::Date),
            "float32" => Some(Logical::Float32),
            "float64" => Some(Logical::Float64),
            "uuid" => Some(Logical::Uuid),
            "enum" => Some(Logical::Enum),
            _ => with_fields(word),
        };
        // One word is one type: what would be written otherwise is none.
        found.filter(|it| it.to_string() == word).ok_or_else(|| NoLogical(word.to_owned()))
    }
}

fn with_fields(word: &str) -> Option<Logical> {
    let (kind, rest) = word.split_at(word.find(['[', '('])?);
    let fields = rest.strip_prefix('[').and_then(|it| it.strip_suffix(']')).or_else(|| between_parentheses(rest))?;
    let unit = |word: &str| Unit::EVERY.into_iter().find(|unit| unit.word() == word);
    Some(match kind {
        "time" => Logical::Time(unit(fields)?),
        "timestamp" => match fields.split_once(", ") {
            None => Logical::Timestamp(unit(fields)?, None),
            Some((word, zone)) if is_zone(zone) => Logical::Timestamp(unit(word)?, Some(zone.to_owned())),
            Some(_) => return None,
        },
        "decimal" => {
            let (precision, scale) = fields.split_once(", ")?;
            let (precision, scale) = (precision.parse().ok()?, scale.parse().ok()?);
            return (1..=18)
                .contains(&precision)
                .then_some(Logical::Decimal { precision, scale })
                .filter(|_| scale <= precision);
        }
        "fixed_binary" => Logical::FixedBinary(fields.parse().ok().filter(|size| *size < 1_000_000_000)?),
        "unmapped" => Logical::Unmapped(fields.to_owned()),
        _ => return None,
    })
}

fn between_parentheses(text: &str) -> Option<&str> {
    text.strip_prefix('(')?.strip_suffix(')')
}

fn is_zone(text: &str) -> bool {
    !text.is_empty() && text.bytes().all(|byte| byte.is_ascii_graphic())
}
