// SPDX-License-Identifier: Apache-2.0
//! Constants, and what a column is compared with.
use crate::column::Kind;
use std::fmt;

/// A comparison.
#[derive(Clone, Copy, Debug, PartialEq, Eq, Hash)]
pub enum Operator {
    Eq,
    Ne,
    Gt,
    Ge,
    Lt,
    Le,
}

/// What a column is compared with.
#[derive(Clone, Debug, PartialEq, Eq)]
pub enum Operand {
    Column(String),
    Literal(Literal),
}

/// A constant, which has to be of the kind of the column that it is compared with.
#[derive(Clone, Debug, PartialEq, Eq)]
pub enum Literal {
    Bool(bool),
    /// A number of a kind without a sign, and its kind.
    Unsigned(Kind, u64),
    /// A number of a kind with one, and its kind.
    Signed(Kind, i64),
    Utf8(String),
    Binary(Vec<u8>),
    /// Null as a value of a kind.
    Null(Kind),
}

impl Literal {
    /// Returns the kind of values that the constant is one of.
    #[must_use]
    pub fn kind(&self) -> Kind {
        match self {
            Literal::Bool(_) => Kind::Bool,
            Literal::Unsigned(kind, _) | Literal::Signed(kind, _) | Literal::Null(kind) => *kind,
            Literal::Utf8(_) => Kind::Utf8,
            Literal::Binary(_) => Kind::Binary,
        }
    }

    /// Whether the constant is a value of the kind that it names, as `Literal::Unsigned(Kind::U8, 300)` is not.
    #[must_use]
    pub fn is_of_its_kind(&self) -> bool {
        match *self {
            Literal::Unsigned(Kind::U8, number) => u8::try_from(number).is_ok(),
            Literal::Unsigned(Kind::U16, number) => u16::try_from(number).is_ok(),
            Literal::Unsigned(Kind::U32, number) => u32::try_from(number).is_ok(),
            Literal::Unsigned(kind, _) => kind == Kind::U64,
            Literal::Signed(Kind::I8, number) => i8::try_from(number).is_ok(),
            Literal::Signed(Kind::I16, number) => i16::try_from(number).is_ok(),
            Literal::Signed(Kind::I32, number) => i32::try_from(number).is_ok(),
            Literal::Signed(kind, _) => kind == Kind::I64,
            Literal::Bool(_) | Literal::Utf8(_) | Literal::Binary(_) | Literal::Null(_) => true,
        }
    }
}

macro_rules! literals {
    ($($number:ty => $case:ident $kind:ident),*) => {
        $(impl From<$number> for Literal {
            fn from(number: $number) -> Self {
                Literal::$case(Kind::$kind, number.into())
            }
        })*
    };
}

literals!(u8 => Unsigned U8, u16 => Unsigned U16, u32 => Unsigned U32, u64 => Unsigned U64);
literals!(i8 => Signed I8, i16 => Signed I16, i32 => Signed I32, i64 => Signed I64);

impl From<bool> for Literal {
    fn from(truth: bool) -> Self {
        Literal::Bool(truth)
    }
}

impl From<&str> for Literal {
    fn from(text: &str) -> Self {
        Literal::Utf8(text.to_owned())
    }
}

impl From<String> for Literal {
    fn from(text: String) -> Self {
        Literal::Utf8(text)
    }
}

impl From<&[u8]> for Literal {
    fn from(bytes: &[u8]) -> Self {
        Literal::Binary(bytes.to_vec())
    }
}

impl From<Vec<u8>> for Literal {
    fn from(bytes: Vec<u8>) -> Self {
        Literal::Binary(bytes)
    }
}

impl<const N: usize> From<[u8; N]> for Literal {
    fn from(bytes: [u8; N]) -> Self {
        Literal::Binary(bytes.to_vec())
    }
}

impl<T: Clone + Into<Literal>> From<&T> for Literal {
    fn from(value: &T) -> Self {
        value.clone().into()
    }
}

impl<T: Into<Literal>> From<T> for Operand {
    fn from(value: T) -> Self {
        Operand::Literal(value.into())
    }
}

impl fmt::Display for Operator {
    fn fmt(&self, f: &mut fmt::Formatter<'_>) -> fmt::Result {
        f.write_str(match self {
            Operator::Eq => "eq",
            Operator::Ne => "ne",
            Operator::Gt => "gt",
            Operator::Ge => "ge",
            Operator::Lt => "lt",
            Operator::Le => "le",
        })
    }
}

/// Writes a text between quotes, with a backslash before each quote and backslash of it.
pub(crate) fn quoted(text: &str, out: &mut dyn fmt::Write) -> fmt::Result {
    out.write_char('"')?;
    for piece in text.split_inclusive(['"', '\\']) {
        match piece.strip_suffix(['"', '\\']) {
            Some(plain) => write!(out, "{plain}\\{}", &piece[plain.len()..])?,
            None => out.write_str(piece)?,
        }
    }
    out.write_char('"')
}

impl fmt::Display for Literal {
    fn fmt(&self, f: &mut fmt::Formatter<'_>) -> fmt::Result {
        match self {
            Literal::Bool(truth) => write!(f, "lit bool {truth}"),
            Literal::Unsigned(kind, number) => write!(f, "lit {kind} {number}"),
            Literal::Signed(kind, number) => write!(f, "lit {kind} {number}"),
            Literal::Utf8(text) => {
                f.write_str("lit utf8 ")?;
                quoted(text, f)
            }
            Literal::Binary(bytes) => {
                f.write_str("lit binary x")?;
                bytes.iter().try_for_each(|byte| write!(f, "{byte:02x}"))
            }
            Literal::Null(Kind::Null) => f.write_str("lit null null"),
            Literal::Null(kind) => write!(f, "lit {kind}? null"),
        }
    }
}
