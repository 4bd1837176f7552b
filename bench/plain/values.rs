// SPDX-License-Identifier: Apache-2.0
//! Types, values and their order.

#[derive(Clone, Copy, PartialEq, Eq, Debug)]
pub enum Kind {
    Null,
    Bool,
    /// Whole numbers by their bits and sign.
    Unsigned(u32),
    Signed(u32),
    Utf8,
    Binary,
}

#[derive(Clone, Copy, PartialEq, Eq, Debug)]
pub struct Type {
    pub kind: Kind,
    pub nullable: bool,
}

impl Type {
    pub fn read(word: &str) -> Option<Type> {
        let (name, nullable) = match word.strip_suffix('?') {
            Some(name) => (name, true),
            None => (word, false),
        };
        let kind = match name {
            "null" if !nullable => return Some(Type { kind: Kind::Null, nullable: true }),
            "bool" => Kind::Bool,
            "u8" => Kind::Unsigned(8),
            "u16" => Kind::Unsigned(16),
            "u32" => Kind::Unsigned(32),
            "u64" => Kind::Unsigned(64),
            "i8" => Kind::Signed(8),
            "i16" => Kind::Signed(16),
            "i32" => Kind::Signed(32),
            "i64" => Kind::Signed(64),
            "utf8" => Kind::Utf8,
            "binary" => Kind::Binary,
            _ => return None,
        };
        Some(Type { kind, nullable })
    }
}

/// A value other than null; texts and bytes by their bytes.
#[derive(Clone, PartialEq, Eq, Debug)]
pub enum Value {
    Bool(bool),
    Signed(i64),
    Unsigned(u64),
    Bytes(Box<[u8]>),
}

/// The same, borrowed. Values of one type are ordered by what they hold.
#[derive(Clone, Copy, PartialEq, Eq, PartialOrd, Ord, Debug)]
pub enum Scalar<'a> {
    Bool(bool),
    Signed(i64),
    Unsigned(u64),
    Bytes(&'a [u8]),
}

impl Value {
    pub fn scalar(&self) -> Scalar<'_> {
        match self {
            Value::Bool(b) => Scalar::Bool(*b),
            Value::Signed(n) => Scalar::Signed(*n),
            Value::Unsigned(n) => Scalar::Unsigned(*n),
            Value::Bytes(bytes) => Scalar::Bytes(bytes),
        }
    }
}

impl Scalar<'_> {
    /// A number in a type that has room for the next one and the one before.
    pub fn number(self) -> Option<i128> {
        match self {
            Scalar::Signed(n) => Some(i128::from(n)),
            Scalar::Unsigned(n) => Some(i128::from(n)),
            _ => None,
        }
    }
}
