// SPDX-License-Identifier: Apache-2.0
//! Why a call was refused.
use crate::column::Kind;
use crate::literal::Literal;
use crate::logical::Logical;
use crate::raw::status;
use crate::sql::SqlError;
use crate::stat::Stat;
use std::fmt;

/// How many levels a predicate may have that is pruned by: `VORTEX_MAX_DEPTH` of the header.
///
/// A condition has one level, and a connective one more than its deeper operand. A chain of AND, or of OR, is joined in
/// halves whatever its shape, so 100,000 conditions take 18 levels.
pub const MAX_DEPTH: usize = 128;

/// The place at which a call was refused, as far as the fault has one.
#[derive(Clone, Debug, Default, PartialEq, Eq)]
pub struct Place {
    /// The column's name; `None` where the column was handed in without a name.
    pub column: Option<String>,
    pub stat: Option<Stat>,
    /// The zone of a table, counted from 0.
    pub zone: Option<usize>,
    /// The row of a column's values, counted from 0.
    pub row: Option<usize>,
    /// The map of a merge that is at fault.
    pub side: Option<Side>,
}

/// One of the two maps of a merge.
#[derive(Clone, Copy, Debug, PartialEq, Eq, Hash)]
pub enum Side {
    Left,
    Right,
}

impl fmt::Display for Place {
    /// Writes what is known of the place and a colon, or nothing.
    fn fmt(&self, f: &mut fmt::Formatter<'_>) -> fmt::Result {
        let words = [
            self.side.map(|side| format!("the {} map", if side == Side::Left { "left" } else { "right" })),
            self.column.as_ref().map(|name| format!("column {name}")),
            self.zone.map(|zone| format!("zone {zone}")),
            self.row.map(|row| format!("row {row}")),
            self.stat.map(|stat| stat.to_string()),
        ];
        let words: Vec<String> = words.into_iter().flatten().collect();
        if words.is_empty() {
            return Ok(());
        }
        write!(f, "{}: ", words.join(", "))
    }
}

/// Why a call was refused, and where. The header `vortex.h` says more of each.
#[derive(Clone, Debug, PartialEq, Eq)]
pub enum Error {
    /// Memory was refused.
    NoMemory,
    /// The column is of another type than the map's.
    BadKind(Place),
    /// The column's type has no such statistic.
    BadStat(Place),
    /// A byte that says how a value is known is above 2.
    BadKnown(Place),
    /// An array is shorter or longer than its rows or zones.
    BadLength(Place),
    /// A text begins behind its end, or ends behind the heap.
    BadEnds(Place),
    /// A text isn't UTF-8, a truth is above 1, or a told value isn't of the statistic's type.
    BadValue(Place),
    /// A column that isn't nullable has a null.
    BadNull(Place),
    /// A statistic isn't true of the values; without a statistic it is the number of rows.
    Untrue(Place),
    /// Two columns of a table have one name.
    BadName(String),
    /// The predicate names a column that the table hasn't.
    UnknownColumn(String),
    /// The predicate takes a column for one of another type.
    BadType { column: String, kind: Kind, expected: Kind },
    /// A constant isn't of the kind that it names.
    BadLiteral { column: String, literal: Literal },
    /// A column of a logical type is compared as it can't be: `found` says how, in words. A plain number says nothing of a
    /// type's unit, columns of two types aren't numbers of one unit, and an enumeration has no order.
    /// [`TypedColumn`](crate::TypedColumn) has the comparisons of a type.
    BadLogical { column: String, logical: Logical, found: String },
    /// The library takes the predicate for no expression over the columns that it names.
    BadPredicate,
    /// The predicate isn't of type bool.
    NotAPredicate,
    /// The predicate has more than [`MAX_DEPTH`] levels.
    TooDeep,
    /// The text is no condition in SQL.
    Sql(SqlError),
    /// What is handed in doesn't fit the map, or two maps don't fit each other: how, in words.
    Misfit(String),
    /// A status that this crate doesn't expect of the call.
    Other(u8),
}

impl Error {
    // The error of a status, at the place that the call's fault tells.
    pub(crate) fn of(status: u8, place: Place) -> Error {
        match status {
            status::BAD_LINE => Error::BadPredicate,
            status::NO_MEMORY => Error::NoMemory,
            status::BAD_KIND => Error::BadKind(place),
            status::BAD_STAT => Error::BadStat(place),
            status::BAD_KNOWN => Error::BadKnown(place),
            status::BAD_LENGTH => Error::BadLength(place),
            status::BAD_ENDS => Error::BadEnds(place),
            status::BAD_VALUE => Error::BadValue(place),
            status::BAD_NULL => Error::BadNull(place),
            status::UNTRUE => Error::Untrue(place),
            status::NOT_A_PREDICATE => Error::NotAPredicate,
            status::TOO_DEEP => Error::TooDeep,
            other => Error::Other(other),
        }
    }

    // The same error, of a column of this name.
    pub(crate) fn of_column(mut self, name: &str) -> Error {
        match &mut self {
            Error::BadKind(place)
            | Error::BadStat(place)
            | Error::BadKnown(place)
            | Error::BadLength(place)
            | Error::BadEnds(place)
            | Error::BadValue(place)
            | Error::BadNull(place)
            | Error::Untrue(place) => place.column = Some(name.to_owned()),
            Error::Misfit(words) => *words = format!("column {name}: {words}"),
            _ => {}
        }
        self
    }
}

impl fmt::Display for Error {
    fn fmt(&self, f: &mut fmt::Formatter<'_>) -> fmt::Result {
        match self {
            Error::NoMemory => write!(f, "memory was refused"),
            Error::BadKind(place) => write!(f, "{place}the column is of another type than the map's"),
            Error::BadStat(place) => write!(f, "{place}the column's type has no such statistic"),
            Error::BadKnown(place) => write!(f, "{place}a byte above 2 says how a value is known"),
            Error::BadLength(place) => write!(f, "{place}an array is shorter or longer than its rows or zones"),
            Error::BadEnds(place) => write!(f, "{place}a text begins behind its end, or ends behind the heap"),
            Error::BadValue(place) => write!(f, "{place}the value is none of its type"),
            Error::BadNull(place) => write!(f, "{place}null stands in a column that isn't nullable"),
            Error::Untrue(place) if place.stat.is_none() => write!(f, "{place}the zone has another number of rows"),
            Error::Untrue(place) => write!(f, "{place}the statistic isn't true of the values"),
            Error::BadName(name) => write!(f, "two columns have the name {name}"),
            Error::UnknownColumn(name) => write!(f, "the table has no column {name}"),
            Error::BadType { column, kind, expected } => {
                write!(f, "column {column}: it is of type {kind}, and the predicate takes it for {expected}")
            }
            Error::BadLiteral { column, literal } => {
                write!(f, "column {column}: {literal} is no value of {}", literal.kind())
            }
            Error::BadLogical { column, logical, found } => {
                write!(f, "column {column}: it is of type {logical}, and the predicate compares it {found}")
            }
            Error::BadPredicate => write!(f, "the predicate is no expression over the columns that it names"),
            Error::NotAPredicate => write!(f, "the predicate isn't of type bool"),
            Error::TooDeep => write!(f, "the predicate has more than {MAX_DEPTH} levels"),
            Error::Sql(error) => error.fmt(f),
            Error::Misfit(words) => f.write_str(words),
            Error::Other(status) => write!(f, "the library answered by status {status}, which is unknown here"),
        }
    }
}

impl std::error::Error for Error {}

#[cfg(test)]
mod tests {
    use super::{Error, Place};

    #[test]
    fn unknown_status_is_an_error_of_its_own() {
        let known = [2, 4, 5, 6, 7, 8, 9, 10, 11, 12, 15, 17];
        for status in 0..=u8::MAX {
            let error = Error::of(status, Place::default());
            assert_eq!(error == Error::Other(status), !known.contains(&status), "{error:?}");
        }
        assert_eq!(
            Error::of(99, Place::default()).to_string(),
            "the library answered by status 99, which is unknown here"
        );
    }
}
