// SPDX-License-Identifier: Apache-2.0
//! Statistics of columns and pruning by them, over the proved library of this repository.
//!
//! Each call goes to the archive that `checks/callers.sh` builds; this crate only lends it arrays, and gives its
//! answers the types that a Rust program expects. Every answer is the library's.
//!
//! A [`ZoneMap`] has the statistics of a table's zones: the number of rows of each, and of each column its
//! [`ColumnStats`]. Python's package calls it [`Footers`], as the alias here does. A file of footers is the same in
//! both languages.
//!
//! ```
//! use foalmorrow::{col, Answer, Column, DType, Error, Kind, Stat, ZoneMap};
//!
//! let scope = [("temperature", DType { kind: Kind::I64, nullable: false })];
//! let mut map = ZoneMap::new(&scope, &[Stat::Min, Stat::Max, Stat::NullCount])?;
//! map.push(&[Column::numbers(&[12_i64, 15, 11])])?;
//! map.push(&[Column::numbers(&[18_i64, 25, 22])])?;
//! assert_eq!(map.prune(&col("temperature").gt(20_i64))?, [Answer::Skip, Answer::Read]);
//! # Ok::<(), Error>(())
//! ```
//!
//! # Conditions in SQL
//!
//! A condition as it stands behind WHERE prunes, too. What isn't read of it may mean anything, and the answer tells which
//! tests those are.
//!
//! ```
//! use foalmorrow::{Answer, Column, DType, Error, Kind, Names, Stat, ZoneMap};
//!
//! let scope = [("qty", DType { kind: Kind::I64, nullable: false })];
//! let mut map = ZoneMap::new(&scope, &[Stat::Min, Stat::Max])?;
//! map.push(&[Column::numbers(&[12_i64, 100])])?;
//! map.push(&[Column::numbers(&[8000_i64, 9500])])?;
//! let text = "qty > 9000 AND lower(city) = 'rome'";
//! let found = map.prune_sql(text, Names::Plain)?;
//! assert_eq!(found.zones, [Answer::Skip, Answer::Read]);
//! assert_eq!(&text[found.unread[0].clone()], "lower(city) = 'rome'");
//! # Ok::<(), Error>(())
//! ```
//!
//! [`parquet`] prunes the row groups of a Parquet file so, by its footer.
//!
//! # Dates, times, decimals and floating numbers
//!
//! Such a column stands as numbers of a [`Kind`], onto which its [`Logical`] type maps it in its own order, and a
//! [`TypedColumn`] compares it with literals of the type. A literal between two values of the type, or outside of it, is
//! compared exactly. [`Nan`] says what a comparison with NaN means.
//!
//! ```
//! use foalmorrow::{col, Answer, Column, DateTime, Error, Float64, Logical, Nan, Predicate, Stat, Unit, ZoneMap};
//!
//! let (at, x) = (Logical::Timestamp(Unit::Second, None), Logical::Float64);
//! let scope = [("at", at.dtype(false)), ("x", x.dtype(false))];
//! let mut map = ZoneMap::new(&scope, &[Stat::Min, Stat::Max])?.with_logical("at", at)?.with_logical("x", x)?;
//! map.push(&[Column::numbers(&[3_i64, 12]), Column::numbers(&Float64::numbers(&[0.5, 1.5]))])?;
//! map.push(&[Column::numbers(&[13_i64, 20]), Column::numbers(&Float64::numbers(&[-1.0, f64::NAN]))])?;
//! let literal: DateTime = "1970-01-01 00:00:12.5".parse().expect("a text of ISO 8601");
//! assert_eq!(map.prune(&col("at").timestamp(Unit::Second).gt(literal))?, [Answer::Skip, Answer::Whole]);
//! assert_eq!(map.prune(&col("x").float64(Nan::Ieee).gt(2.0))?, [Answer::Skip, Answer::Read]);
//! // A condition that the library can't know: the rest of the predicate still prunes.
//! let wanted = col("x").float64(Nan::Ieee).gt(2.0).and(Predicate::opaque("lower(name) = 'x'"));
//! assert_eq!(map.prune(&wanted)?, [Answer::Skip, Answer::Read]);
//! # Ok::<(), Error>(())
//! ```
//!
//! # Stack
//!
//! Every call fits into 256 KiB of stack, whatever it is handed, but [`run`], which takes up to 4 MiB. So all others may
//! be made from a thread of any runtime. Building, printing, cloning, comparing and dropping a predicate take no stack
//! that grows with it.
mod column;
mod column_stats;
mod error;
mod file;
mod float;
mod header;
mod json;
mod literal;
mod logical;
pub mod parquet;
mod predicate;
mod pruning;
mod ranges;
mod raw;
mod sql;
mod stat;
mod time;
mod typed;
mod zone_map;

pub use column::{Column, DType, Kind, Number};
pub use column_stats::{measure, ColumnStats};
pub use error::{Error, Place, Side, MAX_DEPTH};
pub use file::FooterError;
pub use float::{Float32, Float64, Nan};
pub use literal::{Literal, Operand, Operator};
pub use logical::{Logical, NoLogical};
pub use predicate::{col, ColumnName, Node, Predicate};
pub use sql::{Names, SqlAnswers, SqlError, SqlFault};
pub use stat::{Precision, Stat, Value};
pub use time::{Date, DateTime, Instant, NoTime, Time, Unit};
pub use typed::{Decimal, Float, Literals, NoDecimal, TypedColumn};
pub use zone_map::{Answer, Footers, ZoneMap};

/// What the program answers to a text.
#[derive(Clone, Debug, PartialEq, Eq)]
pub struct Reply {
    /// 0 for a scan, 2 for a bad line, and else 1.
    pub status: u8,
    pub output: Vec<u8>,
}

/// Answers a text in the language of the program as the program does.
///
/// The call takes up to 4 MiB of stack, which a main thread mostly has, and another thread by default has not.
#[must_use]
pub fn run(text: &[u8]) -> Reply {
    let mut output = vec![0; 256];
    loop {
        let mut len = 0;
        // SAFETY: the arrays are as long as is said, and the output is lent to this call alone.
        let status = unsafe { raw::vortex_run(text.as_ptr(), text.len(), output.as_mut_ptr(), output.len(), &mut len) };
        if status == raw::status::TOO_SHORT {
            output.resize(len, 0);
            continue;
        }
        output.truncate(len);
        return Reply { status, output };
    }
}

/// Returns the version of the library that this program is linked with, as `0.3.0`.
#[must_use]
pub fn version() -> String {
    // SAFETY: the call takes nothing.
    let version = unsafe { raw::vortex_version() };
    format!("{}.{}.{}", version >> 16, version >> 8 & 0xff, version & 0xff)
}
