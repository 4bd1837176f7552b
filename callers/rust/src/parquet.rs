// SPDX-License-Identifier: Apache-2.0
//! Row groups and pages of a Parquet file by a condition in SQL: its footer and its page indexes are read by proof, and no
//! page of data is read at all.
//!
//! `docs/PARQUET.md` of the repository says which statistics are used as what and which columns are read, `docs/SQL.md`
//! which conditions.
//!
//! ```no_run
//! use foalmorrow::parquet::{Error, Footer};
//! use foalmorrow::Names;
//! use std::fs::File;
//!
//! let footer = Footer::open("trips.parquet")?;
//! let found = footer.prune("qty > 9000 AND city LIKE 'R%'", Names::Plain)?;
//! for group in found.kept() {
//!     println!("fetch row group {group}");
//! }
//! println!("rows {:?}, {} bytes saved", found.ranges(), found.bytes_saved());
//!
//! let found = footer.prune_pages(File::open("trips.parquet")?, "qty > 9000", Names::Plain)?;
//! println!("rows {:?}, {} rows skipped", found.ranges(), found.rows_skipped());
//! # Ok::<(), Error>(())
//! ```
use crate::pruning::answer;
use crate::raw::{self, status, Fault, Span};
use crate::sql::{Names, SqlError};
use crate::zone_map::Answer;
use std::fmt;
use std::fs::File;
use std::io::{self, Read, Seek, SeekFrom};
use std::ops::Range;
use std::path::Path;

mod data_pages;
mod pages;
pub use data_pages::DataPage;
pub use pages::{RowRange, RowRanges};

/// Behind the footer of a file stand its length and a mark.
const TAIL: usize = 8;
/// For each so many bytes of a footer there is room for a row group at first.
const BYTES_A_GROUP: usize = 256;
/// For how many tests that aren't read there is room at first.
const ROOM: usize = 8;

/// The footer of a Parquet file.
#[derive(Clone, Debug, PartialEq, Eq)]
pub struct Footer {
    bytes: Vec<u8>,
}

/// A row group of a Parquet file, and what to do with it.
#[derive(Clone, Copy, Debug, PartialEq, Eq)]
pub struct RowGroup {
    /// How many rows it has.
    pub rows: u64,
    /// How many bytes its column chunks take in the file, or 0 where the footer doesn't tell.
    pub size: u64,
    pub answer: Answer,
}

/// The answer to a condition over a Parquet file.
#[derive(Clone, Debug, PartialEq, Eq)]
pub struct RowGroups {
    /// The row groups, in the file's order.
    pub groups: Vec<RowGroup>,
    /// The bytes of the condition at which the tests stand that weren't read, ascending.
    pub unread: Vec<Range<usize>>,
}

/// Why no row groups and no rows of a Parquet file are answered.
#[derive(Debug)]
pub enum Error {
    /// The file wasn't opened or read.
    Io(io::Error),
    /// The file doesn't end in the footer that was read of it.
    Changed,
    /// The bytes are no footer, or no page indexes.
    Footer(FooterFault),
    /// The text is no condition in SQL over the file's columns.
    Sql(SqlError),
    /// A test names a column of which no test could be meant: the bytes of the text at which it stands.
    NotRead(NotRead, Range<usize>),
    /// A column has the name that a test which isn't read gets.
    BadName,
    /// Memory was refused.
    NoMemory,
    /// A status that this crate doesn't expect of the call.
    Other(u8),
}

/// The fault of bytes that are no footer of a Parquet file.
#[derive(Clone, Copy, Debug, PartialEq, Eq, Hash)]
pub enum FooterFault {
    /// The file doesn't end in PAR1.
    NotParquet,
    /// It ends in PARE: its footer is encrypted.
    Encrypted,
    /// The footer is longer than the file.
    FooterLength,
    /// A value passes the end.
    Short,
    /// A number doesn't fit 64 bits, or has more than ten bytes.
    Varint,
    /// A number is below 0 that may not be.
    Negative,
    /// An identifier of a field doesn't fit 15 bits.
    FieldId,
    /// A code stands for no kind of values.
    Kind,
    /// A list claims more items than bytes are left.
    Length,
    /// Values nest deeper than 32 levels.
    Depth,
    /// A row group has no number of rows, a column no name, or a page no offset, size or first row.
    Missing,
    /// The schema is no tree.
    Schema,
    /// A row group has another number of columns than the schema has leaf columns.
    Columns,
    /// A bound is no value of its column's type.
    Value,
    /// The pages of a column chunk are none of its rows.
    Pages,
}

/// Why no test of a column could be meant.
#[derive(Clone, Copy, Debug, PartialEq, Eq, Hash)]
pub enum NotRead {
    /// It has columns below it.
    Nested,
    /// It has a list of values a row.
    Repeated,
    /// It is one of several of its name.
    Duplicate,
}

/// The faults of `VORTEX_BAD_FOOTER`, by their numbers.
const FAULTS: [FooterFault; 15] = [
    FooterFault::NotParquet,
    FooterFault::Encrypted,
    FooterFault::FooterLength,
    FooterFault::Short,
    FooterFault::Varint,
    FooterFault::Negative,
    FooterFault::FieldId,
    FooterFault::Kind,
    FooterFault::Length,
    FooterFault::Depth,
    FooterFault::Missing,
    FooterFault::Schema,
    FooterFault::Columns,
    FooterFault::Value,
    FooterFault::Pages,
];

/// The reasons of `VORTEX_NOT_READ`, by their numbers.
const REASONS: [NotRead; 3] = [NotRead::Nested, NotRead::Repeated, NotRead::Duplicate];

impl Footer {
    /// Reads the footer of the file at a path.
    ///
    /// # Errors
    ///
    /// As of [`Footer::read`].
    pub fn open(path: impl AsRef<Path>) -> Result<Footer, Error> {
        Footer::read(File::open(path)?)
    }

    /// Reads the footer of a file, wherever the source stands: its last eight bytes, and then the footer before them.
    ///
    /// # Errors
    ///
    /// [`Error::Io`] where the source can't be read, [`Error::Footer`] where it ends as no Parquet file, and
    /// [`Error::NoMemory`]. Whether the footer itself can be read is seen by [`Footer::prune`].
    pub fn read(mut source: impl Read + Seek) -> Result<Footer, Error> {
        let size = source.seek(SeekFrom::End(0))?;
        let tail = last(&mut source, size, size.min(TAIL as u64), 0)?;
        let length = footer_length(&tail)? as u64;
        if length > size - TAIL as u64 {
            return Err(Error::Footer(FooterFault::FooterLength));
        }
        Ok(Footer { bytes: last(&mut source, size, length, TAIL as u64)? })
    }

    /// Takes the bytes of a footer, without its length and the mark behind it.
    #[must_use]
    pub fn from_bytes(bytes: Vec<u8>) -> Footer {
        Footer { bytes }
    }

    /// The bytes of the footer.
    #[must_use]
    pub fn as_bytes(&self) -> &[u8] {
        &self.bytes
    }

    /// Answers what to do with each row group under a condition in SQL, as it stands behind WHERE.
    ///
    /// If the statistics of the footer are true, no row of a skipped row group satisfies the condition, and each row of a
    /// whole one does, whatever the tests mean that aren't read, as those of a column that the file lacks, or of one
    /// whose order isn't known. Dates, times, timestamps, decimals and floats are compared by what their numbers stand
    /// for; `>` and `>=` of a float aren't read, since nothing says what they mean of NaN. The statistics of those
    /// columns alone are read that the condition names.
    ///
    /// # Errors
    ///
    /// [`Error::Footer`] where the bytes are no footer; [`Error::Sql`] where the text is no condition over the file's
    /// columns; [`Error::NotRead`] where a test names a column that is nested, repeated, or one of several of its name;
    /// [`Error::NoMemory`].
    pub fn prune(&self, condition: &str, names: Names) -> Result<RowGroups, Error> {
        let mut groups = vec![raw::RowGroup::default(); self.bytes.len() / BYTES_A_GROUP + 1];
        let mut unread = vec![Span::default(); ROOM];
        loop {
            let (found, counts, fault) = self.made(condition, names, &mut groups, &mut unread);
            match found {
                status::OK => return told(&groups[..counts.0], &unread[..counts.1]),
                status::TOO_SHORT => {
                    groups.resize(counts.0.max(groups.len()), raw::RowGroup::default());
                    unread.resize(counts.1.max(unread.len()), Span::default());
                }
                refused => return Err(Error::of(refused, fault)),
            }
        }
    }

    // Makes the call. Returns its status, how many row groups and unread tests there are, and its fault.
    fn made(
        &self,
        condition: &str,
        names: Names,
        groups: &mut [raw::RowGroup],
        unread: &mut [Span],
    ) -> (u8, (usize, usize), Fault) {
        let (mut groups_found, mut unread_found, mut fault) = (0, 0, Fault::default());
        // SAFETY: the arrays are as long as is said, and those that are written are lent to this call alone.
        let found = unsafe {
            raw::vortex_parquet_prune(
                self.bytes.as_ptr(),
                self.bytes.len(),
                condition.as_ptr(),
                condition.len(),
                names.flags(),
                groups.as_mut_ptr(),
                groups.len(),
                unread.as_mut_ptr(),
                unread.len(),
                &mut groups_found,
                &mut unread_found,
                &mut fault,
            )
        };
        (found, (groups_found, unread_found), fault)
    }
}

// So many bytes of a source of this size, before those that stand behind them.
fn last(source: &mut (impl Read + Seek), size: u64, count: u64, behind: u64) -> Result<Vec<u8>, Error> {
    source.seek(SeekFrom::Start(size - behind - count))?;
    let mut found = Vec::new();
    let room = usize::try_from(count).map_err(|_| Error::NoMemory)?;
    found.try_reserve_exact(room).map_err(|_| Error::NoMemory)?;
    source.take(count).read_to_end(&mut found)?;
    if found.len() < room {
        return Err(Error::Io(io::ErrorKind::UnexpectedEof.into()));
    }
    Ok(found)
}

// How many bytes the footer has that stands before the last eight bytes of a file.
fn footer_length(tail: &[u8]) -> Result<usize, Error> {
    let (mut length, mut fault) = (0, Fault::default());
    // SAFETY: the array is as long as is said.
    let found = unsafe { raw::vortex_parquet_footer(tail.as_ptr(), tail.len(), &mut length, &mut fault) };
    if found == status::OK {
        Ok(length)
    } else {
        Err(Error::of(found, fault))
    }
}

// The answer that the library wrote.
fn told(groups: &[raw::RowGroup], unread: &[Span]) -> Result<RowGroups, Error> {
    let group = |it: &raw::RowGroup| {
        let answer = answer(it.answer).map_err(|_| Error::Other(it.answer))?;
        Ok(RowGroup { rows: it.rows, size: it.size, answer })
    };
    Ok(RowGroups { groups: groups.iter().map(group).collect::<Result<Vec<RowGroup>, Error>>()?, unread: spans(unread) })
}

fn spans(found: &[Span]) -> Vec<Range<usize>> {
    found.iter().map(|span| span.start..span.end).collect()
}

impl RowGroups {
    /// The places of the row groups that have to be fetched: those to be read, and whole ones.
    pub fn kept(&self) -> impl Iterator<Item = usize> + '_ {
        (0..self.groups.len()).filter(|place| self.groups[*place].answer != Answer::Skip)
    }

    /// The rows of the kept row groups, counted through the file, in as few ranges as hold them; `None` where their
    /// numbers pass 64 bits.
    #[must_use]
    pub fn ranges(&self) -> Option<Vec<Range<u64>>> {
        let mut found: Vec<Range<u64>> = Vec::new();
        let mut start = 0_u64;
        for group in &self.groups {
            let end = start.checked_add(group.rows)?;
            if group.answer != Answer::Skip && group.rows > 0 {
                match found.last_mut() {
                    Some(before) if before.end == start => before.end = end,
                    _ => found.push(start..end),
                }
            }
            start = end;
        }
        Some(found)
    }

    /// How many bytes the skipped row groups take in the file, as far as the footer tells and as 64 bits hold.
    #[must_use]
    pub fn bytes_saved(&self) -> u64 {
        let skipped = self.groups.iter().filter(|group| group.answer == Answer::Skip);
        skipped.fold(0, |sum, group| sum.saturating_add(group.size))
    }
}

impl Error {
    // The error of a status.
    fn of(found: u8, fault: Fault) -> Error {
        let of_footer = || FAULTS.get(fault.column).copied().map(Error::Footer);
        let not_read = || REASONS.get(fault.column).map(|reason| Error::NotRead(*reason, fault.entry..fault.row));
        let error = match found {
            status::BAD_FOOTER => of_footer(),
            status::NOT_READ => not_read(),
            status::BAD_NAME => Some(Error::BadName),
            status::NO_MEMORY => Some(Error::NoMemory),
            _ => SqlError::of(found, fault).map(Error::Sql),
        };
        error.unwrap_or(Error::Other(found))
    }
}

impl From<io::Error> for Error {
    fn from(error: io::Error) -> Self {
        Error::Io(error)
    }
}

impl fmt::Display for Error {
    fn fmt(&self, f: &mut fmt::Formatter<'_>) -> fmt::Result {
        match self {
            Error::Io(error) => error.fmt(f),
            Error::Changed => write!(f, "the file doesn't end in the footer that was read of it"),
            Error::Footer(fault) => write!(f, "the bytes are no footer of a Parquet file: {fault}"),
            Error::Sql(error) => error.fmt(f),
            Error::NotRead(reason, bytes) => {
                write!(f, "the test at byte {} can't be meant: a column of it {reason}", bytes.start)
            }
            Error::BadName => write!(f, "a column has the name that a test which isn't read gets"),
            Error::NoMemory => write!(f, "memory was refused"),
            Error::Other(found) => write!(f, "the library returned the status {found}"),
        }
    }
}

impl std::error::Error for Error {
    fn source(&self) -> Option<&(dyn std::error::Error + 'static)> {
        match self {
            Error::Io(error) => Some(error),
            Error::Sql(error) => Some(error),
            _ => None,
        }
    }
}

impl fmt::Display for FooterFault {
    fn fmt(&self, f: &mut fmt::Formatter<'_>) -> fmt::Result {
        f.write_str(match self {
            FooterFault::NotParquet => "the file doesn't end in PAR1",
            FooterFault::Encrypted => "it is encrypted",
            FooterFault::FooterLength => "it is longer than the file",
            FooterFault::Short => "a value passes the end",
            FooterFault::Varint => "a number doesn't fit 64 bits, or has more than ten bytes",
            FooterFault::Negative => "a number is below 0",
            FooterFault::FieldId => "an identifier of a field doesn't fit 15 bits",
            FooterFault::Kind => "a code stands for no kind of values",
            FooterFault::Length => "a list claims more items than bytes are left",
            FooterFault::Depth => "values nest deeper than 32 levels",
            FooterFault::Missing => {
                "a row group has no number of rows, a column no name, or a page no offset, size or first row"
            }
            FooterFault::Schema => "the schema is no tree",
            FooterFault::Columns => "a row group has another number of columns than the schema",
            FooterFault::Value => "a bound is no value of its column's type",
            FooterFault::Pages => "the pages of a column chunk are none of its rows",
        })
    }
}

impl fmt::Display for NotRead {
    fn fmt(&self, f: &mut fmt::Formatter<'_>) -> fmt::Result {
        f.write_str(match self {
            NotRead::Nested => "has columns below it",
            NotRead::Repeated => "has a list of values a row",
            NotRead::Duplicate => "is one of several of its name",
        })
    }
}
