// SPDX-License-Identifier: Apache-2.0
//! Pruning by conditions in SQL.
use crate::column::Kind;
use crate::error::Error;
use crate::pruning::{answer, Handed};
use crate::raw::{self, status, Fault, Span};
use crate::zone_map::{Answer, ZoneMap};
use std::fmt;
use std::ops::Range;

/// How a name of several parts, as `t.qty`, is read in a condition in SQL.
#[derive(Clone, Copy, Debug, Default, PartialEq, Eq, Hash)]
pub enum Names {
    /// It isn't read.
    #[default]
    Plain,
    /// It is the column of its last part.
    Last,
}

impl Names {
    // The flags of a call.
    pub(crate) fn flags(self) -> u8 {
        match self {
            Names::Plain => 0,
            Names::Last => raw::LAST_NAME,
        }
    }
}

/// The answer to a condition in SQL.
#[derive(Clone, Debug, PartialEq, Eq)]
pub struct SqlAnswers {
    /// What to do with each zone.
    pub zones: Vec<Answer>,
    /// The bytes of the text at which the tests stand that weren't read, ascending.
    pub unread: Vec<Range<usize>>,
}

/// Why a text is no condition in SQL over a map's columns, and where.
#[derive(Clone, Debug, PartialEq, Eq)]
pub struct SqlError {
    pub fault: SqlFault,
    /// The bytes of the text: those of a misfit, and else none at the place of the fault.
    pub bytes: Range<usize>,
}

/// The fault of a text that is no condition in SQL.
#[derive(Clone, Copy, Debug, PartialEq, Eq, Hash)]
pub enum SqlFault {
    /// No rule reads the word or sign, or the text ends too soon.
    Unexpected,
    /// A quote isn't closed.
    Unclosed,
    /// A comment.
    Comment,
    /// A word right before a quote, as in `E'..'`.
    Prefixed,
    /// A dollar sign outside quotes.
    Dollar,
    /// A number runs into a letter, a dot or a quote.
    Glued,
    /// A text right behind another one.
    Adjacent,
    /// The condition has more than 64 levels.
    TooDeep,
    /// The types of a test don't fit.
    Misfit,
}

/// For how many tests that aren't read there is room at first.
const ROOM: usize = 8;

/// The faults of `VORTEX_BAD_SQL`, by their numbers.
const FAULTS: [SqlFault; 7] = [
    SqlFault::Unexpected,
    SqlFault::Unclosed,
    SqlFault::Comment,
    SqlFault::Prefixed,
    SqlFault::Dollar,
    SqlFault::Glued,
    SqlFault::Adjacent,
];

impl SqlError {
    // The error of a status, if it is one of the text.
    pub(crate) fn of(found: u8, fault: Fault) -> Option<SqlError> {
        let at = fault.entry;
        match found {
            status::BAD_SQL => Some(SqlError { fault: *FAULTS.get(fault.column)?, bytes: at..at }),
            status::TOO_DEEP => Some(SqlError { fault: SqlFault::TooDeep, bytes: at..at }),
            status::MISFIT => Some(SqlError { fault: SqlFault::Misfit, bytes: at..fault.row }),
            _ => None,
        }
    }
}

impl fmt::Display for SqlError {
    fn fmt(&self, f: &mut fmt::Formatter<'_>) -> fmt::Result {
        let words = match self.fault {
            SqlFault::Unexpected => "no rule reads what stands there",
            SqlFault::Unclosed => "a quote isn't closed",
            SqlFault::Comment => "a comment begins",
            SqlFault::Prefixed => "a word stands right before a quote",
            SqlFault::Dollar => "a dollar sign stands outside quotes",
            SqlFault::Glued => "a number runs into what follows",
            SqlFault::Adjacent => "two texts stand side by side",
            SqlFault::TooDeep => "the condition nests too deep",
            SqlFault::Misfit => "the types of the test don't fit",
        };
        write!(f, "the text is no condition at byte {}: {words}", self.bytes.start)
    }
}

impl std::error::Error for SqlError {}

// Whether the library takes a name for a column.
fn is_name(name: &str) -> bool {
    let is_word = name.bytes().all(|byte| byte == b'_' || byte.is_ascii_alphanumeric());
    is_word && !name.starts_with(|first: char| first.is_ascii_digit()) && (1..=64).contains(&name.len())
}

// A name that doesn't stand in a text.
fn unnamed(text: &str) -> String {
    let mut names = (0_usize..).map(|place| format!("_{place}"));
    names.find(|name| !text.contains(name.as_str())).expect("a text has no more names than bytes")
}

// A call of the library, with what it is lent.
struct Call<'a> {
    scope: Vec<raw::Field<'a>>,
    rows: &'a [u64],
    stats: Vec<raw::Statistic<'a>>,
    text: &'a str,
    names: Names,
}

impl Call<'_> {
    // Makes the call. Returns its status, how many tests aren't read, and its fault.
    fn made(&self, codes: &mut [u8], unread: &mut [Span]) -> (u8, usize, Fault) {
        let (mut count, mut fault) = (0, Fault::default());
        // SAFETY: the arrays are as long as is said, those that are written are lent to this call alone, and the others
        // for as long as it takes.
        let found = unsafe {
            raw::vortex_prune_sql(
                self.scope.as_ptr(),
                self.scope.len(),
                self.rows.as_ptr(),
                self.rows.len(),
                self.stats.as_ptr(),
                self.stats.len(),
                self.text.as_ptr(),
                self.text.len(),
                self.names.flags(),
                codes.as_mut_ptr(),
                codes.len(),
                unread.as_mut_ptr(),
                unread.len(),
                &mut count,
                &mut fault,
            )
        };
        (found, count, fault)
    }

    // Makes the call once more with more room where the first was too little.
    fn answered(&self, refusal: impl Fn(u8, Fault) -> Error) -> Result<SqlAnswers, Error> {
        let mut codes = vec![0; self.rows.len()];
        let mut unread = vec![Span::default(); ROOM];
        loop {
            match self.made(&mut codes, &mut unread) {
                (status::OK, count, _) => {
                    let zones = codes.into_iter().map(answer).collect::<Result<Vec<Answer>, Error>>()?;
                    let unread = unread[..count].iter().map(|span| span.start..span.end).collect();
                    return Ok(SqlAnswers { zones, unread });
                }
                (status::TOO_SHORT, count, _) => unread.resize(count, Span::default()),
                (refused, _, fault) => return Err(refusal(refused, fault)),
            }
        }
    }
}

// A column of a map as it crosses to the library, if the library knows its type and takes its name.
fn field(map: &ZoneMap, place: usize) -> Option<raw::Field<'_>> {
    let (name, dtype) = (&map.names()[place], map.columns()[place].dtype());
    let numbers = match map.logical(place) {
        Some(logical) => logical.field()?,
        None => [dtype.kind as u8, 0, 0, 0],
    };
    is_name(name).then(|| raw::Field::new(name, numbers, dtype.nullable))
}

// Prunes by a text over the columns that the library knows: a test of another column isn't read.
pub(crate) fn prune_sql(map: &ZoneMap, text: &str, names: Names) -> Result<SqlAnswers, Error> {
    let known = |place| Some((place, field(map, place)?));
    let (places, scope): (Vec<usize>, Vec<raw::Field<'_>>) = (0..map.names().len()).filter_map(known).unzip();
    // The library takes no table without columns.
    let spare = places.is_empty().then(|| unnamed(text));
    let spare_field = spare.as_deref().map(|name| raw::Field::new(name, [Kind::Bool as u8, 0, 0, 0], true));
    let handed = Handed::of(map, places);
    let counts = handed.null_counts();
    let entries = handed.entries(&counts);
    let call = Call {
        scope: scope.into_iter().chain(spare_field).collect(),
        rows: handed.rows(),
        stats: entries.iter().map(|(slot, entry)| entry.raw(*slot)).collect(),
        text,
        names,
    };
    call.answered(|refused, fault| match SqlError::of(refused, fault) {
        Some(error) => Error::Sql(error),
        None => Error::of(refused, handed.place(entries.get(fault.entry), fault.row)),
    })
}
