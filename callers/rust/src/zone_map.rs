// SPDX-License-Identifier: Apache-2.0
//! The statistics of a table's zones.
use crate::column::{Column, DType};
use crate::column_stats::ColumnStats;
use crate::error::Error;
use crate::logical::Logical;
use crate::predicate::Predicate;
use crate::pruning::Asked;
use crate::sql::{self, Names, SqlAnswers};
use crate::stat::{Precision, Stat, Value};
use std::collections::HashSet;

/// What to do with a zone under a predicate.
#[derive(Clone, Copy, Debug, PartialEq, Eq, Hash)]
pub enum Answer {
    /// Rows of it may satisfy the predicate and others may not: read it and test them.
    Read,
    /// No row of it satisfies the predicate.
    Skip,
    /// Every row of it satisfies the predicate.
    Whole,
}

/// The statistics of a table's zones: how many rows each has, and of each column what is kept of it.
///
/// It is what Python's package calls [`Footers`], and a file of footers is the same in both languages
/// ([`ZoneMap::save`]). A column's name is any text. Zones count from 0, in the order in which they stand. Every call
/// fits into 256 KiB of stack.
#[derive(Clone, Debug, PartialEq, Eq)]
pub struct ZoneMap {
    names: Vec<String>,
    rows: Vec<u64>,
    columns: Vec<ColumnStats>,
    /// The logical type of each column that has one.
    logical: Vec<Option<Logical>>,
}

/// The name that Python's package and files of footers have for a [`ZoneMap`].
pub type Footers = ZoneMap;

impl ZoneMap {
    /// Makes a map of no zones yet, of columns of these names and types. Of each column those of the statistics are
    /// kept that its type has.
    ///
    /// # Errors
    /// `BadName` where two columns have one name.
    pub fn new(scope: &[(&str, DType)], stats: &[Stat]) -> Result<Self, Error> {
        let kept = |dtype: DType| stats.iter().copied().filter(|stat| stat.kind(dtype).is_some()).collect::<Vec<_>>();
        let columns = scope.iter().map(|(_, dtype)| ColumnStats::new(*dtype, &kept(*dtype))).collect();
        Self::of_columns(scope.iter().map(|(name, _)| (*name).to_owned()).collect(), Vec::new(), columns)
    }

    // Makes the map of columns that have been checked to have as many zones as there are numbers of rows.
    pub(crate) fn of_columns(names: Vec<String>, rows: Vec<u64>, columns: Vec<ColumnStats>) -> Result<Self, Error> {
        let mut seen = HashSet::new();
        match names.iter().find(|name| !seen.insert(name.as_str())) {
            Some(name) => Err(Error::BadName(name.clone())),
            None => Ok(ZoneMap { logical: vec![None; names.len()], names, rows, columns }),
        }
    }

    /// Returns the number of zones.
    #[must_use]
    pub fn zones(&self) -> usize {
        self.rows.len()
    }

    /// Returns how many rows each zone has.
    #[must_use]
    pub fn rows(&self) -> &[u64] {
        &self.rows
    }

    /// Returns the names of the columns, in order.
    #[must_use]
    pub fn names(&self) -> &[String] {
        &self.names
    }

    /// Returns the statistics of a column by its place.
    #[must_use]
    pub fn column(&self, place: usize) -> Option<&ColumnStats> {
        self.columns.get(place)
    }

    /// Says that the values of a column are those of a logical type, by what they are mapped onto.
    ///
    /// # Errors
    /// `UnknownColumn`; `Misfit` where the column is of another kind than the type is mapped onto, or keeps a statistic
    /// that the type hasn't.
    pub fn with_logical(mut self, name: &str, kind: Logical) -> Result<Self, Error> {
        let place = self.names.iter().position(|it| it == name);
        let place = place.ok_or_else(|| Error::UnknownColumn(name.to_owned()))?;
        let column = &self.columns[place];
        if column.dtype().kind != kind.kind() {
            let words =
                format!("{kind} is mapped onto {}, and the column is of type {}", kind.kind(), column.dtype().kind);
            return Err(Error::Misfit(words).of_column(name));
        }
        if let Some(stat) = column.stats().into_iter().find(|stat| !kind.has(*stat)) {
            return Err(Error::Misfit(format!("{kind} has no {stat}")).of_column(name));
        }
        self.logical[place] = Some(kind);
        Ok(self)
    }

    /// Returns the logical type of a column by its place, where it has one.
    #[must_use]
    pub fn logical(&self, place: usize) -> Option<&Logical> {
        self.logical.get(place)?.as_ref()
    }

    pub(crate) fn columns(&self) -> &[ColumnStats] {
        &self.columns
    }

    /// Measures one more zone: a column of values for each of the scope, in order.
    ///
    /// # Errors
    /// `Misfit` where there aren't as many columns, or not all of them have as many rows; and as
    /// [`ColumnStats::push`]. The map stays as it was.
    pub fn push(&mut self, values: &[Column<'_>]) -> Result<(), Error> {
        let rows = self.rows_of(values)?;
        self.grown(rows, |place, column| column.push(&values[place]))
    }

    // How many rows a chunk has; `Misfit` where it isn't of this map's columns, or they have different numbers of rows.
    fn rows_of(&self, values: &[Column<'_>]) -> Result<u64, Error> {
        self.is_of_columns(values.len())?;
        let rows = values.first().map_or(0, Column::rows);
        match values.iter().position(|column| column.rows() != rows) {
            None => Ok(rows as u64),
            Some(place) => {
                let words = format!("it has {} rows, and column {} has {rows}", values[place].rows(), self.names[0]);
                Err(Error::Misfit(words).of_column(&self.names[place]))
            }
        }
    }

    fn is_of_columns(&self, found: usize) -> Result<(), Error> {
        let kept = self.columns.len();
        if found == kept {
            return Ok(());
        }
        Err(Error::Misfit(format!("{found} columns are handed in for a zone, and the map has {kept}")))
    }

    /// Takes one more zone of so many rows as it is told, as from a file's footer: of each column the statistics that
    /// are kept, in order.
    ///
    /// # Errors
    /// `Misfit` where there aren't as many columns, and as [`ColumnStats::push_known`]. The map stays as it was.
    pub fn push_known(&mut self, rows: u64, told: &[Vec<Precision<Value>>]) -> Result<(), Error> {
        self.is_of_columns(told.len())?;
        self.grown(rows, |place, column| column.push_known(&told[place]))
    }

    // Grows each column by a zone, or none of them.
    fn grown(
        &mut self,
        rows: u64,
        mut push: impl FnMut(usize, &mut ColumnStats) -> Result<(), Error>,
    ) -> Result<(), Error> {
        let zones = self.zones();
        let mut columns = self.columns.iter_mut().zip(&self.names).enumerate();
        let done = columns.try_for_each(|(place, (column, name))| push(place, column).map_err(|it| it.of_column(name)));
        match done {
            Ok(()) => self.rows.push(rows),
            Err(_) => self.columns.iter_mut().for_each(|column| column.truncate(zones)),
        }
        done
    }

    /// Checks that a zone has as many rows as a chunk, and that each of its statistics is true of the chunk's values.
    ///
    /// # Errors
    /// `Untrue` with the column, and the statistic or none where the number of rows is untrue; `Misfit` where the
    /// chunk isn't of the map's columns or there is no such zone; and as [`ColumnStats::check`].
    pub fn check(&self, zone: usize, values: &[Column<'_>]) -> Result<(), Error> {
        self.is_of_columns(values.len())?;
        let rows = self.rows.get(zone).copied();
        let rows =
            rows.ok_or_else(|| Error::Misfit(format!("there are {} zones, and none is zone {zone}", self.zones())))?;
        let mut columns = self.columns.iter().zip(&self.names).zip(values);
        columns.try_for_each(|((column, name), values)| {
            column.check(zone, rows, values).map_err(|error| error.of_column(name))
        })
    }

    /// Tells what to do with each zone. Of whatever rows the statistics are true: no row of a skipped zone satisfies
    /// the predicate, and each row of a whole zone does. Pruning goes by the predicate as it is, by its normal form,
    /// and by tests of its truth that see columns of nulls alone.
    ///
    /// Only the columns that the predicate names are looked at. A column without null that lacks a null count counts
    /// no nulls.
    ///
    /// # Errors
    /// `UnknownColumn`, `BadType` and `BadLiteral` with the column; `BadLogical` with it where a plain value or a column of
    /// another type stands against a column with a [`Logical`] type, or an order against one without; `TooDeep` and
    /// `NoMemory`.
    pub fn prune(&self, predicate: &Predicate) -> Result<Vec<Answer>, Error> {
        Asked::of(self, predicate)?.answers()
    }

    /// Tells what to do with each zone under a condition in SQL, as it stands behind WHERE. The repository's page
    /// `docs/SQL.md` says what is read, and how.
    ///
    /// A test that isn't read may mean anything, and the answer tells its place. Whatever those tests mean: of whatever
    /// rows the statistics are true, no row of a skipped zone satisfies the condition, and each row of a whole zone does.
    ///
    /// Dates, times, timestamps and decimals compare by what their numbers stand for, with literals of their [`Logical`]
    /// type. A test of a column that the map hasn't, that has another logical type, or whose name isn't made of ASCII
    /// letters, digits and `_` isn't read.
    ///
    /// # Errors
    /// `Sql` with the bytes of the text; `NoMemory`.
    pub fn prune_sql(&self, text: &str, names: Names) -> Result<SqlAnswers, Error> {
        sql::prune_sql(self, text, names)
    }

    /// Answers as [`ZoneMap::prune`] does, which goes by the normal form, too.
    ///
    /// # Errors
    /// As of [`ZoneMap::prune`].
    pub fn prune_normalized(&self, predicate: &Predicate) -> Result<Vec<Answer>, Error> {
        self.prune(predicate)
    }

    /// Merges each zone with the zone of `right` at the same place, which stands behind it.
    ///
    /// # Errors
    /// `Misfit` where the columns or the numbers of zones differ, or a zone's rows leave 64 bits; `NoMemory`.
    pub fn merge(&self, right: &ZoneMap) -> Result<ZoneMap, Error> {
        if self.names != right.names || self.logical != right.logical {
            return Err(Error::Misfit("the maps are of tables with different columns".to_owned()));
        }
        if self.zones() != right.zones() {
            return Err(Error::Misfit(format!("{} zones stand beside {}", self.zones(), right.zones())));
        }
        let added: Option<Vec<u64>> =
            self.rows.iter().zip(&right.rows).map(|(left, right)| left.checked_add(*right)).collect();
        let rows = added.ok_or_else(too_many_rows)?;
        self.of_each(rows, |place, column| column.merge(&right.columns[place]))
    }

    /// Merges all zones to one zone, from left to right. Of no zones there are none.
    ///
    /// # Errors
    /// `Misfit` where the rows leave 64 bits; `NoMemory`.
    pub fn merged(&self) -> Result<ZoneMap, Error> {
        if self.rows.is_empty() {
            return Ok(self.clone());
        }
        let rows = self.rows.iter().try_fold(0_u64, |sum, rows| sum.checked_add(*rows)).ok_or_else(too_many_rows)?;
        self.of_each(vec![rows], |_, column| column.merged())
    }

    // The map of the same columns whose statistics are made of these, column by column.
    fn of_each(
        &self,
        rows: Vec<u64>,
        make: impl Fn(usize, &ColumnStats) -> Result<ColumnStats, Error>,
    ) -> Result<ZoneMap, Error> {
        let columns = self.columns.iter().zip(&self.names).enumerate();
        let made: Result<Vec<ColumnStats>, Error> =
            columns.map(|(place, (column, name))| make(place, column).map_err(|error| error.of_column(name))).collect();
        Ok(ZoneMap { names: self.names.clone(), rows, columns: made?, logical: self.logical.clone() })
    }
}

fn too_many_rows() -> Error {
    Error::Misfit("the rows of a merged zone leave 64 bits".to_owned())
}
