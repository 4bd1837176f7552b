// SPDX-License-Identifier: Apache-2.0
//! The statistics of one column's zones, as arrays that are kept.
use crate::column::{Column, DType, Kind};
use crate::error::{Error, Place, Side};
use crate::raw::{self, status, Fault};
use crate::stat::{Precision, Stat, Value};
use std::marker::PhantomData;

/// One statistic in each zone: how it is known, and the values one behind the other.
#[derive(Clone, Debug, PartialEq, Eq)]
pub(crate) struct Entry {
    pub(crate) stat: Stat,
    /// A `vortex_known` for each zone.
    pub(crate) known: Vec<u8>,
    pub(crate) values: Vec<u8>,
    /// Where each text or bytes end; empty where all values take as many bytes.
    pub(crate) ends: Vec<u64>,
}

impl Entry {
    // Lends the entry as a statistic of the column at this place of a scope.
    pub(crate) fn raw(&self, column: usize) -> raw::Statistic<'_> {
        raw::Statistic {
            column,
            stat: self.stat as u8,
            start: 0,
            known: self.known.as_ptr(),
            known_len: self.known.len(),
            values: self.values.as_ptr(),
            values_len: self.values.len(),
            ends: self.ends.as_ptr(),
            ends_len: self.ends.len(),
            lent: PhantomData,
        }
    }

    // The bytes of a zone's value; `None` where there is no such zone.
    fn bytes(&self, zone: usize, kind: Kind) -> Option<&[u8]> {
        let place = match kind.width() {
            Some(width) => zone * width..zone * width + width,
            None => {
                let start = zone.checked_sub(1).map_or(Some(0), |before| self.ends.get(before).copied())?;
                usize::try_from(start).ok()?..usize::try_from(*self.ends.get(zone)?).ok()?
            }
        };
        self.values.get(place)
    }

    // Whether a zone's value is there and one of this kind.
    pub(crate) fn is_of_kind(&self, zone: usize, kind: Kind) -> bool {
        match (kind, self.bytes(zone, kind)) {
            (_, None) => false,
            (Kind::Bool, Some(bytes)) => bytes.iter().all(|byte| *byte <= 1),
            (Kind::Utf8, Some(bytes)) => std::str::from_utf8(bytes).is_ok(),
            (_, Some(_)) => true,
        }
    }
}

/// The arrays that a call fills: how each statistic is known, where its value ends, and the values.
struct Told {
    known: Vec<u8>,
    ends: Vec<u64>,
    values: Vec<u8>,
}

impl Told {
    // Calls until the values have room: the arrays of so many statistics, or the status of a refusal and its fault.
    fn by(
        count: usize,
        room: usize,
        mut call: impl FnMut(&mut Told, &mut usize, &mut Fault) -> u8,
    ) -> Result<Told, (u8, Fault)> {
        let mut told = Told { known: vec![0; count], ends: vec![0; count], values: vec![0; room] };
        loop {
            let (mut len, mut fault) = (0, Fault::default());
            match call(&mut told, &mut len, &mut fault) {
                status::OK => {
                    told.values.truncate(len);
                    return Ok(told);
                }
                status::TOO_SHORT if len > told.values.len() => told.values.resize(len, 0),
                refused => return Err((refused, fault)),
            }
        }
    }
}

/// The statistics of one column in each zone of a table, zone by zone.
///
/// The statistics of all columns, with the number of rows of each zone, are a [`ZoneMap`](crate::ZoneMap). Every call
/// fits into 256 KiB of stack.
#[derive(Clone, Debug, PartialEq, Eq)]
pub struct ColumnStats {
    dtype: DType,
    zones: usize,
    entries: Vec<Entry>,
}

impl ColumnStats {
    /// Makes the statistics of no zones yet, of a column of this type. A statistic that is named twice is kept once.
    #[must_use]
    pub fn new(dtype: DType, stats: &[Stat]) -> Self {
        let mut entries: Vec<Entry> = Vec::with_capacity(stats.len());
        for stat in stats {
            if entries.iter().all(|entry| entry.stat != *stat) {
                entries.push(Entry { stat: *stat, known: Vec::new(), values: Vec::new(), ends: Vec::new() });
            }
        }
        ColumnStats { dtype, zones: 0, entries }
    }

    // Makes the statistics of arrays that have been checked.
    pub(crate) fn of_entries(dtype: DType, zones: usize, entries: Vec<Entry>) -> Self {
        ColumnStats { dtype, zones, entries }
    }

    /// Returns the number of zones.
    #[must_use]
    pub fn zones(&self) -> usize {
        self.zones
    }

    /// Returns the type of the column.
    #[must_use]
    pub fn dtype(&self) -> DType {
        self.dtype
    }

    /// Returns which statistics are kept, in order.
    #[must_use]
    pub fn stats(&self) -> Vec<Stat> {
        self.entries.iter().map(|entry| entry.stat).collect()
    }

    pub(crate) fn entries(&self) -> &[Entry] {
        &self.entries
    }

    /// Measures one more zone.
    ///
    /// # Errors
    /// As [`crate::measure`], and `BadKind` for a column of another type. The statistics stay as they were.
    pub fn push(&mut self, column: &Column<'_>) -> Result<(), Error> {
        if !column.dtype().is_same(self.dtype) {
            return Err(Error::BadKind(Place::default()));
        }
        let told = measured(column, &self.stats())?;
        self.extend(1, &told);
        Ok(())
    }

    // Takes more zones from arrays in which the zones of one statistic stand behind those of the one before.
    fn extend(&mut self, zones: usize, told: &Told) {
        let mut start = 0;
        for (place, entry) in self.entries.iter_mut().enumerate() {
            let here = place * zones..place * zones + zones;
            let ends = &told.ends[here.clone()];
            let end = ends.last().copied().unwrap_or(start);
            let base = entry.values.len() as u64;
            if entry.stat.kind(self.dtype).is_some_and(|kind| kind.width().is_none()) {
                entry.ends.extend(ends.iter().map(|end| end - start + base));
            }
            entry.known.extend_from_slice(&told.known[here]);
            entry.values.extend_from_slice(&told.values[start as usize..end as usize]);
            start = end;
        }
        self.zones += zones;
    }

    /// Takes one more zone as it is told: the statistics that are kept, in order.
    ///
    /// # Errors
    /// `Misfit` where there aren't as many, `BadStat` for one that the type hasn't, `BadValue` for a value that isn't
    /// of the statistic's type. The statistics stay as they were.
    pub fn push_known(&mut self, told: &[Precision<Value>]) -> Result<(), Error> {
        let (found, kept) = (told.len(), self.entries.len());
        if found != kept {
            return Err(Error::Misfit(format!("{found} statistics are told, and {kept} are kept")));
        }
        let mut pieces = Vec::with_capacity(kept);
        for (entry, precision) in self.entries.iter().zip(told) {
            let place = || Place { stat: Some(entry.stat), zone: Some(self.zones), ..Place::default() };
            let kind = entry.stat.kind(self.dtype).ok_or_else(|| Error::BadStat(place()))?;
            pieces.push(precision.bytes(kind).ok_or_else(|| Error::BadValue(place()))?);
        }
        for (entry, (known, bytes)) in self.entries.iter_mut().zip(pieces) {
            entry.known.push(known);
            entry.values.extend_from_slice(&bytes);
            if entry.stat.kind(self.dtype).is_some_and(|kind| kind.width().is_none()) {
                entry.ends.push(entry.values.len() as u64);
            }
        }
        self.zones += 1;
        Ok(())
    }

    // Forgets the zones from this one on.
    pub(crate) fn truncate(&mut self, zones: usize) {
        for entry in &mut self.entries {
            entry.known.truncate(zones);
            entry.ends.truncate(zones);
            let width = entry.stat.kind(self.dtype).and_then(|kind| kind.width());
            let end = width.map_or_else(|| entry.ends.last().map_or(0, |end| *end as usize), |width| zones * width);
            entry.values.truncate(end);
        }
        self.zones = self.zones.min(zones);
    }

    /// Merges each zone with the zone of `right` at the same place, which stands behind it.
    ///
    /// # Errors
    /// `Misfit` where the types, the kept statistics or the numbers of zones differ; `NoMemory`.
    pub fn merge(&self, right: &ColumnStats) -> Result<ColumnStats, Error> {
        if !self.dtype.is_same(right.dtype) || self.stats() != right.stats() {
            return Err(Error::Misfit("the two sides have other types or other statistics".to_owned()));
        }
        if self.zones != right.zones {
            return Err(Error::Misfit(format!("{} zones stand beside {}", self.zones, right.zones)));
        }
        let sides = [self.raw(0), right.raw(0)];
        let told = Told::by(self.entries.len() * self.zones, self.heap() + right.heap(), |told, len, fault| {
            // SAFETY: the arrays are as long as is said, those that are written are lent to this call alone, and the
            // statistics' for as long as it takes.
            unsafe {
                raw::vortex_merge(
                    self.dtype.kind as u8,
                    u8::from(self.dtype.nullable),
                    self.zones,
                    sides[0].as_ptr(),
                    sides[0].len(),
                    sides[1].as_ptr(),
                    sides[1].len(),
                    told.known.as_mut_ptr(),
                    told.known.len(),
                    told.ends.as_mut_ptr(),
                    told.ends.len(),
                    told.values.as_mut_ptr(),
                    told.values.len(),
                    len,
                    fault,
                )
            }
        });
        let told = told.map_err(|(refused, fault)| {
            let side = Some(if fault.column == 0 { Side::Left } else { Side::Right });
            Error::of(refused, Place { side, ..self.place(&fault) })
        })?;
        let mut merged = ColumnStats::new(self.dtype, &self.stats());
        merged.extend(self.zones, &told);
        Ok(merged)
    }

    /// Merges all zones to one, from left to right. Of no zones each statistic is absent.
    ///
    /// # Errors
    /// `NoMemory`.
    pub fn merged(&self) -> Result<ColumnStats, Error> {
        let stats = self.raw(0);
        let told = Told::by(self.entries.len(), self.heap(), |told, len, fault| {
            // SAFETY: as in `merge`.
            unsafe {
                raw::vortex_merge_zones(
                    self.dtype.kind as u8,
                    u8::from(self.dtype.nullable),
                    self.zones,
                    stats.as_ptr(),
                    stats.len(),
                    told.known.as_mut_ptr(),
                    told.known.len(),
                    told.ends.as_mut_ptr(),
                    told.ends.len(),
                    told.values.as_mut_ptr(),
                    told.values.len(),
                    len,
                    fault,
                )
            }
        });
        let told = told.map_err(|(refused, fault)| Error::of(refused, self.place(&fault)))?;
        let mut merged = ColumnStats::new(self.dtype, &self.stats());
        merged.extend(1, &told);
        Ok(merged)
    }

    // The place of a fault that names a zone and a statistic.
    fn place(&self, fault: &Fault) -> Place {
        let stat = self.entries.get(fault.entry).map(|entry| entry.stat);
        Place { zone: Some(fault.row), stat, ..Place::default() }
    }

    fn heap(&self) -> usize {
        self.entries.iter().map(|entry| entry.values.len()).sum()
    }

    /// Returns a statistic of a zone; `None` where it isn't kept or there is no such zone.
    #[must_use]
    pub fn get(&self, zone: usize, stat: Stat) -> Option<Precision<Value>> {
        let entry = self.entries.iter().find(|entry| entry.stat == stat)?;
        let (known, kind) = (*entry.known.get(zone)?, stat.kind(self.dtype)?);
        let value = || Value::read(kind, entry.bytes(zone, kind)?);
        Some(match known {
            1 => Precision::Exact(value()?),
            2 => Precision::Inexact(value()?),
            _ => Precision::Absent,
        })
    }

    /// Checks that a zone has so many rows, and that each of its statistics is true of a column's values.
    ///
    /// # Errors
    /// `Untrue` with the first statistic that isn't true, or without one where the column hasn't as many rows;
    /// `Misfit` where there is no such zone, `BadKind` for a column of another type, and what is wrong with the
    /// column's arrays as of [`crate::measure`].
    pub fn check(&self, zone: usize, rows: u64, column: &Column<'_>) -> Result<(), Error> {
        if zone >= self.zones {
            return Err(Error::Misfit(format!("there are {} zones, and none is zone {zone}", self.zones)));
        }
        if !column.dtype().is_same(self.dtype) {
            return Err(Error::BadKind(Place::default()));
        }
        column.checked()?;
        let stats = self.raw(0);
        let mut fault = Fault::default();
        // SAFETY: the arrays of the statistics and of the column are lent for as long as the call takes.
        let found = unsafe { raw::vortex_check(&column.raw(), rows, stats.as_ptr(), stats.len(), zone, &mut fault) };
        let stat = || self.entries.get(fault.entry).map(|entry| entry.stat);
        match found {
            status::OK => Ok(()),
            status::UNTRUE | status::BAD_STAT => {
                Err(Error::of(found, Place { stat: stat(), zone: Some(zone), ..Place::default() }))
            }
            _ => Err(Error::of(found, Place { row: Some(fault.row), ..Place::default() })),
        }
    }

    // The statistics as they cross, of the column at this place of a scope.
    fn raw(&self, column: usize) -> Vec<raw::Statistic<'_>> {
        self.entries.iter().map(|entry| entry.raw(column)).collect()
    }
}

// The statistics of a column, of which those that it hasn't are absent.
fn measured(column: &Column<'_>, stats: &[Stat]) -> Result<Told, Error> {
    column.checked()?;
    let numbers: Vec<u8> = stats.iter().map(|stat| *stat as u8).collect();
    let told = Told::by(stats.len(), 8 * stats.len() + 64, |told, len, fault| {
        // SAFETY: the arrays are as long as is said, those that are written are lent to this call alone, and the
        // column's are lent for as long as it lives.
        unsafe {
            raw::vortex_measure(
                &column.raw(),
                numbers.as_ptr(),
                numbers.len(),
                told.known.as_mut_ptr(),
                told.known.len(),
                told.ends.as_mut_ptr(),
                told.ends.len(),
                told.values.as_mut_ptr(),
                told.values.len(),
                len,
                fault,
            )
        }
    });
    told.map_err(|(refused, fault)| {
        let place = match refused {
            status::BAD_STAT => Place { stat: stats.get(fault.entry).copied(), ..Place::default() },
            _ => Place { row: Some(fault.row), ..Place::default() },
        };
        Error::of(refused, place)
    })
}

/// Measures the statistics of a column: each of them exact, or absent where the column has none.
///
/// A call fits into 256 KiB of stack.
///
/// # Errors
/// `BadStat` for a statistic that the type hasn't, and what is wrong with the column's arrays: `BadLength`, `BadEnds`,
/// `BadValue` and `BadNull`, each with the row.
pub fn measure(column: &Column<'_>, stats: &[Stat]) -> Result<Vec<Precision<Value>>, Error> {
    let told = measured(column, stats)?;
    let mut start = 0;
    let mut found = Vec::with_capacity(stats.len());
    for ((stat, known), end) in stats.iter().zip(told.known).zip(told.ends) {
        let end = end as usize;
        let value = || stat.kind(column.dtype()).and_then(|kind| Value::read(kind, &told.values[start..end]));
        found.push(match known {
            1 => Precision::Exact(value().ok_or(Error::Other(status::OK))?),
            2 => Precision::Inexact(value().ok_or(Error::Other(status::OK))?),
            _ => Precision::Absent,
        });
        start = end;
    }
    Ok(found)
}
