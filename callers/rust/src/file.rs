// SPDX-License-Identifier: Apache-2.0
//! Files of footers: a zone map as bytes, the same that Python's package reads and writes.
//!
//! A file is a magic line, the length of a header, the header in JSON, the arrays that it lists, and a checksum.
//! `docs/FOOTERS.md` is the page of the format.
use crate::column::DType;
use crate::column_stats::{ColumnStats, Entry};
use crate::error::{Error, Place};
use crate::header::{ColumnHeader, Header, StatHeader};
use crate::zone_map::ZoneMap;
use std::collections::HashMap;
use std::fmt;
use std::fs::{self, File, OpenOptions};
use std::io::{self, Write};
use std::path::{Path, PathBuf};
use std::sync::atomic::{AtomicU64, Ordering};

/// What a file begins with. The digit is the version of the format.
const MAGIC: &[u8] = b"foalmorrow footers 1\n";

/// Why a file of footers wasn't read or written.
#[derive(Debug)]
pub enum FooterError {
    /// The file wasn't opened, read or written.
    Io(io::Error),
    /// The bytes don't begin as a file of footers of this version does.
    NotFooters,
    /// The file is cut short or was changed: its checksum is another one.
    Changed,
    /// The header isn't one of footers: why, in words.
    BadHeader(String),
    /// An array doesn't hold what the header says: the error names the column, the statistic and the zone.
    BadArray(Error),
}

impl fmt::Display for FooterError {
    fn fmt(&self, f: &mut fmt::Formatter<'_>) -> fmt::Result {
        match self {
            FooterError::Io(error) => error.fmt(f),
            FooterError::NotFooters => write!(f, "this is no file of footers, or of another version"),
            FooterError::Changed => write!(f, "the file of footers is cut short or was changed"),
            FooterError::BadHeader(words) => write!(f, "the header of the footers is none: {words}"),
            FooterError::BadArray(error) => error.fmt(f),
        }
    }
}

impl std::error::Error for FooterError {
    fn source(&self) -> Option<&(dyn std::error::Error + 'static)> {
        match self {
            FooterError::Io(error) => Some(error),
            FooterError::BadArray(error) => Some(error),
            _ => None,
        }
    }
}

impl From<io::Error> for FooterError {
    fn from(error: io::Error) -> Self {
        FooterError::Io(error)
    }
}

impl From<Error> for FooterError {
    fn from(error: Error) -> Self {
        FooterError::BadArray(error)
    }
}

impl ZoneMap {
    /// Returns the bytes of a file of this map, with a note that [`ZoneMap::from_bytes`] gives back.
    #[must_use]
    pub fn to_bytes(&self, note: &str) -> Vec<u8> {
        let header = self.header(note).to_json();
        let mut data = MAGIC.to_vec();
        data.extend((header.len() as u64).to_le_bytes());
        data.extend(header.as_bytes());
        data.extend(self.rows().iter().flat_map(|rows| rows.to_le_bytes()));
        for entry in self.columns().iter().flat_map(ColumnStats::entries) {
            data.extend(&entry.known);
            data.extend(&entry.values);
            data.extend(entry.ends.iter().flat_map(|end| end.to_le_bytes()));
        }
        data.extend(checksum(&data).to_le_bytes());
        data
    }

    /// Reads the map that these bytes are, and its note.
    ///
    /// # Errors
    /// `NotFooters`, `Changed`, `BadHeader` and `BadArray`. Whatever the bytes, a map that is returned is one that
    /// can be pruned by.
    pub fn from_bytes(data: &[u8]) -> Result<(ZoneMap, String), FooterError> {
        let body = data.strip_prefix(MAGIC).ok_or(FooterError::NotFooters)?;
        let (body, sum) = body.split_last_chunk::<4>().ok_or(FooterError::Changed)?;
        if checksum(&data[..data.len() - 4]) != u32::from_le_bytes(*sum) {
            return Err(FooterError::Changed);
        }
        let (size, rest) = body.split_first_chunk::<8>().ok_or(FooterError::Changed)?;
        let size = usize::try_from(u64::from_le_bytes(*size)).unwrap_or(usize::MAX);
        let (header, arrays) = rest.split_at_checked(size).ok_or_else(|| bad_header("it ends behind the file"))?;
        let header = std::str::from_utf8(header).map_err(|_| bad_header("it isn't UTF-8"))?;
        let header = Header::of_json(header).map_err(FooterError::BadHeader)?;
        Ok((map_of(&header, Arrays { rest: arrays })?, header.note))
    }

    /// Writes the map to one file, whole or not at all, with a note that [`ZoneMap::load_with_note`] gives back.
    ///
    /// A file that was there before keeps its permissions.
    ///
    /// # Errors
    /// `Io` where the file can't be written. The file that was there before stays.
    pub fn save(&self, path: impl AsRef<Path>, note: &str) -> Result<(), FooterError> {
        let (path, data) = (path.as_ref(), self.to_bytes(note));
        let (mut file, beside) = created_beside(path)?;
        let written = fill(&mut file, &data, path).and_then(|()| fs::rename(&beside, path));
        if written.is_err() {
            // The first error is the one that counts.
            let _ = fs::remove_file(&beside);
        }
        Ok(written?)
    }

    /// Reads a map from a file.
    ///
    /// # Errors
    /// `Io` where the file can't be read, and as of [`ZoneMap::from_bytes`].
    pub fn load(path: impl AsRef<Path>) -> Result<ZoneMap, FooterError> {
        Self::load_with_note(path).map(|(map, _)| map)
    }

    /// Reads a map from a file, and the note that was kept with it.
    ///
    /// # Errors
    /// As of [`ZoneMap::load`].
    pub fn load_with_note(path: impl AsRef<Path>) -> Result<(ZoneMap, String), FooterError> {
        Self::from_bytes(&fs::read(path)?)
    }

    fn header(&self, note: &str) -> Header {
        let columns = self.names().iter().zip(self.columns());
        let statistics = columns.clone().flat_map(|(name, column)| {
            column.entries().iter().map(|entry| StatHeader {
                column: name.clone(),
                stat: entry.stat,
                bytes: [entry.known.len(), entry.values.len(), 8 * entry.ends.len()],
            })
        });
        Header {
            note: note.to_owned(),
            zones: self.zones(),
            statistics: statistics.collect(),
            columns: columns
                .enumerate()
                .map(|(place, (name, it))| ColumnHeader {
                    name: name.clone(),
                    dtype: it.dtype(),
                    logical: self.logical(place).cloned(),
                })
                .collect(),
        }
    }
}

fn bad_header(words: &str) -> FooterError {
    FooterError::BadHeader(words.to_owned())
}

// Makes a new file in the folder of a path, to be renamed to it.
fn created_beside(path: &Path) -> io::Result<(File, PathBuf)> {
    static COUNT: AtomicU64 = AtomicU64::new(0);
    let name = path.file_name().ok_or(io::ErrorKind::InvalidInput)?.to_string_lossy();
    loop {
        let count = COUNT.fetch_add(1, Ordering::Relaxed);
        let beside = path.with_file_name(format!(".{name}.{}.{count}", std::process::id()));
        match OpenOptions::new().write(true).create_new(true).open(&beside) {
            Ok(file) => return Ok((file, beside)),
            Err(error) if error.kind() == io::ErrorKind::AlreadyExists => {}
            Err(error) => return Err(error),
        }
    }
}

// Writes a new file that is to take the place of a path, with the permissions of the file that is there.
fn fill(file: &mut File, data: &[u8], path: &Path) -> io::Result<()> {
    match fs::metadata(path) {
        Ok(old) => file.set_permissions(old.permissions())?,
        Err(error) if error.kind() == io::ErrorKind::NotFound => {}
        Err(error) => return Err(error),
    }
    file.write_all(data)?;
    file.sync_all()
}

/// The arrays of a file, one behind the other.
struct Arrays<'a> {
    rest: &'a [u8],
}

impl<'a> Arrays<'a> {
    // The next array, of so many bytes.
    fn bytes(&mut self, len: usize) -> Result<&'a [u8], FooterError> {
        let (found, rest) =
            self.rest.split_at_checked(len).ok_or_else(|| bad_header("it lists more bytes than there are"))?;
        self.rest = rest;
        Ok(found)
    }

    // The next array, of so many numbers.
    fn numbers(&mut self, len: usize) -> Result<Vec<u64>, FooterError> {
        let bytes = self.bytes(len.saturating_mul(8))?;
        Ok(bytes.chunks_exact(8).map(|it| u64::from_le_bytes(it.try_into().expect("a chunk has 8 bytes"))).collect())
    }
}

fn map_of(header: &Header, mut arrays: Arrays<'_>) -> Result<ZoneMap, FooterError> {
    let rows = arrays.numbers(header.zones)?;
    let places: HashMap<&str, usize> =
        header.columns.iter().enumerate().map(|(place, column)| (column.name.as_str(), place)).collect();
    let mut kept: Vec<Vec<Entry>> = header.columns.iter().map(|_| Vec::new()).collect();
    for listed in &header.statistics {
        let place = *places.get(listed.column.as_str()).ok_or_else(|| Error::UnknownColumn(listed.column.clone()))?;
        if kept[place].iter().any(|entry| entry.stat == listed.stat) {
            return Err(bad_header(&format!("column {}, {} is listed twice", listed.column, listed.stat)));
        }
        kept[place].push(entry_of(listed, header.columns[place].dtype, header.zones, &mut arrays)?);
    }
    if !arrays.rest.is_empty() {
        return Err(bad_header("it lists fewer bytes than there are"));
    }
    let names = header.columns.iter().map(|column| column.name.clone()).collect();
    let columns =
        header.columns.iter().zip(kept).map(|(it, kept)| ColumnStats::of_entries(it.dtype, header.zones, kept));
    let mut map = ZoneMap::of_columns(names, rows, columns.collect())?;
    for column in &header.columns {
        if let Some(kind) = &column.logical {
            map = map.with_logical(&column.name, kind.clone())?;
        }
    }
    Ok(map)
}

// Reads a statistic of a column of this type in so many zones.
fn entry_of(listed: &StatHeader, dtype: DType, zones: usize, arrays: &mut Arrays<'_>) -> Result<Entry, FooterError> {
    let place = Place { column: Some(listed.column.clone()), stat: Some(listed.stat), ..Place::default() };
    let kind = listed.stat.kind(dtype).ok_or_else(|| Error::BadStat(place.clone()))?;
    let room = match kind.width() {
        Some(width) => [Some(zones), zones.checked_mul(width), Some(0)],
        None => [Some(zones), Some(listed.bytes[1]), zones.checked_mul(8)],
    };
    if room != listed.bytes.map(Some) {
        return Err(Error::BadLength(place).into());
    }
    let (known, values) = (arrays.bytes(listed.bytes[0])?.to_vec(), arrays.bytes(listed.bytes[1])?);
    let ends = arrays.numbers(listed.bytes[2] / 8)?;
    let at = |zone: usize| Place { zone: Some(zone), ..place.clone() };
    if let Some(zone) = known.iter().position(|known| *known > 2) {
        return Err(Error::BadKnown(at(zone)).into());
    }
    let used = match kind.width() {
        Some(_) => values.len(),
        None => used_of_heap(&ends, values.len()).map_err(|zone| Error::BadEnds(at(zone)))?,
    };
    let entry = Entry { stat: listed.stat, known, values: values[..used].to_vec(), ends };
    match (0..zones).find(|zone| entry.known[*zone] > 0 && !entry.is_of_kind(*zone, kind)) {
        Some(zone) => Err(Error::BadValue(at(zone)).into()),
        None => Ok(entry),
    }
}

// How many bytes of a heap are used; `Err` with the first zone whose text begins behind its end or ends behind the heap.
fn used_of_heap(ends: &[u64], heap: usize) -> Result<usize, usize> {
    let mut used = 0;
    for (zone, end) in ends.iter().enumerate() {
        let end = usize::try_from(*end).map_err(|_| zone)?;
        if end < used || end > heap {
            return Err(zone);
        }
        used = end;
    }
    Ok(used)
}

const fn crc_table() -> [u32; 256] {
    let mut table = [0; 256];
    let mut place = 0;
    while place < 256 {
        let mut value = place as u32;
        let mut bit = 0;
        while bit < 8 {
            value = if value & 1 == 1 { value >> 1 ^ 0xedb8_8320 } else { value >> 1 };
            bit += 1;
        }
        table[place] = value;
        place += 1;
    }
    table
}

const CRC: [u32; 256] = crc_table();

// The CRC-32 of zlib and Ethernet.
fn checksum(data: &[u8]) -> u32 {
    !data.iter().fold(!0, |sum, byte| sum >> 8 ^ CRC[(sum as u8 ^ byte) as usize])
}

#[cfg(test)]
mod tests {
    use super::checksum;

    #[test]
    fn checksum_is_that_of_zlib() {
        assert_eq!(checksum(b""), 0);
        assert_eq!(checksum(b"123456789"), 0xcbf4_3926);
    }
}
