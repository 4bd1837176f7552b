// SPDX-License-Identifier: Apache-2.0
//! Rows of a Parquet file by a condition in SQL: its page indexes are read by proof.
use super::{last, spans, Error, Footer, FooterFault, ROOM, TAIL};
use crate::pruning::answer;
use crate::raw::{self, status, Fault, Span};
use crate::sql::Names;
use crate::zone_map::Answer;
use std::io::{Read, Seek, SeekFrom};
use std::ops::Range;

/// For each so many bytes of page indexes there is room for a stretch of rows at first.
const BYTES_A_PAGE: usize = 16;
/// The offset that the library tells where a footer names no page index.
const NO_INDEXES: u64 = u64::MAX;

/// Rows of a row group that lie in one page of each column that the condition names, and what to do with them.
#[derive(Clone, Debug, PartialEq, Eq)]
pub struct RowRange {
    /// The place of the row group in the file.
    pub group: usize,
    /// The rows, counted from the first of the row group.
    pub rows: Range<u64>,
    pub answer: Answer,
}

/// The answer to a condition over the pages of a Parquet file.
#[derive(Clone, Debug, PartialEq, Eq)]
pub struct RowRanges {
    /// The stretches, in the file's order. Those of a row group are all its rows.
    pub stretches: Vec<RowRange>,
    /// The bytes of the condition at which the tests stand that weren't read, ascending.
    pub unread: Vec<Range<usize>>,
}

impl Footer {
    /// Answers what to do with the rows of the file under a condition in SQL, by its page indexes.
    ///
    /// Each row group is cut where a page of a column ends that the condition names. If the statistics of the pages are
    /// true, no row of a skipped stretch satisfies the condition, and each row of a whole one does, whatever the tests
    /// mean that aren't read. A column chunk without page indexes is one page with the statistics of the footer, so a file
    /// without any is pruned by its row groups.
    ///
    /// The source is the file of this footer, wherever it stands. Its bytes are read from the first page index up to its
    /// end, so that a file which has changed meanwhile is seen.
    ///
    /// ```
    /// use foalmorrow::parquet::{Error, Footer};
    /// use foalmorrow::Names;
    /// use std::io::Cursor;
    ///
    /// // Eight rows, whose column `q` has a page of 1 to 4 and one of 5, and a row group of four rows without page indexes.
    /// let file = Cursor::new(include_bytes!(concat!(env!("CARGO_MANIFEST_DIR"), "/tests/pages.parquet")));
    /// let footer = Footer::read(file.clone())?;
    /// let found = footer.prune_pages(file, "q > 4", Names::Plain)?;
    /// assert_eq!(found.ranges(), Some(vec![4..12]));
    /// assert_eq!(found.whole_ranges(), Some(vec![4..8]));
    /// # Ok::<(), Error>(())
    /// ```
    ///
    /// # Errors
    ///
    /// [`Error::Changed`] where the source doesn't end in this footer, [`Error::Io`] where it can't be read,
    /// [`Error::Footer`] of page indexes too, and as of [`Footer::prune`].
    pub fn prune_pages(&self, source: impl Read + Seek, condition: &str, names: Names) -> Result<RowRanges, Error> {
        let (begin, tail) = self.page_indexes(source)?;
        let room = self.bytes.len() / super::BYTES_A_GROUP + tail.len() / BYTES_A_PAGE + 1;
        let mut ranges = vec![raw::RowRange::default(); room];
        let mut unread = vec![Span::default(); ROOM];
        loop {
            let (found, counts, fault) = self.made_pages((begin, &tail), condition, names, &mut ranges, &mut unread);
            match found {
                status::OK => return told(&ranges[..counts.0], &unread[..counts.1]),
                status::TOO_SHORT => {
                    ranges.resize(counts.0.max(ranges.len()), raw::RowRange::default());
                    unread.resize(counts.1.max(unread.len()), Span::default());
                }
                refused => return Err(Error::of(refused, fault)),
            }
        }
    }

    // Reads the bytes of the file from its first page index up to its footer, and tells at which byte they begin.
    pub(super) fn page_indexes(&self, mut source: impl Read + Seek) -> Result<(u64, Vec<u8>), Error> {
        let size = source.seek(SeekFrom::End(0))?;
        let length = u32::try_from(self.bytes.len()).map_err(|_| Error::Footer(FooterFault::FooterLength))?;
        let end = size.checked_sub(u64::from(length) + TAIL as u64).ok_or(Error::Changed)?;
        // An index that isn't named as one before the footer is none, and its column chunk is one page.
        let begin = self.indexes_begin()?.min(end);
        let mut bytes = last(&mut source, size, size - begin, 0)?;
        let count = usize::try_from(end - begin).map_err(|_| Error::NoMemory)?;
        let (footer, behind) = bytes[count..].split_at(self.bytes.len());
        if footer != self.bytes || behind[..4] != length.to_le_bytes() || &behind[4..] != b"PAR1" {
            return Err(Error::Changed);
        }
        bytes.truncate(count);
        Ok((begin, bytes))
    }

    // The byte of the file at which its first page index begins, or the greatest number where the footer names none.
    fn indexes_begin(&self) -> Result<u64, Error> {
        let (mut begin, mut fault) = (NO_INDEXES, Fault::default());
        // SAFETY: the array is as long as is said.
        let found =
            unsafe { raw::vortex_parquet_indexes(self.bytes.as_ptr(), self.bytes.len(), &mut begin, &mut fault) };
        if found == status::OK {
            Ok(begin)
        } else {
            Err(Error::of(found, fault))
        }
    }

    // Makes the call. Returns its status, how many stretches and unread tests there are, and its fault.
    fn made_pages(
        &self,
        (begin, tail): (u64, &[u8]),
        condition: &str,
        names: Names,
        ranges: &mut [raw::RowRange],
        unread: &mut [Span],
    ) -> (u8, (usize, usize), Fault) {
        let (mut ranges_found, mut unread_found, mut fault) = (0, 0, Fault::default());
        // SAFETY: the arrays are as long as is said, and those that are written are lent to this call alone.
        let found = unsafe {
            raw::vortex_parquet_prune_pages(
                self.bytes.as_ptr(),
                self.bytes.len(),
                tail.as_ptr(),
                tail.len(),
                begin,
                condition.as_ptr(),
                condition.len(),
                names.flags(),
                ranges.as_mut_ptr(),
                ranges.len(),
                unread.as_mut_ptr(),
                unread.len(),
                &mut ranges_found,
                &mut unread_found,
                &mut fault,
            )
        };
        (found, (ranges_found, unread_found), fault)
    }
}

// The answer that the library wrote.
fn told(ranges: &[raw::RowRange], unread: &[Span]) -> Result<RowRanges, Error> {
    let stretch = |it: &raw::RowRange| {
        let answer = answer(it.answer).map_err(|_| Error::Other(it.answer))?;
        Ok(RowRange { group: it.group, rows: it.first..it.end, answer })
    };
    Ok(RowRanges {
        stretches: ranges.iter().map(stretch).collect::<Result<Vec<RowRange>, Error>>()?,
        unread: spans(unread),
    })
}

impl RowRanges {
    /// The places of the row groups that have rows to be fetched.
    pub fn kept_groups(&self) -> impl Iterator<Item = usize> + '_ {
        let kept = self.stretches.iter().filter(|it| it.answer != Answer::Skip).map(|it| it.group);
        let mut before = None;
        kept.filter(move |group| before.replace(*group) != Some(*group))
    }

    /// The rows to fetch, counted through the file, in as few ranges as hold them; `None` where their numbers pass 64 bits.
    #[must_use]
    pub fn ranges(&self) -> Option<Vec<Range<u64>>> {
        self.joined(|answer| answer != Answer::Skip)
    }

    /// Those of the rows to fetch that are known to satisfy the condition, as [`RowRanges::ranges`] has them.
    #[must_use]
    pub fn whole_ranges(&self) -> Option<Vec<Range<u64>>> {
        self.joined(|answer| answer == Answer::Whole)
    }

    /// How many rows don't satisfy the condition by the statistics, as far as 64 bits hold.
    #[must_use]
    pub fn rows_skipped(&self) -> u64 {
        let skipped = self.stretches.iter().filter(|it| it.answer == Answer::Skip);
        skipped.fold(0, |sum, it| sum.saturating_add(it.rows.end - it.rows.start))
    }

    // The rows of the stretches with such an answer, counted through the file.
    fn joined(&self, wanted: impl Fn(Answer) -> bool) -> Option<Vec<Range<u64>>> {
        let mut found: Vec<Range<u64>> = Vec::new();
        let (mut start, mut end) = (0_u64, 0_u64);
        for it in &self.stretches {
            // The first stretch of a row group begins where the last one of the row group before it ends.
            start = if it.rows.start == 0 { end } else { start };
            end = start.checked_add(it.rows.end)?;
            if wanted(it.answer) {
                let rows = start + it.rows.start..end;
                match found.last_mut() {
                    Some(before) if before.end == rows.start => before.end = rows.end,
                    _ => found.push(rows),
                }
            }
        }
        Some(found)
    }
}
