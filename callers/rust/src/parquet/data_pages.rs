// SPDX-License-Identifier: Apache-2.0
//! The data pages of a Parquet file: its offset indexes are read by proof.
use super::{Error, Footer, RowRanges};
use crate::raw::{self, status, Fault};
use crate::zone_map::Answer;
use std::io::{Read, Seek};
use std::ops::Range;

/// For each so many bytes of page indexes there is room for a page at first: a location takes seven at least.
const BYTES_A_LOCATION: usize = 7;

/// A data page of a Parquet file.
#[derive(Clone, Debug, PartialEq, Eq)]
pub struct DataPage {
    /// The place of its row group in the file.
    pub group: usize,
    /// The place of its column among all leaf columns of the schema.
    pub column: usize,
    /// Its rows, counted from the first of the row group.
    pub rows: Range<u64>,
    /// The byte of the file at which it begins.
    pub offset: u64,
    /// How many bytes it takes in the file, with its header.
    pub size: u64,
}

impl Footer {
    /// Returns the data pages of all columns, as far as the offset indexes of the file tell: row group by row group, in
    /// each column by column. A column chunk without an offset index has none here.
    ///
    /// The source is the file of this footer, and is read as [`Footer::prune_pages`] reads it.
    ///
    /// ```
    /// use foalmorrow::parquet::{Error, Footer};
    /// use foalmorrow::Names;
    /// use std::io::Cursor;
    ///
    /// let file = Cursor::new(include_bytes!(concat!(env!("CARGO_MANIFEST_DIR"), "/tests/pages.parquet")));
    /// let footer = Footer::read(file.clone())?;
    /// let pages = footer.data_pages(file.clone())?;
    /// let found = footer.prune_pages(file, "q > 4", Names::Plain)?;
    /// // The page of the rows 0 to 3 of `q`, and that of the rows 0 to 2 of another column.
    /// assert_eq!(found.bytes_saved(&pages), 20);
    /// # Ok::<(), Error>(())
    /// ```
    ///
    /// # Errors
    ///
    /// [`Error::Changed`] where the source doesn't end in this footer, [`Error::Io`] where it can't be read,
    /// [`Error::Footer`] where the bytes are no footer or no offset indexes, and [`Error::NoMemory`].
    pub fn data_pages(&self, source: impl Read + Seek) -> Result<Vec<DataPage>, Error> {
        let (begin, tail) = self.page_indexes(source)?;
        let mut pages = vec![raw::DataPage::default(); tail.len() / BYTES_A_LOCATION + 1];
        loop {
            let (found, count, fault) = self.told_pages(begin, &tail, &mut pages);
            match found {
                status::OK => return Ok(pages[..count].iter().map(told).collect()),
                status::TOO_SHORT => pages.resize(count, raw::DataPage::default()),
                refused => return Err(Error::of(refused, fault)),
            }
        }
    }

    // Makes the call. Returns its status, how many pages there are, and its fault.
    fn told_pages(&self, begin: u64, tail: &[u8], pages: &mut [raw::DataPage]) -> (u8, usize, Fault) {
        let (mut count, mut fault) = (0, Fault::default());
        // SAFETY: the arrays are as long as is said, and the one that is written is lent to this call alone.
        let found = unsafe {
            raw::vortex_parquet_data_pages(
                self.bytes.as_ptr(),
                self.bytes.len(),
                tail.as_ptr(),
                tail.len(),
                begin,
                pages.as_mut_ptr(),
                pages.len(),
                &mut count,
                &mut fault,
            )
        };
        (found, count, fault)
    }
}

fn told(page: &raw::DataPage) -> DataPage {
    DataPage {
        group: page.group,
        column: page.column,
        rows: page.first..page.end,
        offset: page.offset,
        size: page.size,
    }
}

impl RowRanges {
    /// How many bytes these data pages of the file take that have skipped rows alone, as far as 64 bits hold: of all that
    /// [`Footer::data_pages`] returns, or of those of the columns that are read.
    #[must_use]
    pub fn bytes_saved<'a>(&self, pages: impl IntoIterator<Item = &'a DataPage>) -> u64 {
        let skipped = pages.into_iter().filter(|page| self.is_skipped(page));
        skipped.fold(0, |sum, page| sum.saturating_add(page.size))
    }

    // Whether each row of a page is skipped.
    fn is_skipped(&self, page: &DataPage) -> bool {
        let first = self.stretches.partition_point(|it| (it.group, it.rows.end) <= (page.group, page.rows.start));
        let inside = |it: &&super::RowRange| it.group == page.group && it.rows.start < page.rows.end;
        self.stretches[first..].iter().take_while(inside).all(|it| it.answer == Answer::Skip)
    }
}
