// SPDX-License-Identifier: Apache-2.0
//! Rows of Parquet files by conditions in SQL, beside a direct filter of the rows of which the page indexes were written.
use foalmorrow::parquet::{DataPage, Error, Footer, FooterFault, RowRange, RowRanges};
use foalmorrow::{Answer, Names};
use std::io::{Cursor, Read, Result as IoResult, Seek, SeekFrom};

mod conditions;
mod thrift;
use conditions::{Dice, Row};
use thrift::Value::{Bytes, Fields, List, Number, Short, Truths};

/// A file of page indexes and a footer, without a page of data.
struct File {
    bytes: Vec<u8>,
    /// Where the first index begins that the footer names, and where the footer begins.
    begin: Option<usize>,
    footer: usize,
    /// For each row group the first row of each page of both columns, where both indexes are named, and else 0 alone.
    firsts: Vec<[Vec<usize>; 2]>,
    /// The data pages of each column chunk whose offset index is named.
    pages: Vec<DataPage>,
}

// The least and the greatest value of a column, as they are written.
fn ends(rows: &[Row], column: usize) -> Option<(Vec<u8>, Vec<u8>)> {
    if column == 0 {
        let numbers = rows.iter().filter_map(|row| row.n);
        let ends = numbers.clone().min().zip(numbers.max());
        return ends.map(|(a, b)| (a.to_le_bytes().into(), b.to_le_bytes().into()));
    }
    let texts = rows.iter().filter_map(|row| row.s);
    texts.clone().min().zip(texts.max()).map(|(a, b)| (a.into(), b.into()))
}

fn nulls(rows: &[Row], column: usize) -> i64 {
    rows.iter().filter(|row| if column == 0 { row.n.is_none() } else { row.s.is_none() }).count() as i64
}

fn written(value: thrift::Value) -> Vec<u8> {
    let mut out = Vec::new();
    value.write(&mut out);
    out
}

// The column index and the offset index of pages of a column, and how many bytes each page takes.
fn indexes(pages: &[&[Row]], column: usize, dice: &mut Dice) -> (Vec<u8>, Vec<u8>, Vec<u64>) {
    let ends: Vec<_> = pages.iter().map(|rows| ends(rows, column)).collect();
    // A page of nulls has no bounds, whatever stands in their places.
    let junk = || (b"zz".to_vec(), b"a".to_vec());
    let column_index = Fields(vec![
        (1, Truths(ends.iter().map(Option::is_none).collect())),
        (2, List(ends.iter().map(|it| Bytes(it.clone().unwrap_or_else(junk).0)).collect())),
        (3, List(ends.iter().map(|it| Bytes(it.clone().unwrap_or_else(junk).1)).collect())),
        (4, Short(0)),
        (5, List(pages.iter().map(|rows| Number(nulls(rows, column))).collect())),
    ]);
    let sizes: Vec<u64> = pages.iter().map(|_| 1 + dice.roll(100)).collect();
    let mut first = 0;
    let location = |(rows, size): (&&[Row], &u64)| {
        let found = Fields(vec![(1, Number(4)), (2, Short(*size as i64)), (3, Number(first))]);
        first += rows.len() as i64;
        found
    };
    let locations = pages.iter().zip(&sizes).map(location).collect();
    (written(column_index), written(Fields(vec![(1, List(locations))])), sizes)
}

impl File {
    fn of(groups: &[Vec<Row>], dice: &mut Dice) -> File {
        let mut it = File { bytes: b"PAR1".to_vec(), begin: None, footer: 0, firsts: vec![], pages: vec![] };
        it.bytes.extend((0..dice.roll(40)).map(|_| 7));
        let told = groups.iter().map(|rows| it.group(rows, dice)).collect();
        let element = |name: &str, fields: Vec<(u8, thrift::Value)>| {
            let mut all: Vec<_> = fields.into_iter().chain([(4, Bytes(name.into()))]).collect();
            all.sort_by_key(|(id, _)| *id);
            Fields(all)
        };
        let schema = vec![
            element("schema", vec![(5, Short(2))]),
            element("n", vec![(1, Short(2)), (3, Short(1))]),
            element("s", vec![(1, Short(6)), (3, Short(1)), (6, Short(0))]),
        ];
        let orders = (0..2).map(|_| Fields(vec![(1, Fields(vec![]))])).collect();
        let footer = written(Fields(vec![(1, Short(2)), (2, List(schema)), (4, List(told)), (7, List(orders))]));
        it.footer = it.bytes.len();
        it.bytes.extend(&footer);
        it.bytes.extend((footer.len() as u32).to_le_bytes());
        it.bytes.extend(b"PAR1");
        it
    }

    fn group(&mut self, rows: &[Row], dice: &mut Dice) -> thrift::Value {
        let mut firsts = [vec![0], vec![0]];
        let chunks = (0..2).map(|column| self.chunk(rows, column, &mut firsts[column], dice)).collect();
        self.firsts.push(firsts);
        Fields(vec![(1, List(chunks)), (3, Number(rows.len() as i64))])
    }

    // A column chunk, which has statistics and both indexes, one of them, or none.
    fn chunk(&mut self, rows: &[Row], column: usize, firsts: &mut Vec<usize>, dice: &mut Dice) -> thrift::Value {
        let cuts: Vec<usize> = (0..rows.len()).filter(|at| *at == 0 || dice.roll(3) == 0).collect();
        let stops = cuts.iter().skip(1).copied().chain([rows.len()]);
        let pages: Vec<&[Row]> = cuts.iter().zip(stops).map(|(start, stop)| &rows[*start..stop]).collect();
        let (column_index, offset_index, sizes) = indexes(&pages, column, dice);
        let mut stats = vec![(3, Number(nulls(rows, column)))];
        if let Some((least, greatest)) = ends(rows, column) {
            stats.extend([(5, Bytes(greatest)), (6, Bytes(least))]);
        }
        let mut fields = vec![(3, Fields(vec![(1, Short([2, 6][column])), (12, Fields(stats))]))];
        let (has_offsets, has_columns) =
            [(true, true), (true, true), (true, false), (false, true), (false, false)][dice.roll(5) as usize];
        if has_offsets {
            fields.extend(self.put(offset_index, 4));
            let ends = cuts.iter().skip(1).copied().chain([rows.len()]);
            let group = self.firsts.len();
            self.pages.extend(cuts.iter().zip(ends).zip(sizes).map(|((start, end), size)| DataPage {
                group,
                column,
                rows: *start as u64..end as u64,
                offset: 4,
                size,
            }));
        }
        if has_columns {
            fields.extend(self.put(column_index, 6));
        }
        if has_offsets && has_columns {
            *firsts = cuts;
        }
        Fields(fields)
    }

    // Writes an index. Returns the fields that tell where it stands.
    fn put(&mut self, index: Vec<u8>, id: u8) -> [(u8, thrift::Value); 2] {
        let place = self.bytes.len();
        self.begin = self.begin.or(Some(place));
        self.bytes.extend(&index);
        [(id, Number(place as i64)), (id + 1, Short(index.len() as i64))]
    }

    fn footer(&self) -> Footer {
        Footer::read(Cursor::new(&self.bytes)).unwrap()
    }

    fn pruned(&self, condition: &str) -> Result<RowRanges, Error> {
        self.footer().prune_pages(Cursor::new(&self.bytes), condition, Names::Plain)
    }
}

// A reader that notes which bytes were read.
struct Counted<'a> {
    source: Cursor<&'a [u8]>,
    read: Vec<(usize, usize)>,
}

impl Read for Counted<'_> {
    fn read(&mut self, into: &mut [u8]) -> IoResult<usize> {
        let start = self.source.position() as usize;
        // Few bytes at a time, as a socket gives them.
        let room = into.len().min(7);
        let count = self.source.read(&mut into[..room])?;
        self.read.push((start, start + count));
        Ok(count)
    }
}

impl Seek for Counted<'_> {
    fn seek(&mut self, to: SeekFrom) -> IoResult<u64> {
        self.source.seek(to)
    }
}

#[test]
fn random_conditions_lose_no_row() {
    let mut dice = Dice(88_172_645_463_325_252);
    let (mut seen, mut saves) = ([0_usize; 3], 0_usize);
    for _ in 0..5_000 {
        let groups: Vec<Vec<Row>> =
            (0..1 + dice.roll(3)).map(|_| (0..dice.roll(4)).flat_map(|_| dice.rows()).collect()).collect();
        let (file, condition) = (File::of(&groups, &mut dice), dice.condition(3));
        let found = file.pruned(&condition.text).unwrap();
        let mut wanted = Vec::new();
        for (group, rows) in groups.iter().enumerate() {
            let ends: Vec<_> =
                found.stretches.iter().filter(|it| it.group == group).map(|it| it.rows.clone()).collect();
            assert_eq!(ends.first().map_or(0, |it| it.start), 0);
            assert!(ends.windows(2).all(|two| two[0].end == two[1].start), "{ends:?}");
            assert_eq!(ends.last().map_or(0, |it| it.end), rows.len() as u64);
        }
        assert!(found.stretches.is_sorted_by_key(|it| it.group));
        let start_of = |group: usize| groups[..group].iter().map(Vec::len).sum::<usize>() as u64;
        for it in &found.stretches {
            assert!(it.rows.start < it.rows.end);
            let rows = &groups[it.group][it.rows.start as usize..it.rows.end as usize];
            let count = rows.iter().filter(|row| (condition.truth)(row) == Some(true)).count();
            assert!(it.answer != Answer::Skip || count == 0, "{}: {rows:?}", condition.text);
            assert!(it.answer != Answer::Whole || count == rows.len(), "{}: {rows:?}", condition.text);
            // A stretch ends where a page of a column does.
            let ends = &file.firsts[it.group];
            let end = it.rows.end as usize;
            assert!(end == groups[it.group].len() || ends.iter().any(|firsts| firsts.contains(&end)));
            if it.answer != Answer::Skip {
                wanted.extend(start_of(it.group) + it.rows.start..start_of(it.group) + it.rows.end);
            }
            seen[it.answer as usize] += 1;
        }
        assert_eq!(found.ranges().unwrap().into_iter().flatten().collect::<Vec<u64>>(), wanted);
        assert!(found.ranges().unwrap().windows(2).all(|two| two[0].end < two[1].start));
        assert!(found.whole_ranges().unwrap().into_iter().flatten().all(|row| wanted.contains(&row)));
        assert_eq!(found.rows_skipped(), start_of(groups.len()) - wanted.len() as u64);
        let mut kept: Vec<usize> =
            found.stretches.iter().filter(|it| it.answer != Answer::Skip).map(|it| it.group).collect();
        kept.dedup();
        assert_eq!(found.kept_groups().collect::<Vec<_>>(), kept);
        assert_eq!(found.unread.len(), condition.text.matches("f(").count());
        let pages = file.footer().data_pages(Cursor::new(&file.bytes)).unwrap();
        assert_eq!(pages, file.pages);
        let is_skipped =
            |page: &&DataPage| page.rows.clone().all(|row| !wanted.contains(&(start_of(page.group) + row)));
        let saved: u64 = pages.iter().filter(is_skipped).map(|page| page.size).sum();
        assert_eq!(found.bytes_saved(&pages), saved);
        assert_eq!(
            found.bytes_saved(pages.iter().filter(|page| page.column == 1)),
            pages.iter().filter(is_skipped).filter(|page| page.column == 1).map(|page| page.size).sum()
        );
        saves += usize::from(saved > 0);
    }
    assert!(saves > 500, "{saves}");
    assert!(seen.iter().all(|count| *count > 1_000), "{seen:?}");
}

fn numbered(numbers: std::ops::Range<i64>) -> Vec<Row> {
    numbers.map(|n| Row { n: Some(n), s: Some("a"), hidden: [None; 2] }).collect()
}

#[test]
fn the_indexes_and_the_footer_alone_are_read() {
    let mut dice = Dice(7);
    for _ in 0..200 {
        let file = File::of(&[numbered(0..9), numbered(9..20)], &mut dice);
        let mut source = Counted { source: Cursor::new(&file.bytes[..]), read: vec![] };
        let found = file.footer().prune_pages(&mut source, "n > 12", Names::Plain).unwrap();
        assert_eq!(found.ranges(), file.pruned("n > 12").unwrap().ranges());
        source.read.retain(|(start, stop)| start < stop);
        assert!(source.read.windows(2).all(|two| two[0].1 == two[1].0));
        assert_eq!(source.read.first().unwrap().0, file.begin.unwrap_or(file.footer));
        assert_eq!(source.read.last().unwrap().1, file.bytes.len());
    }
}

#[test]
fn pages_are_skipped_that_row_groups_are_not() {
    let mut dice = Dice(7);
    let (mut skipped, mut whole) = (0, 0);
    for _ in 0..300 {
        let file = File::of(&[numbered(0..24), numbered(0..24)], &mut dice);
        assert_eq!(file.pruned("n >= 0").unwrap().rows_skipped(), 0);
        let found = file.pruned("n BETWEEN 8 AND 15").unwrap();
        skipped += found.rows_skipped();
        whole += found.whole_ranges().unwrap().into_iter().flatten().count();
    }
    // Of 48 rows in each file 32 are to be skipped, and 16 are whole. Two chunks of five have both indexes.
    assert!(skipped > 300 * 32 / 5 && whole > 300 * 16 / 10, "{skipped} {whole}");
}

#[test]
fn a_file_without_indexes_is_pruned_by_its_row_groups() {
    let mut dice = Dice(7);
    let file = (0..100).map(|_| File::of(&[numbered(0..5), numbered(5..9)], &mut dice)).find(|it| it.begin.is_none());
    let file = file.unwrap();
    let (groups, pages) = (file.footer().prune("n > 6", Names::Plain).unwrap(), file.pruned("n > 6").unwrap());
    assert_eq!(groups.ranges(), pages.ranges());
    assert_eq!(groups.kept().collect::<Vec<_>>(), pages.kept_groups().collect::<Vec<_>>());
}

#[test]
fn a_file_that_has_changed_is_refused() {
    let mut dice = Dice(7);
    let file = File::of(&[numbered(0..9)], &mut dice);
    let footer = file.footer();
    let changed = |bytes: &[u8]| footer.prune_pages(Cursor::new(bytes), "n > 6", Names::Plain);
    assert!(matches!(changed(&[&file.bytes[..], b"more"].concat()), Err(Error::Changed)));
    assert!(matches!(changed(&file.bytes[..file.bytes.len() - 1]), Err(Error::Changed)));
    assert!(matches!(changed(b"PAR1"), Err(Error::Changed)));
    for place in file.footer..file.bytes.len() {
        let mut bytes = file.bytes.clone();
        bytes[place] ^= 1;
        assert!(matches!(changed(&bytes), Err(Error::Changed)), "{place}");
    }
    assert!(changed(&file.bytes).is_ok());
}

#[test]
fn each_byte_of_page_indexes_may_be_any_other() {
    let mut dice = Dice(9);
    let mut faults = Vec::new();
    for _ in 0..3 {
        let file = File::of(&[numbered(0..9)], &mut dice);
        let footer = file.footer();
        for place in file.begin.unwrap_or(file.footer)..file.footer {
            for byte in 0..=255 {
                let mut bytes = file.bytes.clone();
                bytes[place] = byte;
                match footer.prune_pages(Cursor::new(&bytes), "n > 6 AND s = 'a'", Names::Plain) {
                    Ok(found) => assert_eq!(found.stretches.last().unwrap().rows.end, 9),
                    Err(Error::Footer(fault)) => faults.push(fault),
                    Err(error) => panic!("{place}, {byte}: {error}"),
                }
            }
        }
    }
    assert!(faults.contains(&FooterFault::Pages) && faults.contains(&FooterFault::Short));
}

#[test]
fn faults_of_offset_indexes_are_named() {
    let mut dice = Dice(9);
    let mut faults = Vec::new();
    for _ in 0..3 {
        let file = File::of(&[numbered(0..9)], &mut dice);
        let footer = file.footer();
        for place in file.begin.unwrap_or(file.footer)..file.footer {
            for byte in 0..=255 {
                let mut bytes = file.bytes.clone();
                bytes[place] = byte;
                match footer.data_pages(Cursor::new(&bytes)) {
                    Ok(pages) => assert!(pages.iter().all(|it| it.rows.start < it.rows.end && it.rows.end <= 9)),
                    Err(Error::Footer(fault)) => faults.push(fault),
                    Err(error) => panic!("{place}, {byte}: {error}"),
                }
            }
        }
        assert!(matches!(footer.data_pages(Cursor::new(b"PAR1")), Err(Error::Changed)));
    }
    assert!(faults.contains(&FooterFault::Pages));
}

#[test]
fn rows_past_64_bits_have_no_ranges() {
    let endless = |group, answer| RowRange { group, rows: 0..u64::MAX, answer };
    let found = RowRanges { stretches: vec![endless(0, Answer::Skip), endless(1, Answer::Skip)], unread: vec![] };
    assert_eq!((found.ranges(), found.rows_skipped()), (None, u64::MAX));
    let found = RowRanges { stretches: vec![endless(0, Answer::Whole)], unread: vec![] };
    let all = || Some(std::iter::once(0..u64::MAX).collect::<Vec<_>>());
    assert_eq!((found.ranges(), found.whole_ranges()), (all(), all()));
    let none = RowRanges { stretches: vec![], unread: vec![] };
    assert_eq!((none.ranges(), none.kept_groups().count(), none.rows_skipped()), (Some(vec![]), 0, 0));
}
