// SPDX-License-Identifier: Apache-2.0
//! Typed columns of the rows of all parts, the parts as ranges of them, and one log of their statistics.
use crate::bits::Bits;
use crate::log::{Entry, Log, Stats};
use crate::values::{Kind, Type};

/// Texts or lists of bytes, one behind the other, and where each ends.
#[derive(Default)]
pub struct Strings {
    pub ends: Vec<u32>,
    pub heap: Vec<u8>,
}

impl Strings {
    /// Ends the value that the heap's last bytes are.
    #[inline(always)]
    pub fn end(&mut self) {
        self.ends.push(self.heap.len() as u32);
    }

    pub fn get(&self, row: usize) -> &[u8] {
        let start = if row == 0 { 0 } else { self.ends[row - 1] };
        &self.heap[start as usize..self.ends[row] as usize]
    }

    fn truncate(&mut self, rows: usize) {
        self.ends.truncate(rows);
        self.heap.truncate(self.ends.last().map_or(0, |end| *end as usize));
    }
}

/// The values of a column in a vector of their type; the value of a null is a filler.
pub enum Cells {
    Null,
    Bool(Vec<bool>),
    I8(Vec<i8>),
    I16(Vec<i16>),
    I32(Vec<i32>),
    I64(Vec<i64>),
    U8(Vec<u8>),
    U16(Vec<u16>),
    U32(Vec<u32>),
    U64(Vec<u64>),
    Texts(Strings),
    Bytes(Strings),
}

/// A match of cells with one arm for the vectors of all types of numbers, and then others.
macro_rules! match_cells {
    ($cells:expr, numbers $values:ident => $does:expr, $($others:tt)*) => {
        match $cells {
            Cells::I8($values) => $does,
            Cells::I16($values) => $does,
            Cells::I32($values) => $does,
            Cells::I64($values) => $does,
            Cells::U8($values) => $does,
            Cells::U16($values) => $does,
            Cells::U32($values) => $does,
            Cells::U64($values) => $does,
            $($others)*
        }
    };
}
pub(crate) use match_cells;

impl Cells {
    fn new(kind: Kind) -> Cells {
        match kind {
            Kind::Null => Cells::Null,
            Kind::Bool => Cells::Bool(Vec::new()),
            Kind::Signed(8) => Cells::I8(Vec::new()),
            Kind::Signed(16) => Cells::I16(Vec::new()),
            Kind::Signed(32) => Cells::I32(Vec::new()),
            Kind::Signed(_) => Cells::I64(Vec::new()),
            Kind::Unsigned(8) => Cells::U8(Vec::new()),
            Kind::Unsigned(16) => Cells::U16(Vec::new()),
            Kind::Unsigned(32) => Cells::U32(Vec::new()),
            Kind::Unsigned(_) => Cells::U64(Vec::new()),
            Kind::Utf8 => Cells::Texts(Strings::default()),
            Kind::Binary => Cells::Bytes(Strings::default()),
        }
    }
}

pub struct Column {
    pub name: String,
    pub dtype: Type,
    pub cells: Cells,
    /// The rows that are null, where the type isn't.
    pub nulls: Bits,
}

impl Column {
    fn new(name: &str, dtype: Type) -> Column {
        Column { name: name.to_owned(), dtype, cells: Cells::new(dtype.kind), nulls: Bits::default() }
    }

    pub fn push_null(&mut self, row: usize) {
        match_cells!(
            &mut self.cells,
            numbers values => values.push(0),
            Cells::Null => return,
            Cells::Bool(values) => values.push(false),
            Cells::Texts(strings) | Cells::Bytes(strings) => strings.end(),
        );
        self.nulls.put(row);
    }

    /// The rows that are null, of 64 from 64 times a number on.
    #[inline(always)]
    pub fn nulls_of(&self, block: usize) -> u64 {
        match self.cells {
            Cells::Null => u64::MAX,
            _ => self.nulls.word(block),
        }
    }

    pub fn is_null(&self, row: usize) -> bool {
        self.nulls_of(row / 64) >> (row % 64) & 1 == 1
    }

    /// Drops what stands at a row behind the others.
    fn give_up(&mut self, row: usize) {
        self.nulls.remove(row);
        match_cells!(
            &mut self.cells,
            numbers values => values.truncate(row),
            Cells::Null => {}
            Cells::Bool(values) => values.truncate(row),
            Cells::Texts(strings) | Cells::Bytes(strings) => strings.truncate(row),
        );
    }
}

/// A number of rows behind those of the parts before, and where its statistics stand in the log.
#[derive(Clone, Copy)]
pub struct Part {
    pub rows: u32,
    from: u32,
    to: u32,
}

impl Part {
    pub fn entries<'a>(&self, log: &'a Log) -> &'a [Entry] {
        log.entries(self.from..self.to)
    }
}

#[derive(Default)]
pub struct Table {
    pub columns: Vec<Column>,
    pub rows: usize,
    pub log: Log,
    /// The parts that have ended, in two runs that meet at the last join; the second runs backwards.
    front: Vec<Part>,
    back: Vec<Part>,
    /// The first row and the first entry of the part that takes rows.
    open: Option<(usize, u32)>,
}

impl Table {
    pub fn add_column(&mut self, name: &str, dtype: Type) {
        self.columns.push(Column::new(name, dtype));
    }

    pub fn has_part(&self) -> bool {
        self.open.is_some() || !self.front.is_empty()
    }

    pub fn is_open(&self) -> bool {
        self.open.is_some()
    }

    pub fn begin_part(&mut self) {
        self.end_part();
        self.open = Some((self.rows, self.log.len()));
    }

    fn end_part(&mut self) {
        if let Some((row, from)) = self.open.take() {
            self.meet_at(self.front.len() + self.back.len());
            self.front.push(Part { rows: (self.rows - row) as u32, from, to: self.log.len() });
        }
    }

    /// Drops what a row has pushed that is no row.
    pub fn give_up_row(&mut self) {
        for column in &mut self.columns {
            column.give_up(self.rows);
        }
    }

    fn meet_at(&mut self, place: usize) {
        while self.front.len() < place {
            self.front.extend(self.back.pop());
        }
        while self.front.len() > place {
            self.back.extend(self.front.pop());
        }
    }

    pub fn join(&mut self, place: usize) -> Option<()> {
        self.end_part();
        if place >= (self.front.len() + self.back.len()).saturating_sub(1) {
            return None;
        }
        self.meet_at(place + 1);
        let (left, right) = (self.front.pop()?, self.back.pop()?);
        let from = self.log.len();
        self.merge(&left, &right);
        self.front.push(Part { rows: left.rows + right.rows, from, to: self.log.len() });
        Some(())
    }

    /// Puts behind the log what it says of two parts together.
    fn merge(&mut self, left: &Part, right: &Part) {
        let mut first = vec![Stats::default(); self.columns.len()];
        let mut second = first.clone();
        let (left, right) = (left.entries(&self.log), right.entries(&self.log));
        left.iter().for_each(|entry| entry.note(&mut first));
        right.iter().for_each(|entry| entry.note(&mut second));
        let mut merged = Vec::new();
        for column in left.iter().map(Entry::column) {
            let (a, b) = (std::mem::take(&mut first[column]), &second[column]);
            merged.extend(self.log.joined(self.columns[column].dtype.kind, &a, b).map(|claim| (column, claim)));
        }
        merged.into_iter().for_each(|(column, (claim, bits))| self.log.push(column, claim, bits));
    }

    /// All parts in order, and no part is left.
    pub fn take_parts(&mut self) -> Vec<Part> {
        self.end_part();
        self.meet_at(self.front.len() + self.back.len());
        std::mem::take(&mut self.front)
    }
}
