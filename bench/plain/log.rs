// SPDX-License-Identifier: Apache-2.0
//! What lines say of parts: a log of statistics, each in few bytes.
use crate::values::{Kind, Scalar};
use std::cmp::Ordering;
use std::ops::Range;

/// The statistics that pruning asks for.
#[derive(Clone, Copy)]
pub enum Claim {
    Min,
    Max,
    Nulls { exact: bool },
}

/// A statistic of a column. A number or a truth is its own bits, a text or bytes a place in the log's heap.
pub struct Entry {
    bits: u64,
    column: u32,
    claim: Claim,
}

impl Entry {
    pub fn column(&self) -> usize {
        self.column as usize
    }

    /// A count of nulls, and whether it is exact.
    pub fn count(&self) -> (u64, bool) {
        (self.bits, matches!(self.claim, Claim::Nulls { exact: true }))
    }

    /// The last that is noted of a column's statistic counts.
    pub fn note<'a>(&'a self, known: &mut [Stats<'a>]) {
        let stats = &mut known[self.column()];
        match self.claim {
            Claim::Min => stats.min = Some(self),
            Claim::Max => stats.max = Some(self),
            Claim::Nulls { .. } => stats.nulls = Some(self),
        }
    }
}

/// What is known of a column.
#[derive(Clone, Copy, Default)]
pub struct Stats<'a> {
    pub min: Option<&'a Entry>,
    pub max: Option<&'a Entry>,
    pub nulls: Option<&'a Entry>,
}

#[derive(Default)]
pub struct Log {
    entries: Vec<Entry>,
    heap: Vec<u8>,
}

impl Log {
    pub fn len(&self) -> u32 {
        self.entries.len() as u32
    }

    pub fn entries(&self, range: Range<u32>) -> &[Entry] {
        &self.entries[range.start as usize..range.end as usize]
    }

    pub fn push(&mut self, column: usize, claim: Claim, bits: u64) {
        self.entries.push(Entry { bits, column: column as u32, claim });
    }

    #[inline(always)]
    pub fn claim(&mut self, column: usize, claim: Claim, value: Scalar) {
        let bits = match value {
            Scalar::Bool(b) => u64::from(b),
            Scalar::Signed(n) => n as u64,
            Scalar::Unsigned(n) => n,
            Scalar::Bytes(bytes) => {
                let start = self.heap.len() as u64;
                self.heap.extend_from_slice(bytes);
                start << 32 | bytes.len() as u64
            }
        };
        self.push(column, claim, bits);
    }

    /// The bound that an entry gives of values of a kind.
    pub fn bound(&self, kind: Kind, entry: &Entry) -> Scalar<'_> {
        let bits = entry.bits;
        match kind {
            Kind::Bool => Scalar::Bool(bits != 0),
            Kind::Signed(_) => Scalar::Signed(bits as i64),
            Kind::Null | Kind::Unsigned(_) => Scalar::Unsigned(bits),
            Kind::Utf8 | Kind::Binary => {
                let (start, len) = ((bits >> 32) as usize, bits as u32 as usize);
                Scalar::Bytes(&self.heap[start..start + len])
            }
        }
    }

    /// What is known of two parts' values of a column together.
    pub fn joined(&self, kind: Kind, a: &Stats, b: &Stats) -> impl Iterator<Item = (Claim, u64)> {
        let outer = |a: Option<&Entry>, b: Option<&Entry>, keeps: Ordering| {
            let (a, b) = (a?, b?);
            Some(if self.bound(kind, b).cmp(&self.bound(kind, a)) == keeps { b.bits } else { a.bits })
        };
        let nulls = match (a.nulls.map(Entry::count), b.nulls.map(Entry::count)) {
            (Some((a, exact)), Some((b, also))) => {
                a.checked_add(b).map(|sum| (Claim::Nulls { exact: exact && also }, sum))
            }
            _ => None,
        };
        let min = outer(a.min, b.min, Ordering::Less).map(|bits| (Claim::Min, bits));
        let max = outer(a.max, b.max, Ordering::Greater).map(|bits| (Claim::Max, bits));
        min.into_iter().chain(max).chain(nulls)
    }
}
