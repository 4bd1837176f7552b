// SPDX-License-Identifier: Apache-2.0
//! A predicate and the columns that it names, as they cross to the library.
use crate::column::Kind;
use crate::column_stats::{ColumnStats, Entry};
use crate::error::{Error, Place};
use crate::literal::{Literal, Operand, Operator};
use crate::logical::Logical;
use crate::predicate::{Node, Predicate};
use crate::raw::{self, status, Fault};
use crate::stat::Stat;
use crate::zone_map::{Answer, ZoneMap};
use std::collections::HashMap;
use std::fmt;

/// The statistics that pruning reads.
const READ: [Stat; 3] = [Stat::Min, Stat::Max, Stat::NullCount];

/// The columns of a map that are handed over, by their places.
pub(crate) struct Handed<'a> {
    map: &'a ZoneMap,
    places: Vec<usize>,
}

impl<'a> Handed<'a> {
    pub(crate) fn of(map: &'a ZoneMap, places: Vec<usize>) -> Self {
        Handed { map, places }
    }

    pub(crate) fn rows(&self) -> &'a [u64] {
        self.map.rows()
    }

    fn columns(&self) -> impl Iterator<Item = &'a ColumnStats> + '_ {
        self.places.iter().map(|place| &self.map.columns()[*place])
    }

    // The counts of nulls that stand in for those that lack, column by column.
    pub(crate) fn null_counts(&self) -> Vec<Option<Entry>> {
        self.columns().map(null_counts).collect()
    }

    // The columns by the names that are given to them; behind them truths of which nothing is known.
    pub(crate) fn scope<'n>(&self, names: impl Iterator<Item = &'n str>) -> Vec<raw::Field<'n>> {
        let types = self.columns().map(|column| (column.dtype().kind, column.dtype().nullable));
        let unnamed = std::iter::repeat((Kind::Bool, true));
        let field = |(name, (kind, nullable))| raw::Field::new(name, [kind as u8, 0, 0, 0], nullable);
        names.zip(types.chain(unnamed)).map(field).collect()
    }

    // What pruning reads of the columns, with the counts of nulls that stand in for those that lack.
    pub(crate) fn entries<'e>(&'e self, counts: &'e [Option<Entry>]) -> Vec<(usize, &'e Entry)> {
        let of_column = |(slot, (column, count)): (usize, (&'e ColumnStats, &'e Option<Entry>))| {
            let read = column.entries().iter().filter(|entry| READ.contains(&entry.stat));
            let kept = read.filter(|entry| count.is_none() || entry.stat != Stat::NullCount);
            kept.chain(count).map(move |entry| (slot, entry))
        };
        self.columns().zip(counts).enumerate().flat_map(of_column).collect()
    }

    // The place of a statistic in a zone.
    pub(crate) fn place(&self, entry: Option<&(usize, &Entry)>, zone: usize) -> Place {
        let name = |slot: usize| self.places.get(slot).map(|place| self.map.names()[*place].clone());
        let column = entry.and_then(|(slot, _)| name(*slot));
        Place { column, stat: entry.map(|(_, entry)| entry.stat), zone: Some(zone), ..Place::default() }
    }
}

/// A predicate over a map's columns, of which those alone are handed over that it names: as `c0`, `c1`, and so on.
pub(crate) struct Asked<'a> {
    handed: Handed<'a>,
    text: String,
    /// How many opaque conditions there are, each a column of its own.
    unknown: usize,
}

impl<'a> Asked<'a> {
    // Refuses a column that the map hasn't, and one that is taken for one of another type, or for plain values.
    pub(crate) fn of(map: &'a ZoneMap, predicate: &Predicate) -> Result<Self, Error> {
        let mut slots: HashMap<&str, usize> = HashMap::new();
        let mut places = Vec::new();
        for node in predicate.nodes() {
            for name in node.columns() {
                if slots.contains_key(name) {
                    continue;
                }
                let place = map.names().iter().position(|it| it == name);
                slots.insert(name, places.len());
                places.push(place.ok_or_else(|| Error::UnknownColumn(name.to_owned()))?);
            }
            fits(node, |name| map.columns()[places[slots[name]]].dtype().kind)?;
        }
        for node in predicate.untyped() {
            is_plain(node, |name| map.logical(places[slots[name]]))?;
        }
        for (name, kind) in predicate.types() {
            let told = slots.get(name.as_str()).and_then(|slot| map.logical(places[*slot]));
            if let Some(told) = told.filter(|told| !told.is_mapped_as(kind)) {
                return Err(Error::Misfit(format!(
                    "column {name}: it is of type {told}, and the predicate takes it for {kind}"
                )));
            }
        }
        let unknown = predicate.nodes().filter(|node| matches!(node, Node::Opaque(_))).count();
        let mut text = String::new();
        let name = |name: &str, out: &mut dyn fmt::Write| write!(out, "col c{}", slots[name]);
        let opaque = |place: usize, out: &mut dyn fmt::Write| write!(out, "col o{place}");
        predicate.write_to_prune(&mut text, &name, &opaque).expect("a String takes all that is written to it");
        Ok(Asked { handed: Handed::of(map, places), text, unknown })
    }

    // What to do with each zone.
    pub(crate) fn answers(&self) -> Result<Vec<Answer>, Error> {
        let named = self.handed.places.len();
        let names = (0..named).map(|slot| format!("c{slot}"));
        // The library takes no table without columns: a predicate that names none gets one that it doesn't name.
        let unknown = self.unknown.max(usize::from(named == 0));
        let names: Vec<String> = names.chain((0..unknown).map(|place| format!("o{place}"))).collect();
        let scope = self.handed.scope(names.iter().map(String::as_str));
        let counts = self.handed.null_counts();
        let entries = self.handed.entries(&counts);
        let stats: Vec<raw::Statistic<'_>> = entries.iter().map(|(slot, entry)| entry.raw(*slot)).collect();
        let rows = self.handed.rows();
        let mut codes = vec![0; rows.len()];
        let mut fault = Fault::default();
        // SAFETY: the arrays are as long as is said, the answers are lent to this call alone, and the others for as
        // long as it takes.
        let found = unsafe {
            raw::vortex_prune(
                scope.as_ptr(),
                scope.len(),
                rows.as_ptr(),
                rows.len(),
                stats.as_ptr(),
                stats.len(),
                self.text.as_ptr(),
                self.text.len(),
                0,
                codes.as_mut_ptr(),
                codes.len(),
                &mut fault,
            )
        };
        match found {
            status::OK => codes.into_iter().map(answer).collect(),
            refused => Err(Error::of(refused, self.handed.place(entries.get(fault.entry), fault.row))),
        }
    }
}

pub(crate) fn answer(code: u8) -> Result<Answer, Error> {
    match code {
        0 => Ok(Answer::Read),
        1 => Ok(Answer::Skip),
        2 => Ok(Answer::Whole),
        other => Err(Error::Other(other)),
    }
}

// The counts of nulls of a column without null: an exact 0 wherever no count is known. `None` where none lacks.
fn null_counts(column: &ColumnStats) -> Option<Entry> {
    if !column.dtype().is_without_null() {
        return None;
    }
    let zones = column.zones();
    match column.entries().iter().find(|entry| entry.stat == Stat::NullCount) {
        None => {
            Some(Entry { stat: Stat::NullCount, known: vec![1; zones], values: vec![0; 8 * zones], ends: Vec::new() })
        }
        Some(kept) if kept.known.contains(&0) => {
            let mut filled = kept.clone();
            for (known, value) in filled.known.iter_mut().zip(filled.values.chunks_exact_mut(8)) {
                if *known == 0 {
                    *known = 1;
                    value.fill(0);
                }
            }
            Some(filled)
        }
        Some(_) => None,
    }
}

// Whether a condition takes each column for what it is, and each constant is of its kind.
fn fits<'n>(node: &'n Node, kind_of: impl Fn(&'n str) -> Kind) -> Result<(), Error> {
    let taken_for = |column: &'n String, expected: Kind| {
        let kind = kind_of(column);
        if kind == expected {
            return Ok(());
        }
        Err(Error::BadType { column: column.clone(), kind, expected })
    };
    let compared_with = |column: &'n String, literal: &Literal| {
        if !literal.is_of_its_kind() {
            return Err(Error::BadLiteral { column: column.clone(), literal: literal.clone() });
        }
        taken_for(column, literal.kind())
    };
    match node {
        Node::And | Node::Or | Node::Not | Node::Constant(_) | Node::Opaque(_) => Ok(()),
        Node::IsNull(_) | Node::IsNotNull(_) | Node::Never(_) | Node::Always(_) => Ok(()),
        Node::Compare(_, column, Operand::Column(other)) => taken_for(column, kind_of(other)),
        Node::Compare(_, column, Operand::Literal(literal)) => compared_with(column, literal),
        Node::Between { column, low, high, .. } => {
            compared_with(column, low).and_then(|()| compared_with(column, high))
        }
        Node::Like { column, .. } => taken_for(column, Kind::Utf8),
    }
}

// Refuses a condition that compares a column of a logical type with a plain value that is none of the type, with a column
// of another type, or by an order that the type hasn't.
fn is_plain<'n, 'm>(node: &'n Node, logical: impl Fn(&'n str) -> Option<&'m Logical>) -> Result<(), Error> {
    let compared_with = |column: &'n String, operator: Operator, literal: &Literal| match logical(column) {
        None => Ok(()),
        Some(kind) if !kind.takes(literal) => Err(misfit(column, kind, format!("with the plain {literal}"))),
        Some(kind) => is_ordered(column, kind, operator),
    };
    match node {
        Node::Compare(operator, column, Operand::Literal(literal)) => compared_with(column, *operator, literal),
        Node::Between { column, low, high, .. } => {
            compared_with(column, Operator::Ge, low).and_then(|()| compared_with(column, Operator::Le, high))
        }
        Node::Compare(operator, column, Operand::Column(other)) => match (logical(column), logical(other)) {
            (None, None) => Ok(()),
            (Some(kind), Some(right)) if kind.is_mapped_as(right) && kind.compares_as_it_stands() => {
                is_ordered(column, kind, *operator)
            }
            (Some(kind), _) => Err(misfit(column, kind, format!("with column {other}"))),
            (None, Some(kind)) => Err(misfit(other, kind, format!("with column {column}"))),
        },
        _ => Ok(()),
    }
}

fn is_ordered(column: &str, kind: &Logical, operator: Operator) -> Result<(), Error> {
    if kind.has_order() || matches!(operator, Operator::Eq | Operator::Ne) {
        return Ok(());
    }
    Err(misfit(column, kind, format!("by {operator}, and it has no order")))
}

fn misfit(column: &str, kind: &Logical, found: String) -> Error {
    Error::BadLogical { column: column.to_owned(), logical: kind.clone(), found }
}
