// SPDX-License-Identifier: Apache-2.0
//! Comparisons of a column with a literal as sets of the whole numbers that its values are mapped onto.
use crate::column::Kind;
use crate::literal::{Literal, Operand, Operator};
use crate::predicate::{Node, Predicate};

/// Where a literal lies among whole numbers: at `number`, or strictly between it and the next one.
#[derive(Clone, Copy, Debug, PartialEq, Eq)]
pub(crate) struct Spot {
    pub(crate) number: i128,
    pub(crate) exact: bool,
}

impl Spot {
    pub(crate) fn at(number: i128) -> Spot {
        Spot { number, exact: true }
    }

    /// Where a number of parts lies among units of so many parts each.
    pub(crate) fn of_parts(parts: i128, unit: i128) -> Spot {
        Spot { number: parts.div_euclid(unit), exact: parts.rem_euclid(unit) == 0 }
    }
}

/// Ranges of whole numbers, each from its first to its last one, that ascend and don't touch.
#[derive(Clone, Debug, PartialEq, Eq)]
pub(crate) struct Ranges(Vec<(i128, i128)>);

impl Ranges {
    pub(crate) fn none() -> Ranges {
        Ranges(Vec::new())
    }

    fn of(first: i128, last: i128) -> Ranges {
        Ranges(if first <= last { vec![(first, last)] } else { Vec::new() })
    }

    /// The numbers from `low` to `high` of which a comparison with a literal is true.
    pub(crate) fn of_comparison(operator: Operator, spot: Spot, low: i128, high: i128) -> Ranges {
        // Beyond the ends of the type all spots are alike.
        let (number, exact) = (spot.number.clamp(low - 1, high + 1), spot.exact);
        let (below, above) = (if exact { number - 1 } else { number }, number + 1);
        let cut = |first: i128, last: i128| Ranges::of(first.max(low), last.min(high));
        match operator {
            Operator::Eq if exact => cut(number, number),
            Operator::Eq => Ranges::none(),
            Operator::Ne => cut(low, below).or(&cut(above, high)),
            Operator::Lt => cut(low, below),
            Operator::Le => cut(low, number),
            Operator::Gt => cut(above, high),
            Operator::Ge => cut(if exact { number } else { above }, high),
        }
    }

    /// The numbers of both sets.
    pub(crate) fn and(&self, other: &Ranges) -> Ranges {
        let pairs = self.0.iter().flat_map(|a| other.0.iter().map(move |b| (a.0.max(b.0), a.1.min(b.1))));
        Ranges(pairs.filter(|(first, last)| first <= last).collect())
    }

    /// The numbers of one of two sets, or of both.
    pub(crate) fn or(&self, other: &Ranges) -> Ranges {
        let mut all: Vec<(i128, i128)> = self.0.iter().chain(&other.0).copied().collect();
        all.sort_unstable();
        let mut found: Vec<(i128, i128)> = Vec::new();
        for (first, last) in all {
            match found.last_mut() {
                Some(before) if first <= before.1 + 1 => before.1 = before.1.max(last),
                _ => found.push((first, last)),
            }
        }
        Ranges(found)
    }

    /// The test that a column's number is one of the set, which is null where the column is.
    pub(crate) fn test(&self, column: &str, kind: Kind, low: i128, high: i128) -> Predicate {
        if self.0.is_empty() {
            return never(column);
        }
        if self.0 == [(low, high)] {
            return Predicate::leaf(Node::Always(column.to_owned()));
        }
        let tests = self.0.iter().map(|(first, last)| in_range(column, kind, *first, *last, low, high));
        tests.reduce(Predicate::or).unwrap_or_else(|| never(column))
    }
}

/// A condition that is false where a column has a value, and null where it is null.
pub(crate) fn never(column: &str) -> Predicate {
    Predicate::leaf(Node::Never(column.to_owned()))
}

fn in_range(column: &str, kind: Kind, first: i128, last: i128, low: i128, high: i128) -> Predicate {
    let literal =
        |number: i128| Literal::Signed(kind, i64::try_from(number).expect("a number of a type is one of 64 bits"));
    let compare = |operator: Operator, number: i128| {
        Predicate::leaf(Node::Compare(operator, column.to_owned(), Operand::Literal(literal(number))))
    };
    if first == last {
        return compare(Operator::Eq, first);
    }
    if first == low {
        return compare(Operator::Le, last);
    }
    if last == high {
        return compare(Operator::Ge, first);
    }
    Predicate::leaf(Node::Between {
        column: column.to_owned(),
        low: literal(first),
        low_strict: false,
        high: literal(last),
        high_strict: false,
    })
}
