// SPDX-License-Identifier: Apache-2.0
//! Whether the statistics of a part prove that no row of it satisfies a predicate, or that every row does.
use crate::like::Range;
use crate::predicate::{Comparison, Node, Op};
use crate::log::{Entry, Log, Stats};
use crate::values::{Scalar, Value};
use std::cmp::Ordering;

/// What is known of a part: the statistics of its columns, which are entries of a log, and how many rows it has.
pub struct Known<'a> {
    pub stats: &'a [Stats<'a>],
    pub log: &'a Log,
    pub rows: u64,
}

pub fn is_falsified(e: &Node, part: &Known) -> bool {
    match &e.op {
        Op::Literal(Some(Value::Bool(false))) => true,
        Op::And(sides) => is_falsified(&sides[0], part) || is_falsified(&sides[1], part),
        Op::Or(sides) => is_falsified(&sides[0], part) && is_falsified(&sides[1], part),
        Op::Compare(by, sides) => {
            let [left, right] = &**sides;
            compared(*by, bounds(left, part), bounds(right, part))
        }
        Op::Between(lower, upper, operands) => is_beyond(*lower, *upper, operands, part),
        Op::IsNull(x) => has_no_null(x, part),
        Op::IsNotNull(x) => has_only_nulls(x, part),
        Op::Like { negated: false, ignores_case: false, pattern: Some(pattern), sides } => match pattern.range() {
            None => false,
            Some(range) => is_outside(&range, bounds(&sides[0], part)),
        },
        _ => false,
    }
}

pub fn is_satisfied(e: &Node, part: &Known) -> bool {
    match &e.op {
        Op::Literal(value) => matches!(value, Some(Value::Bool(true))),
        Op::And(sides) => is_satisfied(&sides[0], part) && is_satisfied(&sides[1], part),
        Op::Or(sides) => is_satisfied(&sides[0], part) || is_satisfied(&sides[1], part),
        Op::Compare(by, sides) => {
            let [left, right] = &**sides;
            is_met(*by, &side(left, part), &side(right, part))
        }
        Op::Between(lower, upper, operands) => is_within(*lower, *upper, operands, part),
        Op::IsNull(x) => has_only_nulls(x, part),
        Op::IsNotNull(x) => has_no_null(x, part),
        _ => false,
    }
}

/// The least and the greatest value, where they are known.
type Bounds<'a> = (Option<Scalar<'a>>, Option<Scalar<'a>>);

fn bounds<'a>(e: &'a Node, part: &Known<'a>) -> Bounds<'a> {
    match &e.op {
        Op::Literal(value) => {
            let scalar = value.as_ref().map(Value::scalar);
            (scalar, scalar)
        }
        Op::Column(place) => {
            let Stats { min, max, .. } = part.stats[*place];
            let bound = |entry| part.log.bound(e.dtype.kind, entry);
            (min.map(bound), max.map(bound))
        }
        _ => (None, None),
    }
}

fn holds(left: Option<Scalar>, test: fn(Ordering) -> bool, right: Option<Scalar>) -> bool {
    matches!((left, right), (Some(l), Some(r)) if test(l.cmp(&r)))
}

fn compared(by: Comparison, l: Bounds, r: Bounds) -> bool {
    match by {
        Comparison::Eq => holds(l.0, Ordering::is_gt, r.1) || holds(r.0, Ordering::is_gt, l.1),
        Comparison::Ne => holds(l.0, Ordering::is_eq, r.1) && holds(l.1, Ordering::is_eq, r.0),
        Comparison::Gt => holds(l.1, Ordering::is_le, r.0),
        Comparison::Ge => holds(l.1, Ordering::is_lt, r.0),
        Comparison::Lt => holds(l.0, Ordering::is_ge, r.1),
        Comparison::Le => holds(l.0, Ordering::is_gt, r.1),
    }
}

/// The ends of a range of numbers, strict ones moved in by one.
fn closed(lower: bool, upper: bool, low: Scalar, high: Scalar) -> Option<(i128, i128)> {
    Some((low.number()? + i128::from(lower), high.number()? - i128::from(upper)))
}

fn is_beyond(lower: bool, upper: bool, [x, l, u]: &[Node; 3], part: &Known) -> bool {
    let by = |strict: bool| if strict { Comparison::Lt } else { Comparison::Le };
    if let (Op::Literal(Some(low)), Op::Literal(Some(high))) = (&l.op, &u.op) {
        let (low, high) = (low.scalar(), high.scalar());
        if let Some((low, high)) = closed(lower, upper, low, high) {
            let (least, greatest) = bounds(x, part);
            let number = |value: Scalar| value.number().expect("a number");
            return low > high
                || greatest.is_some_and(|value| low > number(value))
                || least.is_some_and(|value| number(value) > high);
        }
        match low.cmp(&high) {
            Ordering::Greater => return true,
            Ordering::Equal if lower || upper => return true,
            _ => {}
        }
    }
    let (x, l, u) = (bounds(x, part), bounds(l, part), bounds(u, part));
    compared(by(lower), l, x) || compared(by(upper), x, u)
}

/// An operand of a comparison, with whether it is known to hold no null. A literal isn't asked.
struct Side<'a> {
    bounds: Bounds<'a>,
    has_values: bool,
}

fn side<'a>(e: &'a Node, part: &Known<'a>) -> Side<'a> {
    let has_values = match &e.op {
        Op::Literal(_) => true,
        Op::Column(_) => has_no_null(e, part),
        _ => false,
    };
    Side { bounds: bounds(e, part), has_values }
}

fn is_met(by: Comparison, left: &Side, right: &Side) -> bool {
    let (l, r) = (left.bounds, right.bounds);
    let is_met = match by {
        Comparison::Eq => holds(l.0, Ordering::is_eq, r.1) && holds(l.1, Ordering::is_eq, r.0),
        Comparison::Ne => holds(l.0, Ordering::is_gt, r.1) || holds(r.0, Ordering::is_gt, l.1),
        Comparison::Gt => holds(l.0, Ordering::is_gt, r.1),
        Comparison::Ge => holds(l.0, Ordering::is_ge, r.1),
        Comparison::Lt => holds(l.1, Ordering::is_lt, r.0),
        Comparison::Le => holds(l.1, Ordering::is_le, r.0),
    };
    is_met && left.has_values && right.has_values
}

fn is_within(lower: bool, upper: bool, [x, l, u]: &[Node; 3], part: &Known) -> bool {
    let by = |strict: bool| if strict { Comparison::Lt } else { Comparison::Le };
    let operand = side(x, part);
    if let (Op::Literal(Some(low)), Op::Literal(Some(high))) = (&l.op, &u.op) {
        let (low, high) = (low.scalar(), high.scalar());
        if let Some((low, high)) = closed(lower, upper, low, high) {
            let number = |value: Scalar| value.number().expect("a number");
            let (least, greatest) = operand.bounds;
            return low <= high
                && operand.has_values
                && least.is_some_and(|value| low <= number(value))
                && greatest.is_some_and(|value| number(value) <= high);
        }
        match low.cmp(&high) {
            Ordering::Greater => return false,
            Ordering::Equal if lower || upper => return false,
            _ => {}
        }
    }
    is_met(by(lower), &side(l, part), &operand) && is_met(by(upper), &operand, &side(u, part))
}

fn is_outside(range: &Range, (min, max): Bounds) -> bool {
    fn text(text: &str) -> Option<Scalar<'_>> {
        Some(Scalar::Bytes(text.as_bytes()))
    }
    match range {
        Range::Exact(t) => {
            holds(min, Ordering::is_gt, text(t)) || holds(max, Ordering::is_lt, text(t))
        }
        Range::Prefix { prefix, successor } => {
            holds(min, Ordering::is_ge, text(successor)) || holds(max, Ordering::is_lt, text(prefix))
        }
    }
}

fn has_no_null(x: &Node, part: &Known) -> bool {
    match &x.op {
        Op::Literal(value) => value.is_some(),
        Op::Column(place) => matches!(part.stats[*place].nulls.map(Entry::count), Some((0, _))),
        _ => false,
    }
}

fn has_only_nulls(x: &Node, part: &Known) -> bool {
    let rows = part.rows;
    match &x.op {
        Op::Literal(value) => u64::from(value.is_none()) == rows,
        Op::Column(place) => match part.stats[*place].nulls.map(Entry::count) {
            Some((count, true)) => count == rows,
            // an inexact count of 0 is handed out as 0
            Some((0, false)) => rows == 0,
            _ => false,
        },
        _ => false,
    }
}
