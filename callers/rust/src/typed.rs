// SPDX-License-Identifier: Apache-2.0
//! Columns of logical types in predicates, compared with literals of theirs.
use crate::error::Error;
use crate::float::{Float32, Float64, Nan};
use crate::literal::{Literal, Operand, Operator};
use crate::logical::Logical;
use crate::predicate::{ColumnName, Node, Predicate};
use crate::ranges::{never, Ranges, Spot};
use crate::time::{Date, DateTime, Instant, Time, Unit, DAY};
use std::str::FromStr;

mod private {
    pub trait Sealed {}
}

/// How a literal of a type is compared with a column of it.
pub trait Literals: private::Sealed {
    /// Where the literal lies among the type's numbers, by each meaning that it may have for a comparison.
    #[doc(hidden)]
    fn truths(&self, operator: Operator, kind: &Logical, nan: Nan) -> Meanings;
}

/// The sets of numbers that a comparison may mean.
#[doc(hidden)]
pub struct Meanings(Vec<Ranges>);

// The least and the greatest number of a type.
fn limits(kind: &Logical) -> (i128, i128) {
    match kind {
        Logical::Float32 => (-i128::from(Float32::INFINITY) - 1, Float32::NAN.into()),
        Logical::Float64 => (-i128::from(Float64::INFINITY) - 1, Float64::NAN.into()),
        Logical::Date => (i32::MIN.into(), i32::MAX.into()),
        _ => (i64::MIN.into(), i64::MAX.into()),
    }
}

fn exactly(operator: Operator, spot: Spot, kind: &Logical) -> Meanings {
    let (low, high) = limits(kind);
    Meanings(vec![Ranges::of_comparison(operator, spot, low, high)])
}

// The nanoseconds of a column's unit.
fn unit(kind: &Logical) -> i128 {
    match kind {
        Logical::Date => DAY * 1_000_000_000,
        Logical::Time(unit) | Logical::Timestamp(unit, _) => unit.nanos(),
        _ => 1,
    }
}

macro_rules! times {
    ($($literal:ident),*) => {
        $(impl private::Sealed for $literal {}
        impl Literals for $literal {
            fn truths(&self, operator: Operator, kind: &Logical, _: Nan) -> Meanings {
                exactly(operator, Spot::of_parts(self.nanos(), unit(kind)), kind)
            }
        })*
    };
}

times!(Time, DateTime, Instant);

/// A decimal number: so many units of its last digit.
#[derive(Clone, Copy, Debug, PartialEq, Eq)]
pub struct Decimal {
    units: i128,
    scale: u8,
}

impl Decimal {
    /// Returns a number of units, each 1 with so many digits behind the point; `None` of more than 18 of them.
    #[must_use]
    pub fn new(units: i64, scale: u8) -> Option<Decimal> {
        (scale <= 18).then_some(Decimal { units: units.into(), scale })
    }
}

/// A text that is no decimal number of up to 18 digits before and 18 behind the point.
#[derive(Clone, Copy, Debug, PartialEq, Eq)]
pub struct NoDecimal;

impl std::fmt::Display for NoDecimal {
    fn fmt(&self, f: &mut std::fmt::Formatter<'_>) -> std::fmt::Result {
        write!(f, "the text is no decimal number of up to 18 digits before and 18 behind the point")
    }
}

impl std::error::Error for NoDecimal {}

impl FromStr for Decimal {
    type Err = NoDecimal;

    /// Reads `-1.005`.
    fn from_str(text: &str) -> Result<Self, NoDecimal> {
        let (sign, plain) = text.strip_prefix('-').map_or((1, text), |rest| (-1, rest));
        let (whole, part) = plain.split_once('.').unwrap_or((plain, ""));
        let is_number = |it: &str| it.len() <= 18 && it.bytes().all(|byte| byte.is_ascii_digit());
        if !is_number(whole) || !is_number(part) || whole.is_empty() || plain.ends_with('.') {
            return Err(NoDecimal);
        }
        let units: i128 = format!("{whole}{part}").parse().map_err(|_| NoDecimal)?;
        Ok(Decimal { units: sign * units, scale: part.len() as u8 })
    }
}

impl From<i64> for Decimal {
    fn from(number: i64) -> Self {
        Decimal { units: number.into(), scale: 0 }
    }
}

impl private::Sealed for Decimal {}
impl Literals for Decimal {
    fn truths(&self, operator: Operator, kind: &Logical, _: Nan) -> Meanings {
        let scale = if let Logical::Decimal { scale, .. } = kind { *scale } else { 0 };
        let spot = if scale >= self.scale {
            Spot::at(self.units * 10_i128.pow(u32::from(scale - self.scale)))
        } else {
            Spot::of_parts(self.units, 10_i128.pow(u32::from(self.scale - scale)))
        };
        exactly(operator, spot, kind)
    }
}

/// A floating number as a literal.
#[derive(Clone, Copy, Debug)]
pub struct Float(f64);

impl From<f64> for Float {
    fn from(number: f64) -> Self {
        Float(number)
    }
}

impl From<f32> for Float {
    fn from(number: f32) -> Self {
        Float(number.into())
    }
}

impl private::Sealed for Float {}
impl Literals for Float {
    fn truths(&self, operator: Operator, kind: &Logical, nan: Nan) -> Meanings {
        let nearest = self.0 as f32;
        let spots = match kind {
            Logical::Float32 if self.0.is_nan() => vec![Spot::at(Float32::NAN.into())],
            Logical::Float32 => {
                let number = i128::from(Float32::number(nearest));
                if f64::from(nearest) == self.0 {
                    vec![Spot::at(number)]
                } else {
                    // Engines compare it exactly, or round it first.
                    let below = if f64::from(nearest) < self.0 { number } else { number - 1 };
                    vec![Spot { number: below, exact: false }, Spot::at(number)]
                }
            }
            _ => vec![Spot::at(Float64::number(self.0).into())],
        };
        let (low, high) = limits(kind);
        let infinity = if *kind == Logical::Float32 { Float32::INFINITY.into() } else { i128::from(Float64::INFINITY) };
        let greatest = |spot: &Spot| Ranges::of_comparison(operator, *spot, low, high);
        let ieee = |spot: &Spot| match (operator, spot.number == high) {
            (Operator::Ne, true) => Ranges::of_comparison(Operator::Ge, Spot::at(low), low, high),
            (Operator::Ne, false) => greatest(spot),
            (_, true) => Ranges::none(),
            (_, false) => Ranges::of_comparison(operator, *spot, low, infinity),
        };
        let mut found = Vec::new();
        if nan != Nan::Ieee {
            found.extend(spots.iter().map(greatest));
        }
        if nan != Nan::Greatest {
            found.extend(spots.iter().map(ieee));
        }
        Meanings(found)
    }
}

/// A column of a logical type, by its name, compared with literals of one kind.
///
/// ```
/// use foalmorrow::{col, Unit};
/// let at = col("at").timestamp(Unit::Second);
/// let wanted = at.gt("1970-01-01 00:00:12.5".parse::<foalmorrow::DateTime>()?);
/// assert_eq!(wanted.to_string(), "ge col at lit i64 13");
/// # Ok::<(), foalmorrow::NoTime>(())
/// ```
#[derive(Clone, Debug, PartialEq, Eq)]
pub struct TypedColumn<T> {
    name: String,
    kind: Logical,
    nan: Nan,
    literals: std::marker::PhantomData<T>,
}

impl ColumnName {
    fn typed<T>(self, kind: Logical, nan: Nan) -> TypedColumn<T> {
        TypedColumn { name: self.into_name(), kind, nan, literals: std::marker::PhantomData }
    }

    /// Takes the column for one of dates.
    #[must_use]
    pub fn date(self) -> TypedColumn<DateTime> {
        self.typed(Logical::Date, Nan::Either)
    }

    /// Takes the column for one of times of day.
    #[must_use]
    pub fn time(self, unit: Unit) -> TypedColumn<Time> {
        self.typed(Logical::Time(unit), Nan::Either)
    }

    /// Takes the column for one of timestamps without a zone.
    #[must_use]
    pub fn timestamp(self, unit: Unit) -> TypedColumn<DateTime> {
        self.typed(Logical::Timestamp(unit, None), Nan::Either)
    }

    /// Takes the column for one of instants.
    #[must_use]
    pub fn instant(self, unit: Unit) -> TypedColumn<Instant> {
        self.typed(Logical::Timestamp(unit, Some("UTC".to_owned())), Nan::Either)
    }

    /// Takes the column for one of decimals with so many digits behind the point, 18 at most.
    #[must_use]
    pub fn decimal(self, scale: u8) -> TypedColumn<Decimal> {
        self.typed(Logical::Decimal { precision: 18, scale: scale.min(18) }, Nan::Either)
    }

    /// Takes the column for one of floating numbers of 32 bits.
    #[must_use]
    pub fn float32(self, nan: Nan) -> TypedColumn<Float> {
        self.typed(Logical::Float32, nan)
    }

    /// Takes the column for one of floating numbers of 64 bits.
    #[must_use]
    pub fn float64(self, nan: Nan) -> TypedColumn<Float> {
        self.typed(Logical::Float64, nan)
    }
}

impl<T: Literals> TypedColumn<T> {
    // The test that a number is one of a set that may be the one or another.
    fn of_meanings(&self, meanings: &[Ranges], words: String) -> Predicate {
        let (low, high) = limits(&self.kind);
        let least = meanings.iter().skip(1).fold(meanings[0].clone(), |all, it| all.and(it));
        let most = meanings.iter().skip(1).fold(meanings[0].clone(), |all, it| all.or(it));
        let test = |set: &Ranges| set.test(&self.name, self.kind.kind(), low, high);
        let found =
            if least == most { test(&least) } else { test(&least).or(test(&most).and(Predicate::opaque(words))) };
        found.of_type(&self.name, &self.kind)
    }

    /// Compares the column with a literal, which is compared exactly: one between two values of the type is none of them.
    #[must_use]
    pub fn compare(&self, operator: Operator, literal: impl Into<T>) -> Predicate {
        let Meanings(found) = literal.into().truths(operator, &self.kind, self.nan);
        self.of_meanings(&found, format!("{operator} {} by either meaning", self.name))
    }

    /// Tests that the column is equal to a literal.
    #[must_use]
    pub fn eq(&self, literal: impl Into<T>) -> Predicate {
        self.compare(Operator::Eq, literal)
    }

    /// Tests that the column is another value than a literal.
    #[must_use]
    pub fn ne(&self, literal: impl Into<T>) -> Predicate {
        self.compare(Operator::Ne, literal)
    }

    /// Tests that the column is above a literal.
    #[must_use]
    pub fn gt(&self, literal: impl Into<T>) -> Predicate {
        self.compare(Operator::Gt, literal)
    }

    /// Tests that the column is at least a literal.
    #[must_use]
    pub fn ge(&self, literal: impl Into<T>) -> Predicate {
        self.compare(Operator::Ge, literal)
    }

    /// Tests that the column is below a literal.
    #[must_use]
    pub fn lt(&self, literal: impl Into<T>) -> Predicate {
        self.compare(Operator::Lt, literal)
    }

    /// Tests that the column is at most a literal.
    #[must_use]
    pub fn le(&self, literal: impl Into<T>) -> Predicate {
        self.compare(Operator::Le, literal)
    }

    /// Tests that the column lies from `low` to `high`, both included.
    #[must_use]
    pub fn between(&self, low: impl Into<T>, high: impl Into<T>) -> Predicate {
        self.ge(low).and(self.le(high))
    }

    /// Tests that the column is one of the values. Of no values it is never true, and its negation always is.
    #[must_use]
    pub fn is_in<V: Into<T>>(&self, values: impl IntoIterator<Item = V>) -> Predicate {
        let tests = values.into_iter().map(|value| self.eq(value));
        tests.reduce(Predicate::or).unwrap_or_else(|| Predicate::constant(false))
    }

    /// Compares the column with another one of the same type.
    ///
    /// # Errors
    /// `Misfit` where the other column is of another type.
    pub fn compare_column(&self, operator: Operator, other: &TypedColumn<T>) -> Result<Predicate, Error> {
        if !self.kind.is_mapped_as(&other.kind) {
            return Err(Error::Misfit(format!(
                "column {} is {}, and column {} is {}",
                self.name, self.kind, other.name, other.kind
            )));
        }
        let greatest = Predicate::leaf(Node::Compare(operator, self.name.clone(), Operand::Column(other.name.clone())));
        let infinity = match self.kind {
            Logical::Float32 => Literal::from(Float32::INFINITY),
            Logical::Float64 => Literal::from(Float64::INFINITY),
            _ => return Ok(greatest.of_type(&self.name, &self.kind).of_type(&other.name, &other.kind)),
        };
        let ieee = ieee_of_columns(operator, &self.name, &other.name, infinity);
        let words = format!("{} {operator} {} by either meaning", self.name, other.name);
        let (small, large) =
            if operator == Operator::Ne { (greatest.clone(), ieee.clone()) } else { (ieee.clone(), greatest.clone()) };
        let nan = if self.nan == other.nan { self.nan } else { Nan::Either };
        let found = match nan {
            Nan::Greatest => greatest,
            Nan::Ieee => ieee,
            Nan::Either => small.or(large.and(Predicate::opaque(words))),
        };
        Ok(found.of_type(&self.name, &self.kind).of_type(&other.name, &other.kind))
    }

    /// Tests that the column is null. NaN isn't.
    #[must_use]
    pub fn is_null(&self) -> Predicate {
        Predicate::leaf(Node::IsNull(self.name.clone()))
    }

    /// Tests that the column isn't null.
    #[must_use]
    pub fn is_not_null(&self) -> Predicate {
        Predicate::leaf(Node::IsNotNull(self.name.clone()))
    }
}

// The comparison of two columns by IEEE 754: false where one of the two is NaN, and null where one is null.
fn ieee_of_columns(operator: Operator, left: &str, right: &str, infinity: Literal) -> Predicate {
    let compared = Predicate::leaf(Node::Compare(operator, left.to_owned(), Operand::Column(right.to_owned())));
    let is = |operator: Operator, name: &str| {
        Predicate::leaf(Node::Compare(operator, name.to_owned(), Operand::Literal(infinity.clone())))
    };
    match operator {
        Operator::Ne => compared.or(is(Operator::Gt, left)).and(!never(right)),
        Operator::Lt | Operator::Le => compared.and(is(Operator::Le, right)).or(never(left)),
        _ => compared.and(is(Operator::Le, left)).or(never(right)),
    }
}

impl From<Date> for Literal {
    fn from(date: Date) -> Self {
        Literal::from(date.days())
    }
}
