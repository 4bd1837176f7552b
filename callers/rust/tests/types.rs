// SPDX-License-Identifier: Apache-2.0
//! Logical types and opaque conditions, beside models of their own order.
use foalmorrow::{
    col, Answer, Column, DType, Date, DateTime, Decimal, Error, Float32, Float64, Instant, Kind, Literal, Logical, Nan,
    Node, Operand, Operator, Precision, Predicate, Stat, Time, Unit, Value, ZoneMap,
};
use std::collections::HashMap;
use std::time::{Duration, UNIX_EPOCH};

const OPERATORS: [Operator; 6] = [Operator::Eq, Operator::Ne, Operator::Gt, Operator::Ge, Operator::Lt, Operator::Le];
const UNITS: [Unit; 4] = [Unit::Second, Unit::Milli, Unit::Micro, Unit::Nano];

type Row<'a> = HashMap<&'a str, Option<i64>>;

fn compares<T: PartialOrd + ?Sized>(operator: Operator, a: &T, b: &T) -> bool {
    match operator {
        Operator::Eq => a == b,
        Operator::Ne => a != b,
        Operator::Gt => a > b,
        Operator::Ge => a >= b,
        Operator::Lt => a < b,
        Operator::Le => a <= b,
    }
}

// What a predicate is of a row where each opaque condition is `opaque`.
fn truth(predicate: &Predicate, row: &Row<'_>, opaque: Option<bool>) -> Option<bool> {
    let number = |literal: &Literal| match literal {
        Literal::Signed(_, number) => *number,
        other => panic!("{other} is no number"),
    };
    let mut found: Vec<Option<bool>> = Vec::new();
    for node in predicate.nodes().rev() {
        let it = match node {
            Node::And | Node::Or => {
                let (a, b) = (found.pop().unwrap(), found.pop().unwrap());
                let decides = *node == Node::Or;
                if a == Some(decides) || b == Some(decides) {
                    Some(decides)
                } else if a.is_none() || b.is_none() {
                    None
                } else {
                    Some(!decides)
                }
            }
            Node::Not => found.pop().unwrap().map(|it| !it),
            Node::Constant(truth) => Some(*truth),
            Node::Never(name) => row[name.as_str()].map(|_| false),
            Node::Always(name) => row[name.as_str()].map(|_| true),
            Node::Opaque(_) => opaque,
            Node::Compare(operator, name, other) => {
                let other = match other {
                    Operand::Column(other) => row[other.as_str()],
                    Operand::Literal(literal) => Some(number(literal)),
                };
                row[name.as_str()].zip(other).map(|(a, b)| compares(*operator, &a, &b))
            }
            Node::Between { column, low, high, .. } => {
                row[column.as_str()].map(|it| number(low) <= it && it <= number(high))
            }
            Node::IsNull(name) => Some(row[name.as_str()].is_none()),
            Node::IsNotNull(name) => Some(row[name.as_str()].is_some()),
            Node::Like { .. } => panic!("no LIKE here"),
        };
        found.push(it);
    }
    found.pop().unwrap()
}

fn of(predicate: &Predicate, number: Option<i64>) -> Option<bool> {
    let found = truth(predicate, &HashMap::from([("c", number)]), None);
    assert_eq!(found, truth(predicate, &HashMap::from([("c", number)]), Some(true)), "{predicate}");
    found
}

// What a predicate may be of a row, whatever its opaque conditions are.
fn may_be(predicate: &Predicate, row: &Row<'_>) -> Vec<Option<bool>> {
    [Some(true), Some(false), None].iter().map(|opaque| truth(predicate, row, *opaque)).collect()
}

#[test]
fn every_day_of_four_hundred_years() {
    let (mut year, mut month, mut day) = (1600, 1_u8, 1_u8);
    let first = Date::new(1600, 1, 1).unwrap().days();
    for place in 0..146_097 {
        assert_eq!(Date::new(year, month, day).map(Date::days), Some(first + place), "{year}-{month}-{day}");
        let text = format!("{year:04}-{month:02}-{day:02}");
        assert_eq!(text.parse::<Date>().map(Date::days), Ok(first + place));
        match Date::new(year, month, day + 1) {
            Some(_) => day += 1,
            None if month < 12 => (month, day) = (month + 1, 1),
            None => (year, month, day) = (year + 1, 1, 1),
        }
    }
    assert_eq!((year, month, day), (2000, 1, 1));
    assert_eq!(Date::new(1970, 1, 1).map(Date::days), Some(0));
    assert_eq!(Date::new(-400, 3, 1).map(Date::days), Some(-719_468 - 146_097));
}

#[test]
fn texts_that_are_no_times_are_refused() {
    for text in
        ["", "2026", "2026-1-1", "2026-02-29", "2026-13-01", "2026-00-01", "2026-01-00", "+2026-01-01", "2026-01-01 "]
    {
        assert!(text.parse::<Date>().is_err(), "{text}");
    }
    for text in
        ["", "12", "24:00", "12:60", "12:00:60", "12:00:00.", "12:00:00.1234567890", "12:00:0", "-1:00", "12:00:00.+1"]
    {
        assert!(text.parse::<Time>().is_err(), "{text}");
    }
    for text in [
        "2026-01-01",
        "2026-01-01 12:00",
        "2026-01-01Z",
        "2026-01-01 12:00+25:00",
        "2026-01-01 12:00 +01:00",
        "é",
        "éééé",
    ] {
        assert!(text.parse::<Instant>().is_err(), "{text}");
    }
    for text in ["1970-01-01 01:00+01:00", "1970-01-01T00:00Z", "1969-12-31 22:00:00.000-02:00"] {
        assert_eq!(text.parse::<Instant>(), Ok(Instant::from_nanos(0)), "{text}");
    }
    assert_eq!(Instant::from(UNIX_EPOCH - Duration::from_nanos(5)), Instant::from_nanos(-5));
    assert_eq!(Time::since_midnight(Duration::from_secs(86_400)), None);
}

#[test]
fn literals_of_times_are_compared_exactly() {
    let texts =
        ["1970-01-01 00:00:12.5", "1969-12-31 23:59:59.999999999", "1970-01-01 00:00:12", "2026-01-02 03:04:05.123456"];
    for (text, unit) in texts.iter().flat_map(|text| UNITS.map(|unit| (*text, unit))) {
        let literal: DateTime = text.parse().unwrap();
        let instant: Instant = format!("{text}Z").parse().unwrap();
        let parts: i64 = [1_000_000_000, 1_000_000, 1000, 1][unit as usize];
        let day = text[..10].parse::<Date>().unwrap();
        let clock: Time = text[11..].parse().unwrap();
        let nanos = i128::from(day.days()) * 86_400_000_000_000 + nanos_of(clock);
        let near = (nanos / i128::from(parts)) as i64;
        for number in near - 2..=near + 2 {
            for operator in OPERATORS {
                let wanted = Some(compares(operator, &(i128::from(number) * i128::from(parts)), &nanos));
                assert_eq!(of(&col("c").timestamp(unit).compare(operator, literal), Some(number)), wanted, "{text}");
                assert_eq!(of(&!col("c").instant(unit).compare(operator, instant), Some(number)), wanted.map(|it| !it));
                assert_eq!(of(&col("c").timestamp(unit).compare(operator, literal), None), None);
            }
        }
        for days in day.days() - 1..=day.days() + 1 {
            for operator in OPERATORS {
                let wanted = compares(operator, &(i128::from(days) * 86_400_000_000_000), &nanos);
                assert_eq!(of(&col("c").date().compare(operator, literal), Some(days.into())), Some(wanted));
            }
        }
    }
}

fn nanos_of(time: Time) -> i128 {
    // A time's nanoseconds are the numbers of a column of nanoseconds that it is equal to.
    match col("c").time(Unit::Nano).eq(time).nodes().next() {
        Some(Node::Compare(_, _, Operand::Literal(Literal::Signed(_, number)))) => (*number).into(),
        other => panic!("{other:?}"),
    }
}

#[test]
fn literals_outside_of_a_type_fold() {
    let far: DateTime = "9999-01-01".parse().unwrap();
    let near: DateTime = "1500-01-01".parse().unwrap();
    for (literal, below) in [(far, false), (near, true)] {
        for operator in OPERATORS {
            let wanted = match operator {
                Operator::Eq => false,
                Operator::Ne => true,
                Operator::Gt | Operator::Ge => below,
                Operator::Lt | Operator::Le => !below,
            };
            let made = col("c").timestamp(Unit::Nano).compare(operator, literal);
            for number in [i64::MIN, 0, i64::MAX] {
                assert_eq!(of(&made, Some(number)), Some(wanted), "{made}");
            }
            assert_eq!((of(&made, None), of(&!made.clone(), None)), (None, None));
        }
    }
}

#[test]
fn instants_at_the_ends_of_128_bits_compare_exactly() {
    for (nanos, above) in [(i128::MAX, true), (i128::MAX - 1, true), (i128::MIN, false), (i128::MIN + 1, false)] {
        for (unit, operator) in UNITS.iter().flat_map(|unit| OPERATORS.map(|operator| (*unit, operator))) {
            let made = col("c").instant(unit).compare(operator, Instant::from_nanos(nanos));
            for number in [i64::MIN, 0, i64::MAX] {
                // Every number of 64 bits lies on one side of it.
                let wanted = compares(operator, &0, &(if above { 1 } else { -1 }));
                assert_eq!(of(&made, Some(number)), Some(wanted), "{made}");
            }
        }
    }
}

#[test]
fn every_pair_of_a_small_decimal_type() {
    let column = col("c").decimal(1);
    for literal in (-1050..=1050).step_by(5) {
        let text =
            format!("{}{}.{:02}", if literal < 0 { "-" } else { "" }, i32::abs(literal) / 100, i32::abs(literal) % 100);
        let literals = [text.parse::<Decimal>().unwrap(), Decimal::new(literal.into(), 2).unwrap()];
        for (decimal, operator) in literals.iter().flat_map(|it| OPERATORS.map(|operator| (*it, operator))) {
            let made = column.compare(operator, decimal);
            for number in -99..=99 {
                assert_eq!(
                    of(&made, Some(number)),
                    Some(compares(operator, &(number * 10), &literal.into())),
                    "{made}"
                );
            }
        }
    }
    assert_eq!(col("d").decimal(2).gt("1.005".parse::<Decimal>().unwrap()).to_string(), "ge col d lit i64 101");
    assert_eq!(of(&col("c").decimal(18).lt(i64::MAX), Some(i64::MAX)), Some(true));
    for text in ["", "-", ".5", "1.", "1,5", "+1", "1e5", "1234567890123456789", "0.1234567890123456789", "1.-5"] {
        assert!(text.parse::<Decimal>().is_err(), "{text}");
    }
}

fn floats() -> Vec<f64> {
    let small = [0.0, 1.5, f64::from(f32::MIN_POSITIVE) / 4.0, f64::from(f32::MAX), f64::INFINITY];
    let mut all: Vec<f64> = small.iter().flat_map(|it| [*it, -*it]).chain([f64::NAN]).collect();
    all.extend((0..200_u32).map(|it| f64::from(f32::from_bits(it.wrapping_mul(21_474_833)))));
    all
}

fn greatest(operator: Operator, a: f64, b: f64) -> bool {
    let key = |it: f64| (it.is_nan(), if it.is_nan() { 0.0 } else { it });
    compares(operator, &key(a), &key(b))
}

#[test]
fn floats_under_each_meaning_of_nan() {
    let all = floats();
    for (value, literal) in all.iter().flat_map(|a| all.iter().map(move |b| (*a, *b))) {
        let single = i64::from(Float32::number(value as f32));
        let double = Float64::number(value);
        let back = Float64::value(double);
        assert!(back.to_bits() == (value + 0.0).to_bits() || (back.is_nan() && value.is_nan()));
        for operator in OPERATORS {
            let (ieee, great) = (compares(operator, &value, &literal), greatest(operator, value, literal));
            for (number, make) in [
                (single, (|nan| col("c").float32(nan)) as fn(Nan) -> foalmorrow::TypedColumn<foalmorrow::Float>),
                (double, |nan| col("c").float64(nan)),
            ] {
                let made = |nan: Nan| make(nan).compare(operator, literal);
                assert_eq!(of(&made(Nan::Ieee), Some(number)), Some(ieee), "{value} {operator} {literal}");
                assert_eq!(of(&made(Nan::Greatest), Some(number)), Some(great), "{value} {operator} {literal}");
                assert_eq!(of(&!made(Nan::Ieee), Some(number)), Some(!ieee));
                let either = may_be(&made(Nan::Either), &HashMap::from([("c", Some(number))]));
                assert!(either.contains(&Some(ieee)) && either.contains(&Some(great)));
                assert!(ieee != great || either.iter().all(|it| *it == Some(ieee)), "{value} {operator} {literal}");
                assert_eq!(may_be(&made(Nan::Either), &HashMap::from([("c", None)])), [None, None, None]);
            }
        }
    }
}

#[test]
fn literal_that_is_no_single_is_open_to_rounding() {
    let (tenth, below) = (0.1_f32, f32::from_bits(0.1_f32.to_bits() - 1));
    for (value, operator) in [tenth, below].iter().flat_map(|it| OPERATORS.map(|operator| (*it, operator))) {
        let row = HashMap::from([("c", Some(Float32::number(value).into()))]);
        let found = may_be(&col("c").float32(Nan::Ieee).compare(operator, 0.1_f64), &row);
        assert!(found.contains(&Some(compares(operator, &f64::from(value), &0.1))));
        assert!(found.contains(&Some(compares(operator, &value, &tenth))));
    }
}

#[test]
fn two_columns_of_floats() {
    let some = [Some(0.0), Some(-0.0), Some(f64::INFINITY), Some(f64::NAN), None];
    for (a, b) in some.iter().flat_map(|a| some.iter().map(move |b| (*a, *b))) {
        let row = HashMap::from([("c", a.map(Float64::number)), ("d", b.map(Float64::number))]);
        for operator in OPERATORS {
            let made = |nan| col("c").float64(nan).compare_column(operator, &col("d").float64(nan)).unwrap();
            let wanted = a.zip(b).map(|(a, b)| (compares(operator, &a, &b), greatest(operator, a, b)));
            assert_eq!(truth(&made(Nan::Ieee), &row, None), wanted.map(|it| it.0), "{a:?} {operator} {b:?}");
            assert_eq!(truth(&made(Nan::Greatest), &row, None), wanted.map(|it| it.1));
            let either = may_be(&made(Nan::Either), &row);
            assert!(either.contains(&wanted.map(|it| it.0)) && either.contains(&wanted.map(|it| it.1)));
        }
    }
    let other = col("c").timestamp(Unit::Second).compare_column(Operator::Lt, &col("d").timestamp(Unit::Milli));
    assert!(matches!(other, Err(Error::Misfit(_))));
}

#[test]
fn words_of_types_are_read_again() {
    let some = [
        "date",
        "time[s]",
        "timestamp[ns]",
        "timestamp[us, Europe/Berlin]",
        "decimal(18, 3)",
        "float32",
        "float64",
        "uuid",
        "fixed_binary(3)",
        "enum",
        "unmapped(list(i32))",
        "unmapped()",
    ];
    for word in some {
        assert_eq!(word.parse::<Logical>().map(|it| it.to_string()), Ok(word.to_owned()));
    }
    for word in [
        "",
        "date ",
        "timestamp",
        "timestamp[m]",
        "time[s, UTC]",
        "decimal(19, 0)",
        "decimal(05, 0)",
        "decimal(3, 4)",
        "i64",
        "timestamp[s, ]",
    ] {
        assert!(word.parse::<Logical>().is_err(), "{word}");
    }
}

fn map_of(kind: &Logical, zones: &[(i64, i64)]) -> ZoneMap {
    let scope = [("c", kind.dtype(true)), ("n", DType { kind: Kind::I64, nullable: false })];
    let mut map = ZoneMap::new(&scope, &[Stat::Min, Stat::Max, Stat::NullCount]).unwrap();
    for (low, high) in zones {
        let bound = |number: i64| Precision::Exact(Value::Signed(number));
        let of_column = vec![bound(*low), bound(*high), Precision::Exact(Value::Unsigned(0))];
        map.push_known(10, &[of_column.clone(), of_column]).unwrap();
    }
    map.with_logical("c", kind.clone()).unwrap()
}

#[test]
fn prune_by_timestamps_and_opaque_conditions() {
    let map = map_of(&Logical::Timestamp(Unit::Second, None), &[(0, 11), (12, 20), (30, 40)]);
    let literal: DateTime = "1970-01-01 00:00:12.5".parse().unwrap();
    let at = col("c").timestamp(Unit::Second);
    assert_eq!(map.prune(&at.gt(literal)), Ok(vec![Answer::Skip, Answer::Read, Answer::Whole]));
    assert_eq!(map.prune(&at.eq(literal)), Ok(vec![Answer::Skip; 3]));
    assert_eq!(map.prune(&at.ne(literal)), Ok(vec![Answer::Whole; 3]));
    let opaque = || Predicate::opaque("lower(name) = 'x'");
    assert_eq!(map.prune(&opaque()), Ok(vec![Answer::Read; 3]));
    assert_eq!(map.prune(&!opaque()), Ok(vec![Answer::Read; 3]));
    assert_eq!(map.prune(&at.gt(literal).and(opaque())), Ok(vec![Answer::Skip, Answer::Read, Answer::Read]));
    assert_eq!(map.prune(&at.gt(literal).or(opaque())), Ok(vec![Answer::Read, Answer::Read, Answer::Whole]));
    // Two conditions of the same words needn't agree.
    assert_eq!(map.prune(&opaque().and(!opaque())), Ok(vec![Answer::Read; 3]));
    assert_eq!(map.prune(&opaque().or(!opaque())), Ok(vec![Answer::Read; 3]));
}

#[test]
fn prune_refuses_another_logical_type() {
    let map = map_of(&Logical::Timestamp(Unit::Micro, None), &[(0, 11)]);
    let wanted = col("c").timestamp(Unit::Second).gt("1970-01-01".parse::<DateTime>().unwrap());
    assert!(
        matches!(map.prune(&wanted.or(col("n").eq(1_i64))), Err(Error::Misfit(words)) if words.contains("timestamp[us]"))
    );
    let zoned = map_of(&Logical::Timestamp(Unit::Micro, Some("Europe/Berlin".to_owned())), &[(0, 11)]);
    let wanted = col("c").instant(Unit::Micro).gt(Instant::from_nanos(0));
    assert_eq!(zoned.prune(&wanted), Ok(vec![Answer::Read]));
    let plain = [("c", DType { kind: Kind::I32, nullable: true })];
    let map = || ZoneMap::new(&plain, &[Stat::Min, Stat::Sum]).unwrap();
    assert!(map().with_logical("c", Logical::Uuid).is_err());
    assert!(map().with_logical("c", Logical::Date).is_err());
    assert!(map().with_logical("d", Logical::Date).is_err());
}

// A map of one zone, of columns of logical types or none, each with a null count alone.
fn map_of_columns(columns: &[(&str, DType, Option<Logical>)]) -> ZoneMap {
    let scope: Vec<(&str, DType)> = columns.iter().map(|(name, dtype, _)| (*name, *dtype)).collect();
    let mut map = ZoneMap::new(&scope, &[Stat::NullCount]).unwrap();
    map.push_known(3, &vec![vec![Precision::Exact(Value::Unsigned(0))]; columns.len()]).unwrap();
    let logical = columns.iter().filter_map(|(name, _, kind)| Some((*name, kind.clone()?)));
    logical.fold(map, |map, (name, kind)| map.with_logical(name, kind).unwrap())
}

fn refused_of(found: Result<Vec<Answer>, Error>) -> String {
    match found {
        Err(Error::BadLogical { column, .. }) => column,
        other => panic!("{other:?}"),
    }
}

#[test]
fn plain_number_beside_a_logical_column_is_refused() {
    let decimal = map_of(&Logical::Decimal { precision: 9, scale: 2 }, &[(5000, 6000)]);
    let float = map_of(&Logical::Float64, &[(Float64::number(1.5), Float64::number(19.0))]);
    let at = map_of(&Logical::Timestamp(Unit::Micro, None), &[(0, 11)]);
    for map in [decimal, float, at] {
        let leaves = [
            col("c").lt(100_i64),
            col("c").eq(100_i64),
            col("c").between(1_i64, 2_i64),
            col("c").is_in([1_i64]),
            col("c").is_in([1_i64, 2]),
            col("c").eq(Literal::Null(Kind::I64)),
            !col("c").ge(100_i64),
            col("n").lt(0_i64).and(col("c").lt(100_i64)),
            col("c").lt(100_i64).or(col("n").lt(0_i64)),
        ];
        for wanted in leaves {
            assert_eq!(refused_of(map.prune(&wanted)), "c", "{wanted}");
        }
        assert_eq!(map.prune(&col("c").is_null()), Ok(vec![Answer::Skip]));
        assert_eq!(map.prune(&col("c").is_not_null()), Ok(vec![Answer::Whole]));
        assert_eq!(map.prune(&col("n").lt(i64::MIN + 1)), Ok(vec![Answer::Skip]));
    }
    let day = map_of_columns(&[("day", DType { kind: Kind::I32, nullable: false }, Some(Logical::Date))]);
    let words = day.prune(&col("day").lt(7_i32)).unwrap_err().to_string();
    assert_eq!(words, "column day: it is of type date, and the predicate compares it with the plain lit i32 7");
}

#[test]
fn typed_leaf_frees_no_plain_one() {
    let map = map_of(&Logical::Decimal { precision: 9, scale: 2 }, &[(5000, 6000)]);
    let typed = || col("c").decimal(2).lt(100_i64);
    assert_eq!(map.prune(&typed()), Ok(vec![Answer::Whole]));
    for wanted in
        [typed().and(col("c").lt(100_i64)), col("c").lt(100_i64).and(typed()), !typed().or(col("c").eq(1_i64))]
    {
        assert_eq!(refused_of(map.prune(&wanted)), "c", "{wanted}");
    }
}

#[test]
fn columns_of_two_types_are_refused() {
    let long = DType { kind: Kind::I64, nullable: false };
    let map = map_of_columns(&[
        ("at", long, Some(Logical::Timestamp(Unit::Micro, None))),
        ("s", long, Some(Logical::Timestamp(Unit::Second, None))),
        ("d", long, Some(Logical::Decimal { precision: 9, scale: 2 })),
        ("e", long, Some(Logical::Decimal { precision: 18, scale: 2 })),
        ("f", long, Some(Logical::Float64)),
        ("g", long, Some(Logical::Float64)),
        ("n", long, None),
    ]);
    for (left, right, refused) in [
        ("at", "s", "at"),
        ("s", "at", "s"),
        ("d", "f", "d"),
        ("f", "d", "f"),
        // Nothing says what NaN means.
        ("f", "g", "f"),
        ("n", "d", "d"),
        ("d", "n", "d"),
    ] {
        for operator in OPERATORS {
            assert_eq!(
                refused_of(map.prune(&col(left).compare(operator, col(right)))),
                refused,
                "{left} {operator} {right}"
            );
        }
    }
    assert_eq!(map.prune(&col("d").lt(col("e"))), Ok(vec![Answer::Read]));
    let floats = col("f").float64(Nan::Ieee).compare_column(Operator::Lt, &col("g").float64(Nan::Ieee)).unwrap();
    assert_eq!(map.prune(&floats), Ok(vec![Answer::Read]));
}

#[test]
fn enumeration_has_no_order() {
    let text = DType { kind: Kind::Utf8, nullable: false };
    let columns = [("e", text, Some(Logical::Enum)), ("f", text, Some(Logical::Enum)), ("t", text, None)];
    let map = map_of_columns(&columns);
    for operator in [Operator::Gt, Operator::Ge, Operator::Lt, Operator::Le] {
        assert_eq!(refused_of(map.prune(&col("e").compare(operator, "low"))), "e");
        assert_eq!(refused_of(map.prune(&col("e").compare(operator, col("f")))), "e");
        assert_eq!(map.prune(&col("t").compare(operator, "low")), Ok(vec![Answer::Read]));
    }
    assert_eq!(refused_of(map.prune(&col("e").between("high", "low"))), "e");
    let answered = [
        col("e").eq("low"),
        col("e").ne("low"),
        col("e").is_in(["a", "b"]),
        col("e").like("l%"),
        col("e").eq(col("f")),
    ];
    for wanted in answered {
        assert_eq!(map.prune(&wanted), Ok(vec![Answer::Read]), "{wanted}");
    }
}

#[test]
fn bytes_compare_with_columns_of_bytes() {
    let bytes = DType { kind: Kind::Binary, nullable: false };
    let map = map_of_columns(&[
        ("u", bytes, Some(Logical::Uuid)),
        ("b", bytes, Some(Logical::FixedBinary(2))),
        ("j", bytes, Some(Logical::Unmapped("json".to_owned()))),
    ]);
    for wanted in [col("u").lt([7_u8; 16]), col("b").ge([7_u8; 3]), col("b").between([1_u8; 2], [2_u8; 2])] {
        assert_eq!(map.prune(&wanted), Ok(vec![Answer::Read]), "{wanted}");
    }
    for (wanted, refused) in [
        (col("u").lt([7_u8; 15]), "u"),
        (col("u").between([7_u8; 16], [7_u8; 15]), "u"),
        (col("u").between([7_u8; 15], [7_u8; 16]), "u"),
        (col("j").eq([7_u8; 2]), "j"),
        (col("j").eq(col("j")), "j"),
        (col("u").eq(col("b")), "u"),
    ] {
        assert_eq!(refused_of(map.prune(&wanted)), refused, "{wanted}");
    }
}

#[test]
fn prune_floats_by_each_meaning() {
    let number = Float64::number;
    let zones = [
        (number(0.0), number(1.0)),
        (number(0.0), Float64::NAN),
        (Float64::NAN, Float64::NAN),
        (number(2.0), number(3.0)),
    ];
    let map = map_of(&Logical::Float64, &zones);
    let of = |nan: Nan| map.prune(&col("c").float64(nan).gt(1.5)).unwrap();
    assert_eq!(of(Nan::Greatest), [Answer::Skip, Answer::Read, Answer::Whole, Answer::Whole]);
    assert_eq!(of(Nan::Ieee), [Answer::Skip, Answer::Read, Answer::Skip, Answer::Whole]);
    assert_eq!(of(Nan::Either), [Answer::Skip, Answer::Read, Answer::Read, Answer::Whole]);
    let not = |nan: Nan| map.prune(&!col("c").float64(nan).lt(1.5)).unwrap();
    assert_eq!(not(Nan::Ieee), [Answer::Skip, Answer::Read, Answer::Whole, Answer::Whole]);
}

#[test]
fn file_keeps_logical_types() {
    for kind in [
        Logical::Date,
        Logical::Decimal { precision: 9, scale: 2 },
        Logical::Timestamp(Unit::Nano, Some("UTC".to_owned())),
    ] {
        let scope = [("c", kind.dtype(false))];
        let map = ZoneMap::new(&scope, &[Stat::NullCount]).unwrap().with_logical("c", kind.clone()).unwrap();
        let (again, note) = ZoneMap::from_bytes(&map.to_bytes("a note")).unwrap();
        assert_eq!((&again, note.as_str(), again.logical(0)), (&map, "a note", Some(&kind)));
    }
}

#[test]
fn file_of_python_is_read_and_written_alike() {
    let data = include_bytes!("logical_types.footers");
    let (map, note) = ZoneMap::from_bytes(data).unwrap();
    let words: Vec<String> = (0..map.names().len()).map(|place| map.logical(place).unwrap().to_string()).collect();
    let wanted = [
        "date",
        "time[us]",
        "timestamp[ns]",
        "timestamp[s, Europe/Berlin]",
        "decimal(9, 2)",
        "float32",
        "float64",
        "uuid",
        "fixed_binary(2)",
        "enum",
        "unmapped(json)",
    ];
    assert_eq!((words, note.as_str()), (wanted.map(str::to_owned).to_vec(), "logical types"));
    assert_eq!(map.to_bytes(&note), data);
    let wanted = col("day").date().gt(Date::new(2026, 1, 2).unwrap());
    assert_eq!(map.prune(&wanted), Ok(vec![Answer::Read, Answer::Skip]));
    let number = Precision::Exact(Value::Signed(Float64::number(-0.0)));
    assert_eq!(map.column(6).and_then(|column| column.get(0, Stat::Min)), Some(number));
}

#[test]
fn never_and_always_true_need_no_bounds() {
    let scope = [("c", DType { kind: Kind::I64, nullable: true })];
    let mut map = ZoneMap::new(&scope, &[Stat::NullCount]).unwrap();
    map.push_known(5, &[vec![Precision::Exact(Value::Unsigned(0))]]).unwrap();
    map.push_known(5, &[vec![Precision::Exact(Value::Unsigned(2))]]).unwrap();
    map.push_known(5, &[vec![Precision::Absent]]).unwrap();
    let column = col("c").decimal(2);
    let literal: Decimal = "1.005".parse().unwrap();
    assert_eq!(map.prune(&column.eq(literal)), Ok(vec![Answer::Skip; 3]));
    assert_eq!(map.prune(&column.ne(literal)), Ok(vec![Answer::Whole, Answer::Read, Answer::Read]));
    assert_eq!(map.prune(&!column.eq(literal)), Ok(vec![Answer::Whole, Answer::Read, Answer::Read]));
    assert_eq!(map.prune(&!column.ne(literal)), Ok(vec![Answer::Skip; 3]));
    assert_eq!(map.prune(&!!column.eq(literal)), Ok(vec![Answer::Skip; 3]));
    let in_null = map.prune(&column.eq(literal).or(column.is_null()));
    assert_eq!(in_null, Ok(vec![Answer::Skip, Answer::Read, Answer::Read]));
}

#[test]
fn column_of_mapped_floats_is_measured() {
    let numbers = Float64::numbers(&[1.5, f64::NAN, -0.0]);
    let mut map = map_of(&Logical::Float64, &[]);
    map.push(&[Column::numbers(&numbers).with_nulls(&[]), Column::numbers(&[1_i64, 2, 3])]).unwrap();
    let column = map.column(0).unwrap();
    assert_eq!(column.get(0, Stat::Max), Some(Precision::Exact(Value::Signed(Float64::NAN))));
    assert_eq!(column.get(0, Stat::Min), Some(Precision::Exact(Value::Signed(0))));
}
