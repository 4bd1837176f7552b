// SPDX-License-Identifier: Apache-2.0
//! The columns that a predicate names: of any name and type, with or without a null count.
use foalmorrow::{
    col, Answer, Column, ColumnName, DType, Error, Kind, Literal, Operator, Precision, Predicate, Stat, Value, ZoneMap,
};
use std::time::{Duration, Instant};
use Answer::{Read, Skip, Whole};

const BOUNDS: [Stat; 2] = [Stat::Min, Stat::Max];
const I64: DType = DType { kind: Kind::I64, nullable: false };

// Zones of numbers from 0 to 9, 10 to 19, and so on, the same in each column.
fn tens(names: &[&str], zones: i64) -> ZoneMap {
    let scope: Vec<(&str, DType)> = names.iter().map(|name| (*name, I64)).collect();
    let mut map = ZoneMap::new(&scope, &BOUNDS).unwrap();
    for zone in 0..zones {
        let bounds = [10 * zone, 10 * zone + 9].map(|it| Precision::Exact(Value::Signed(it))).to_vec();
        map.push_known(10, &vec![bounds; names.len()]).unwrap();
    }
    map
}

#[test]
fn any_name_can_be_pruned_by() {
    let long = "x".repeat(65);
    let names = ["a b", "a.b", "é", &long, "", "\"", "a\nb", "col", "c0", "c1", "1", "\u{0}"];
    let map = tens(&names, 3);
    for name in names {
        assert_eq!(map.prune(&col(name).ge(10_i64)), Ok(vec![Skip, Whole, Whole]), "{name}");
        assert_eq!(map.prune(&col(name).lt(15_i64)), Ok(vec![Whole, Read, Skip]), "{name}");
    }
    let two = col("c1").lt(15_i64).and(col("c0").gt(12_i64));
    assert_eq!(map.prune(&two), Ok(vec![Skip, Read, Skip]));
    assert_eq!(map.prune(&col("a b").eq(col("é"))), Ok(vec![Read; 3]));
}

#[test]
fn two_columns_of_one_name_are_refused() {
    assert_eq!(ZoneMap::new(&[("i", I64), ("j", I64), ("i", I64)], &BOUNDS), Err(Error::BadName("i".into())));
    assert_eq!(Error::BadName("i".into()).to_string(), "two columns have the name i");
}

#[test]
fn unknown_column_is_named() {
    let error = tens(&["a"], 1).prune(&col("a").gt(1_i64).or(col("b c").is_null())).unwrap_err();
    assert_eq!(error, Error::UnknownColumn("b c".into()));
    assert_eq!(error.to_string(), "the table has no column b c");
}

#[test]
fn column_taken_for_another_type_is_named() {
    let text = DType { kind: Kind::Utf8, nullable: true };
    let map = ZoneMap::new(&[("n m", I64), ("s", text)], &BOUNDS).unwrap();
    let n = || col("n m");
    let bad = |column: &str, kind, expected| Err(Error::BadType { column: column.into(), kind, expected });
    assert_eq!(map.prune(&n().gt(3_i32)), bad("n m", Kind::I64, Kind::I32));
    assert_eq!(map.prune(&n().gt(3_u64)), bad("n m", Kind::I64, Kind::U64));
    assert_eq!(map.prune(&n().eq("3")), bad("n m", Kind::I64, Kind::Utf8));
    assert_eq!(map.prune(&n().eq(Literal::Null(Kind::Null))), bad("n m", Kind::I64, Kind::Null));
    assert_eq!(map.prune(&n().between(3_i64, 4_i32)), bad("n m", Kind::I64, Kind::I32));
    assert_eq!(map.prune(&n().between(3_i8, 4_i64)), bad("n m", Kind::I64, Kind::I8));
    assert_eq!(map.prune(&n().like("3")), bad("n m", Kind::I64, Kind::Utf8));
    assert_eq!(map.prune(&col("s").eq(b"3".as_slice())), bad("s", Kind::Utf8, Kind::Binary));
    assert_eq!(map.prune(&n().lt(col("s"))), bad("n m", Kind::I64, Kind::Utf8));
    assert_eq!(map.prune(&!col("s").is_in(["a", "b"]).or(n().is_in([true]))), bad("n m", Kind::I64, Kind::Bool));
    assert_eq!(map.prune(&n().eq(Literal::Null(Kind::I64))), Ok(vec![]));
    let sentence = "column s: it is of type utf8, and the predicate takes it for bool";
    assert_eq!(map.prune(&col("s").eq(true)).unwrap_err().to_string(), sentence);
}

#[test]
fn constant_that_is_not_of_its_kind_is_named() {
    let dtype = |kind| DType { kind, nullable: false };
    let scope = [("u", dtype(Kind::U8)), ("i", dtype(Kind::I16)), ("s", dtype(Kind::Utf8))];
    let map = ZoneMap::new(&scope, &BOUNDS).unwrap();
    let cases = [
        ("u", Literal::Unsigned(Kind::U8, 256)),
        ("u", Literal::Signed(Kind::U8, 1)),
        ("i", Literal::Signed(Kind::I16, 32_768)),
        ("i", Literal::Signed(Kind::I16, -32_769)),
        ("i", Literal::Unsigned(Kind::I16, 1)),
        ("s", Literal::Unsigned(Kind::Utf8, 1)),
        ("s", Literal::Signed(Kind::Utf8, 1)),
    ];
    for (name, literal) in cases {
        let error = map.prune(&col(name).between(literal.clone(), literal.clone()));
        assert_eq!(error, Err(Error::BadLiteral { column: name.into(), literal: literal.clone() }));
        let error = map.prune(&col(name).compare(Operator::Ne, literal.clone()));
        assert_eq!(error, Err(Error::BadLiteral { column: name.into(), literal }));
    }
    for (name, literal) in [("u", Literal::Unsigned(Kind::U8, 255)), ("i", Literal::Signed(Kind::I16, -32_768))] {
        assert_eq!(map.prune(&col(name).eq(literal)), Ok(vec![]));
    }
    let error = map.prune(&col("u").eq(Literal::Unsigned(Kind::U8, 256))).unwrap_err();
    assert_eq!(error.to_string(), "column u: lit u8 256 is no value of u8");
}

#[test]
fn constants_are_pruned_by() {
    for map in [tens(&["a"], 2), tens(&[], 2)] {
        assert_eq!(map.prune(&Predicate::constant(false)), Ok(vec![Skip; 2]));
        assert_eq!(map.prune(&Predicate::constant(true)), Ok(vec![Whole; 2]));
        assert_eq!(map.prune(&!Predicate::constant(true)), Ok(vec![Skip; 2]));
    }
    let map = tens(&["a"], 2);
    let none: [i64; 0] = [];
    assert_eq!(map.prune(&col("a").is_in(none)), Ok(vec![Skip; 2]));
    assert_eq!(map.prune(&!col("a").is_in(none)), Ok(vec![Whole; 2]));
    assert_eq!(map.prune(&col("a").lt(10_i64).or(Predicate::constant(false))), Ok(vec![Whole, Skip]));
}

#[test]
fn texts_with_quotes_backslashes_and_line_feeds_are_exact() {
    let texts = ["a\nb", "\n", "\r\n", "\"", "\\", "\\\"", "a\u{0}b", "\t", " ", "é\u{2028}", "'", "lit", ""];
    for text in texts {
        let mut map = ZoneMap::new(&[("s", DType { kind: Kind::Utf8, nullable: false })], &BOUNDS).unwrap();
        let ends = [text.len() as u64];
        map.push(&[Column::texts(text, &ends)]).unwrap();
        let longer = format!("{text}!");
        assert_eq!(map.prune(&col("s").eq(text)), Ok(vec![Whole]), "{text:?}");
        assert_eq!(map.prune(&col("s").is_in(["none", text])), Ok(vec![Whole]), "{text:?}");
        assert_eq!(map.prune(&col("s").eq(longer.as_str())), Ok(vec![Skip]), "{text:?}");
        let pattern = format!("{}%", text.replace('\\', "\\\\"));
        assert_ne!(map.prune(&col("s").like(&pattern)), Ok(vec![Skip]), "{text:?}");
        assert_eq!(map.prune(&col("s").like(&format!("{pattern}!!"))).map(|it| it.contains(&Whole)), Ok(false));
    }
}

// A column of one zone with bounds alone, or with this count of nulls.
fn one(dtype: DType, count: Option<Precision<u64>>) -> ZoneMap {
    let stats = if count.is_some() { &[Stat::Min, Stat::Max, Stat::NullCount][..] } else { &BOUNDS };
    let mut map = ZoneMap::new(&[("a", dtype)], stats).unwrap();
    let bound = || Precision::Exact(Value::Signed(7));
    let count = count.map(|count| match count {
        Precision::Absent => Precision::Absent,
        Precision::Exact(nulls) => Precision::Exact(Value::Unsigned(nulls)),
        Precision::Inexact(nulls) => Precision::Inexact(Value::Unsigned(nulls)),
    });
    map.push_known(5, &[[Some(bound()), Some(bound()), count].into_iter().flatten().collect()]).unwrap();
    map
}

#[test]
fn column_without_null_counts_none() {
    let nullable = DType { nullable: true, ..I64 };
    let (wanted, null): (Predicate, Predicate) = (col("a").eq(7_i64), col("a").is_null());
    for count in [None, Some(Precision::Absent), Some(Precision::Exact(0)), Some(Precision::Inexact(0))] {
        assert_eq!(one(I64, count).prune(&wanted), Ok(vec![Whole]), "{count:?}");
        assert_eq!(one(I64, count).prune(&null), Ok(vec![Skip]), "{count:?}");
        if !matches!(count, Some(Precision::Exact(_) | Precision::Inexact(_))) {
            assert_eq!(one(nullable, count).prune(&wanted), Ok(vec![Read]), "{count:?}");
            assert_eq!(one(nullable, count).prune(&null), Ok(vec![Read]), "{count:?}");
        }
    }
    let kept = one(I64, Some(Precision::Absent));
    let before = kept.clone();
    kept.prune(&wanted).unwrap();
    assert_eq!(kept, before);
    // A count that is told stays as it is told.
    assert_eq!(one(I64, Some(Precision::Exact(5))).prune(&null), Ok(vec![Whole]));
    let mut nulls = ZoneMap::new(&[("a", DType { kind: Kind::Null, nullable: false })], &[]).unwrap();
    nulls.push(&[Column::nulls(5)]).unwrap();
    assert_eq!(nulls.prune(&null), Ok(vec![Read]));
}

#[test]
fn hundred_columns_cost_what_one_costs() {
    let names: Vec<String> = (0..100).map(|it| format!("column {it}")).collect();
    let names: Vec<&str> = names.iter().map(String::as_str).collect();
    let (one, hundred) = (tens(&names[99..], 5_000), tens(&names, 5_000));
    let wanted = col(names[99]).gt(15_000_i64);
    assert_eq!(one.prune(&wanted), hundred.prune(&wanted));
    let took = |map: &ZoneMap| {
        let start = Instant::now();
        map.prune(&wanted).unwrap();
        start.elapsed()
    };
    let (mut least, mut least_of_hundred) = (Duration::MAX, Duration::MAX);
    for _ in 0..15 {
        least = least.min(took(&one));
        least_of_hundred = least_of_hundred.min(took(&hundred));
    }
    assert!(least_of_hundred < 3 * least, "{least_of_hundred:?} beside {least:?}");
}

// What stands in a zone with one value is decided by a comparison with it.
fn exactly(dtype: DType, column: &Column<'_>, equal: impl Into<Literal>, next: impl Into<Literal>) {
    let mut map = ZoneMap::new(&[("x y", dtype)], &BOUNDS).unwrap();
    map.push(&[*column]).unwrap();
    let (equal, next): (Literal, Literal) = (equal.into(), next.into());
    let x = || -> ColumnName { col("x y") };
    assert_eq!(map.prune(&x().eq(equal.clone())), Ok(vec![Whole]), "{equal}");
    assert_eq!(map.prune(&x().eq(next.clone())), Ok(vec![Skip]), "{next}");
    assert_eq!(map.prune(&x().between(equal.clone(), next.clone())), Ok(vec![Whole]));
    assert_eq!(map.prune(&x().between_ends(equal.clone(), true, next.clone(), false)), Ok(vec![Skip]));
    assert_eq!(map.prune(&x().between_ends(equal.clone(), false, next.clone(), true)), Ok(vec![Whole]));
    assert_eq!(map.prune(&x().between_ends(equal.clone(), true, next.clone(), true)), Ok(vec![Skip]));
    assert_eq!(map.prune(&x().is_in([next.clone(), equal.clone()])), Ok(vec![Whole]));
    assert_eq!(map.prune(&x().eq(Literal::Null(dtype.kind))).map(|it| it.contains(&Whole)), Ok(false));
}

#[test]
fn literals_of_each_type_are_exact() {
    let of = |kind| DType { kind, nullable: false };
    exactly(of(Kind::Bool), &Column::truths(&[false]), false, true);
    exactly(of(Kind::U8), &Column::numbers(&[u8::MAX - 1]), u8::MAX - 1, u8::MAX);
    exactly(of(Kind::U16), &Column::numbers(&[u16::MAX - 1]), u16::MAX - 1, u16::MAX);
    exactly(of(Kind::U32), &Column::numbers(&[u32::MAX - 1]), u32::MAX - 1, u32::MAX);
    exactly(of(Kind::U64), &Column::numbers(&[u64::MAX - 1]), u64::MAX - 1, u64::MAX);
    exactly(of(Kind::I8), &Column::numbers(&[i8::MIN]), i8::MIN, i8::MIN + 1);
    exactly(of(Kind::I16), &Column::numbers(&[i16::MIN]), i16::MIN, i16::MIN + 1);
    exactly(of(Kind::I32), &Column::numbers(&[i32::MIN]), i32::MIN, i32::MIN + 1);
    exactly(of(Kind::I64), &Column::numbers(&[i64::MIN]), i64::MIN, i64::MIN + 1);
    exactly(of(Kind::Utf8), &Column::texts("é", &[2]), "é", "é\u{0}");
    exactly(of(Kind::Binary), &Column::binary(&[0, 255], &[2]), [0_u8, 255].as_slice(), vec![0, 255, 0]);
    exactly(of(Kind::Binary), &Column::binary(&[], &[0]), Vec::<u8>::new(), vec![0]);
}
