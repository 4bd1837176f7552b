// SPDX-License-Identifier: Apache-2.0
//! Statistics that are checked against a chunk's values and its number of rows.
use foalmorrow::{Column, DType, Error, Kind, Place, Precision, Stat, Value, ZoneMap};

const SCOPE: [(&str, DType); 2] =
    [("n", DType { kind: Kind::I64, nullable: false }), ("a text", DType { kind: Kind::Utf8, nullable: false })];
const BOUNDS: [Stat; 2] = [Stat::Min, Stat::Max];

fn chunk<'a>(numbers: &'a [i64], heap: &'a str, ends: &'a [u64]) -> [Column<'a>; 2] {
    [Column::numbers(numbers), Column::texts(heap, ends)]
}

// A map of one zone of two rows.
fn map() -> ZoneMap {
    let mut map = ZoneMap::new(&SCOPE, &BOUNDS).unwrap();
    map.push(&chunk(&[3, 5], "anzo", &[2, 4])).unwrap();
    map
}

fn untrue(column: &str, stat: Option<Stat>) -> Error {
    Error::Untrue(Place { column: Some(column.to_owned()), stat, zone: Some(0), row: None, side: None })
}

#[test]
fn chunk_that_was_measured_is_true() {
    assert_eq!(map().check(0, &chunk(&[3, 5], "anzo", &[2, 4])), Ok(()));
    assert_eq!(map().check(0, &chunk(&[5, 3], "zoan", &[2, 4])), Ok(()));
}

#[test]
fn other_number_of_rows_is_untrue() {
    assert_eq!(map().check(0, &chunk(&[3, 4, 5], "anbozo", &[2, 4, 6])), Err(untrue("n", None)));
    assert_eq!(map().check(0, &chunk(&[3], "an", &[2])), Err(untrue("n", None)));
    assert_eq!(map().check(0, &chunk(&[], "", &[])), Err(untrue("n", None)));
    let mut told = ZoneMap::new(&SCOPE, &[]).unwrap();
    told.push_known(2, &[vec![], vec![]]).unwrap();
    assert_eq!(told.check(0, &chunk(&[3, 5], "anzo", &[2, 4])), Ok(()));
    assert_eq!(told.check(0, &chunk(&[3, 5, 7], "anzoz", &[2, 4, 5])), Err(untrue("n", None)));
}

#[test]
fn untrue_statistic_is_named() {
    assert_eq!(map().check(0, &chunk(&[2, 5], "anzo", &[2, 4])), Err(untrue("n", Some(Stat::Min))));
    assert_eq!(map().check(0, &chunk(&[3, 6], "anzo", &[2, 4])), Err(untrue("n", Some(Stat::Max))));
    assert_eq!(map().check(0, &chunk(&[3, 5], "anzz", &[2, 4])), Err(untrue("a text", Some(Stat::Max))));
    let error = map().check(0, &chunk(&[3, 5], "anzz", &[2, 4])).unwrap_err();
    assert_eq!(error.to_string(), "column a text, zone 0, max: the statistic isn't true of the values");
    let error = map().check(0, &chunk(&[3], "an", &[2])).unwrap_err();
    assert_eq!(error.to_string(), "column n, zone 0: the zone has another number of rows");
}

#[test]
fn chunk_that_does_not_fit_is_refused_by_name() {
    let misfit = |words: &str| Err(Error::Misfit(words.to_owned()));
    assert_eq!(map().check(1, &chunk(&[3, 5], "anzo", &[2, 4])), misfit("there are 1 zones, and none is zone 1"));
    let columns = misfit("1 columns are handed in for a zone, and the map has 2");
    assert_eq!(map().check(0, &[Column::numbers(&[3_i64, 5])]), columns);
    let place = |column: &str, row| Place { column: Some(column.to_owned()), row, ..Place::default() };
    let kinds = [Column::numbers(&[3_i32, 5]), Column::texts("anzo", &[2, 4])];
    assert_eq!(map().check(0, &kinds), Err(Error::BadKind(place("n", None))));
    let ends = chunk(&[3, 5], "anzo", &[2, 5]);
    assert_eq!(map().check(0, &ends), Err(Error::BadEnds(place("a text", Some(1)))));
    let mut nullable = ZoneMap::new(&[("m", DType { kind: Kind::U8, nullable: true })], &BOUNDS).unwrap();
    let bound = || Precision::Exact(Value::Unsigned(1));
    nullable.push_known(2, &[vec![bound(), bound()]]).unwrap();
    let column = Column::numbers(&[1_u8, 1]);
    assert_eq!(nullable.check(0, &[column.with_nulls(&[0, 1])]), Ok(()));
    let long = column.with_nulls(&[0, 1, 0]);
    assert_eq!(nullable.check(0, &[long]), Err(Error::BadLength(place("m", Some(2)))));
}
