// SPDX-License-Identifier: Apache-2.0
//! Pruning by conditions in SQL beside a direct filter of the rows, in which tests that aren't read mean anything.
use foalmorrow::{
    Answer, Column, DType, Error, Kind, Logical, Names, SqlAnswers, SqlError, SqlFault, Stat, Unit, ZoneMap,
};
use std::ops::Range;

mod conditions;
use conditions::{Dice, Row};

const WANTED: [Stat; 3] = [Stat::Min, Stat::Max, Stat::NullCount];

fn map_of(zones: &[Vec<Row>]) -> ZoneMap {
    let scope = [("n", DType { kind: Kind::I64, nullable: true }), ("s", DType { kind: Kind::Utf8, nullable: true })];
    let mut map = ZoneMap::new(&scope, &WANTED).unwrap();
    for rows in zones {
        let numbers: Vec<i64> = rows.iter().map(|row| row.n.unwrap_or(0)).collect();
        let heap: String = rows.iter().map(|row| row.s.unwrap_or("")).collect();
        let lengths = rows.iter().map(|row| row.s.unwrap_or("").len() as u64);
        let ends: Vec<u64> = lengths
            .scan(0, |end, length| {
                *end += length;
                Some(*end)
            })
            .collect();
        let nulls = |is_null: fn(&Row) -> bool| rows.iter().map(|row| u8::from(is_null(row))).collect::<Vec<_>>();
        let (n_nulls, s_nulls) = (nulls(|row| row.n.is_none()), nulls(|row| row.s.is_none()));
        let columns =
            [Column::numbers(&numbers).with_nulls(&n_nulls), Column::texts(&heap, &ends).with_nulls(&s_nulls)];
        map.push(&columns).unwrap();
    }
    map
}

#[test]
fn random_conditions_lose_no_row() {
    let mut dice = Dice(88_172_645_463_325_252);
    let mut seen = [0_usize; 3];
    for _ in 0..20_000 {
        let zones: Vec<_> = (0..3).map(|_| dice.rows()).collect();
        let (map, condition) = (map_of(&zones), dice.condition(3));
        let found = map.prune_sql(&condition.text, Names::Plain).unwrap();
        for (rows, answer) in zones.iter().zip(&found.zones) {
            let truths = rows.iter().map(|row| (condition.truth)(row) == Some(true)).collect::<Vec<_>>();
            match answer {
                Answer::Read => {}
                Answer::Skip => assert!(!truths.contains(&true), "{}: {rows:?}", condition.text),
                Answer::Whole => assert!(!truths.contains(&false), "{}: {rows:?}", condition.text),
            }
            seen[*answer as usize] += 1;
        }
        let texts: Vec<&str> = found.unread.iter().map(|bytes| &condition.text[bytes.clone()]).collect();
        let wanted = condition.text.match_indices("f(").map(|(at, _)| &condition.text[at..at + "f(0) = 'é'".len()]);
        assert_eq!(texts, wanted.collect::<Vec<_>>());
    }
    assert!(seen.iter().all(|count| *count > 2_000), "{seen:?}");
}

fn one_zone() -> ZoneMap {
    map_of(&[vec![Row { n: Some(1), s: Some("a"), hidden: [None; 2] }]])
}

fn refused(text: &str) -> SqlError {
    match one_zone().prune_sql(text, Names::Plain) {
        Err(Error::Sql(error)) => error,
        other => panic!("{text}: {other:?}"),
    }
}

#[test]
fn texts_are_refused_at_their_bytes() {
    let cases: [(&str, SqlFault, Range<usize>); 9] = [
        ("n > > 3", SqlFault::Unexpected, 4..4),
        ("s = 'x", SqlFault::Unclosed, 4..4),
        ("n > 3 -- x", SqlFault::Comment, 6..6),
        ("s = E'x'", SqlFault::Prefixed, 4..4),
        ("n = $1", SqlFault::Dollar, 4..4),
        ("n > 3AND", SqlFault::Glued, 4..4),
        ("s = 'x' 'y'", SqlFault::Adjacent, 8..8),
        ("n > 1 OR s = 3 OR n = 'x'", SqlFault::Misfit, 9..14),
        ("n > 1 OR 'é' = n", SqlFault::Misfit, 9..17),
    ];
    for (text, fault, bytes) in cases {
        assert_eq!(refused(text), SqlError { fault, bytes }, "{text}");
    }
    let deep = format!("{}n > 1{}", "(".repeat(99), ")".repeat(99));
    assert_eq!(refused(&deep).fault, SqlFault::TooDeep);
    assert_eq!(refused("n >").to_string(), "the text is no condition at byte 3: no rule reads what stands there");
}

#[test]
fn names_of_several_parts_are_read_where_asked_for() {
    let map = one_zone();
    let plain = map.prune_sql("t.n > 3", Names::Plain).unwrap();
    assert_eq!((plain.zones, plain.unread), (vec![Answer::Read], vec![Range { start: 0, end: 7 }]));
    let last = map.prune_sql("t.n > 3", Names::Last).unwrap();
    assert_eq!(last, SqlAnswers { zones: vec![Answer::Skip], unread: vec![] });
}

#[test]
fn columns_of_floats_and_of_other_names_are_not_read() {
    let scope = [("x", Logical::Float64.dtype(false)), ("the day", DType { kind: Kind::I64, nullable: false })];
    let mut map = ZoneMap::new(&scope, &WANTED).unwrap().with_logical("x", Logical::Float64).unwrap();
    map.push(&[Column::numbers(&[3_i64]), Column::numbers(&[3_i64])]).unwrap();
    let text = "x > 9 OR \"the day\" > 9 OR x IS NULL OR _0 > 3";
    let found = map.prune_sql(text, Names::Plain).unwrap();
    assert_eq!(found, SqlAnswers { zones: vec![Answer::Read], unread: vec![0..5, 9..22, 26..35, 39..45] });
    assert_eq!(map.prune_sql("1 = 2", Names::Plain).unwrap().zones, [Answer::Skip]);
}

// A map of two zones of a column of a logical type, with the numbers 100 and 200.
fn two_zones(logical: Logical) -> ZoneMap {
    let mut map =
        ZoneMap::new(&[("c", logical.dtype(false))], &WANTED).unwrap().with_logical("c", logical.clone()).unwrap();
    for number in [100, 200] {
        match logical.kind() {
            Kind::I32 => map.push(&[Column::numbers(&[number])]).unwrap(),
            _ => map.push(&[Column::numbers(&[i64::from(number)])]).unwrap(),
        }
    }
    map
}

#[test]
fn columns_compare_by_what_their_numbers_stand_for() {
    let named = Some("Europe/Oslo".to_owned());
    let cases = [
        (Logical::Date, "c >= DATE '1970-06-01'"),
        (Logical::Date, "c > '1970-04-11'"),
        (Logical::Time(Unit::Second), "c > TIME '00:01:40'"),
        (Logical::Time(Unit::Nano), "c > TIME '00:00:00.000000100'"),
        (Logical::Timestamp(Unit::Milli, None), "c > TIMESTAMP '1970-01-01 00:00:00.1'"),
        (Logical::Timestamp(Unit::Second, None), "c > '1970-01-01 00:01:40'"),
        (Logical::Timestamp(Unit::Micro, named), "c > TIMESTAMPTZ '1970-01-01 02:00:00.0001+02'"),
        (Logical::Decimal { precision: 9, scale: 2 }, "c > 1.005"),
        (Logical::Decimal { precision: 18, scale: 0 }, "c > 1.5e2"),
    ];
    for (logical, text) in cases {
        let found = two_zones(logical).prune_sql(text, Names::Plain).unwrap();
        assert_eq!(found, SqlAnswers { zones: vec![Answer::Skip, Answer::Whole], unread: vec![] }, "{text}");
    }
    let sql = |error| match error {
        Error::Sql(fault) => fault,
        other => panic!("{other}"),
    };
    let wanted = SqlError { fault: SqlFault::Misfit, bytes: 9..16 };
    assert_eq!(sql(two_zones(Logical::Date).prune_sql("1 = 1 OR c > 100", Names::Plain).unwrap_err()), wanted);
}

#[test]
fn many_tests_are_not_read() {
    let text = vec!["f(n) = 1"; 1_000].join(" AND ");
    let found = one_zone().prune_sql(&text, Names::Plain).unwrap();
    assert_eq!(found.unread.len(), 1_000);
    assert!(found.unread.iter().all(|bytes| &text[bytes.clone()] == "f(n) = 1"));
}
