// SPDX-License-Identifier: Apache-2.0
//! Conditions in SQL over columns of logical types: the cases that Python answers alike, callers/cases/sql_types.tsv.
use foalmorrow::{Answer, Column, Error, Kind, Logical, Names, SqlFault, Stat, ZoneMap};

const WANTED: [Stat; 3] = [Stat::Min, Stat::Max, Stat::NullCount];

// A map of one zone of two rows: of these two numbers, or of values that aren't known.
fn zone(logical: &Logical, bounds: [&str; 2]) -> ZoneMap {
    let map = ZoneMap::new(&[("c", logical.dtype(false))], &WANTED).unwrap();
    let mut map = map.with_logical("c", logical.clone()).unwrap();
    let numbers = bounds.map(|bound| bound.parse::<i64>());
    let [Ok(least), Ok(greatest)] = numbers else {
        let values = match logical.kind() {
            Kind::I32 => Column::numbers(&[0_i32]),
            Kind::I64 => Column::numbers(&[0_i64]),
            Kind::Utf8 => Column::texts("", &[0]),
            _ => Column::binary(&[0; 16], &[16]),
        };
        map.push(&[values]).unwrap();
        return map;
    };
    match logical.kind() {
        Kind::I32 => map.push(&[Column::numbers(&[least, greatest].map(|it| i32::try_from(it).unwrap()))]).unwrap(),
        _ => map.push(&[Column::numbers(&[least, greatest])]).unwrap(),
    }
    map
}

fn answered(map: &ZoneMap, condition: &str) -> &'static str {
    match map.prune_sql(condition, Names::Plain) {
        Ok(found) if found.unread.iter().eq([&(0..condition.len())]) && found.zones == [Answer::Read] => "unread",
        Ok(found) if found.unread.is_empty() => match found.zones[..] {
            [Answer::Read] => "read",
            [Answer::Skip] => "skip",
            [Answer::Whole] => "whole",
            _ => panic!("{condition}: {:?}", found.zones),
        },
        Err(Error::Sql(fault)) if fault.fault == SqlFault::Misfit && fault.bytes == (0..condition.len()) => "misfit",
        other => panic!("{condition}: {other:?}"),
    }
}

#[test]
fn each_shared_case_is_answered_so() {
    let path = concat!(env!("CARGO_MANIFEST_DIR"), "/../cases/sql_types.tsv");
    // The crate by itself has no cases.
    let Ok(cases) = std::fs::read_to_string(path) else { return };
    let lines: Vec<&str> = cases.lines().skip(1).collect();
    assert!(lines.len() > 400);
    for line in lines {
        let [word, least, greatest, condition, wanted] = line.split('\t').collect::<Vec<_>>()[..] else {
            panic!("{line}")
        };
        let map = zone(&word.parse().unwrap(), [least, greatest]);
        assert_eq!(answered(&map, condition), wanted, "{line}");
    }
}
