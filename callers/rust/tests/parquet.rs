// SPDX-License-Identifier: Apache-2.0
//! Row groups of Parquet footers by conditions in SQL, beside a direct filter of the rows of which they were written.
use foalmorrow::parquet::{Error, Footer, FooterFault, NotRead, RowGroup, RowGroups};
use foalmorrow::{Answer, Names, SqlFault};
use std::io::Cursor;

mod conditions;
mod thrift;
use conditions::{Dice, Row};
use thrift::Value::{self, Bool, Bytes, Fields, List, Number, Short};

// An element of a schema: a leaf, or one with columns below it.
fn element(name: &str, physical: Option<i64>, repetition: i64, children: Option<i64>) -> Value {
    let fields = [
        physical.map(|it| (1, Short(it))),
        Some((3, Short(repetition))),
        Some((4, Bytes(name.into()))),
        children.map(|it| (5, Short(it))),
        (physical == Some(6)).then_some((6, Short(0))),
    ];
    Fields(fields.into_iter().flatten().collect())
}

// The chunk of a column of a physical type: the bytes of its least and its greatest value, if it has one, and its
// count of nulls.
fn chunk(physical: i64, ends: Option<(Vec<u8>, Vec<u8>)>, nulls: usize, rows: usize) -> Value {
    let mut stats = vec![(3, Number(nulls as i64))];
    if let Some((least, greatest)) = ends {
        stats.extend([(5, Bytes(greatest)), (6, Bytes(least)), (7, Bool(true)), (8, Bool(true))]);
    }
    Fields(vec![(
        3,
        Fields(vec![(1, Short(physical)), (5, Number(rows as i64)), (7, Number(100)), (12, Fields(stats))]),
    )])
}

fn row_group(rows: &[Row]) -> Value {
    let numbers = rows.iter().filter_map(|row| row.n);
    let texts = rows.iter().filter_map(|row| row.s);
    let numbers = numbers.clone().min().zip(numbers.max());
    let texts = texts.clone().min().zip(texts.max());
    let columns = vec![
        chunk(
            2,
            numbers.map(|(a, b)| (a.to_le_bytes().into(), b.to_le_bytes().into())),
            rows.iter().filter(|row| row.n.is_none()).count(),
            rows.len(),
        ),
        chunk(
            6,
            texts.map(|(a, b)| (a.into(), b.into())),
            rows.iter().filter(|row| row.s.is_none()).count(),
            rows.len(),
        ),
    ];
    Fields(vec![(1, List(columns)), (3, Number(rows.len() as i64))])
}

// The footer of a file with these row groups under a schema.
fn footer(schema: Vec<Value>, leaves: usize, groups: Vec<Value>) -> Vec<u8> {
    let orders = (0..leaves).map(|_| Fields(vec![(1, Fields(vec![]))])).collect();
    let mut out = Vec::new();
    Fields(vec![(1, Short(2)), (2, List(schema)), (4, List(groups)), (7, List(orders))]).write(&mut out);
    out
}

fn of_rows(groups: &[Vec<Row>]) -> Footer {
    let schema =
        vec![element("schema", None, 0, Some(2)), element("n", Some(2), 1, None), element("s", Some(6), 1, None)];
    Footer::from_bytes(footer(schema, 2, groups.iter().map(|rows| row_group(rows)).collect()))
}

fn file_of(footer: &Footer) -> Vec<u8> {
    let bytes = footer.as_bytes();
    [b"PAR1 and pages", bytes, &(bytes.len() as u32).to_le_bytes(), b"PAR1"].concat()
}

#[test]
fn random_conditions_lose_no_row() {
    let mut dice = Dice(88_172_645_463_325_252);
    let mut seen = [0_usize; 3];
    for _ in 0..5_000 {
        let rows: Vec<_> = (0..4).map(|_| dice.rows()).collect();
        let (footer, condition) = (of_rows(&rows), dice.condition(3));
        let read = Footer::read(Cursor::new(file_of(&footer))).unwrap();
        assert_eq!(read, footer);
        let found = read.prune(&condition.text, Names::Plain).unwrap();
        assert_eq!(found.groups.len(), rows.len());
        for (rows, group) in rows.iter().zip(&found.groups) {
            let wanted = rows.iter().filter(|row| (condition.truth)(row) == Some(true)).count();
            assert_eq!(group.rows, rows.len() as u64);
            assert!(group.answer != Answer::Skip || wanted == 0, "{}: {rows:?}", condition.text);
            assert!(group.answer != Answer::Whole || wanted == rows.len(), "{}: {rows:?}", condition.text);
            seen[group.answer as usize] += 1;
        }
        let count = condition.text.matches("f(").count();
        assert_eq!(found.unread.len(), count);
        assert!(found.unread.iter().all(|bytes| condition.text[bytes.clone()].starts_with("f(")));
    }
    assert!(seen.iter().all(|count| *count > 1_000), "{seen:?}");
}

fn numbered(numbers: &[i64]) -> Vec<Row> {
    numbers.iter().map(|n| Row { n: Some(*n), s: Some("a"), hidden: [None; 2] }).collect()
}

#[test]
fn kept_row_groups_have_places_and_ranges() {
    let found =
        of_rows(&[numbered(&[1, 2, 3]), numbered(&[4, 9]), numbered(&[8, 9]), numbered(&[0]), numbered(&[7, 7])])
            .prune("n > 5", Names::Plain)
            .unwrap();
    let answers: Vec<Answer> = found.groups.iter().map(|group| group.answer).collect();
    assert_eq!(answers, [Answer::Skip, Answer::Read, Answer::Whole, Answer::Skip, Answer::Whole]);
    assert_eq!(found.kept().collect::<Vec<_>>(), [1, 2, 4]);
    assert_eq!(found.ranges().unwrap(), [3..7, 8..10]);
    assert_eq!(found.bytes_saved(), found.groups[0].size + found.groups[3].size);
    let endless = RowGroup { rows: u64::MAX, size: u64::MAX, answer: Answer::Skip };
    let endless = RowGroups { groups: vec![endless; 2], unread: vec![] };
    assert_eq!((endless.ranges(), endless.bytes_saved()), (None, u64::MAX));
}

#[test]
fn many_row_groups_and_unread_tests_find_room() {
    let groups: Vec<_> = (0..5_000).map(|n| numbered(&[n])).collect();
    let text = (0..40).map(|n| format!("f({n}) AND ")).collect::<String>() + "n = 4321";
    let found = of_rows(&groups).prune(&text, Names::Plain).unwrap();
    assert_eq!((found.groups.len(), found.unread.len()), (5_000, 40));
    assert_eq!(found.kept().collect::<Vec<_>>(), [4321]);
}

#[test]
fn files_that_are_none_are_refused_by_name() {
    let whole = file_of(&of_rows(&[numbered(&[1])]));
    let end = whole.len();
    let ends_in = |mark: &[u8]| [&whole[..end - 4], mark].concat();
    let longer = [&whole[..end - 8], &(end as u32).to_le_bytes(), b"PAR1"].concat();
    let cases = [
        (vec![], FooterFault::NotParquet),
        (b"PAR1".to_vec(), FooterFault::NotParquet),
        (ends_in(b"PAR2"), FooterFault::NotParquet),
        (ends_in(b"PARE"), FooterFault::Encrypted),
        (longer, FooterFault::FooterLength),
    ];
    for (bytes, fault) in cases {
        match Footer::read(Cursor::new(bytes)) {
            Err(Error::Footer(found)) => assert_eq!(found, fault),
            other => panic!("{fault:?}: {other:?}"),
        }
    }
    assert!(matches!(Footer::open("no such file"), Err(Error::Io(_))));
}

fn fault_of(bytes: Vec<u8>) -> FooterFault {
    match Footer::from_bytes(bytes).prune("n > 1", Names::Plain) {
        Err(Error::Footer(fault)) => fault,
        other => panic!("{other:?}"),
    }
}

#[test]
fn footers_that_are_none_are_refused_by_name() {
    let leaf = || element("n", Some(2), 1, None);
    let group = |fields| footer(vec![element("schema", None, 0, Some(1)), leaf()], 1, vec![Fields(fields)]);
    assert_eq!(fault_of(vec![]), FooterFault::Short);
    assert_eq!(fault_of(vec![0x15; 4]), FooterFault::Short);
    assert_eq!(fault_of([&[0x16][..], &[0xff; 10]].concat()), FooterFault::Varint);
    assert_eq!(fault_of(vec![0x1f]), FooterFault::Kind);
    assert_eq!(fault_of(vec![0x19, 0xfc, 0xff, 0xff, 3]), FooterFault::Length);
    assert_eq!(fault_of(vec![0x1c; 40]), FooterFault::Depth);
    assert_eq!(fault_of(group(vec![(1, List(vec![chunk(2, None, 0, 1)]))])), FooterFault::Missing);
    assert_eq!(fault_of(group(vec![(1, List(vec![])), (3, Number(1))])), FooterFault::Columns);
    assert_eq!(fault_of(group(vec![(1, List(vec![chunk(2, None, 0, 1)])), (3, Number(-1))])), FooterFault::Missing);
    assert_eq!(fault_of(footer(vec![], 0, vec![])), FooterFault::Schema);
}

#[test]
fn bounds_of_another_length_are_left_out() {
    let schema = vec![element("schema", None, 0, Some(1)), element("n", Some(2), 1, None)];
    let columns = List(vec![chunk(2, Some((vec![1], vec![1])), 0, 1)]);
    let footer = Footer::from_bytes(footer(schema, 1, vec![Fields(vec![(1, columns), (3, Number(1))])]));
    let found = footer.prune("n > 1", Names::Plain).unwrap();
    assert_eq!(found.groups[0].answer, Answer::Read);
}

#[test]
fn floats_are_compared_by_their_least_bounds() {
    let schema = vec![element("schema", None, 0, Some(1)), element("x", Some(5), 0, None)];
    let (least, greatest) = (1.5_f64.to_le_bytes().to_vec(), 2.5_f64.to_le_bytes().to_vec());
    let columns = List(vec![chunk(5, Some((least, greatest)), 0, 1)]);
    let footer = Footer::from_bytes(footer(schema, 1, vec![Fields(vec![(1, columns), (3, Number(1))])]));
    let cases = [
        ("x < 1.5", Answer::Skip),
        ("x <= 1.5", Answer::Read),
        ("x IN (1, 0.5)", Answer::Skip),
        ("x BETWEEN -1 AND 1.25", Answer::Skip),
        ("x <> 1", Answer::Whole),
        ("NOT x < 1.5", Answer::Whole),
        // NaN is left out of the bounds, and may stand above the greatest one.
        ("x = 3", Answer::Read),
        ("NOT x <= 2.5", Answer::Read),
    ];
    for (text, answer) in cases {
        let found = footer.prune(text, Names::Plain).unwrap();
        assert_eq!((found.groups[0].answer, found.unread.len()), (answer, 0), "{text}");
    }
    // Nothing says whether NaN is above a number.
    let found = footer.prune("x > 3", Names::Plain).unwrap();
    assert_eq!((found.groups[0].answer, found.unread.len()), (Answer::Read, 1));
    assert_eq!(found.unread[0], 0..5);
    assert!(matches!(footer.prune("x < TRUE", Names::Plain), Err(Error::Sql(_))));
}

#[test]
fn columns_of_which_no_test_could_be_meant_are_told() {
    let schema = vec![
        element("schema", None, 0, Some(4)),
        element("list", Some(2), 2, None),
        element("twice", Some(2), 1, None),
        element("twice", Some(2), 1, None),
        element("inner", None, 1, Some(1)),
        element("n", Some(2), 1, None),
    ];
    let footer = Footer::from_bytes(footer(schema, 4, vec![]));
    for (name, wanted) in [("list", NotRead::Repeated), ("twice", NotRead::Duplicate), ("inner", NotRead::Nested)] {
        match footer.prune(&format!("1 = 1 OR {name} > 3"), Names::Plain) {
            Err(Error::NotRead(reason, bytes)) => assert_eq!((reason, bytes), (wanted, 9..9 + name.len() + 4)),
            other => panic!("{name}: {other:?}"),
        }
    }
    match footer.prune("1 = 1 OR > 3", Names::Plain) {
        Err(Error::Sql(error)) => assert_eq!((error.fault, error.bytes), (SqlFault::Unexpected, 9..9)),
        other => panic!("{other:?}"),
    }
}

#[test]
fn each_byte_may_be_any_other() {
    let whole = of_rows(&[numbered(&[1, 2]), numbered(&[3])]);
    for place in 0..whole.as_bytes().len() {
        for byte in 0..=255 {
            let mut bytes = whole.as_bytes().to_vec();
            bytes[place] = byte;
            match Footer::from_bytes(bytes).prune("n > 1 AND s = 'a'", Names::Plain) {
                Ok(found) => assert!(found.unread.len() < 3),
                Err(Error::Footer(_) | Error::Sql(_) | Error::NotRead(..) | Error::BadName) => {}
                Err(error) => panic!("{place}, {byte}: {error}"),
            }
        }
    }
}

#[test]
fn the_file_of_the_examples_is_read() {
    let path = concat!(env!("CARGO_MANIFEST_DIR"), "/../../examples/trips.parquet");
    if let Ok(footer) = Footer::open(path) {
        let found = footer.prune("day >= DATE '2026-01-15' AND fare > 19.99", Names::Plain).unwrap();
        assert_eq!(found.kept().collect::<Vec<_>>(), [1, 2]);
        let ranges = found.ranges().unwrap();
        assert_eq!((ranges.len(), &ranges[0], found.bytes_saved()), (1, &(3..9), 152));
    }
}
