// SPDX-License-Identifier: Apache-2.0
//! Files of footers: written, read, and refused whatever their bytes are.
use foalmorrow::{DType, Error, FooterError, Kind, Place, Precision, Stat, Value, ZoneMap};
use std::fs;
use std::path::PathBuf;

const BOUNDS: [Stat; 3] = [Stat::Min, Stat::Max, Stat::NullCount];
const HEADER_AT: usize = 29;

/// Three zones of a column of every type with every statistic, as Python's package wrote them.
const EVERY_TYPE: &[u8] = include_bytes!("every_type.footers");

fn dtype(kind: Kind, nullable: bool) -> DType {
    DType { kind, nullable }
}

fn small() -> ZoneMap {
    let scope = [("a", dtype(Kind::I16, true)), ("é", dtype(Kind::Utf8, false)), ("t", dtype(Kind::Bool, true))];
    let mut map = ZoneMap::new(&scope, &BOUNDS).unwrap();
    let count = |nulls| Precision::Exact(Value::Unsigned(nulls));
    let number =
        |low, high| vec![Precision::Exact(Value::Signed(low)), Precision::Inexact(Value::Signed(high)), count(1)];
    let text = |low: &str, high: &str| {
        vec![Precision::Exact(Value::Utf8(low.into())), Precision::Inexact(Value::Utf8(high.into())), count(0)]
    };
    let truth = vec![Precision::Exact(Value::Bool(false)), Precision::Absent, Precision::Inexact(Value::Unsigned(2))];
    map.push_known(3, &[number(-5, 9), text("ab", "é"), truth.clone()]).unwrap();
    map.push_known(4, &[number(0, 0), text("", "z\u{1}"), truth]).unwrap();
    map
}

// The CRC-32 of zlib, bit by bit.
fn checksum(data: &[u8]) -> u32 {
    !data.iter().fold(!0, |sum: u32, byte| {
        (0..8).fold(sum ^ u32::from(*byte), |sum, _| if sum & 1 == 1 { sum >> 1 ^ 0xedb8_8320 } else { sum >> 1 })
    })
}

fn repaired(mut data: Vec<u8>) -> Vec<u8> {
    let body = data.len() - 4;
    let sum = checksum(&data[..body]);
    data[body..].copy_from_slice(&sum.to_le_bytes());
    data
}

// A file of this header and these arrays, with a right checksum.
fn file_of(header: &str, arrays: &[u8]) -> Vec<u8> {
    let mut data = b"foalmorrow footers 1\n".to_vec();
    data.extend((header.len() as u64).to_le_bytes());
    data.extend(header.as_bytes());
    data.extend(arrays);
    data.extend([0; 4]);
    repaired(data)
}

// The error of bytes that are refused; a map that is read has to be one that is written and read alike.
fn refused(data: &[u8]) -> Option<FooterError> {
    match ZoneMap::from_bytes(data) {
        Err(error) => Some(error),
        Ok((map, note)) => {
            let again = ZoneMap::from_bytes(&map.to_bytes(&note)).unwrap();
            assert_eq!(again, (map, note));
            None
        }
    }
}

#[test]
fn python_file_is_read_exactly_and_written_alike() {
    let (map, note) = ZoneMap::from_bytes(EVERY_TYPE).unwrap();
    assert_eq!(note, "a note €\n🐎");
    assert_eq!(map.to_bytes(&note), EVERY_TYPE);
    assert_eq!(map.rows(), [3, 0, u64::MAX]);
    let names = ["truth", "u8", "u16", "u32", "u64", "i8", "i16", "i32", "i64", "a text", "bÿy\"te🐎", "none"];
    assert_eq!(map.names(), names);
    let bounds = |place: usize| {
        let column = map.column(place).unwrap();
        (column.get(0, Stat::Min).unwrap(), column.get(1, Stat::Max).unwrap(), column.get(2, Stat::Min).unwrap())
    };
    let known = |low, high| (Precision::Exact(low), Precision::Inexact(high), Precision::Absent);
    assert_eq!(bounds(0), known(Value::Bool(false), Value::Bool(true)));
    for (place, greatest) in [(1, u64::from(u8::MAX)), (2, u16::MAX.into()), (3, u32::MAX.into()), (4, u64::MAX)] {
        assert_eq!(bounds(place), known(Value::Unsigned(0), Value::Unsigned(greatest)));
    }
    for (place, bits) in [(5, 8), (6, 16), (7, 32), (8, 64)] {
        let least = i64::MIN >> (64 - bits);
        assert_eq!(bounds(place), known(Value::Signed(least), Value::Signed(-(least + 1))));
    }
    assert_eq!(bounds(9), known(Value::Utf8(String::new()), Value::Utf8("zé".into())));
    assert_eq!(bounds(10), known(Value::Binary(vec![0]), Value::Binary(vec![255, 0, 255])));
    let none = map.column(11).unwrap();
    assert_eq!((none.dtype(), none.get(0, Stat::Min)), (dtype(Kind::Null, false), None));
    assert_eq!(none.get(1, Stat::NullCount), Some(Precision::Inexact(Value::Unsigned(u64::MAX))));
    assert_eq!(none.get(1, Stat::IsSorted), Some(Precision::Inexact(Value::Bool(true))));
    assert_eq!(map.column(8).unwrap().get(0, Stat::Sum), Some(Precision::Exact(Value::Signed(i64::MIN))));
    assert_eq!(map.column(4).unwrap().get(1, Stat::Sum), Some(Precision::Inexact(Value::Unsigned(u64::MAX))));
}

#[test]
fn written_map_is_read_alike() {
    let no_columns = ZoneMap::new(&[], &BOUNDS).unwrap();
    let mut rows_alone = no_columns.clone();
    rows_alone.push_known(u64::MAX, &[]).unwrap();
    let no_zones = ZoneMap::new(&[("", dtype(Kind::Utf8, true)), ("\"\\\n", dtype(Kind::I64, false))], &Stat::EVERY);
    for map in [small(), no_columns, rows_alone, no_zones.unwrap()] {
        for note in ["", "\"\\\u{7f}é🐎\u{0}"] {
            assert_eq!(ZoneMap::from_bytes(&map.to_bytes(note)).unwrap(), (map.clone(), note.to_owned()));
        }
    }
    let (mut read, _) = ZoneMap::from_bytes(&small().to_bytes("")).unwrap();
    let mut kept = small();
    let told =
        |map: &ZoneMap, place: usize| BOUNDS.map(|stat| map.column(place).unwrap().get(1, stat).unwrap()).to_vec();
    let zone = [told(&kept, 0), told(&kept, 1), told(&kept, 2)];
    kept.push_known(1, &zone).unwrap();
    read.push_known(1, &zone).unwrap();
    assert_eq!(read, kept);
}

#[test]
fn cut_or_changed_bytes_are_refused() {
    let data = small().to_bytes("note");
    for len in 0..data.len() {
        let found = refused(&data[..len]).unwrap();
        assert!(matches!(found, FooterError::NotFooters if len < 21) || matches!(found, FooterError::Changed), "{len}");
    }
    for place in 0..data.len() {
        for bit in 0..8 {
            let mut changed = data.clone();
            changed[place] ^= 1 << bit;
            let found = refused(&changed).unwrap();
            assert!(matches!(found, FooterError::NotFooters if place < 21) || matches!(found, FooterError::Changed));
        }
    }
    assert!(matches!(refused(&[data.as_slice(), b"\0"].concat()), Some(FooterError::Changed)));
}

#[test]
fn each_byte_changed_under_a_right_checksum_is_read_or_refused() {
    let data = small().to_bytes("note");
    let (mut read, mut bad_header, mut bad_array) = (0, 0, 0);
    for place in 0..data.len() - 4 {
        for value in (0..8).map(|bit| data[place] ^ 1 << bit).chain(*b"\0\"\\[]{}0919,:.-eu \xff\x80") {
            let mut changed = data.clone();
            changed[place] = value;
            match refused(&repaired(changed)) {
                None => read += 1,
                Some(FooterError::BadHeader(_)) => bad_header += 1,
                Some(FooterError::BadArray(_)) => bad_array += 1,
                Some(FooterError::NotFooters) => assert!(place < 21),
                Some(other) => panic!("{other:?}"),
            }
        }
    }
    assert!(read > 2_000 && bad_header > 5_000 && bad_array > 500, "{read} {bad_header} {bad_array}");
}

#[test]
fn each_byte_left_out_or_doubled_is_refused_or_changes_the_note_alone() {
    let (data, mut read) = (small().to_bytes("note"), 0);
    for place in 0..data.len() - 4 {
        let without = [&data[..place], &data[place + 1..]].concat();
        let doubled = [&data[..=place], &data[place..]].concat();
        for mut changed in [without, doubled] {
            assert!(refused(&repaired(changed.clone())).is_some(), "byte {place}");
            if (HEADER_AT..HEADER_AT + header_len(&data)).contains(&place) {
                let len = header_len(&data) + changed.len() - data.len();
                changed[21..29].copy_from_slice(&(len as u64).to_le_bytes());
                if let Ok((map, _)) = ZoneMap::from_bytes(&repaired(changed)) {
                    assert_eq!(map, small(), "byte {place}");
                    read += 1;
                }
            }
        }
    }
    // Letters of the note and blanks, left out or doubled.
    assert!((50..200).contains(&read), "{read}");
}

fn header_len(data: &[u8]) -> usize {
    u64::from_le_bytes(data[21..29].try_into().unwrap()) as usize
}

const COLUMN: &str = r#"{"name": "a", "type": "UTF8", "nullable": true}"#;

// A file of one zone with one greatest text "ab", with this in place of a part of its header.
fn replaced(part: &str, by: &str) -> Vec<u8> {
    let header = format!(
        r#"{{"note": "n", "zones": 1, "columns": [{COLUMN}], "statistics": [{{"column": "a", "stat": "MAX", "bytes": [1, 2, 8]}}]}}"#
    );
    assert!(header.contains(part), "{part}");
    file_of(&header.replacen(part, by, 1), b"\x07\0\0\0\0\0\0\0\x01ab\x02\0\0\0\0\0\0\0")
}

const MAX: &str = r#"{"column": "a", "stat": "MAX", "bytes": [1, 2, 8]}"#;

/// Parts of a header, and what stands in their place in headers that are none.
const BAD_PARTS: [(&str, &[&str]); 13] = [
    (
        "\"note\": \"n\", ",
        &["", "\"note\": \"n\", \"note\": \"m\", ", "\"note\": \"n\", \"more\": 1, ", "\"n\": \"n\", "],
    ),
    ("\"n\"", &["1", "null", "n", "\"\\ud800\"", "\"\n\"", "[\"n\"]"]),
    (
        "s\": 1,",
        &["s\": -1,", "s\": 1.0,", "s\": 1e0,", "s\": \"1\",", "s\": true,", "s\": NaN,", "s\": [1],", "s\": 01,"],
    ),
    (
        "s\": 1,",
        &[
            "s\": 0,",
            "s\": 2,",
            "s\": 18446744073709551615,",
            "s\": 2305843009213693952,",
            "s\": 18446744073709551616,",
        ],
    ),
    (COLUMN, &["", "1", "[]", "{}", "null"]),
    ("\"a\", \"type\"", &["1, \"type\"", "\"b\", \"type\"", "null, \"type\"", "\"\", \"type\""]),
    ("\"UTF8\"", &["\"utf8\"", "\"F64\"", "10", "\"I64\"", "\"NULL\"", "\"U16\"", "\"\""]),
    (
        ", \"nullable\": true",
        &["", ", \"nullable\": 1.5", ", \"nullable\": 1", ", \"nullable\": \"true\"", ", \"nullable\": null"],
    ),
    (MAX, &["{}", "[]", "7", "null", "\"MAX\""]),
    ("\"column\": \"a\"", &["\"column\": \"b\"", "\"column\": 0", "\"columns\": \"a\""]),
    ("\"MAX\"", &["\"MEAN\"", "\"max\"", "\"SUM\"", "\"NAN_COUNT\"", "3", "\"NULL_COUNT\"", "\"IS_SORTED\""]),
    (
        "[1, 2, 8]",
        &["[1, 2]", "[1, 2, 8, 0]", "[0, 3, 8]", "[2, 1, 8]", "[1, 3, 8]", "[1, 1, 8]", "[1, 2, 7]", "[1, 2, 9]"],
    ),
    ("[1, 2, 8]", &["[1, -2, 8]", "[1, 2.0, 8]", "[1, 18446744073709551615, 8]", "\"abc\"", "{\"1\": 2}", "11"]),
];

#[test]
fn hostile_headers_are_refused() {
    assert!(refused(&replaced("n", "n")).is_none());
    for (part, changes) in BAD_PARTS {
        for by in changes {
            assert!(refused(&replaced(part, by)).is_some(), "{by} in place of {part}");
        }
    }
    for (part, by) in [(COLUMN, format!("{COLUMN}, {COLUMN}")), (MAX, format!("{MAX}, {MAX}"))] {
        assert!(refused(&replaced(part, &by)).is_some(), "{part} twice");
    }
    for end in ["}]}]", "}]", "}],}", "}]}1"] {
        assert!(refused(&replaced("}]}", end)).is_some(), "{end}");
    }
}

#[test]
fn deep_headers_are_refused() {
    let lists = format!("{}{}", "[".repeat(100_000), "]".repeat(100_000));
    for deep in [lists, "{\"a\":".repeat(100_000)] {
        for part in ["\"n\"", COLUMN, MAX, "8"] {
            assert!(matches!(refused(&replaced(part, &deep)), Some(FooterError::BadHeader(_))));
        }
    }
}

#[test]
fn header_that_ends_behind_the_file_is_refused() {
    let data = small().to_bytes("");
    for len in [0, 1, header_len(&data) as u64 - 1, data.len() as u64 - 32, data.len() as u64, u64::MAX, 1 << 63] {
        let mut changed = data.clone();
        changed[21..29].copy_from_slice(&len.to_le_bytes());
        assert!(matches!(refused(&repaired(changed)), Some(FooterError::BadHeader(_))), "{len}");
    }
    let mut header = data.clone();
    header[HEADER_AT + 10] = 0xff;
    assert!(matches!(refused(&repaired(header)), Some(FooterError::BadHeader(_))));
    for len in 21..33 {
        let short = repaired([&data[..len], [0; 4].as_slice()].concat());
        assert!(refused(&short).is_some(), "{len}");
    }
}

#[test]
fn hostile_arrays_are_refused_by_name() {
    let file = |kind: &str, stat: &str, bytes: [usize; 3], arrays: &[u8]| {
        let header = format!(
            r#"{{"note": "", "zones": 2, "columns": [{{"name": "c d", "type": "{kind}", "nullable": false}}], "statistics": [{{"column": "c d", "stat": "{stat}", "bytes": {bytes:?}}}]}}"#
        );
        file_of(&header, &[&[1; 16], arrays].concat())
    };
    let at =
        |zone: Option<usize>, stat| Place { column: Some("c d".into()), stat: Some(stat), zone, ..Place::default() };
    let found = |data: Vec<u8>| match refused(&data) {
        Some(FooterError::BadArray(error)) => Some(error),
        None => None,
        Some(other) => panic!("{other:?}"),
    };
    let texts = |known: &[u8; 2], heap: &[u8], ends: [u64; 2]| {
        let ends = [ends[0].to_le_bytes(), ends[1].to_le_bytes()].concat();
        found(file("UTF8", "MAX", [2, heap.len(), 16], &[known, heap, &ends].concat()))
    };
    let max = |zone| at(Some(zone), Stat::Max);
    assert_eq!(texts(&[1, 2], b"abc", [1, 3]), None);
    assert_eq!(texts(&[1, 3], b"abc", [1, 3]), Some(Error::BadKnown(max(1))));
    assert_eq!(texts(&[255, 0], b"abc", [1, 3]), Some(Error::BadKnown(max(0))));
    assert_eq!(texts(&[1, 1], b"abc", [2, 1]), Some(Error::BadEnds(max(1))));
    assert_eq!(texts(&[1, 0], b"abc", [1, 4]), Some(Error::BadEnds(max(1))));
    assert_eq!(texts(&[1, 1], b"abc", [u64::MAX, 3]), Some(Error::BadEnds(max(0))));
    assert_eq!(texts(&[1, 1], b"a\xffc", [1, 3]), Some(Error::BadValue(max(1))));
    assert_eq!(texts(&[1, 1], "aé".as_bytes(), [2, 3]), Some(Error::BadValue(max(0))));
    assert_eq!(texts(&[0, 1], b"\xff\xffc", [2, 3]), None);
    let truths = |values: &[u8; 4]| found(file("BOOL", "MIN", [2, 2, 0], values));
    assert_eq!(truths(&[1, 1, 0, 1]), None);
    assert_eq!(truths(&[1, 0, 0, 2]), None);
    assert_eq!(truths(&[1, 2, 0, 2]), Some(Error::BadValue(at(Some(1), Stat::Min))));
    assert_eq!(found(file("I16", "MIN", [2, 2, 0], &[1, 1, 0, 0])), Some(Error::BadLength(at(None, Stat::Min))));
    assert_eq!(found(file("I16", "MIN", [2, 4, 8], &[1; 14])), Some(Error::BadLength(at(None, Stat::Min))));
    assert_eq!(found(file("UTF8", "SUM", [2, 16, 0], &[1; 18])), Some(Error::BadStat(at(None, Stat::Sum))));
    assert_eq!(found(file("NULL", "MAX", [2, 0, 0], &[1; 2])), Some(Error::BadStat(at(None, Stat::Max))));
}

#[test]
fn longer_heap_is_read_up_to_its_last_end() {
    let (map, _) = ZoneMap::from_bytes(&replaced("n", "n")).unwrap();
    let header = replaced("[1, 2, 8]", "[1, 5, 8]");
    let header = std::str::from_utf8(&header[HEADER_AT..HEADER_AT + header_len(&header)]).unwrap().to_owned();
    let longer = file_of(&header, b"\x07\0\0\0\0\0\0\0\x01ab\xff??\x02\0\0\0\0\0\0\0");
    let (mut read, _) = ZoneMap::from_bytes(&longer).unwrap();
    assert_eq!(read, map);
    read.push_known(1, &[vec![Precision::Exact(Value::Utf8("c".into()))]]).unwrap();
    assert_eq!(read.column(0).unwrap().get(1, Stat::Max), Some(Precision::Exact(Value::Utf8("c".into()))));
}

struct Folder(PathBuf);

impl Folder {
    fn new(name: &str) -> Self {
        let path = std::env::temp_dir().join(format!("foalmorrow-{name}-{}", std::process::id()));
        fs::create_dir_all(&path).unwrap();
        Folder(path)
    }
}

impl Drop for Folder {
    fn drop(&mut self) {
        let _ = fs::remove_dir_all(&self.0);
    }
}

#[test]
fn saved_map_is_loaded_and_leaves_one_file() {
    let folder = Folder::new("saved");
    let path = folder.0.join("a file");
    small().save(&path, "first").unwrap();
    assert_eq!(ZoneMap::load_with_note(&path).unwrap(), (small(), "first".to_owned()));
    let empty = ZoneMap::new(&[], &[]).unwrap();
    empty.save(&path, "").unwrap();
    assert_eq!(ZoneMap::load(&path).unwrap(), empty);
    assert_eq!(fs::read_dir(&folder.0).unwrap().count(), 1);
    assert!(matches!(ZoneMap::load(folder.0.join("none")), Err(FooterError::Io(_))));
    assert!(matches!(small().save(folder.0.join("none").join("file"), ""), Err(FooterError::Io(_))));
    assert!(matches!(small().save(&folder.0, ""), Err(FooterError::Io(_))));
    assert_eq!(fs::read_dir(&folder.0).unwrap().count(), 1);
}

#[cfg(unix)]
#[test]
fn saved_file_keeps_its_mode_and_a_new_one_has_the_umasks() {
    use std::os::unix::fs::PermissionsExt;
    let folder = Folder::new("mode");
    let mode = |name: &str| fs::metadata(folder.0.join(name)).unwrap().permissions().mode() & 0o777;
    fs::write(folder.0.join("plain"), "").unwrap();
    small().save(folder.0.join("new"), "").unwrap();
    assert_eq!(mode("new"), mode("plain"));
    for wanted in [0o644, 0o600, 0o664] {
        fs::set_permissions(folder.0.join("plain"), fs::Permissions::from_mode(wanted)).unwrap();
        small().save(folder.0.join("plain"), "").unwrap();
        assert_eq!(mode("plain"), wanted);
    }
}

#[test]
fn errors_say_what_is_wrong() {
    let told = |data: &[u8]| refused(data).unwrap().to_string();
    assert_eq!(told(b"foalmorrow footers 2\n"), "this is no file of footers, or of another version");
    assert_eq!(told(&small().to_bytes("")[..40]), "the file of footers is cut short or was changed");
    assert_eq!(told(&replaced("\"n\"", "1")), "the header of the footers is none: a text is expected");
    assert_eq!(
        told(&replaced("true", "1.5")),
        "the header of the footers is none: a count has a fraction or an exponent, at byte 81 of the header"
    );
    assert_eq!(told(&replaced("\"a\", \"type\"", "\"b\", \"type\"")), "the table has no column a");
    assert_eq!(told(&replaced("MAX", "SUM")), "column a, sum: the column's type has no such statistic");
}
