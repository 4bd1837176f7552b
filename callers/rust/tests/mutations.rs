// SPDX-License-Identifier: Apache-2.0
//! Columns of which each byte and each length is changed in turn, beside a plain reading of them.
use foalmorrow::{measure, Column, DType, Error, Kind, Place, Precision, Stat, Value, ZoneMap};
use std::collections::HashSet;

const WANTED: [Stat; 3] = [Stat::Min, Stat::Max, Stat::NullCount];

type Measured = Result<Vec<Precision<Value>>, Error>;

fn at(row: usize) -> Place {
    Place { row: Some(row), ..Place::default() }
}

// The least and the greatest value and the nulls of rows, of which `None` is null.
fn told(rows: &[Option<Value>], order: impl Fn(&Value) -> Vec<u8>) -> Vec<Precision<Value>> {
    let mut there: Vec<&Value> = rows.iter().flatten().collect();
    there.sort_by_key(|value| order(value));
    let bound = |value: Option<&&Value>| value.map_or(Precision::Absent, |value| Precision::Exact((*value).clone()));
    let nulls = (rows.len() - there.len()) as u64;
    vec![bound(there.first()), bound(there.last()), Precision::Exact(Value::Unsigned(nulls))]
}

// A plain reading of texts or bytes: the rows, or the first fault.
fn read(kind: Kind, heap: &[u8], ends: &[u64], nulls: &[u8]) -> Result<Vec<Option<Value>>, Error> {
    if !nulls.is_empty() && nulls.len() != ends.len() {
        return Err(Error::BadLength(at(nulls.len().min(ends.len()))));
    }
    let mut rows = Vec::new();
    for (row, end) in ends.iter().enumerate() {
        if nulls.get(row).is_some_and(|null| *null != 0) {
            rows.push(None);
            continue;
        }
        let start = if row == 0 { 0 } else { ends[row - 1] };
        let place = usize::try_from(start).unwrap()..usize::try_from(*end).unwrap();
        let bytes = heap.get(place).ok_or(Error::BadEnds(at(row)))?.to_vec();
        rows.push(Some(match kind {
            Kind::Utf8 => Value::Utf8(String::from_utf8(bytes).map_err(|_| Error::BadValue(at(row)))?),
            _ => Value::Binary(bytes),
        }));
    }
    Ok(rows)
}

fn bytes_of(value: &Value) -> Vec<u8> {
    match value {
        Value::Utf8(text) => text.clone().into_bytes(),
        Value::Binary(bytes) => bytes.clone(),
        other => panic!("{other:?}"),
    }
}

/// The arrays of a column of texts or bytes.
#[derive(Clone)]
struct Arrays {
    heap: Vec<u8>,
    ends: Vec<u64>,
    nulls: Vec<u8>,
}

impl Arrays {
    fn new(heap: &str, ends: &[u64], nulls: &[u8]) -> Self {
        Arrays { heap: heap.into(), ends: ends.to_vec(), nulls: nulls.to_vec() }
    }

    // The arrays with one element changed, one more or less, or none.
    fn changed(&self) -> Vec<Arrays> {
        let mut found = vec![self.clone()];
        for place in 0..self.heap.len() {
            for bit in 0..8 {
                found.push(self.clone());
                found.last_mut().unwrap().heap[place] ^= 1 << bit;
            }
        }
        let near = (0..self.heap.len() as u64 + 3).chain([1 << 31, 1 << 32, 1 << 63, u64::MAX - 1, u64::MAX]);
        for (place, end) in (0..self.ends.len()).flat_map(|place| near.clone().map(move |end| (place, end))) {
            found.push(self.clone());
            found.last_mut().unwrap().ends[place] = end;
        }
        for (place, null) in (0..self.nulls.len()).flat_map(|place| [0, 1, 2, 255].map(|null| (place, null))) {
            found.push(self.clone());
            found.last_mut().unwrap().nulls[place] = null;
        }
        for len in [0, 1, self.ends.len() - 1, self.ends.len() + 1, 2 * self.ends.len()] {
            found.push(Arrays { nulls: resized(&self.nulls, len), ..self.clone() });
            found.push(Arrays { ends: resized(&self.ends, len), ..self.clone() });
            found.push(Arrays { ends: resized(&self.ends, len), nulls: resized(&self.nulls, len), ..self.clone() });
        }
        let lens = [0, 1, self.heap.len() - 1, self.heap.len() + 1, 4 * self.heap.len()];
        found.extend(lens.map(|len| Arrays { heap: resized(&self.heap, len), ..self.clone() }));
        found
    }

    fn column(&self, kind: Kind) -> Option<Column<'_>> {
        let column = match kind {
            Kind::Utf8 => Column::texts(std::str::from_utf8(&self.heap).ok()?, &self.ends),
            _ => Column::binary(&self.heap, &self.ends),
        };
        Some(column.with_nulls(&self.nulls))
    }
}

fn resized<T: Copy + Default>(array: &[T], len: usize) -> Vec<T> {
    let mut found = array.to_vec();
    found.resize(len, T::default());
    found
}

fn name_of(measured: &Measured) -> String {
    match measured {
        Ok(_) => "read".to_owned(),
        Err(error) => format!("{error:?}").split('(').next().unwrap().to_owned(),
    }
}

#[test]
fn changed_texts_and_bytes_are_read_exactly_or_refused_by_row() {
    let bases = [
        Arrays::new("ameisebärzebra", &[6, 10, 15], &[0, 1, 0]),
        Arrays::new("aé", &[0, 1, 3, 3], &[0, 0, 0, 1]),
        Arrays::new("abc", &[1, 2, 3], &[]),
    ];
    for kind in [Kind::Utf8, Kind::Binary] {
        let mut met = HashSet::new();
        for arrays in bases.iter().flat_map(Arrays::changed) {
            let Some(column) = arrays.column(kind) else { continue };
            let found = measure(&column, &WANTED);
            let plain = read(kind, &arrays.heap, &arrays.ends, &arrays.nulls).map(|rows| told(&rows, bytes_of));
            assert_eq!(found, plain, "{:?} {:?} {:?}", arrays.heap, arrays.ends, arrays.nulls);
            met.insert(name_of(&found));
            stays_where_refused(kind, &arrays, &found);
        }
        let mut wanted = HashSet::from(["read", "BadEnds", "BadLength"].map(str::to_owned));
        wanted.extend((kind == Kind::Utf8).then(|| "BadValue".to_owned()));
        assert_eq!(met, wanted);
    }
}

// A map takes what is measured, or stays as it was.
fn stays_where_refused(kind: Kind, arrays: &Arrays, found: &Measured) {
    let mut map = ZoneMap::new(&[("c", DType { kind, nullable: true })], &WANTED).unwrap();
    let good = Arrays::new("xyz", &[1, 3], &[0, 0]);
    map.push(&[good.column(kind).unwrap()]).unwrap();
    let before = map.clone();
    let pushed = map.push(&[arrays.column(kind).unwrap()]);
    assert_eq!(pushed.is_ok(), found.is_ok());
    if let Ok(told) = found {
        assert_eq!(map.rows(), [2, arrays.ends.len() as u64]);
        let column = map.column(0).unwrap();
        assert_eq!(WANTED.map(|stat| column.get(1, stat).unwrap()).to_vec(), *told);
        assert_eq!(map.check(1, &[arrays.column(kind).unwrap()]), Ok(()));
    } else {
        assert_eq!(map, before);
        let checked = map.check(0, &[arrays.column(kind).unwrap()]).map(|()| vec![]);
        assert_eq!(name_of(&checked), name_of(found));
    }
}

fn number_of(value: &Value) -> Vec<u8> {
    let Value::Signed(number) = value else { panic!("{value:?}") };
    (number.cast_unsigned() ^ 1 << 63).to_be_bytes().to_vec()
}

#[test]
fn changed_numbers_and_nulls_are_read_exactly_or_refused_by_row() {
    let base = [-300_i64, 7, 4095];
    for (place, bit) in (0..3).flat_map(|place| (0..64).map(move |bit| (place, bit))) {
        let mut numbers = base;
        numbers[place] ^= 1 << bit;
        for len in 0..5 {
            for marks in 0..1 << len {
                let nulls: Vec<u8> = (0..len).map(|row| (marks >> row & 1) as u8 * 7).collect();
                let found = measure(&Column::numbers(&numbers).with_nulls(&nulls), &WANTED);
                let is_null = |row: usize| nulls.get(row).is_some_and(|null| *null > 0);
                let rows = numbers.iter().enumerate().map(|(row, it)| (!is_null(row)).then_some(Value::Signed(*it)));
                let plain = match len {
                    0 | 3 => Ok(told(&rows.collect::<Vec<_>>(), number_of)),
                    _ => Err(Error::BadLength(at(len.min(3)))),
                };
                assert_eq!(found, plain, "{numbers:?} {nulls:?}");
            }
        }
    }
}

#[test]
fn changed_answers_of_a_footer_are_refused_by_name() {
    let scope = [("n m", DType { kind: Kind::I8, nullable: false }), ("s", DType { kind: Kind::Utf8, nullable: true })];
    let good = [
        [Value::Signed(-1), Value::Signed(1), Value::Unsigned(0)],
        [Value::Utf8("a".into()), Value::Utf8("b".into()), Value::Unsigned(2)],
    ];
    let others = [
        Value::Bool(true),
        Value::Unsigned(1),
        Value::Signed(1),
        Value::Signed(128),
        Value::Signed(-129),
        Value::Utf8("x".into()),
        Value::Binary(vec![1]),
    ];
    for (column, entry) in (0..2).flat_map(|column| (0..3).map(move |entry| (column, entry))) {
        for value in &others {
            let mut map = ZoneMap::new(&scope, &WANTED).unwrap();
            let mut told = good.clone().map(|values| values.map(Precision::Inexact).to_vec());
            told[column][entry] = Precision::Exact(value.clone());
            let fits = match (column, entry) {
                (_, 2) => matches!(value, Value::Unsigned(_)),
                (0, _) => *value == Value::Signed(1),
                _ => matches!(value, Value::Utf8(_)),
            };
            let place =
                Place { column: Some(scope[column].0.into()), stat: Some(WANTED[entry]), zone: Some(0), ..at(0) };
            let refused = Err(Error::BadValue(Place { row: None, ..place }));
            assert_eq!(map.push_known(9, &told), if fits { Ok(()) } else { refused }, "{value:?}");
            assert_eq!(map.zones(), usize::from(fits));
        }
    }
}
