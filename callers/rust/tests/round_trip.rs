// SPDX-License-Identifier: Apache-2.0
//! Every field and type of what crosses.
use foalmorrow::{measure, run, version, Column, ColumnStats, Error, Place, Precision, Reply, Stat, Value};

const EVERY: [Stat; 8] = Stat::EVERY;

fn exact(values: impl IntoIterator<Item = Value>) -> Vec<Precision<Value>> {
    values.into_iter().map(Precision::Exact).collect()
}

fn truths(constant: bool, sorted: bool, strict: bool) -> [Value; 3] {
    [Value::Bool(constant), Value::Bool(sorted), Value::Bool(strict)]
}

#[test]
fn numbers_of_each_type() {
    use Value::{Signed, Unsigned};
    let unsigned = |max, min, sum, size| {
        let rest = [Unsigned(max), Unsigned(min), Unsigned(sum), Unsigned(0), Unsigned(size)];
        Ok(exact(truths(false, true, true).into_iter().chain(rest)))
    };
    let signed = |max, min, sum, size| {
        let rest = [Signed(max), Signed(min), Signed(sum), Unsigned(0), Unsigned(size)];
        Ok(exact(truths(false, true, true).into_iter().chain(rest)))
    };
    assert_eq!(measure(&Column::numbers(&[1u8, 255]), &EVERY), unsigned(255, 1, 256, 2));
    assert_eq!(measure(&Column::numbers(&[2u16, 65535]), &EVERY), unsigned(65535, 2, 65537, 4));
    assert_eq!(measure(&Column::numbers(&[3u32, 1 << 31]), &EVERY), unsigned(1 << 31, 3, (1 << 31) + 3, 8));
    assert_eq!(measure(&Column::numbers(&[4u64, 1 << 63]), &EVERY), unsigned(1 << 63, 4, (1 << 63) + 4, 16));
    assert_eq!(measure(&Column::numbers(&[-128i8, 127]), &EVERY), signed(127, -128, -1, 2));
    assert_eq!(measure(&Column::numbers(&[-32768i16, 7]), &EVERY), signed(7, -32768, -32761, 4));
    assert_eq!(measure(&Column::numbers(&[i32::MIN, -1]), &EVERY), signed(-1, -2147483648, -2147483649, 8));
    assert_eq!(measure(&Column::numbers(&[i64::MIN, i64::MAX]), &EVERY), signed(i64::MAX, i64::MIN, -1, 16));
}

#[test]
fn truths_texts_bytes_and_nulls() {
    let bounds = [Stat::Max, Stat::Min];
    assert_eq!(measure(&Column::truths(&[true, false]), &bounds), Ok(exact([Value::Bool(true), Value::Bool(false)])));
    let words = Column::texts("ameisebärzebra", &[6, 10, 15]);
    let text = |word: &str| Value::Utf8(word.to_owned());
    assert_eq!(measure(&words, &bounds), Ok(exact([text("zebra"), text("ameise")])));
    assert_eq!(measure(&words.with_nulls(&[0, 0, 1]), &bounds), Ok(exact([text("bär"), text("ameise")])));
    let bytes = Column::binary(&[0, 255, 9], &[2, 3]);
    assert_eq!(measure(&bytes, &bounds), Ok(exact([Value::Binary(vec![9]), Value::Binary(vec![0, 255])])));
    assert_eq!(measure(&Column::nulls(3), &[Stat::NullCount]), Ok(exact([Value::Unsigned(3)])));
    assert_eq!(measure(&Column::texts("", &[]), &bounds), Ok(vec![Precision::Absent, Precision::Absent]));
}

#[test]
fn any_number_of_nulls_is_measured_at_once() {
    assert_eq!(measure(&Column::nulls(usize::MAX), &[Stat::NullCount]), Ok(exact([Value::Unsigned(u64::MAX)])));
}

#[test]
fn long_texts_are_told_whole() {
    let long = "x".repeat(10_000);
    let column = Column::texts(&long, &[10_000]);
    assert_eq!(measure(&column, &[Stat::Max]), Ok(exact([Value::Utf8(long.clone())])));
}

#[test]
fn refusals_tell_their_place() {
    let row = |row| Place { row: Some(row), ..Place::default() };
    let words = Column::texts("abc", &[1, 4]);
    assert_eq!(measure(&words, &[Stat::Max]), Err(Error::BadEnds(row(1))));
    let stat = Place { stat: Some(Stat::Sum), ..Place::default() };
    assert_eq!(measure(&words, &[Stat::Max, Stat::Sum]), Err(Error::BadStat(stat)));
    let split = Column::texts("ä", &[1, 2]);
    assert_eq!(measure(&split, &[Stat::Max]), Err(Error::BadValue(row(0))));
    let number = Column::numbers(&[1u8, 2]);
    assert_eq!(measure(&number.with_nulls(&[0]), &[Stat::Max]), Err(Error::BadLength(row(1))));
    assert_eq!(measure(&number.with_nulls(&[0, 0, 1]), &[Stat::Max]), Err(Error::BadLength(row(2))));
    assert_eq!(measure(&Column::numbers::<u8>(&[]).with_nulls(&[0]), &[Stat::Max]), Err(Error::BadLength(row(0))));
}

#[test]
fn version_is_that_of_the_crate() {
    assert_eq!(version(), env!("CARGO_PKG_VERSION"));
}

#[test]
fn the_program_answers() {
    let text = b"column a i64?\npart\nstat a max exact 10\nrow 10\npart\nrow 20\nwhere gt col a lit i64 10\n";
    assert_eq!(run(text), Reply { status: 0, output: b"skipped 0\nrows 1:0\n".to_vec() });
    assert_eq!(run(b""), Reply { status: 2, output: b"line 1: bad\n".to_vec() });
    let mut many = b"column a i64\npart\n".to_vec();
    many.extend(b"row 11\n".repeat(1000));
    many.extend(b"where gt col a lit i64 10\n");
    assert!(run(&many).output.ends_with(b" 0:999\n"));
}

#[test]
fn calls_run_side_by_side() {
    std::thread::scope(|scope| {
        for _ in 0..4 {
            scope.spawn(|| {
                for place in 0..500u64 {
                    let numbers = [place, 7, place + 1];
                    let greatest = Value::Unsigned((place + 1).max(7));
                    assert_eq!(measure(&Column::numbers(&numbers), &[Stat::Max]), Ok(exact([greatest])));
                }
            });
        }
    });
}

#[test]
fn what_is_measured_is_true_and_is_kept() {
    let numbers = [Column::numbers(&[3i16, -4]), Column::numbers(&[7i16]), Column::numbers::<i16>(&[])];
    let mut kept = ColumnStats::new(numbers[0].dtype(), &EVERY);
    let words = [Column::texts("oneseven", &[3, 8]), Column::texts("", &[]), Column::texts("zz", &[2])];
    let bounds = [Stat::Min, Stat::Max, Stat::NullCount];
    let mut texts = ColumnStats::new(words[0].dtype(), &bounds);
    for (number, word) in numbers.iter().zip(&words) {
        kept.push(number).unwrap();
        texts.push(word).unwrap();
    }
    for zone in 0..3 {
        assert_eq!(kept.check(zone, numbers[zone].rows() as u64, &numbers[zone]), Ok(()));
        assert_eq!(texts.check(zone, words[zone].rows() as u64, &words[zone]), Ok(()));
    }
    assert_eq!(kept.get(0, Stat::Min), Some(Precision::Exact(Value::Signed(-4))));
    assert_eq!(kept.get(2, Stat::Min), Some(Precision::Absent));
    assert_eq!(kept.get(3, Stat::Min), None);
    assert_eq!(texts.get(0, Stat::Max), Some(Precision::Exact(Value::Utf8("seven".to_owned()))));
    assert_eq!(texts.get(2, Stat::Max), Some(Precision::Exact(Value::Utf8("zz".to_owned()))));
    assert_eq!(texts.get(2, Stat::Sum), None);
    assert_eq!(texts.push(&numbers[0]), Err(Error::BadKind(Place::default())));
}

struct Dice(u64);

impl Dice {
    fn roll(&mut self, sides: u64) -> u64 {
        self.0 ^= self.0 << 13;
        self.0 ^= self.0 >> 7;
        self.0 ^= self.0 << 17;
        self.0 % sides
    }
}

// Statistics of random columns beside those of a plain pass, and a reader that goes by them beside a direct filter.
#[test]
fn random_columns_beside_a_direct_filter() {
    let mut dice = Dice(88_172_645_463_325_252);
    let mut unread = 0;
    for _ in 0..10_000 {
        let rows = dice.roll(6) as usize;
        let numbers: Vec<i32> = (0..rows).map(|_| dice.roll(21) as i32 - 10).collect();
        let nulls: Vec<u8> = (0..rows).map(|_| u8::from(dice.roll(4) == 0)).collect();
        let there: Vec<i64> =
            numbers.iter().zip(&nulls).filter(|(_, null)| **null == 0).map(|(number, _)| i64::from(*number)).collect();
        let column = Column::numbers(&numbers).with_nulls(&nulls);
        let told = |value: Option<i64>| value.map_or(Precision::Absent, |value| Precision::Exact(Value::Signed(value)));
        let expected = vec![
            told(there.iter().copied().max()),
            told(there.iter().copied().min()),
            told(Some(there.iter().sum())),
            Precision::Exact(Value::Unsigned((rows - there.len()) as u64)),
        ];
        let wanted = [Stat::Max, Stat::Min, Stat::Sum, Stat::NullCount];
        assert_eq!(measure(&column, &wanted), Ok(expected));
        let mut kept = ColumnStats::new(column.dtype(), &wanted);
        kept.push(&column).unwrap();
        assert_eq!(kept.check(0, rows as u64, &column), Ok(()));
        let limit = dice.roll(21) as i64 - 10;
        if let Some(Precision::Exact(Value::Signed(greatest))) = kept.get(0, Stat::Max) {
            if greatest <= limit {
                unread += 1;
                assert!(!there.iter().any(|value| *value > limit));
            }
        }
    }
    assert!(unread > 1_000, "{unread}");
}
