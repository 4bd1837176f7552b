// SPDX-License-Identifier: Apache-2.0
//! Pruning and merging beside a direct filter of the rows.
use foalmorrow::{
    col, Answer, Column, DType, Error, Kind, Literal, Node, Operand, Operator, Place, Precision, Predicate, Stat,
    Value, ZoneMap,
};

const WANTED: [Stat; 3] = [Stat::Min, Stat::Max, Stat::NullCount];
const SCOPE: [(&str, DType); 4] = [
    ("i", DType { kind: Kind::I64, nullable: true }),
    ("u", DType { kind: Kind::U8, nullable: false }),
    ("s", DType { kind: Kind::Utf8, nullable: true }),
    ("b", DType { kind: Kind::Bool, nullable: true }),
];

type Row = [Option<Value>; 4];

struct Dice(u64);

impl Dice {
    fn roll(&mut self, sides: u64) -> u64 {
        self.0 ^= self.0 << 13;
        self.0 ^= self.0 >> 7;
        self.0 ^= self.0 << 17;
        self.0 % sides
    }

    fn text(&mut self, base: u64) -> String {
        let letters = ["a", "b", "ab", "ba", "é", ""];
        format!("{}{}", ["a", "b", "c"][base as usize % 3], letters[self.roll(6) as usize])
    }

    // Rows of one zone lie near one another, so that some zones can be skipped.
    fn rows(&mut self) -> Vec<Row> {
        let (base, nulls) = (self.roll(20), [0, 0, 2, 9][self.roll(4) as usize]);
        let rows = self.roll(5);
        let mut row = || -> Row {
            let i = (self.roll(10) >= nulls).then(|| Value::Signed((base + self.roll(4)) as i64 - 10));
            let s = (self.roll(10) >= nulls).then(|| Value::Utf8(self.text(base)));
            let b = (self.roll(10) >= nulls).then(|| Value::Bool(self.roll(2) == 0));
            [i, Some(Value::Unsigned(base + self.roll(3))), s, b]
        };
        (0..rows).map(|_| row()).collect()
    }

    fn leaf(&mut self) -> Predicate {
        let number = self.roll(24);
        let i = || Literal::from(number as i64 - 11);
        let operator =
            [Operator::Eq, Operator::Ne, Operator::Gt, Operator::Ge, Operator::Lt, Operator::Le][self.roll(6) as usize];
        let compare = |name: &str, literal: Literal| col(name).compare(operator, literal);
        match self.roll(13) {
            0..=2 => compare("i", i()),
            3 => compare("u", Literal::from(number as u8)),
            4 => compare("s", Literal::from(self.text(number).as_str())),
            5 => compare("b", Literal::from(number.is_multiple_of(2))),
            6 => col("i").between(number as i64 - 12, number as i64 - 9),
            7 => col(["i", "s", "b"][number as usize % 3]).is_null(),
            8 => col(["i", "s", "u"][number as usize % 3]).is_not_null(),
            9 => col("i").between_ends(number as i64 - 12, self.roll(2) == 0, number as i64 - 9, self.roll(2) == 0),
            10 => col("i").is_in((0..self.roll(4)).map(|step| number as i64 - 11 + 3 * step as i64)),
            kind => {
                let pattern = format!("{}%{}", self.text(number), ["", "b", "_"][number as usize % 3]);
                let pattern = if kind == 11 { pattern } else { pattern.to_uppercase() };
                match (kind, number % 4) {
                    (11, 0) => col("s").not_like(&pattern),
                    (11, _) => col("s").like(&pattern),
                    (_, 0) => col("s").not_ilike(&pattern),
                    (_, _) => col("s").ilike(&pattern),
                }
            }
        }
    }

    fn predicate(&mut self, depth: u64) -> Predicate {
        match self.roll(4) {
            0 if depth > 0 => self.predicate(depth - 1).and(self.predicate(depth - 1)),
            1 if depth > 0 => self.predicate(depth - 1).or(self.predicate(depth - 1)),
            2 if depth > 0 => !self.predicate(depth - 1),
            _ => self.leaf(),
        }
    }
}

// ---- a direct filter

fn order(left: &Value, right: &Value) -> std::cmp::Ordering {
    match (left, right) {
        (Value::Bool(a), Value::Bool(b)) => a.cmp(b),
        (Value::Unsigned(a), Value::Unsigned(b)) => a.cmp(b),
        (Value::Signed(a), Value::Signed(b)) => a.cmp(b),
        (Value::Utf8(a), Value::Utf8(b)) => a.as_bytes().cmp(b.as_bytes()),
        _ => panic!("{left:?} beside {right:?}"),
    }
}

fn of_literal(literal: &Literal) -> Value {
    match literal {
        Literal::Bool(it) => Value::Bool(*it),
        Literal::Unsigned(_, it) => Value::Unsigned(*it),
        Literal::Signed(_, it) => Value::Signed(*it),
        Literal::Utf8(it) => Value::Utf8(it.clone()),
        Literal::Binary(_) | Literal::Null(_) => panic!("{literal:?}"),
    }
}

fn compared(operator: Operator, value: &Value, limit: &Value) -> bool {
    let found = order(value, limit);
    match operator {
        Operator::Eq => found.is_eq(),
        Operator::Ne => found.is_ne(),
        Operator::Gt => found.is_gt(),
        Operator::Ge => found.is_ge(),
        Operator::Lt => found.is_lt(),
        Operator::Le => found.is_le(),
    }
}

fn matches(text: &[char], pattern: &[char]) -> bool {
    match pattern {
        [] => text.is_empty(),
        ['%', rest @ ..] => (0..=text.len()).any(|start| matches(&text[start..], rest)),
        ['_', rest @ ..] => !text.is_empty() && matches(&text[1..], rest),
        [letter, rest @ ..] => text.first() == Some(letter) && matches(&text[1..], rest),
    }
}

fn cell<'a>(row: &'a Row, name: &str) -> &'a Option<Value> {
    &row[SCOPE.iter().position(|(it, _)| *it == name).unwrap()]
}

fn condition(node: &Node, row: &Row) -> Option<bool> {
    match node {
        Node::And | Node::Or | Node::Not => panic!("{node:?} is no condition"),
        Node::Constant(truth) => Some(*truth),
        Node::Never(_) | Node::Always(_) | Node::Opaque(_) => panic!("no such predicate is made here"),
        Node::Compare(operator, name, Operand::Literal(limit)) => {
            cell(row, name).as_ref().map(|value| compared(*operator, value, &of_literal(limit)))
        }
        Node::Compare(_, _, Operand::Column(_)) => panic!("no such predicate is made here"),
        Node::Between { column, low, low_strict, high, high_strict } => cell(row, column).as_ref().map(|value| {
            let above = if *low_strict { Operator::Gt } else { Operator::Ge };
            let below = if *high_strict { Operator::Lt } else { Operator::Le };
            compared(above, value, &of_literal(low)) && compared(below, value, &of_literal(high))
        }),
        Node::IsNull(name) => Some(cell(row, name).is_none()),
        Node::IsNotNull(name) => Some(cell(row, name).is_some()),
        Node::Like { column, pattern, negated, ignore_case } => cell(row, column).as_ref().map(|value| {
            let Value::Utf8(text) = value else { panic!("{value:?}") };
            let letters = |it: &str| {
                let lower = |letter: char| if *ignore_case { letter.to_ascii_lowercase() } else { letter };
                it.chars().map(lower).collect::<Vec<_>>()
            };
            matches(&letters(text), &letters(pattern)) != *negated
        }),
    }
}

// The nodes from the last one on, with the truths of the operands that are still to be joined on a stack.
fn truth(predicate: &Predicate, row: &Row) -> Option<bool> {
    let mut truths: Vec<Option<bool>> = Vec::new();
    for node in predicate.nodes().rev() {
        let joined = match node {
            Node::Not => truths.pop().unwrap().map(|it| !it),
            Node::And | Node::Or => {
                let (left, right, decided) = (truths.pop().unwrap(), truths.pop().unwrap(), *node == Node::Or);
                if left == Some(decided) || right == Some(decided) {
                    Some(decided)
                } else {
                    left.and(right)
                }
            }
            _ => condition(node, row),
        };
        truths.push(joined);
    }
    assert_eq!(truths.len(), 1);
    truths[0]
}

// ---- zones of rows

fn pushed(map: &mut ZoneMap, rows: &[Row]) {
    let marks = |place: usize| rows.iter().map(|row| u8::from(row[place].is_none())).collect::<Vec<_>>();
    let numbers: Vec<i64> = rows.iter().map(|row| if let Some(Value::Signed(it)) = row[0] { it } else { 99 }).collect();
    let bytes: Vec<u8> =
        rows.iter().map(|row| if let Some(Value::Unsigned(it)) = row[1] { it as u8 } else { 0 }).collect();
    let truths: Vec<bool> = rows.iter().map(|row| row[3] == Some(Value::Bool(true))).collect();
    let mut heap = String::new();
    let mut ends = Vec::new();
    for row in rows {
        if let Some(Value::Utf8(text)) = &row[2] {
            heap.push_str(text);
        }
        ends.push(heap.len() as u64);
    }
    let (i, s, b) = (marks(0), marks(2), marks(3));
    let columns = [
        Column::numbers(&numbers).with_nulls(&i),
        Column::numbers(&bytes),
        Column::texts(&heap, &ends).with_nulls(&s),
        Column::truths(&truths).with_nulls(&b),
    ];
    map.push(&columns).unwrap();
}

fn map_of(zones: &[Vec<Row>]) -> ZoneMap {
    let mut map = ZoneMap::new(&SCOPE, &WANTED).unwrap();
    zones.iter().for_each(|rows| pushed(&mut map, rows));
    map
}

fn check(predicate: &Predicate, zones: &[Vec<Row>], answers: &[Answer]) {
    assert_eq!(zones.len(), answers.len());
    for (rows, answer) in zones.iter().zip(answers) {
        let wanted = rows.iter().filter(|row| truth(predicate, row) == Some(true)).count();
        match answer {
            Answer::Skip => assert_eq!(wanted, 0, "{predicate} of {rows:?}"),
            Answer::Whole => assert_eq!(wanted, rows.len(), "{predicate} of {rows:?}"),
            Answer::Read => {}
        }
    }
}

#[test]
fn no_wanted_row_is_lost_in_ten_thousand_tables() {
    let mut dice = Dice(88_172_645_463_325_252);
    let (mut skipped, mut whole) = (0, 0);
    for _ in 0..10_000 {
        let zones: Vec<_> = (0..dice.roll(5)).map(|_| dice.rows()).collect();
        let (map, predicate) = (map_of(&zones), dice.predicate(3));
        let answers = map.prune(&predicate).unwrap();
        check(&predicate, &zones, &answers);
        assert_eq!(map.prune_normalized(&predicate), Ok(answers.clone()));
        let count = |answers: &[Answer], wanted| answers.iter().filter(|it| **it == wanted).count();
        skipped += count(&answers, Answer::Skip);
        whole += count(&answers, Answer::Whole);
    }
    assert!(skipped > 2_000 && whole > 500, "{skipped} {whole}");
}

#[test]
fn merged_zones_are_those_of_the_joined_rows() {
    let mut dice = Dice(1_442_695_040_888_963_407);
    for _ in 0..2_000 {
        let left: Vec<_> = (0..3).map(|_| dice.rows()).collect();
        let right: Vec<_> = (0..3).map(|_| dice.rows()).collect();
        let merged = map_of(&left).merge(&map_of(&right)).unwrap();
        let joined: Vec<Vec<Row>> =
            left.iter().zip(&right).map(|(a, b)| [a.as_slice(), b.as_slice()].concat()).collect();
        let whole = map_of(&joined);
        for place in 0..SCOPE.len() {
            for zone in 0..3 {
                for stat in WANTED {
                    let (found, direct) =
                        (merged.column(place).unwrap().get(zone, stat), whole.column(place).unwrap().get(zone, stat));
                    // Of a chunk without values no bound is known, and a merge with it knows none either.
                    assert!(found == direct || found == Some(Precision::Absent), "{found:?} {direct:?}");
                }
            }
        }
        let predicate = dice.predicate(2);
        check(&predicate, &joined, &merged.prune(&predicate).unwrap());
    }
}

#[test]
fn all_zones_merged_are_those_merged_in_turn() {
    let mut dice = Dice(2_862_933_555_777_941_757);
    for _ in 0..2_000 {
        let zones: Vec<_> = (0..1 + dice.roll(6)).map(|_| dice.rows()).collect();
        let map = map_of(&zones);
        let in_turn = zones[1..].iter().fold(map_of(&zones[..1]), |all, rows| {
            let one = map_of(std::slice::from_ref(rows));
            all.merge(&one).unwrap()
        });
        let merged = map.merged().unwrap();
        assert_eq!(merged.rows(), in_turn.rows());
        for (place, stat) in (0..SCOPE.len()).flat_map(|place| WANTED.map(|stat| (place, stat))) {
            let get = |map: &ZoneMap| map.column(place).unwrap().get(0, stat).unwrap();
            assert_eq!(get(&merged), get(&in_turn), "{stat} of {zones:?}");
        }
        let predicate = dice.predicate(2);
        check(&predicate, &[zones.concat()], &merged.prune(&predicate).unwrap());
    }
    assert_eq!(map_of(&[]).merged(), Ok(map_of(&[])));
}

// Of each type a zone that a comparison skips, one that it has to read and one that is whole; told from outside, and
// merged.
fn of_each_type(dtype: DType, low: Value, high: Value, limit: impl Into<Operand>) {
    let mut map = ZoneMap::new(&[("c", dtype)], &WANTED).unwrap();
    let told = |least: &Value, greatest: &Value| {
        vec![vec![
            Precision::Exact(least.clone()),
            Precision::Inexact(greatest.clone()),
            Precision::Exact(Value::Unsigned(0)),
        ]]
    };
    map.push_known(7, &told(&low, &low)).unwrap();
    map.push_known(8, &told(&low, &high)).unwrap();
    map.push_known(9, &told(&high, &high)).unwrap();
    let predicate = col("c").ge(limit);
    assert_eq!(map.prune(&predicate), Ok(vec![Answer::Skip, Answer::Read, Answer::Whole]), "{predicate}");
    let merged = map.merge(&map).unwrap();
    assert_eq!(merged.prune(&predicate), map.prune(&predicate));
    assert_eq!(merged.column(0).unwrap().get(1, Stat::Min), Some(Precision::Exact(low)));
    assert_eq!(merged.column(0).unwrap().get(1, Stat::Max), Some(Precision::Inexact(high)));
    assert_eq!(merged.column(0).unwrap().get(1, Stat::NullCount), Some(Precision::Exact(Value::Unsigned(0))));
}

#[test]
fn each_type_is_pruned_and_merged() {
    use Value::{Signed, Unsigned};
    for nullable in [false, true] {
        let of = |kind| DType { kind, nullable };
        of_each_type(of(Kind::Bool), Value::Bool(false), Value::Bool(true), true);
        of_each_type(of(Kind::U8), Unsigned(0), Unsigned(255), 255_u8);
        of_each_type(of(Kind::U16), Unsigned(256), Unsigned(65535), 257_u16);
        of_each_type(of(Kind::U32), Unsigned(1 << 16), Unsigned(1 << 31), 1_u32 << 31);
        of_each_type(of(Kind::U64), Unsigned(1 << 32), Unsigned(u64::MAX), u64::MAX);
        of_each_type(of(Kind::I8), Signed(-128), Signed(127), -127_i8);
        of_each_type(of(Kind::I16), Signed(-32768), Signed(-1), -1_i16);
        of_each_type(of(Kind::I32), Signed(-5), Signed(1 << 30), 0_i32);
        of_each_type(of(Kind::I64), Signed(i64::MIN), Signed(i64::MAX), 0_i64);
        of_each_type(of(Kind::Utf8), Value::Utf8("a \"b\" \\".into()), Value::Utf8("é".into()), "a \"b\" \\\u{1}");
        of_each_type(of(Kind::Binary), Value::Binary(vec![]), Value::Binary(vec![255, 0]), [255_u8].as_slice());
    }
    let mut nulls = ZoneMap::new(&[("z", DType { kind: Kind::Null, nullable: true })], &WANTED).unwrap();
    nulls.push(&[Column::nulls(3)]).unwrap();
    assert_eq!(nulls.prune(&col("z").is_null()), Ok(vec![Answer::Whole]));
    assert_eq!(nulls.prune(&col("z").is_not_null()), Ok(vec![Answer::Skip]));
    assert_eq!(nulls.prune(&col("z").eq(Literal::Null(Kind::Null))), Ok(vec![Answer::Skip]));
}

fn misfit(words: &str) -> Error {
    Error::Misfit(words.to_owned())
}

#[test]
fn refusals_leave_all_as_it_was() {
    let mut map = ZoneMap::new(&SCOPE[..2], &WANTED).unwrap();
    let numbers = |numbers: &'static [i64]| Column::numbers(numbers).with_nulls(&[]);
    let place = |column: &str| Place { column: Some(column.into()), ..Place::default() };
    let columns = misfit("1 columns are handed in for a zone, and the map has 2");
    assert_eq!(map.push(&[Column::numbers(&[1_i64])]), Err(columns.clone()));
    assert_eq!(map.push_known(1, &[vec![]]), Err(columns));
    let rows = misfit("column u: it has 2 rows, and column i has 1");
    assert_eq!(map.push(&[numbers(&[1]), Column::numbers(&[1_u8, 2])]), Err(rows));
    // The first column is measured before the second one is refused.
    assert_eq!(map.push(&[numbers(&[1]), Column::numbers(&[1_u16])]), Err(Error::BadKind(place("u"))));
    let short = Column::numbers(&[1_i64, 2]).with_nulls(&[0]);
    let row = Place { row: Some(1), ..place("i") };
    assert_eq!(map.push(&[short, Column::numbers(&[1_u8, 2])]), Err(Error::BadLength(row)));
    assert_eq!(map, ZoneMap::new(&SCOPE[..2], &WANTED).unwrap());
    let wrong = vec![Precision::Exact(Value::Unsigned(1)), Precision::Absent, Precision::Absent];
    let value = Place { stat: Some(Stat::Min), zone: Some(0), ..place("i") };
    assert_eq!(map.push_known(1, &[wrong.clone(), wrong]), Err(Error::BadValue(value)));
    let told = misfit("column i: 0 statistics are told, and 3 are kept");
    assert_eq!(map.push_known(1, &[vec![], vec![]]), Err(told));
    assert_eq!(map, ZoneMap::new(&SCOPE[..2], &WANTED).unwrap());
}

#[test]
fn maps_that_do_not_fit_are_not_merged() {
    let mut map = ZoneMap::new(&SCOPE[..2], &WANTED).unwrap();
    map.push(&[Column::numbers(&[1_i64]).with_nulls(&[]), Column::numbers(&[1_u8])]).unwrap();
    let other = |scope: &[(&str, DType)], stats: &[Stat]| ZoneMap::new(scope, stats).unwrap();
    assert_eq!(map.merge(&other(&SCOPE[..2], &WANTED)), Err(misfit("1 zones stand beside 0")));
    let columns = misfit("the maps are of tables with different columns");
    assert_eq!(map.merge(&other(&SCOPE[..1], &WANTED)), Err(columns));
    let (empty, sides) = (other(&SCOPE[..2], &WANTED), "the two sides have other types or other statistics");
    let stats = misfit(&format!("column i: {sides}"));
    assert_eq!(empty.merge(&other(&SCOPE[..2], &WANTED[..2])), Err(stats));
    let types = misfit(&format!("column u: {sides}"));
    assert_eq!(empty.merge(&other(&[SCOPE[0], ("u", SCOPE[0].1)], &WANTED)), Err(types));
    let mut full = other(&[], &[]);
    full.push_known(u64::MAX, &[]).unwrap();
    full.push_known(1, &[]).unwrap();
    let rows = misfit("the rows of a merged zone leave 64 bits");
    assert_eq!(full.merge(&full), Err(rows.clone()));
    assert_eq!(full.merged(), Err(rows));
}

#[test]
fn contradictions_and_nulls_alone_are_skipped() {
    let mut map = ZoneMap::new(&[("a", DType { kind: Kind::I64, nullable: false })], &WANTED).unwrap();
    map.push(&[Column::numbers(&[1_i64, 20])]).unwrap();
    let empty = col("a").gt(9_i64).and(col("a").lt(3_i64));
    assert_eq!(map.prune(&empty), Ok(vec![Answer::Skip]));
    let mut map = ZoneMap::new(&[("a", DType { kind: Kind::I64, nullable: true })], &WANTED).unwrap();
    map.push(&[Column::numbers(&[1_i64, 20]).with_nulls(&[1, 1])]).unwrap();
    assert_eq!(map.prune(&col("a").gt(5_i64)), Ok(vec![Answer::Skip]));
    assert_eq!(map.prune(&!col("a").gt(5_i64)), Ok(vec![Answer::Skip]));
    assert_eq!(map.prune(&col("a").is_null()), Ok(vec![Answer::Whole]));
}
