// SPDX-License-Identifier: Apache-2.0
//! Pruning by deep and by long predicates on a small stack.
//!
//! A call fits into 256 KiB. That is the whole stack of the threads here, with the thread's own storage and the frames
//! from its start to the call.
use foalmorrow::{col, Answer, Column, DType, Error, Kind, Predicate, Stat, ZoneMap, MAX_DEPTH};

const STACK: usize = 256 << 10;
const MANY: usize = 100_000;

fn map() -> ZoneMap {
    let scope = [
        ("n", DType { kind: Kind::I64, nullable: true }),
        ("t", DType { kind: Kind::Bool, nullable: true }),
        ("s", DType { kind: Kind::Utf8, nullable: true }),
    ];
    let mut map = ZoneMap::new(&scope, &[Stat::Min, Stat::Max, Stat::NullCount]).unwrap();
    for zone in 0..3_i64 {
        let (numbers, truths) = ([zone, zone + 1], [zone == 0, zone == 0]);
        let columns = [
            Column::numbers(&numbers).with_nulls(&[]),
            Column::truths(&truths).with_nulls(&[]),
            Column::texts("abac", &[2, 4]).with_nulls(&[]),
        ];
        map.push(&columns).unwrap();
    }
    map
}

type Answers = Result<Vec<Answer>, Error>;

// The answers by a predicate, on a thread of 256 KiB.
fn on_a_small_stack(predicate: &Predicate) -> Answers {
    let map = map();
    std::thread::scope(|scope| {
        let prune = || map.prune(predicate);
        std::thread::Builder::new().stack_size(STACK).spawn_scoped(scope, prune).unwrap().join().unwrap()
    })
}

fn leaf(place: usize) -> Predicate {
    match place % 4 {
        0 => col("n").gt(place as i64),
        1 => col("s").like("a%c_"),
        2 => col("n").between(0_i64, place as i64),
        _ => col("t").is_null(),
    }
}

fn connected(place: usize, left: Predicate, right: Predicate) -> Predicate {
    if place.is_multiple_of(2) {
        left.and(right)
    } else {
        left.or(right)
    }
}

/// A way in which a predicate grows: its name, by how many levels, and the step.
struct Growth(&'static str, usize, fn(Predicate, usize) -> Predicate);

const GROWTHS: [Growth; 5] = [
    Growth("not", 1, |all, _| !all),
    Growth("and, or to the right", 1, |all, place| connected(place, leaf(place), all)),
    Growth("and, or to the left", 1, |all, place| connected(place, all, leaf(place))),
    Growth("and, or to both sides", 1, |all, place| {
        if place % 4 < 2 {
            connected(place, all, leaf(place))
        } else {
            connected(place, leaf(place), all)
        }
    }),
    Growth("not of and, or", 2, |all, place| !connected(place, all, leaf(place))),
];

fn deep(grow: fn(Predicate, usize) -> Predicate, steps: usize) -> Predicate {
    (0..steps).fold(leaf(2), grow)
}

#[test]
fn predicate_of_any_depth_is_answered_or_too_deep() {
    for Growth(name, levels, grow) in GROWTHS {
        for steps in (0..MAX_DEPTH + 32).chain([4_096, MANY]) {
            let zones = on_a_small_stack(&deep(grow, steps)).map(|answers| answers.len());
            let told = if levels * steps < MAX_DEPTH { Ok(3) } else { Err(Error::TooDeep) };
            assert_eq!(zones, told, "{name}, {steps} steps");
        }
    }
    assert_eq!(Error::TooDeep.to_string(), "the predicate has more than 128 levels");
}

#[test]
fn chains_in_chains_add_up_their_levels() {
    // Of a chain of 2 to the power of 6 a level for each power, and one for the comparisons.
    let chain = |items: usize| (1..items).fold(col("n").ge(0_i64), |all, _| all.and(col("n").ge(0_i64)));
    let nested = |nots: usize| (0..nots).fold(chain(64), |all, _| !all);
    assert_eq!(on_a_small_stack(&nested(MAX_DEPTH - 7)).map(|answers| answers.len()), Ok(3));
    assert_eq!(on_a_small_stack(&nested(MAX_DEPTH - 6)), Err(Error::TooDeep));
}

#[test]
fn chain_of_one_connective_is_not_deep() {
    let join: [fn(Predicate, Predicate) -> Predicate; 4] =
        [|all, one| all.and(one), |all, one| one.and(all), |all, one| all.or(one), |all, one| one.or(all)];
    for (place, join) in join.into_iter().enumerate() {
        let chain = (1..MANY).fold(col("n").ge(0_i64), |all, place| join(all, col("n").ge(place as i64)));
        let found = if place < 2 { Answer::Skip } else { Answer::Whole };
        assert_eq!(on_a_small_stack(&chain), Ok(vec![found; 3]), "{place}");
    }
}

#[test]
fn is_in_of_a_hundred_thousand_values_is_answered() {
    let wanted = col("n").is_in((2..MANY as i64).map(|it| 3 * it).chain([1]));
    assert_eq!(on_a_small_stack(&wanted), Ok(vec![Answer::Read, Answer::Read, Answer::Skip]));
}
