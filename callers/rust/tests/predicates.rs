// SPDX-License-Identifier: Apache-2.0
//! Predicates of any length and depth, and their text.
use foalmorrow::{col, Kind, Literal, Node, Operator, Predicate};

const MANY: usize = 200_000;

fn leaf(place: usize) -> Predicate {
    col("a").eq(place as i64)
}

// Builds a predicate of many parts, and prints, clones, compares, debugs and drops it, on a stack of 64 KiB.
fn on_a_small_stack(build: impl FnOnce() -> Predicate + Send, words: usize, front: &str) {
    let tried = || {
        let predicate = build();
        let text = predicate.to_string();
        assert_eq!(text.split(' ').count(), words);
        assert!(text.starts_with(front), "{}", &text[..front.len()]);
        let copy = predicate.clone();
        assert_eq!(predicate, copy);
        assert_ne!(!copy.clone(), copy);
        assert!(format!("{copy:?}").len() > words);
    };
    std::thread::scope(|scope| {
        let thread = std::thread::Builder::new().stack_size(64 << 10).spawn_scoped(scope, tried);
        thread.unwrap().join().unwrap();
    });
}

#[test]
fn or_in_a_loop_takes_no_stack_at_either_end() {
    // Each leaf has six words, and each connective one.
    let words = 6 * MANY + MANY - 1;
    let right = || (1..MANY).fold(leaf(0), |all, place| all.or(leaf(place)));
    on_a_small_stack(right, words, "or or or ");
    let left = || (1..MANY).fold(leaf(0), |all, place| leaf(place).or(all));
    on_a_small_stack(left, words, "or eq col a lit i64 199999 or eq col a lit i64 199998 or ");
    let both = || (1..MANY).fold(leaf(0), |all, it| if it % 2 == 0 { all.and(leaf(it)) } else { leaf(it).or(all) });
    on_a_small_stack(both, words, "or eq col a lit i64 199999 and or eq col a lit i64 199997 and ");
}

#[test]
fn pairs_of_pairs_take_no_stack() {
    let halves = || {
        let mut all: Vec<Predicate> = (0..1 << 17).map(leaf).collect();
        while all.len() > 1 {
            let mut rest = all.into_iter();
            all = std::iter::from_fn(|| Some(rest.next()?.and(rest.next()?))).collect();
        }
        all.remove(0)
    };
    on_a_small_stack(
        halves,
        7 * (1 << 17) - 1,
        "and and and and and and and and and and and and and and and and and eq col a",
    );
}

#[test]
fn not_of_not_takes_no_stack() {
    on_a_small_stack(|| (0..100_000).fold(leaf(7), |all, _| !all), 100_006, "not not not ");
}

#[test]
fn is_in_takes_a_hundred_thousand_values() {
    let predicate = col("a").is_in(0..100_000_i64);
    let one_by_one = (1..100_000).fold(leaf(0), |all, place| all.or(leaf(place)));
    assert_eq!(predicate, one_by_one);
    assert_eq!(col("a").is_in([7_u8]), col("a").eq(7_u8));
    let values = [3_i64, 5];
    assert_eq!(col("a").is_in(values.iter()), col("a").is_in(values));
    let (texts, words) = (["x".to_owned(), "y".to_owned()], ["x", "y"]);
    assert_eq!(col("a").is_in(&texts), col("a").is_in(words));
    assert_eq!(col("a").is_in(words.iter()), col("a").is_in(words));
}

#[test]
fn is_in_of_no_values_is_never_true() {
    let none: [i64; 0] = [];
    assert_eq!(col("a").is_in(none), Predicate::constant(false));
    assert_eq!(col("a").is_in(none).to_string(), "lit bool false");
}

#[test]
fn text_of_each_condition() {
    let texts = [
        (col("a").eq(1_u8), "eq col a lit u8 1"),
        (col("a").ne(-1_i8), "ne col a lit i8 -1"),
        (col("a").gt(65_535_u16), "gt col a lit u16 65535"),
        (col("a").ge(i16::MIN), "ge col a lit i16 -32768"),
        (col("a").lt(u32::MAX), "lt col a lit u32 4294967295"),
        (col("a").le(i32::MIN), "le col a lit i32 -2147483648"),
        (col("a").compare(Operator::Lt, u64::MAX), "lt col a lit u64 18446744073709551615"),
        (col("a").eq(i64::MIN), "eq col a lit i64 -9223372036854775808"),
        (col("a").eq(col("b")), "eq col a col b"),
        (col("a").eq(true), "eq col a lit bool true"),
        (col("a").eq([0_u8, 255].as_slice()), "eq col a lit binary x00ff"),
        (col("a").eq(vec![1_u8]), "eq col a lit binary x01"),
        (col("a").eq(b"\x01a"), "eq col a lit binary x0161"),
        (col("a").eq(Literal::from(1_u8)), "eq col a lit u8 1"),
        (col("a").eq(String::from("é")), "eq col a lit utf8 \"é\""),
        (col("a").eq(Literal::Null(Kind::I8)), "eq col a lit i8? null"),
        (col("a").eq(Literal::Null(Kind::Null)), "eq col a lit null null"),
        (col("a").between(1_i64, 2_i64), "between <= <= col a lit i64 1 lit i64 2"),
        (col("a").between_ends(1_u8, true, 2_u8, false), "between < <= col a lit u8 1 lit u8 2"),
        (col("a").between_ends("x", false, "y", true), "between <= < col a lit utf8 \"x\" lit utf8 \"y\""),
        (col("a").between_ends(1_u8, true, 2_u8, true), "between < < col a lit u8 1 lit u8 2"),
        (col("a").is_null(), "isnull col a"),
        (col("a").is_not_null(), "notnull col a"),
        (col("a").like("x%"), "like col a lit utf8 \"x%\""),
        (col("a").not_like("x_"), "notlike col a lit utf8 \"x_\""),
        (col("a").ilike("\\%"), "ilike col a lit utf8 \"\\\\%\""),
        (col("a").not_ilike(""), "notilike col a lit utf8 \"\""),
        (!col("a").is_null(), "not isnull col a"),
        (Predicate::constant(true), "lit bool true"),
    ];
    for (predicate, text) in texts {
        assert_eq!(predicate.to_string(), text);
    }
}

#[test]
fn text_of_quotes_backslashes_and_line_feeds_is_escaped() {
    let predicate = col("a").eq("\"a\\\"\\\n\u{0}b\"").and(col("a").like("\"%\\"));
    assert_eq!(
        predicate.to_string(),
        "and eq col a lit utf8 \"\\\"a\\\\\\\"\\\\\n\u{0}b\\\"\" like col a lit utf8 \"\\\"%\\\\\""
    );
}

#[test]
fn text_shows_other_names_between_quotes() {
    let long = "x".repeat(65);
    for name in ["a b", "a.b", "é", "", "1a", "a\"", &long] {
        let quoted = name.replace('"', "\\\"");
        assert_eq!(col(name).is_null().to_string(), format!("isnull col \"{quoted}\""));
    }
    assert_eq!(col(&long[1..]).is_null().to_string(), format!("isnull col {}", &long[1..]));
    assert_eq!(col("_1").eq(col("b c")).to_string(), "eq col _1 col \"b c\"");
}

#[test]
fn nodes_stand_in_prefix_order() {
    let predicate = col("a").is_null().and(!col("b").eq(col("c"))).or(Predicate::constant(true));
    let names: Vec<Vec<&str>> = predicate.nodes().map(|node| node.columns().collect()).collect();
    assert_eq!(names, [vec![], vec![], vec!["a"], vec![], vec!["b", "c"], vec![]]);
    assert_eq!(predicate.nodes().next(), Some(&Node::Or));
    assert_eq!(predicate.nodes().nth(3), Some(&Node::Not));
    assert_eq!(predicate.nodes().next_back(), Some(&Node::Constant(true)));
}
