// SPDX-License-Identifier: Apache-2.0
//! Typed predicates.
use crate::like::Pattern;
use crate::values::{Kind, Type, Value};

#[derive(Clone, Copy, PartialEq, Eq, Debug)]
pub enum Comparison {
    Eq,
    Ne,
    Gt,
    Ge,
    Lt,
    Le,
}

pub enum Op {
    Column(usize),
    Literal(Option<Value>),
    Compare(Comparison, Box<[Node; 2]>),
    And(Box<[Node; 2]>),
    Or(Box<[Node; 2]>),
    /// The strictness of both ends, then the operand, the lower and the upper end.
    Between(bool, bool, Box<[Node; 3]>),
    IsNull(Box<Node>),
    IsNotNull(Box<Node>),
    Not(Box<Node>),
    Like { negated: bool, ignores_case: bool, pattern: Option<Pattern>, sides: Box<[Node; 2]> },
}

pub struct Node {
    pub dtype: Type,
    pub op: Op,
}

fn truth(nullable: bool) -> Type {
    Type { kind: Kind::Bool, nullable }
}

impl Node {
    pub fn is_bool(&self) -> bool {
        self.dtype.kind == Kind::Bool
    }

    pub fn column(place: usize, dtype: Type) -> Node {
        Node { dtype, op: Op::Column(place) }
    }

    pub fn literal(dtype: Type, value: Option<Value>) -> Node {
        Node { dtype, op: Op::Literal(value) }
    }

    pub fn compare(by: Comparison, left: Node, right: Node) -> Option<Node> {
        let nullable = left.dtype.nullable || right.dtype.nullable;
        (left.dtype.kind == right.dtype.kind)
            .then(|| Node { dtype: truth(nullable), op: Op::Compare(by, Box::new([left, right])) })
    }

    pub fn connect(is_and: bool, left: Node, right: Node) -> Option<Node> {
        let nullable = left.dtype.nullable || right.dtype.nullable;
        if !left.is_bool() || !right.is_bool() {
            return None;
        }
        let sides = Box::new([left, right]);
        Some(Node { dtype: truth(nullable), op: if is_and { Op::And(sides) } else { Op::Or(sides) } })
    }

    pub fn between(lower: bool, upper: bool, x: Node, l: Node, u: Node) -> Option<Node> {
        let nullable = x.dtype.nullable || l.dtype.nullable || u.dtype.nullable;
        let is_fine = x.dtype.kind == l.dtype.kind && x.dtype.kind == u.dtype.kind;
        is_fine.then(|| Node { dtype: truth(nullable), op: Op::Between(lower, upper, Box::new([x, l, u])) })
    }

    pub fn null_test(is_null: bool, x: Node) -> Node {
        let x = Box::new(x);
        Node { dtype: truth(false), op: if is_null { Op::IsNull(x) } else { Op::IsNotNull(x) } }
    }

    pub fn not(x: Node) -> Option<Node> {
        x.is_bool().then(|| Node { dtype: x.dtype, op: Op::Not(Box::new(x)) })
    }

    pub fn like(negated: bool, ignores_case: bool, x: Node, p: Node) -> Option<Node> {
        if x.dtype.kind != Kind::Utf8 || p.dtype.kind != Kind::Utf8 {
            return None;
        }
        let dtype = truth(x.dtype.nullable || p.dtype.nullable);
        let pattern = match &p.op {
            Op::Literal(Some(Value::Bytes(text))) => {
                Some(Pattern::read(std::str::from_utf8(text).expect("a text"), ignores_case))
            }
            _ => None,
        };
        Some(Node { dtype, op: Op::Like { negated, ignores_case, pattern, sides: Box::new([x, p]) } })
    }
}
