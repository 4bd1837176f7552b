// SPDX-License-Identifier: Apache-2.0
//! Predicates, built from columns, and their text in the language of a `where` line.
//!
//! ```
//! use foalmorrow::col;
//! let wanted = col("qty").gt(9000_i64).and(col("name").like("pre%"));
//! assert_eq!(wanted.to_string(), "and gt col qty lit i64 9000 like col name lit utf8 \"pre%\"");
//! ```
use crate::literal::{quoted, Literal, Operand, Operator};
use crate::logical::Logical;
use std::collections::VecDeque;
use std::fmt;

/// A condition on a row that is true, false or null of it. A row is wanted where it is true.
///
/// A predicate is flat: its [`Node`]s stand one behind the other in prefix order. So building, printing, cloning,
/// comparing and dropping it take no stack, however long or deep it is. Pruning by it has a limit of depth, which
/// [`Error::TooDeep`](crate::Error::TooDeep) tells.
#[derive(Clone, Debug, PartialEq, Eq)]
pub struct Predicate {
    nodes: VecDeque<Placed>,
    /// The columns that are taken for ones of logical types, which a map's own may not contradict.
    types: Vec<(String, Logical)>,
}

/// A node in its place.
#[derive(Clone, Debug, PartialEq, Eq)]
struct Placed {
    node: Node,
    /// Whether its constants are numbers of the logical type that its column is taken for.
    typed: bool,
}

impl From<Node> for Placed {
    fn from(node: Node) -> Self {
        Placed { node, typed: false }
    }
}

/// One condition or connective of a predicate. The operands of a connective stand right behind it.
#[derive(Clone, Debug, PartialEq, Eq)]
pub enum Node {
    /// Both of the next two operands.
    And,
    /// One of the next two operands, or both.
    Or,
    /// The next operand turned round; null stays null.
    Not,
    /// A constant, whatever the row.
    Constant(bool),
    /// False where the column has a value, and null where it is null.
    Never(String),
    /// True where the column has a value, and null where it is null.
    Always(String),
    /// A condition of which nothing is known, by its words.
    Opaque(String),
    Compare(Operator, String, Operand),
    /// A column lies from a value to another one; `true` says that the end is excluded.
    Between {
        column: String,
        low: Literal,
        low_strict: bool,
        high: Literal,
        high_strict: bool,
    },
    IsNull(String),
    IsNotNull(String),
    /// A text matches a pattern, or doesn't; `ignore_case` takes ASCII letters of either case for one.
    Like {
        column: String,
        pattern: String,
        negated: bool,
        ignore_case: bool,
    },
}

impl Node {
    /// Returns the columns that the node names, from left to right.
    pub fn columns(&self) -> impl Iterator<Item = &str> {
        let (first, second) = match self {
            Node::And | Node::Or | Node::Not | Node::Constant(_) | Node::Opaque(_) => (None, None),
            Node::Compare(_, column, Operand::Column(other)) => (Some(column), Some(other)),
            Node::Compare(_, column, Operand::Literal(_))
            | Node::Between { column, .. }
            | Node::IsNull(column)
            | Node::IsNotNull(column)
            | Node::Never(column)
            | Node::Always(column)
            | Node::Like { column, .. } => (Some(column), None),
        };
        first.into_iter().chain(second).map(String::as_str)
    }

    // Writes the node's words, with each column's name written by `name`.
    pub(crate) fn write(&self, out: &mut dyn fmt::Write, name: &ColumnWriter<'_>) -> fmt::Result {
        match self {
            Node::And => out.write_str("and"),
            Node::Or => out.write_str("or"),
            Node::Not => out.write_str("not"),
            Node::Constant(truth) => write!(out, "{}", Literal::Bool(*truth)),
            Node::Never(column) => {
                out.write_str("and isnull ")?;
                name(column, out)?;
                out.write_str(" lit bool? null")
            }
            Node::Always(column) => {
                out.write_str("or notnull ")?;
                name(column, out)?;
                out.write_str(" lit bool? null")
            }
            Node::Opaque(words) => {
                out.write_str("opaque ")?;
                quoted(words, out)
            }
            Node::Compare(operator, column, other) => {
                write!(out, "{operator} ")?;
                name(column, out)?;
                out.write_char(' ')?;
                match other {
                    Operand::Column(other) => name(other, out),
                    Operand::Literal(literal) => write!(out, "{literal}"),
                }
            }
            Node::Between { column, low, low_strict, high, high_strict } => {
                let end = |strict: &bool| if *strict { "<" } else { "<=" };
                write!(out, "between {} {} ", end(low_strict), end(high_strict))?;
                name(column, out)?;
                write!(out, " {low} {high}")
            }
            Node::IsNull(column) => {
                out.write_str("isnull ")?;
                name(column, out)
            }
            Node::IsNotNull(column) => {
                out.write_str("notnull ")?;
                name(column, out)
            }
            Node::Like { column, pattern, negated, ignore_case } => {
                let (not, case) = (if *negated { "not" } else { "" }, if *ignore_case { "i" } else { "" });
                write!(out, "{not}{case}like ")?;
                name(column, out)?;
                out.write_str(" lit utf8 ")?;
                quoted(pattern, out)
            }
        }
    }
}

/// Writes the words of a column by its name.
pub(crate) type ColumnWriter<'a> = dyn Fn(&str, &mut dyn fmt::Write) -> fmt::Result + 'a;

/// Writes the words of an opaque condition by how many stand before it.
pub(crate) type OpaqueWriter<'a> = dyn Fn(usize, &mut dyn fmt::Write) -> fmt::Result + 'a;

/// A column by its name, from which a predicate is built.
#[derive(Clone, Debug, PartialEq, Eq)]
pub struct ColumnName(String);

/// Returns the column of a name. Any text is a name.
#[must_use]
pub fn col(name: &str) -> ColumnName {
    ColumnName(name.to_owned())
}

impl From<ColumnName> for Operand {
    fn from(column: ColumnName) -> Self {
        Operand::Column(column.0)
    }
}

impl ColumnName {
    pub(crate) fn into_name(self) -> String {
        self.0
    }

    /// Compares the column with a constant or with another column.
    #[must_use]
    pub fn compare(self, operator: Operator, other: impl Into<Operand>) -> Predicate {
        Predicate::leaf(Node::Compare(operator, self.0, other.into()))
    }

    /// Tests that the column is equal to a constant or another column.
    #[must_use]
    pub fn eq(self, other: impl Into<Operand>) -> Predicate {
        self.compare(Operator::Eq, other)
    }

    /// Tests that the column is another value than a constant or another column.
    #[must_use]
    pub fn ne(self, other: impl Into<Operand>) -> Predicate {
        self.compare(Operator::Ne, other)
    }

    /// Tests that the column is above a constant or another column.
    #[must_use]
    pub fn gt(self, other: impl Into<Operand>) -> Predicate {
        self.compare(Operator::Gt, other)
    }

    /// Tests that the column is at least a constant or another column.
    #[must_use]
    pub fn ge(self, other: impl Into<Operand>) -> Predicate {
        self.compare(Operator::Ge, other)
    }

    /// Tests that the column is below a constant or another column.
    #[must_use]
    pub fn lt(self, other: impl Into<Operand>) -> Predicate {
        self.compare(Operator::Lt, other)
    }

    /// Tests that the column is at most a constant or another column.
    #[must_use]
    pub fn le(self, other: impl Into<Operand>) -> Predicate {
        self.compare(Operator::Le, other)
    }

    /// Tests that the column lies from `low` to `high`, both included.
    #[must_use]
    pub fn between(self, low: impl Into<Literal>, high: impl Into<Literal>) -> Predicate {
        self.between_ends(low, false, high, false)
    }

    /// Tests that the column lies from `low` to `high`. An end is excluded where the truth behind it says that it is
    /// strict.
    #[must_use]
    pub fn between_ends(
        self,
        low: impl Into<Literal>,
        low_strict: bool,
        high: impl Into<Literal>,
        high_strict: bool,
    ) -> Predicate {
        Predicate::leaf(Node::Between { column: self.0, low: low.into(), low_strict, high: high.into(), high_strict })
    }

    /// Tests that the column is one of the values. Of no values it is never true, and its negation always is.
    #[must_use]
    pub fn is_in<T: Into<Literal>>(self, values: impl IntoIterator<Item = T>) -> Predicate {
        let equal = |value: T| Node::Compare(Operator::Eq, self.0.clone(), Operand::Literal(value.into()));
        let mut nodes: VecDeque<Placed> = values.into_iter().map(|value| equal(value).into()).collect();
        if nodes.is_empty() {
            return Predicate::constant(false);
        }
        for _ in 1..nodes.len() {
            nodes.push_front(Node::Or.into());
        }
        Predicate { nodes, types: Vec::new() }
    }

    /// Tests that the column is null.
    #[must_use]
    pub fn is_null(self) -> Predicate {
        Predicate::leaf(Node::IsNull(self.0))
    }

    /// Tests that the column isn't null.
    #[must_use]
    pub fn is_not_null(self) -> Predicate {
        Predicate::leaf(Node::IsNotNull(self.0))
    }

    /// Tests that the text matches a pattern: `%` is any run of characters, `_` any one, `\` makes the next one plain.
    #[must_use]
    pub fn like(self, pattern: &str) -> Predicate {
        self.matching(pattern, false, false)
    }

    /// Tests that the text is there and doesn't match a pattern.
    #[must_use]
    pub fn not_like(self, pattern: &str) -> Predicate {
        self.matching(pattern, true, false)
    }

    /// Tests that the text matches a pattern, with ASCII letters of either case taken for one.
    #[must_use]
    pub fn ilike(self, pattern: &str) -> Predicate {
        self.matching(pattern, false, true)
    }

    /// Tests that the text is there and doesn't match a pattern, with ASCII letters of either case taken for one.
    #[must_use]
    pub fn not_ilike(self, pattern: &str) -> Predicate {
        self.matching(pattern, true, true)
    }

    fn matching(self, pattern: &str, negated: bool, ignore_case: bool) -> Predicate {
        Predicate::leaf(Node::Like { column: self.0, pattern: pattern.to_owned(), negated, ignore_case })
    }
}

impl Predicate {
    // Makes the predicate of one condition.
    pub(crate) fn leaf(node: Node) -> Predicate {
        Predicate { nodes: VecDeque::from([node.into()]), types: Vec::new() }
    }

    // Says that a column is taken for one of a logical type, by all conditions of the predicate.
    pub(crate) fn of_type(mut self, column: &str, kind: &Logical) -> Predicate {
        self.nodes.iter_mut().for_each(|it| it.typed = true);
        if self.types.iter().all(|(name, it)| (name.as_str(), it) != (column, kind)) {
            self.types.push((column.to_owned(), kind.clone()));
        }
        self
    }

    // The columns that are taken for ones of logical types.
    pub(crate) fn types(&self) -> &[(String, Logical)] {
        &self.types
    }

    /// Returns the predicate that is true of every row, or of none.
    #[must_use]
    pub fn constant(truth: bool) -> Predicate {
        Predicate::leaf(Node::Constant(truth))
    }

    /// Returns a condition that the library can't know, by its words in SQL or any others.
    ///
    /// It may be true, false or null of each row. By it alone no zone is skipped or whole, and the rest of a predicate
    /// still prunes.
    #[must_use]
    pub fn opaque(words: impl Into<String>) -> Predicate {
        Predicate::leaf(Node::Opaque(words.into()))
    }

    /// Joins two predicates by AND.
    #[must_use]
    pub fn and(self, other: Predicate) -> Predicate {
        self.joined(Node::And, other)
    }

    /// Joins two predicates by OR.
    #[must_use]
    pub fn or(self, other: Predicate) -> Predicate {
        self.joined(Node::Or, other)
    }

    /// Returns the conditions and connectives in prefix order: each connective stands before its operands.
    pub fn nodes(&self) -> impl DoubleEndedIterator<Item = &Node> + ExactSizeIterator {
        self.nodes.iter().map(|it| &it.node)
    }

    // The conditions whose constants are plain values, and which compare columns as they are.
    pub(crate) fn untyped(&self) -> impl Iterator<Item = &Node> {
        self.nodes.iter().filter(|it| !it.typed).map(|it| &it.node)
    }

    // The shorter side is moved to the longer one, so that a chain grows in time of its length from either end.
    fn joined(self, connective: Node, other: Predicate) -> Predicate {
        let (mut types, mut others) = (self.types, other.types);
        if types.len() < others.len() {
            std::mem::swap(&mut types, &mut others);
        }
        // A chain over one column says its type once.
        others.retain(|it| types.last() != Some(it));
        types.append(&mut others);
        let (mut left, mut right) = (self.nodes, other.nodes);
        let mut nodes = if left.len() < right.len() {
            while let Some(node) = left.pop_back() {
                right.push_front(node);
            }
            right
        } else {
            left.append(&mut right);
            left
        };
        nodes.push_front(connective.into());
        Predicate { nodes, types }
    }

    // Writes the text in the language of a `where` line, with each column's name written by `name`.
    pub(crate) fn write(&self, out: &mut dyn fmt::Write, name: &ColumnWriter<'_>) -> fmt::Result {
        for (place, node) in self.nodes().enumerate() {
            if place > 0 {
                out.write_char(' ')?;
            }
            node.write(out, name)?;
        }
        Ok(())
    }

    // Writes a text that is true of the same rows: each opaque condition by `opaque` of how many stand before it, and
    // what is true of no value or of every one by what needs no statistics. Under an even number of NOTs null may be
    // taken for false, and under an odd one for true: a predicate that is true by a null is true whatever stands there.
    pub(crate) fn write_to_prune(
        &self,
        out: &mut dyn fmt::Write,
        name: &ColumnWriter<'_>,
        opaque: &OpaqueWriter<'_>,
    ) -> fmt::Result {
        // Of each operand that is to come: whether it stands under an odd number of NOTs.
        let (mut turned, mut count, mut place) = (vec![false], 0, 0);
        let node_at = |place: usize| self.nodes.get(place).map(|it| &it.node);
        while let (Some(node), Some(here)) = (node_at(place), turned.pop()) {
            if place > 0 {
                out.write_char(' ')?;
            }
            place += 1;
            match (node, node_at(place)) {
                (Node::Never(column), _) => write_of_values(out, name, column, here, false)?,
                (Node::Always(column), _) => write_of_values(out, name, column, here, true)?,
                (Node::Not, Some(Node::Never(column))) => {
                    place += 1;
                    write_of_values(out, name, column, here, true)?;
                }
                (Node::Not, Some(Node::Always(column))) => {
                    place += 1;
                    write_of_values(out, name, column, here, false)?;
                }
                (Node::Opaque(_), _) => {
                    opaque(count, out)?;
                    count += 1;
                }
                (node, _) => {
                    match node {
                        Node::And | Node::Or => turned.extend([here, here]),
                        Node::Not => turned.push(!here),
                        _ => {}
                    }
                    node.write(out, name)?;
                }
            }
        }
        Ok(())
    }
}

// Writes a condition that is `truth` where a column has a value, and where it is null as good as null.
fn write_of_values(
    out: &mut dyn fmt::Write,
    name: &ColumnWriter<'_>,
    column: &str,
    turned: bool,
    truth: bool,
) -> fmt::Result {
    if turned == truth {
        return write!(out, "{}", Literal::Bool(truth));
    }
    out.write_str(if truth { "notnull " } else { "isnull " })?;
    name(column, out)
}

impl std::ops::Not for Predicate {
    type Output = Predicate;

    /// Turns the predicate round; null stays null.
    fn not(mut self) -> Predicate {
        self.nodes.push_front(Node::Not.into());
        self
    }
}

// Whether the language takes a text as a name.
fn is_name(text: &str) -> bool {
    let is_letter = |byte: u8| byte.is_ascii_alphabetic() || byte == b'_';
    text.len() <= 64
        && text.bytes().next().is_some_and(is_letter)
        && text.bytes().all(|byte| is_letter(byte) || byte.is_ascii_digit())
}

impl fmt::Display for Predicate {
    /// Writes the text of a `where` line. A name that the language doesn't take stands between quotes, and so do the
    /// words of an opaque condition, behind the word `opaque`.
    fn fmt(&self, f: &mut fmt::Formatter<'_>) -> fmt::Result {
        self.write(f, &|name, out| {
            out.write_str("col ")?;
            if is_name(name) {
                out.write_str(name)
            } else {
                quoted(name, out)
            }
        })
    }
}
