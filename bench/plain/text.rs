// SPDX-License-Identifier: Apache-2.0
//! The language of the input: lines of words that give columns, parts and a predicate.
use crate::log::Claim;
use crate::plain_rows;
use crate::predicate::{Comparison, Node};
use crate::table::{match_cells, Cells, Column, Table};
use crate::values::{Kind, Scalar, Type, Value};
use crate::words;
use std::borrow::Cow;
use std::collections::HashMap;

const WORDS_OF_A_PREDICATE: usize = 4096;
const BYTES_OF_A_NAME: usize = 64;

/// A word of a line; a quoted one without its quotes and escapes.
enum Word<'a> {
    Plain(&'a str),
    Quoted(Cow<'a, str>),
}

/// The words of a line that are still to be read.
struct Words<'a>(&'a str);

impl<'a> Words<'a> {
    /// The next word, if there is one; refused if a quoted word is malformed.
    fn next(&mut self) -> Result<Option<Word<'a>>, ()> {
        let rest = self.0.trim_start_matches(' ');
        if rest.is_empty() {
            self.0 = rest;
            return Ok(None);
        }
        if let Some(quoted) = rest.strip_prefix('"') {
            return self.quoted(quoted).map(Some);
        }
        let end = rest.find(' ').unwrap_or(rest.len());
        self.0 = &rest[end..];
        Ok(Some(Word::Plain(&rest[..end])))
    }

    fn quoted(&mut self, text: &'a str) -> Result<Word<'a>, ()> {
        let bytes = text.as_bytes();
        let mut unescaped: Option<String> = None;
        let (mut from, mut at) = (0, 0);
        loop {
            match bytes.get(at).ok_or(())? {
                b'"' => break,
                b'\\' if matches!(bytes.get(at + 1), Some(b'"' | b'\\')) => {
                    unescaped.get_or_insert_default().push_str(&text[from..at]);
                    (from, at) = (at + 1, at + 2);
                }
                b'\\' => return Err(()),
                _ => at += 1,
            }
        }
        if !matches!(bytes.get(at + 1), None | Some(b' ')) {
            return Err(());
        }
        self.0 = &text[at + 1..];
        Ok(Word::Quoted(match unescaped {
            None => Cow::Borrowed(&text[..at]),
            Some(front) => Cow::Owned(front + &text[from..at]),
        }))
    }

    fn plain(&mut self) -> Option<&'a str> {
        match self.next() {
            Ok(Some(Word::Plain(word))) => Some(word),
            _ => None,
        }
    }

    fn end(&mut self) -> Option<()> {
        matches!(self.next(), Ok(None)).then_some(())
    }
}

fn whole_number(word: &str, kind: Kind) -> Option<i128> {
    let (digits, negative) = match (word.strip_prefix('-'), kind) {
        (Some(digits), Kind::Signed(_)) => (digits, true),
        (Some(_), _) => return None,
        (None, _) => (word, false),
    };
    if digits.is_empty() || !digits.bytes().all(|b| b.is_ascii_digit()) {
        return None;
    }
    let mut size: i128 = 0;
    for digit in digits.bytes() {
        size = (size * 10 + i128::from(digit - b'0')).min(1 << 70);
    }
    let number = if negative { -size } else { size };
    let (least, greatest) = match kind {
        Kind::Signed(bits) => (-(1i128 << (bits - 1)), (1i128 << (bits - 1)) - 1),
        Kind::Unsigned(bits) => (0, (1i128 << bits) - 1),
        _ => return None,
    };
    (least <= number && number <= greatest).then_some(number)
}

fn hex(word: &str) -> Option<Vec<u8>> {
    let digits = word.strip_prefix('x')?.as_bytes();
    let digit = |b: u8| (b as char).to_digit(16).map(|d| d as u8);
    if digits.len() % 2 == 1 {
        return None;
    }
    digits.chunks(2).map(|pair| Some(digit(pair[0])? << 4 | digit(pair[1])?)).collect()
}

/// The value that a word is under a type; the inner option is None for null.
fn value(word: &Word, dtype: Type) -> Option<Option<Value>> {
    let word = match word {
        Word::Quoted(text) => {
            return (dtype.kind == Kind::Utf8).then(|| Some(Value::Bytes(text.as_bytes().into())));
        }
        Word::Plain("null") => return dtype.nullable.then_some(None),
        Word::Plain(word) => *word,
    };
    Some(Some(match dtype.kind {
        Kind::Bool => Value::Bool(truth(word)?),
        Kind::Signed(_) => Value::Signed(whole_number(word, dtype.kind)? as i64),
        Kind::Unsigned(_) => Value::Unsigned(whole_number(word, dtype.kind)? as u64),
        Kind::Binary => Value::Bytes(hex(word)?.into()),
        Kind::Null | Kind::Utf8 => return None,
    }))
}

fn truth(word: &str) -> Option<bool> {
    match word {
        "true" => Some(true),
        "false" => Some(false),
        _ => None,
    }
}

fn is_name(word: &str) -> bool {
    let mut bytes = word.bytes();
    bytes.next().is_some_and(|b| b.is_ascii_alphabetic() || b == b'_')
        && bytes.all(|b| b.is_ascii_alphanumeric() || b == b'_')
        && word.len() <= BYTES_OF_A_NAME
}

/// A statistic of a column, with the type of its value where others matter.
#[derive(Clone, Copy)]
enum Stat {
    Min(Type),
    Max(Type),
    NullCount,
    Other(Type),
}

impl Stat {
    fn read(word: &[u8], column: Type) -> Option<Stat> {
        let plain = |kind| Type { kind, nullable: false };
        Some(match word {
            b"max" if column.kind != Kind::Null => Stat::Max(plain(column.kind)),
            b"min" if column.kind != Kind::Null => Stat::Min(plain(column.kind)),
            b"null_count" => Stat::NullCount,
            b"uncompressed_size_in_bytes" => Stat::Other(plain(Kind::Unsigned(64))),
            b"is_constant" | b"is_sorted" | b"is_strict_sorted" => Stat::Other(plain(Kind::Bool)),
            b"sum" => match column.kind {
                Kind::Signed(_) => Stat::Other(plain(Kind::Signed(64))),
                Kind::Unsigned(_) | Kind::Bool => Stat::Other(plain(Kind::Unsigned(64))),
                _ => return None,
            },
            _ => return None,
        })
    }

    /// What the log takes of it: those that pruning asks for.
    fn claim(self, exact: bool) -> Option<Claim> {
        match self {
            Stat::Min(_) => Some(Claim::Min),
            Stat::Max(_) => Some(Claim::Max),
            Stat::NullCount => Some(Claim::Nulls { exact }),
            Stat::Other(_) => None,
        }
    }

    fn dtype(self) -> Type {
        match self {
            Stat::Min(dtype) | Stat::Max(dtype) | Stat::Other(dtype) => dtype,
            Stat::NullCount => Type { kind: Kind::Unsigned(64), nullable: false },
        }
    }
}

/// Whether a statistic is exact, by the word between two spaces that bytes begin with, and what stands behind them.
#[inline(always)]
fn behind_precision(bytes: &[u8]) -> Option<(bool, &[u8])> {
    match bytes.strip_prefix(b" exact ") {
        Some(rest) => Some((true, rest)),
        None => Some((false, bytes.strip_prefix(b" inexact ")?)),
    }
}

/// What the lines so far say.
#[derive(Default)]
pub struct Draft {
    names: HashMap<String, usize>,
    /// Where a name was found last.
    last: usize,
    pub table: Table,
    pub predicate: Option<Node>,
    /// How many lines were read, and whether the last one is bad.
    pub lines: usize,
    pub is_bad: bool,
}

fn push_word(column: &mut Column, row: usize, word: &Word) -> Option<()> {
    let kind = column.dtype.kind;
    if matches!(word, Word::Plain("null")) {
        return column.dtype.nullable.then(|| column.push_null(row));
    }
    match word {
        Word::Quoted(text) => {
            let Cells::Texts(texts) = &mut column.cells else { return None };
            texts.heap.extend_from_slice(text.as_bytes());
            texts.end();
        }
        Word::Plain(word) => match_cells!(
            &mut column.cells,
            numbers values => values.push(whole_number(word, kind)? as _),
            Cells::Bool(values) => values.push(truth(word)?),
            Cells::Bytes(bytes) => {
                bytes.heap.extend_from_slice(&hex(word)?);
                bytes.end();
            }
            Cells::Null | Cells::Texts(_) => return None,
        ),
    }
    Some(())
}

impl Draft {
    /// Reads lines that end with line feeds, up to the first bad one.
    pub fn push_lines(&mut self, text: &[u8]) {
        let mut rest = text;
        while !self.is_bad {
            rest = self.push_rows(rest);
            if let Some(after) = self.begin_part(rest).or_else(|| self.plain_stat(rest)) {
                self.lines += 1;
                rest = after;
                continue;
            }
            let Some(end) = words::line_end(rest) else { return };
            let line = &rest[..end];
            self.push(line.strip_suffix(b"\r").unwrap_or(line));
            rest = &rest[end + 1..];
        }
    }

    /// Reads the next line, which may be bad.
    pub fn push(&mut self, line: &[u8]) {
        self.lines += 1;
        self.is_bad = std::str::from_utf8(line).ok().and_then(|line| self.words(line)).is_none();
    }

    /// Reads a line `part` without spaces, and answers what stands behind it.
    fn begin_part<'a>(&mut self, text: &'a [u8]) -> Option<&'a [u8]> {
        let rest = text.strip_prefix(b"part\n")?;
        if self.predicate.is_some() || self.table.columns.is_empty() {
            return None;
        }
        self.table.begin_part();
        Some(rest)
    }

    /// Reads the rows in plain form that lines begin with, and answers what stands behind them.
    fn push_rows<'a>(&mut self, text: &'a [u8]) -> &'a [u8] {
        if self.predicate.is_some() || !self.table.is_open() || !text.starts_with(b"row ") {
            return text;
        }
        let (rest, rows, is_whole) = plain_rows::push(&mut self.table.columns, self.table.rows, text);
        self.table.rows += rows;
        self.lines += rows;
        if !is_whole {
            self.table.give_up_row();
        }
        rest
    }

    fn words(&mut self, line: &str) -> Option<()> {
        let mut words = Words(line);
        let first = match words.next().ok()? {
            None => return Some(()),
            Some(Word::Plain(first)) => first,
            Some(Word::Quoted(_)) => return None,
        };
        if self.predicate.is_some() {
            return None;
        }
        match first {
            "row" => self.row(words),
            "stat" => self.stat(words),
            "part" => self.part(words),
            "column" => self.column(words),
            "join" => self.join(words),
            "where" => self.predicate(words),
            _ => None,
        }
    }

    fn column(&mut self, mut words: Words) -> Option<()> {
        let name = words.plain()?;
        let dtype = Type::read(words.plain()?)?;
        words.end()?;
        if self.table.has_part() || !is_name(name) || self.names.contains_key(name) {
            return None;
        }
        self.names.insert(name.to_owned(), self.table.columns.len());
        self.table.add_column(name, dtype);
        Some(())
    }

    fn part(&mut self, mut words: Words) -> Option<()> {
        words.end()?;
        if self.table.columns.is_empty() {
            return None;
        }
        self.table.begin_part();
        Some(())
    }

    /// Reads a line of a statistic in plain form, and answers what stands behind it.
    fn plain_stat<'a>(&mut self, text: &'a [u8]) -> Option<&'a [u8]> {
        let rest = text.strip_prefix(b"stat ")?;
        if self.predicate.is_some() || !self.table.is_open() {
            return None;
        }
        let (place, rest) = self.plain_name(rest)?;
        let dtype = self.table.columns[place].dtype;
        let (stat, rest) = match rest {
            [b'm', b'i', b'n', rest @ ..] => (Stat::Min(dtype), rest),
            [b'm', b'a', b'x', rest @ ..] => (Stat::Max(dtype), rest),
            _ => {
                let (word, rest) = rest.split_at(rest.iter().position(|b| *b == b' ')?);
                (Stat::read(word, dtype)?, rest)
            }
        };
        let (exact, rest) = behind_precision(rest)?;
        let (value, rest) = plain_rows::value(rest, stat.dtype().kind)?;
        let rest = rest.strip_prefix(b"\n")?;
        self.claim(place, stat.claim(exact), value);
        Some(rest)
    }

    /// The place of the column whose name a line begins with, and what stands behind the space behind it.
    fn plain_name<'a>(&mut self, line: &'a [u8]) -> Option<(usize, &'a [u8])> {
        for place in [self.last, self.last + 1] {
            let name = self.table.columns.get(place).map(|column| column.name.as_bytes());
            if let Some([b' ', rest @ ..]) = name.and_then(|name| line.strip_prefix(name)) {
                self.last = place;
                return Some((place, rest));
            }
        }
        let len = line.iter().take(BYTES_OF_A_NAME + 1).position(|b| *b == b' ')?;
        self.last = *self.names.get(std::str::from_utf8(&line[..len]).ok()?)?;
        Some((self.last, &line[len + 1..]))
    }

    fn stat(&mut self, mut words: Words) -> Option<()> {
        if !self.table.is_open() {
            return None;
        }
        let place = *self.names.get(words.plain()?)?;
        let stat = Stat::read(words.plain()?.as_bytes(), self.table.columns[place].dtype)?;
        let exact = match words.plain()? {
            "exact" => true,
            "inexact" => false,
            _ => return None,
        };
        let value = value(&words.next().ok()??, stat.dtype())??;
        words.end()?;
        self.claim(place, stat.claim(exact), value.scalar());
        Some(())
    }

    #[inline(always)]
    fn claim(&mut self, place: usize, claim: Option<Claim>, value: Scalar) {
        if let Some(claim) = claim {
            self.table.log.claim(place, claim, value);
        }
    }

    fn row(&mut self, mut words: Words) -> Option<()> {
        if !self.table.is_open() {
            return None;
        }
        for column in &mut self.table.columns {
            push_word(column, self.table.rows, &words.next().ok()??)?;
        }
        self.table.rows += 1;
        words.end()
    }

    fn join(&mut self, mut words: Words) -> Option<()> {
        let place = whole_number(words.plain()?, Kind::Unsigned(64))?;
        words.end()?;
        self.table.join(usize::try_from(place).ok()?)
    }

    fn predicate(&mut self, words: Words) -> Option<()> {
        if self.table.columns.is_empty() {
            return None;
        }
        let mut count = Words(words.0);
        let mut number = 0;
        while count.next().ok()?.is_some() {
            number += 1;
        }
        if number > WORDS_OF_A_PREDICATE {
            return None;
        }
        let mut words = words;
        let predicate = self.expression(&mut words)?;
        words.end()?;
        self.predicate = Some(predicate);
        Some(())
    }

    fn expression(&self, words: &mut Words) -> Option<Node> {
        let compare = |by, words: &mut Words| {
            let left = self.expression(words)?;
            Node::compare(by, left, self.expression(words)?)
        };
        let connect = |is_and, words: &mut Words| {
            let left = self.expression(words)?;
            Node::connect(is_and, left, self.expression(words)?)
        };
        let like = |negated, ignores_case, words: &mut Words| {
            let x = self.expression(words)?;
            Node::like(negated, ignores_case, x, self.expression(words)?)
        };
        match words.plain()? {
            "col" => self.column_named(words.plain()?),
            "lit" => {
                let dtype = Type::read(words.plain()?)?;
                Some(Node::literal(dtype, value(&words.next().ok()??, dtype)?))
            }
            "eq" => compare(Comparison::Eq, words),
            "ne" => compare(Comparison::Ne, words),
            "gt" => compare(Comparison::Gt, words),
            "ge" => compare(Comparison::Ge, words),
            "lt" => compare(Comparison::Lt, words),
            "le" => compare(Comparison::Le, words),
            "and" => connect(true, words),
            "or" => connect(false, words),
            "between" => self.between(words),
            "isnull" => Some(Node::null_test(true, self.expression(words)?)),
            "notnull" => Some(Node::null_test(false, self.expression(words)?)),
            "not" => Node::not(self.expression(words)?),
            "like" => like(false, false, words),
            "notlike" => like(true, false, words),
            "ilike" => like(false, true, words),
            "notilike" => like(true, true, words),
            _ => None,
        }
    }

    fn column_named(&self, name: &str) -> Option<Node> {
        let place = *self.names.get(name)?;
        Some(Node::column(place, self.table.columns[place].dtype))
    }

    fn between(&self, words: &mut Words) -> Option<Node> {
        let strict = |word: &str| match word {
            "<" => Some(true),
            "<=" => Some(false),
            _ => None,
        };
        let (lower, upper) = (strict(words.plain()?)?, strict(words.plain()?)?);
        let x = self.expression(words)?;
        let low = self.expression(words)?;
        Node::between(lower, upper, x, low, self.expression(words)?)
    }
}
