// SPDX-License-Identifier: Apache-2.0
//! LIKE: patterns, what they match, and the texts between which all matches lie.

#[derive(Clone, Copy, PartialEq, Eq)]
pub enum Item {
    Run,
    One,
    Literal(char),
}

/// The items between two runs.
enum Piece {
    Literals(String),
    Mixed(Vec<Item>),
}

pub struct Pattern {
    items: Vec<Item>,
    pieces: Vec<Piece>,
    ignores_case: bool,
}

/// The bounds of what a pattern matches: one text, or all from a prefix up to its successor.
pub enum Range {
    Exact(String),
    Prefix { prefix: String, successor: String },
}

impl Pattern {
    pub fn read(pattern: &str, ignores_case: bool) -> Pattern {
        let mut items = Vec::new();
        let mut rest = pattern.chars();
        while let Some(c) = rest.next() {
            items.push(match c {
                '%' => Item::Run,
                '_' => Item::One,
                '\\' => Item::Literal(rest.next().unwrap_or('\\')),
                c => Item::Literal(c),
            });
        }
        if ignores_case {
            for item in &mut items {
                if let Item::Literal(c) = item {
                    *c = c.to_ascii_lowercase();
                }
            }
        }
        let pieces = items.split(|item| *item == Item::Run).map(Piece::of).collect();
        Pattern { items, pieces, ignores_case }
    }

    pub fn matches(&self, text: &str) -> bool {
        if self.ignores_case {
            self.matches_lowered(&text.to_ascii_lowercase())
        } else {
            self.matches_lowered(text)
        }
    }

    /// The first piece stands at the front, the last at the end, and each other one at the first place behind the one
    /// before.
    fn matches_lowered(&self, text: &str) -> bool {
        let Some(mut rest) = self.pieces[0].strip(text) else { return false };
        let Some((last, middle)) = self.pieces[1..].split_last() else { return rest.is_empty() };
        for piece in middle {
            let Some(behind) = piece.skip_to(rest) else { return false };
            rest = behind;
        }
        last.ends(rest)
    }

    pub fn range(&self) -> Option<Range> {
        let wild = self.items.iter().position(|item| !matches!(item, Item::Literal(_)));
        let literal = |items: &[Item]| -> String {
            items.iter().map(|item| if let Item::Literal(c) = item { *c } else { unreachable!() }).collect()
        };
        let Some(wild) = wild else { return Some(Range::Exact(literal(&self.items))) };
        let prefix = literal(&self.items[..wild]);
        let successor = successor(&prefix)?;
        Some(Range::Prefix { prefix, successor })
    }
}

impl Piece {
    fn of(items: &[Item]) -> Piece {
        let literal = |item: &Item| if let Item::Literal(c) = item { Some(*c) } else { None };
        match items.iter().map(literal).collect() {
            Some(literals) => Piece::Literals(literals),
            None => Piece::Mixed(items.to_vec()),
        }
    }

    /// What follows it at the front of a text.
    fn strip<'a>(&self, text: &'a str) -> Option<&'a str> {
        let items = match self {
            Piece::Literals(literals) => return text.strip_prefix(literals.as_str()),
            Piece::Mixed(items) => items,
        };
        let mut chars = text.chars();
        for item in items {
            let c = chars.next()?;
            if *item != Item::One && *item != Item::Literal(c) {
                return None;
            }
        }
        Some(chars.as_str())
    }

    /// What follows its first place in a text.
    fn skip_to<'a>(&self, text: &'a str) -> Option<&'a str> {
        match self {
            Piece::Literals(literals) if literals.len() > text.len() => None,
            Piece::Literals(literals) => text.find(literals.as_str()).map(|at| &text[at + literals.len()..]),
            Piece::Mixed(_) => text.char_indices().find_map(|(at, _)| self.strip(&text[at..])),
        }
    }

    /// Whether it stands at the end of a text.
    fn ends(&self, text: &str) -> bool {
        match self {
            Piece::Literals(literals) => text.ends_with(literals.as_str()),
            Piece::Mixed(items) => match text.chars().count().checked_sub(items.len()) {
                None => false,
                Some(before) => {
                    let at = text.char_indices().nth(before).map_or(text.len(), |(at, _)| at);
                    self.strip(&text[at..]) == Some("")
                }
            },
        }
    }
}

fn successor(prefix: &str) -> Option<String> {
    let mut chars: Vec<char> = prefix.chars().collect();
    while let Some(last) = chars.pop() {
        if let Some(next) = char::from_u32(last as u32 + 1) {
            chars.push(next);
            return Some(chars.into_iter().collect());
        }
    }
    None
}
