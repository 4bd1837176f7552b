// SPDX-License-Identifier: Apache-2.0
//! Random rows and conditions in SQL over them, each with its truth on a row.

// A number, a text, and the truths of two tests that aren't read.
#[derive(Clone, Debug)]
pub struct Row {
    pub n: Option<i64>,
    pub s: Option<&'static str>,
    pub hidden: [Option<bool>; 2],
}

pub type Truth = Box<dyn Fn(&Row) -> Option<bool>>;

// A condition: its text, and its truth on a row.
pub struct Condition {
    pub text: String,
    pub truth: Truth,
}

fn both(a: Option<bool>, b: Option<bool>) -> Option<bool> {
    match (a, b) {
        (Some(false), _) | (_, Some(false)) => Some(false),
        (Some(true), Some(true)) => Some(true),
        _ => None,
    }
}

fn not(a: Option<bool>) -> Option<bool> {
    a.map(|a| !a)
}

fn leaf(text: String, truth: impl Fn(&Row) -> Option<bool> + 'static) -> Condition {
    Condition { text, truth: Box::new(truth) }
}

pub struct Dice(pub u64);

impl Dice {
    pub fn roll(&mut self, sides: u64) -> u64 {
        self.0 ^= self.0 << 13;
        self.0 ^= self.0 >> 7;
        self.0 ^= self.0 << 17;
        self.0 % sides
    }

    fn truth(&mut self) -> Option<bool> {
        [None, Some(false), Some(true)][self.roll(3) as usize]
    }

    // Rows of one zone lie near one another, so that some zones can be skipped.
    pub fn rows(&mut self) -> Vec<Row> {
        let (base, nulls) = (self.roll(16) as i64 - 8, [0, 0, 3, 10][self.roll(4) as usize]);
        let texts = [["a", "ab", "b"], ["c", "cb", "it's"]][self.roll(2) as usize];
        let mut row = || {
            let n = (self.roll(10) >= nulls).then(|| base + self.roll(4) as i64);
            let s = (self.roll(10) >= nulls).then(|| texts[self.roll(3) as usize]);
            Row { n, s, hidden: [self.truth(), self.truth()] }
        };
        (0..4).map(|_| row()).collect()
    }

    fn leaf(&mut self) -> Condition {
        let limit = self.roll(20) as i64 - 10;
        match self.roll(9) {
            0 => leaf(format!("n > {limit}"), move |row| row.n.map(|n| n > limit)),
            1 => leaf(format!("{limit} >= n"), move |row| row.n.map(|n| limit >= n)),
            2 => leaf(format!("n <> {limit}"), move |row| row.n.map(|n| n != limit)),
            3 => {
                leaf(format!("n < {limit}.5"), move |row| row.n.map(|n| if limit < 0 { n < limit } else { n <= limit }))
            }
            4 => leaf(format!("n BETWEEN {} AND {limit}", limit - 3), move |row| {
                row.n.map(|n| (limit - 3..=limit).contains(&n))
            }),
            5 => leaf(format!("n NOT IN ({limit}, 3)"), move |row| row.n.map(|n| n != limit && n != 3)),
            6 => leaf("s LIKE 'a%'".to_owned(), |row| row.s.map(|s| s.starts_with('a'))),
            7 => leaf("s >= 'it''s'".to_owned(), |row| row.s.map(|s| s >= "it's")),
            _ => leaf("s IS NOT NULL".to_owned(), |row| Some(row.s.is_some())),
        }
    }

    pub fn condition(&mut self, depth: u64) -> Condition {
        match self.roll(7) {
            0 if depth > 0 => self.joined(depth, "AND", both),
            1 if depth > 0 => self.joined(depth, "OR", |a, b| not(both(not(a), not(b)))),
            2 if depth > 0 => {
                let Condition { text, truth } = self.condition(depth - 1);
                leaf(format!("NOT ({text})"), move |row| not(truth(row)))
            }
            3 if depth > 0 => {
                let Condition { text, truth } = self.condition(depth - 1);
                leaf(format!("({text}) IS NOT TRUE"), move |row| Some(truth(row) != Some(true)))
            }
            4 => {
                let place = self.roll(2) as usize;
                leaf(format!("f({place}) = 'é'"), move |row| row.hidden[place])
            }
            _ => self.leaf(),
        }
    }

    fn joined(
        &mut self,
        depth: u64,
        word: &str,
        truth: impl Fn(Option<bool>, Option<bool>) -> Option<bool> + 'static,
    ) -> Condition {
        let (left, right) = (self.condition(depth - 1), self.condition(depth - 1));
        let text = format!("({}) {word} ({})", left.text, right.text);
        leaf(text, move |row| truth((left.truth)(row), (right.truth)(row)))
    }
}
