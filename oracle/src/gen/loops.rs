//! Random grammars built to loop: a way in, a repetition whose body mostly stays in place, a way out.

use crate::builder::Builder;
use crate::image::{kind, Grammar};
use crate::rng::Rng;

/// One to three rules, seldom with skips or tags.
pub fn grammar(rng: &mut Rng) -> Grammar {
    let (skips, tags) = (rng.once_in(8), rng.once_in(8));
    grammar_of(skips, tags, rng)
}

/// The same, with skips and tags as asked.
pub fn grammar_of(skips: bool, tags: bool, rng: &mut Rng) -> Grammar {
    let mut loops = Loops {
        b: Builder::default(),
        tags,
        names: 0,
    };
    let rules = rng.between(1, 3);
    loops.names = rng.below(rules);
    if loops.names > 0 {
        let root = loops.items(rng, 2, 2);
        loops.b.rule(b"n1", root);
    }
    for rule in 0..rules - loops.names.min(1) {
        let root = loops.rule(rng);
        loops.b.rule(format!("m{rule}").as_bytes(), root);
    }
    if skips {
        let root = loops.b.str(" ");
        let name: &[u8] = if rng.once_in(2) {
            b"WHITESPACE"
        } else {
            b"COMMENT"
        };
        loops.b.rule(name, root);
    }
    loops.b.g
}

struct Loops {
    b: Builder,
    tags: bool,
    /// Not 0 where the rule n1 can be named.
    names: u32,
}

impl Loops {
    /// A way in, a repetition, sometimes more of both.
    fn rule(&mut self, rng: &mut Rng) -> u32 {
        let mut parts = vec![];
        for _ in 0..rng.between(0, 4) {
            let item = self.way_in(rng);
            parts.push(item);
        }
        let body = self.items(rng, 2, 3);
        let turns = self.repetition(body, rng);
        parts.push(turns);
        if rng.once_in(3) {
            let body = self.items(rng, 1, 2);
            let more = self.repetition(body, rng);
            parts.push(more);
        }
        let root = self.b.fold(kind::SEQ, &parts);
        match rng.below(8) {
            0 => self.repetition(root, rng),
            1 => {
                let other = self.way_in(rng);
                self.b.choice(other, root)
            }
            _ => root,
        }
    }

    /// What sets the stack up.
    fn way_in(&mut self, rng: &mut Rng) -> u32 {
        match rng.below(10) {
            0 | 1 => self.b.ident("POP_ALL"),
            2 => self.b.leaf(kind::PUSH_LITERAL, b"yy"),
            3 => self.b.leaf(kind::PUSH_LITERAL, b""),
            4 => {
                let part = self.b.str("ab");
                self.b.one(kind::PUSH, part)
            }
            5 => {
                let part = self.b.leaf(kind::PUSH_LITERAL, b"");
                let count = rng.between(0, 10);
                self.b.node(kind::REP_EXACT, part, count, 0)
            }
            6 => {
                let part = self.b.leaf(kind::PUSH_LITERAL, b"");
                self.b.one(kind::OPT, part)
            }
            7 => {
                let left = self.item(rng, 1);
                let right = self.item(rng, 1);
                self.b.choice(left, right)
            }
            8 => self.item(rng, 1),
            _ => self.b.ident("DROP"),
        }
    }

    /// An unbounded repetition.
    fn repetition(&mut self, body: u32, rng: &mut Rng) -> u32 {
        let body = if self.tags && rng.once_in(2) {
            self.b.one(kind::NODE_TAG, body)
        } else {
            body
        };
        match rng.below(4) {
            0 => self.b.one(kind::REP_ONCE, body),
            1 => {
                let count = *rng.pick(&[0, 1, 2, 3, 9, u32::MAX]);
                self.b.node(kind::REP_MIN, body, count, 0)
            }
            _ => self.b.one(kind::REP, body),
        }
    }

    /// One to `most` items in sequence.
    fn items(&mut self, rng: &mut Rng, depth: u32, most: u32) -> u32 {
        let mut parts = vec![];
        for _ in 0..rng.between(1, most) {
            let item = self.item(rng, depth);
            parts.push(item);
        }
        self.b.fold(kind::SEQ, &parts)
    }

    /// Something that mostly stays in place.
    fn item(&mut self, rng: &mut Rng, depth: u32) -> u32 {
        if depth == 0 || rng.below(5) < 3 {
            return self.leaf(rng);
        }
        let part = self.items(rng, depth - 1, 2);
        match rng.below(14) {
            0 | 1 => self.b.one(kind::POS_PRED, part),
            2 => self.b.one(kind::NEG_PRED, part),
            3 => self.b.one(kind::OPT, part),
            4 | 5 => self.b.one(kind::PUSH, part),
            6 | 7 => {
                let right = self.item(rng, depth - 1);
                self.b.choice(part, right)
            }
            8 => {
                let kind = *rng.pick(&[kind::REP_EXACT, kind::REP_MAX]);
                let count = *rng.pick(&[0, 1, 2, 3, 8, 9, u32::MAX]);
                self.b.node(kind, part, count, 0)
            }
            9 => {
                let (min, max) = (rng.below(4), rng.below(4));
                self.b.node(kind::REP_MIN_MAX, part, min, max)
            }
            10 => self.repetition(part, rng),
            11 if self.tags => self.b.one(kind::NODE_TAG, part),
            12 if self.names > 0 => {
                let name = self.b.ident("n1");
                self.b.seq(part, name)
            }
            _ => {
                let right = self.item(rng, depth - 1);
                self.b.seq(part, right)
            }
        }
    }

    fn leaf(&mut self, rng: &mut Rng) -> u32 {
        match rng.below(20) {
            0..=3 => self.b.ident("POP"),
            4 | 5 => self.b.ident("PEEK"),
            6 | 7 => self.b.ident("PEEK_ALL"),
            8 | 9 => self.b.ident("POP_ALL"),
            10 | 11 => self.b.ident("DROP"),
            12 => self.b.node(kind::PEEK_SLICE, 0, 0, 0),
            13 | 14 => self.b.node(kind::PEEK_SLICE, 0, 1, 0),
            15 | 16 => self.b.leaf(kind::PUSH_LITERAL, b""),
            17 => self.b.leaf(kind::PUSH_LITERAL, b"y"),
            18 => self.b.str(""),
            _ if self.names > 0 => self.b.ident("n1"),
            _ => {
                let part = self.b.str("");
                self.b.one(kind::PUSH, part)
            }
        }
    }
}
