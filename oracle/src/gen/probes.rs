//! Random grammars that show states: stack operations, then `PEEK[0..0]*`, which loops from every
//! state that reaches it and is reported with that state.

use crate::builder::Builder;
use crate::image::{kind, Grammar};
use crate::rng::Rng;

/// One to three rules with a probe each, seldom under skips, sometimes with a rule to name.
pub fn grammar(rng: &mut Rng) -> Grammar {
    let mut probes = Probes {
        b: Builder::default(),
        named: rng.once_in(4),
    };
    if probes.named {
        let root = probes.work(rng, 2);
        probes.b.rule(b"n", root);
    }
    for rule in 0..rng.between(1, 3) {
        let root = probes.rule(rng);
        probes.b.rule(format!("p{rule}").as_bytes(), root);
    }
    if rng.once_in(8) {
        let root = probes.b.str(" ");
        probes.b.rule(b"COMMENT", root);
    }
    probes.b.g
}

struct Probes {
    b: Builder,
    /// The rule n can be named.
    named: bool,
}

impl Probes {
    fn probe(&mut self) -> u32 {
        let slice = self.b.node(kind::PEEK_SLICE, 0, 1, 0);
        self.b.one(kind::REP, slice)
    }

    /// Work on the stack, then the probe after success, after failure, or after turns.
    fn rule(&mut self, rng: &mut Rng) -> u32 {
        let mut parts = vec![];
        if !rng.once_in(4) {
            parts.push(self.b.ident("POP_ALL"));
        }
        for _ in 0..rng.between(0, 3) {
            let item = self.simple(rng);
            parts.push(item);
        }
        let work = self.work(rng, 3);
        let probe = self.probe();
        let last = match rng.below(8) {
            0 | 1 => self.b.choice(work, probe),
            2 => {
                let turns = self.repeated(work, rng);
                self.b.choice(turns, probe)
            }
            3 | 4 => {
                let turns = self.repeated(work, rng);
                self.b.seq(turns, probe)
            }
            _ => self.b.seq(work, probe),
        };
        parts.push(last);
        self.b.fold(kind::SEQ, &parts)
    }

    fn repeated(&mut self, part: u32, rng: &mut Rng) -> u32 {
        let count = *rng.pick(&[0, 1, 2, 3, 4, 7, 8, 9, 10, u32::MAX]);
        let other = *rng.pick(&[0, 1, 2, 3, 5, 8, 9, u32::MAX]);
        match rng.below(7) {
            0 => self.b.one(kind::OPT, part),
            1 => self.b.one(kind::REP, part),
            2 => self.b.one(kind::REP_ONCE, part),
            3 => self.b.node(kind::REP_EXACT, part, count, 0),
            4 => self.b.node(kind::REP_MIN, part, count, 0),
            5 => self.b.node(kind::REP_MAX, part, count, 0),
            _ => self.b.node(kind::REP_MIN_MAX, part, count, other),
        }
    }

    /// A tree of work on the stack.
    fn work(&mut self, rng: &mut Rng, depth: u32) -> u32 {
        if depth == 0 || rng.once_in(5) {
            return self.simple(rng);
        }
        let left = self.work(rng, depth - 1);
        match rng.below(15) {
            12 | 13 => self.b.one(kind::PUSH, left),
            14 => {
                let text = self.b.str("ab");
                let probe = self.probe();
                let side = self.b.seq(text, probe);
                self.b.choice(side, left)
            }
            0..=3 => {
                let right = self.work(rng, depth - 1);
                self.b.seq(left, right)
            }
            4 | 5 => {
                let right = self.work(rng, depth - 1);
                self.b.choice(left, right)
            }
            6 => {
                let text = self.b.str("ab");
                let left = self.b.seq(text, left);
                let right = self.work(rng, depth - 1);
                self.b.choice(left, right)
            }
            7 | 8 => self.repeated(left, rng),
            9 => {
                let kind = *rng.pick(&[kind::POS_PRED, kind::NEG_PRED]);
                self.b.one(kind, left)
            }
            10 => self.b.one(kind::PUSH, left),
            _ => self.b.one(kind::NODE_TAG, left),
        }
    }

    /// A slice: PEEK_ALL, one that succeeds, or another.
    fn slice(&mut self, rng: &mut Rng) -> u32 {
        let (start, stands, end) =
            *rng.pick(&[(0, 0, 0), (0, 1, 0), (1, 0, 0), (0, 1, 1), (1, 1, 0)]);
        self.b.node(kind::PEEK_SLICE, start, stands, end)
    }

    fn simple(&mut self, rng: &mut Rng) -> u32 {
        match rng.below(21) {
            18 => self.b.node(kind::RANGE, 0, 0, 0),
            19 => self.slice(rng),
            20 => {
                let text: &[u8] = if rng.once_in(2) { b"" } else { b"x" };
                self.b.leaf(kind::INSENS, text)
            }
            0..=2 => self.b.leaf(kind::PUSH_LITERAL, b""),
            3 | 4 => self.b.leaf(kind::PUSH_LITERAL, b"y"),
            5 => {
                let part = self.b.str("ab");
                self.b.one(kind::PUSH, part)
            }
            6 | 7 => self.b.ident("POP"),
            8 | 9 => self.b.ident("DROP"),
            10 => self.b.ident("PEEK"),
            11 => self.b.ident("POP_ALL"),
            12 => self.b.ident("PEEK_ALL"),
            13 => self.b.str("ab"),
            14 => self.b.str(""),
            15 if self.named => self.b.ident("n"),
            16 => {
                let text = self.b.str("ab");
                let push = self.b.leaf(kind::PUSH_LITERAL, b"");
                let left = self.b.seq(text, push);
                let right = self.b.str("b");
                self.b.choice(left, right)
            }
            _ => {
                let part = self.b.leaf(kind::PUSH_LITERAL, b"");
                let kind = *rng.pick(&[kind::REP_EXACT, kind::REP_MAX]);
                self.b.node(kind, part, rng.between(2, 9), 0)
            }
        }
    }
}
