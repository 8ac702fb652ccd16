//! Random grammars with WHITESPACE or COMMENT that may change the stack, and a loop to be reported if
//! they do not.

use crate::builder::Builder;
use crate::image::{kind, Grammar};
use crate::rng::Rng;

/// Names of the rules that a skip may name: a rule PEEK is followed, a rule POP is not.
const NAMES: [&str; 6] = ["n1", "n2", "PEEK", "PEEK_ALL", "POP", "DROP"];

/// One or two skips, up to three rules they may name, and a rule that loops.
pub fn grammar(rng: &mut Rng) -> Grammar {
    let mut b = Builder::default();
    let slice = b.node(kind::PEEK_SLICE, 0, 1, 0);
    let looping = b.one(kind::REP, slice);
    b.rule(b"a", looping);
    let which = rng.below(3);
    if which != 1 {
        let root = tree(&mut b, rng, 3);
        b.rule(b"WHITESPACE", root);
    }
    if which != 0 {
        let root = tree(&mut b, rng, 3);
        b.rule(b"COMMENT", root);
    }
    let first = rng.below(6) as usize;
    for i in 0..rng.below(4) as usize {
        let root = tree(&mut b, rng, 2);
        b.rule(NAMES[(first + i) % 6].as_bytes(), root);
    }
    b.g
}

/// A tree with few leaves that change the stack.
fn tree(b: &mut Builder, rng: &mut Rng, depth: u32) -> u32 {
    if depth == 0 || rng.once_in(3) {
        return leaf(b, rng);
    }
    let part = tree(b, rng, depth - 1);
    match rng.below(14) {
        0..=2 => {
            let right = tree(b, rng, depth - 1);
            b.seq(part, right)
        }
        3..=5 => {
            let right = tree(b, rng, depth - 1);
            b.choice(part, right)
        }
        6 if rng.once_in(3) => b.one(kind::PUSH, part),
        6 | 7 => {
            let kind = *rng.pick(&[kind::POS_PRED, kind::NEG_PRED]);
            b.one(kind, part)
        }
        8 => b.one(kind::OPT, part),
        9 => b.one(kind::REP, part),
        10 => b.one(kind::REP_ONCE, part),
        11 => b.one(kind::NODE_TAG, part),
        12 => {
            let kind = *rng.pick(&[kind::REP_EXACT, kind::REP_MIN, kind::REP_MAX]);
            b.node(kind, part, rng.below(3), 0)
        }
        _ => b.node(kind::REP_MIN_MAX, part, rng.below(3), rng.below(3)),
    }
}

fn leaf(b: &mut Builder, rng: &mut Rng) -> u32 {
    match rng.below(20) {
        0 => b.ident("POP"),
        1 => b.ident("DROP"),
        2 => b.ident("POP_ALL"),
        3 => b.leaf(kind::PUSH_LITERAL, b" "),
        4..=8 => {
            let name = *rng.pick(&NAMES[..4]);
            b.ident(name)
        }
        9 => b.node(kind::RANGE, 0, 0, 0),
        10 => b.node(kind::PEEK_SLICE, 0, 0, 0),
        11 => b.leaf(kind::INSENS, b"x"),
        12 => b.ident("COMMENT"),
        _ => b.str(" "),
    }
}
