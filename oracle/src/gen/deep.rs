//! Random grammars whose asking goes nearly 256 nodes deep, or a little deeper.

use crate::builder::Builder;
use crate::image::{kind, Grammar};
use crate::rng::Rng;

/// One long chain of nodes, cut into rules; under it a small part that is asked often.
pub fn grammar(rng: &mut Rng) -> Grammar {
    let mut b = Builder::default();
    let rules = rng.between(1, 6);
    let length = rng.between(225, 262) / rules;
    let mut below = bottom(&mut b, rng);
    for rule in (0..rules).rev() {
        for _ in 0..rng.between(length - 6, length + 3) {
            below = link(&mut b, below, rng);
        }
        let name = format!("d{rule}");
        b.rule(name.as_bytes(), below);
        below = b.ident(&name);
    }
    let root = b.one(kind::POS_PRED, below);
    b.rule(b"top", root);
    if rng.once_in(3) {
        let name = if rng.once_in(2) {
            "WHITESPACE"
        } else {
            "COMMENT"
        };
        let root = if rng.once_in(2) {
            b.leaf(kind::PUSH_LITERAL, b" ")
        } else {
            b.str(" ")
        };
        b.rule(name.as_bytes(), root);
    }
    b.g
}

/// The small part at the bottom: sometimes a repetition, sometimes the way back to the top.
fn bottom(b: &mut Builder, rng: &mut Rng) -> u32 {
    let leaf = small_leaf(b, rng);
    match rng.below(5) {
        0 => b.node(kind::REP_EXACT, leaf, 3, 0),
        1 => b.one(kind::REP, leaf),
        2 => {
            let other = small_leaf(b, rng);
            b.choice(leaf, other)
        }
        3 => {
            let back = b.ident("top");
            b.seq(leaf, back)
        }
        _ => leaf,
    }
}

fn small_leaf(b: &mut Builder, rng: &mut Rng) -> u32 {
    match rng.below(5) {
        0 => b.str(""),
        1 => b.str("a"),
        2 => b.ident("PEEK_ALL"),
        3 => b.ident("DROP"),
        _ => b.node(kind::PEEK_SLICE, 0, 1, 0),
    }
}

/// One more node on top of the chain.
fn link(b: &mut Builder, below: u32, rng: &mut Rng) -> u32 {
    match rng.below(16) {
        0..=3 => b.one(kind::POS_PRED, below),
        4 | 5 => b.one(kind::NEG_PRED, below),
        6 | 7 => b.one(kind::OPT, below),
        8 => b.one(kind::NODE_TAG, below),
        9 => b.one(kind::PUSH, below),
        10 => b.node(kind::REP_EXACT, below, 1, 0),
        11 => b.one(kind::REP_ONCE, below),
        12 | 13 => {
            let left = small_leaf(b, rng);
            b.seq(left, below)
        }
        14 => {
            let right = small_leaf(b, rng);
            b.choice(below, right)
        }
        _ => {
            let right = small_leaf(b, rng);
            b.seq(below, right)
        }
    }
}
