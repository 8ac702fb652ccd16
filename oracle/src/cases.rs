//! Grammars written by hand: document 01's starred cases, claims about the Rust, sides of each limit.

pub mod claims;
pub mod images;
pub mod limits;
pub mod written;

use crate::image::Grammar;
use crate::{bits, notation};

/// How the verdict bits of a written grammar are set.
#[derive(Clone, Copy, Debug, PartialEq, Eq)]
pub enum Bits {
    Clear,
    Rust,
}

/// Whether the spans are those of the text, or all the same.
#[derive(Clone, Copy, Debug, PartialEq, Eq)]
pub enum Spans {
    Text,
    Same,
}

/// A grammar from its text.
pub fn grammar(text: &str, how: Bits, spans: Spans) -> Grammar {
    let mut g = notation::read(text);
    if spans == Spans::Same {
        for node in &mut g.nodes {
            (node.start, node.end) = (7, 7);
        }
    }
    if how == Bits::Rust {
        bits::set_rust_bits(&mut g);
    }
    g
}
