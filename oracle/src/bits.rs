//! Verdict bits 1, 2 and 4 from the Rust's own `is_non_failing` and `is_non_progressing`.

use pest_meta::{Doors, Rust};

use crate::image::{kind, Grammar};
use crate::judge;

/// Most nodes that the verdict functions may look at in one grammar before it is called too dear.
const DEAR: u32 = 300_000;

/// Sets the bits of every node to the Rust's verdicts.
pub fn set_rust_bits(g: &mut Grammar) {
    for (node, bits) in Rust::verdict_bits(&judge::rules(g)) {
        g.nodes[node as usize].bits = bits;
    }
}

/// The bits of the image are the Rust's.
pub fn are_rust_bits(g: &Grammar) -> bool {
    let mut own = g.clone();
    set_rust_bits(&mut own);
    own == *g
}

/// The Rust can judge the grammar in good time: its verdicts and its left search look at every path
/// through the names, which may be exponentially many.
pub fn affordable(g: &Grammar) -> bool {
    let mut left = DEAR;
    (0..g.rules.len()).all(|rule| paths(g, rule, &mut vec![], &mut left))
}

/// Walks all paths from a rule, each rule once on a path; false when more than `left` nodes are met.
fn paths(g: &Grammar, rule: usize, trail: &mut Vec<usize>, left: &mut u32) -> bool {
    trail.push(rule);
    let mut todo = vec![g.rules[rule].root];
    while let Some(n) = todo.pop() {
        if *left == 0 {
            return false;
        }
        *left -= 1;
        let node = &g.nodes[n as usize];
        todo.extend(node.parts());
        if node.kind != kind::IDENT {
            continue;
        }
        match g.find_rule(g.text_of(node)) {
            Some(next) if !trail.contains(&next) && !paths(g, next, trail, left) => return false,
            _ => (),
        }
    }
    trail.pop();
    true
}
