//! What does not change a tree: the numbers of its nodes, and spans.

use crate::image::{Grammar, Node};
use crate::rng::Rng;

/// The same trees with other node numbers, each part still below its node.
pub fn renumbered(g: &Grammar, rng: &mut Rng) -> Grammar {
    let mut above = vec![None; g.nodes.len()];
    let mut waiting = vec![0; g.nodes.len()];
    for (n, node) in g.nodes.iter().enumerate() {
        for part in node.parts() {
            above[part as usize] = Some(n);
            waiting[n] += 1;
        }
    }
    let mut ready: Vec<usize> = (0..g.nodes.len()).filter(|&n| waiting[n] == 0).collect();
    let mut new_number = vec![0u32; g.nodes.len()];
    let mut nodes = vec![];
    while !ready.is_empty() {
        let n = ready.swap_remove(rng.below(ready.len() as u32) as usize);
        new_number[n] = nodes.len() as u32;
        nodes.push(with_parts(&g.nodes[n], &new_number));
        if let Some(up) = above[n] {
            waiting[up] -= 1;
            if waiting[up] == 0 {
                ready.push(up);
            }
        }
    }
    let mut other = g.clone();
    other.nodes = nodes;
    for rule in &mut other.rules {
        rule.root = new_number[rule.root as usize];
    }
    other
}

fn with_parts(node: &Node, new_number: &[u32]) -> Node {
    let mut node = *node;
    match node.parts().len() {
        1 => node.a = new_number[node.a as usize],
        2 => {
            node.a = new_number[node.a as usize];
            node.b = new_number[node.b as usize];
        }
        _ => (),
    }
    node
}

/// Spans: as in a text, or few different ones, or all the same, or anything.
pub fn set_spans(g: &mut Grammar, ties: bool, rng: &mut Rng) {
    let style = if ties {
        rng.between(1, 2)
    } else {
        rng.below(4)
    };
    let mut at = rng.below(50);
    for rule in g.rules.clone() {
        text_spans(g, rule.root, &mut at);
        at += 5;
    }
    for node in &mut g.nodes {
        let most = match style {
            0 => continue,
            1 => 3,
            2 => 1,
            _ => u32::MAX,
        };
        let (x, y) = (rng.below(most), rng.below(most));
        (node.start, node.end) = (x.min(y), x.max(y));
    }
}

/// Spans as in a text: a node from its first part to its last.
fn text_spans(g: &mut Grammar, n: u32, at: &mut u32) {
    let node = g.nodes[n as usize];
    g.nodes[n as usize].start = *at;
    for part in node.parts() {
        text_spans(g, part, at);
        *at += 1;
    }
    *at += u32::from(node.parts().is_empty());
    g.nodes[n as usize].end = *at;
}
