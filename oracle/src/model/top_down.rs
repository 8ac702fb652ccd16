//! Reasons 1, 2 and 4: rules in order, each top down, left first, and nothing below a NodeTag.

use super::Reports;
use crate::image::{kind, Grammar};
use crate::judge::number;

/// The nodes of a grammar in that order.
fn order(g: &Grammar) -> Vec<u32> {
    let mut nodes = vec![];
    let mut todo: Vec<u32> = g.rules.iter().rev().map(|r| r.root).collect();
    while let Some(n) = todo.pop() {
        nodes.push(n);
        let node = &g.nodes[n as usize];
        if node.kind != kind::NODE_TAG {
            todo.extend(node.parts().iter().rev());
        }
    }
    nodes
}

/// 1 and 2: Rep, RepOnce and RepMin whose part has that bit, 1 where it has both.
pub fn repetitions(g: &Grammar, reports: &mut Reports) -> Result<(), u32> {
    for n in order(g) {
        let node = &g.nodes[n as usize];
        if !matches!(node.kind, kind::REP | kind::REP_ONCE | kind::REP_MIN) {
            continue;
        }
        let bits = g.nodes[node.a as usize].bits;
        if bits & 1 != 0 {
            reports.place(number(n, 0, 1))?;
        } else if bits & 2 != 0 {
            reports.place(number(n, 0, 2))?;
        }
    }
    Ok(())
}

/// 4: a Choice whose judged side has bit 1: its left, or the left's right where the left is a Choice.
pub fn choices(g: &Grammar, reports: &mut Reports) -> Result<(), u32> {
    for n in order(g) {
        let node = &g.nodes[n as usize];
        if node.kind != kind::CHOICE {
            continue;
        }
        let left = &g.nodes[node.a as usize];
        let judged = if left.kind == kind::CHOICE {
            left.b
        } else {
            node.a
        };
        if g.nodes[judged as usize].bits & 1 != 0 {
            reports.place(number(judged, 0, 4))?;
        }
    }
    Ok(())
}
