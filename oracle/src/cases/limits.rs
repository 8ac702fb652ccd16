//! Sides of the limits: 64 starts (11), 256 open nodes (12), 65,536 entered nodes (13).

use crate::bits;
use crate::builder::Builder;
use crate::image::{kind, Grammar};

/// A grammar with what it is for; bits are the Rust's where `rust_bits` says so, else clear.
pub struct Sided {
    pub says: String,
    pub g: Grammar,
}

fn sided(says: impl Into<String>, mut g: Grammar, rust_bits: bool) -> Sided {
    if rust_bits {
        bits::set_rust_bits(&mut g);
    }
    for (n, node) in g.nodes.iter_mut().enumerate() {
        (node.start, node.end) = (n as u32 / 3, n as u32);
    }
    Sided {
        says: says.into(),
        g,
    }
}

/// All of them.
pub fn all() -> Vec<Sided> {
    let mut cases = nested();
    cases.extend(deep_names());
    cases.extend(left_depth());
    cases.extend(entered());
    cases.extend(both_due());
    cases.extend(starts());
    cases
}

/// One rule of nested PosPred over a Str, so many nodes in all.
fn nest(nodes: u32) -> Grammar {
    let mut b = Builder::default();
    let leaf = b.str("a");
    let root = b.nested(kind::POS_PRED, nodes - 1, leaf);
    b.rule(b"a", root);
    b.g
}

fn nested() -> Vec<Sided> {
    [255, 256, 257, 258]
        .map(|n| sided(format!("{n} nested PosPred"), nest(n), true))
        .into()
}

/// A name over a rule of so many nested nodes: name and root are two open nodes.
fn named_nest(nodes: u32) -> Grammar {
    let mut b = Builder::default();
    let name = b.ident("r1");
    b.rule(b"r0", name);
    let leaf = b.str("a");
    let root = b.nested(kind::POS_PRED, nodes - 1, leaf);
    b.rule(b"r1", root);
    b.g
}

/// A rule `"a" ~` and nested nodes over a name behind it, where the left search does not go.
fn nest_behind(b: &mut Builder, nested: u32, name: &str, rule: &[u8]) {
    let first = b.str("a");
    let name = b.ident(name);
    let deep = b.nested(kind::POS_PRED, nested, name);
    let root = b.seq(first, deep);
    b.rule(rule, root);
}

/// Nested nodes over a name that is remembered.
fn remembered_nest(nested: u32, remembered: bool) -> Grammar {
    let mut b = Builder::default();
    let q = b.str("q");
    b.rule(b"q", q);
    if remembered {
        let name = b.ident("q");
        b.rule(b"s", name);
    }
    nest_behind(&mut b, nested, "q", b"top");
    b.g
}

/// The same, the name being of a rule that is open.
fn open_nest(nested: u32) -> Grammar {
    let mut b = Builder::default();
    nest_behind(&mut b, nested, "r", b"r");
    b.g
}

/// Nested nodes over an unbounded repetition of a name: its body is asked at one depth by all.
fn repeated_nest(nested: u32) -> Grammar {
    let mut b = Builder::default();
    let q = b.node(kind::PEEK_SLICE, 0, 1, 0);
    b.rule(b"q", q);
    let first = b.str("a");
    let name = b.ident("q");
    let turns = b.one(kind::REP, name);
    let deep = b.nested(kind::POS_PRED, nested, turns);
    let root = b.seq(first, deep);
    b.rule(b"top", root);
    b.g
}

fn deep_names() -> Vec<Sided> {
    let mut cases = vec![];
    for n in [254, 255, 256] {
        let says = format!("a name over {n} nested nodes");
        cases.push(sided(says, named_nest(n), true));
    }
    for n in [252, 253, 254, 255] {
        let says = format!("{n} nested nodes over a remembered name");
        cases.push(sided(says, remembered_nest(n, true), true));
        let says = format!("{n} nested nodes over a name");
        cases.push(sided(says, remembered_nest(n, false), true));
        let says = format!("{n} nested nodes over a repetition");
        cases.push(sided(says, repeated_nest(n), true));
    }
    for n in [120, 125, 126, 127, 128, 250, 252, 253, 254] {
        let says = format!("{n} nested nodes over the name of their own rule");
        cases.push(sided(says, open_nest(n), true));
    }
    cases
}

/// A skip that changes the stack: the stack pass is not run, so that 12 comes of the left search.
fn modifying_skip(b: &mut Builder) {
    let root = b.leaf(kind::PUSH_LITERAL, b" ");
    b.rule(b"COMMENT", root);
}

fn left_depth() -> Vec<Sided> {
    let mut cases = vec![];
    for n in [256, 257] {
        let mut b = Builder { g: nest(n) };
        modifying_skip(&mut b);
        cases.push(sided(
            format!("left search over {n} nested nodes"),
            b.g,
            true,
        ));
    }
    for n in [255, 256] {
        let mut b = Builder { g: named_nest(n) };
        modifying_skip(&mut b);
        let says = format!("left search over a name and {n} nested nodes");
        cases.push(sided(says, b.g, true));
    }
    for n in [257, 300] {
        let mut b = Builder { g: open_nest(n) };
        modifying_skip(&mut b);
        let says = format!("{n} nested nodes where nothing searches");
        cases.push(sided(says, b.g, true));
    }
    cases
}

/// Rules x0 .. x`top`: x0 is a Str, each other one names the one before twice. A search that enters
/// the name of x`k` enters 2^(k+2) - 2 nodes.
fn doubling(b: &mut Builder, top: u32) {
    let leaf = b.str("a");
    b.rule(b"x0", leaf);
    for k in 1..=top {
        let name = format!("x{}", k - 1);
        let (left, right) = (b.ident(&name), b.ident(&name));
        let root = b.choice(left, right);
        b.rule(format!("x{k}").as_bytes(), root);
    }
}

/// Nodes entered under the name of x`k`, the name included.
fn entered_by(k: u32) -> u32 {
    (1 << (k + 2)) - 2
}

/// A node whose search enters so many nodes.
fn entering(b: &mut Builder, nodes: u32) -> u32 {
    let k = (0..14).rev().find(|&k| entered_by(k) <= nodes);
    let Some(k) = k else { return b.str("a") };
    let name = b.ident(&format!("x{k}"));
    match nodes - entered_by(k) {
        few @ 0..=2 => b.nested(kind::POS_PRED, few, name),
        more => {
            let rest = entering(b, more - 1);
            b.choice(name, rest)
        }
    }
}

fn entered() -> Vec<Sided> {
    let mut cases = vec![];
    for nodes in [65_535, 65_536, 65_537, 65_538] {
        let mut b = Builder::default();
        doubling(&mut b, 13);
        let root = entering(&mut b, nodes);
        b.rule(b"top", root);
        let says = format!("a search that enters {nodes} nodes");
        cases.push(sided(says, b.g, false));
    }
    let mut b = Builder::default();
    doubling(&mut b, 60);
    cases.push(sided("sixty rules, each naming the next twice", b.g, false));
    cases
}

/// The 257th open node is the 65,537th entered one, or one off.
fn both_due() -> Vec<Sided> {
    let mut cases = vec![];
    for before in [65_279, 65_280, 65_281] {
        let mut b = Builder::default();
        doubling(&mut b, 13);
        let left = entering(&mut b, before);
        let leaf = b.str("a");
        let right = b.nested(kind::POS_PRED, 256, leaf);
        let root = b.choice(left, right);
        b.rule(b"top", root);
        modifying_skip(&mut b);
        let says = format!("{before} nodes, then 257 open ones");
        cases.push(sided(says, b.g, false));
    }
    cases
}

/// So many different patterns of 4 blanks among 8 entries.
fn patterns(count: usize) -> Vec<u8> {
    let four = (0..=255u8).filter(|p| p.count_ones() == 4);
    four.take(count).collect()
}

/// Entries that are blank as the pattern says, the lowest bit pushed first.
fn pushes(b: &mut Builder, pattern: u8) -> u32 {
    let mut parts = vec![];
    for bit in 0..8 {
        let text: &[u8] = if pattern >> bit & 1 == 1 { b"" } else { b"y" };
        parts.push(b.leaf(kind::PUSH_LITERAL, text));
    }
    b.fold(kind::SEQ, &parts)
}

/// A rule that surely succeeds on a stack of this pattern and may fail on every other one of 4.
fn test_rule(b: &mut Builder, name: &str, pattern: u8) {
    let lowest = pattern.trailing_zeros();
    let mut parts = vec![];
    for bit in (lowest..8).rev() {
        let blank = pattern >> bit & 1 == 1;
        parts.push(b.ident(if blank { "POP" } else { "DROP" }));
    }
    let root = b.fold(kind::SEQ, &parts);
    b.rule(name.as_bytes(), root);
}

/// A rule `body` that takes each pattern surely to the next one; the last goes to `after_last`.
fn pattern_body(b: &mut Builder, patterns: &[u8], after_last: u8) {
    for (i, &pattern) in patterns.iter().enumerate() {
        test_rule(b, &format!("t{i}"), pattern);
    }
    let drops: Vec<u32> = (0..8).map(|_| b.ident("DROP")).collect();
    let drop_all = b.fold(kind::SEQ, &drops);
    b.rule(b"d", drop_all);
    let next = |i: usize| *patterns.get(i + 1).unwrap_or(&after_last);
    let mut sides = vec![];
    for bit in 0..8 {
        let mut parts = vec![];
        for i in (0..patterns.len()).filter(|&i| next(i) >> bit & 1 == 1) {
            let name = b.ident(&format!("t{i}"));
            parts.push(b.one(kind::NEG_PRED, name));
        }
        parts.push(b.ident("d"));
        parts.push(pushes(b, !(1 << bit)));
        sides.push(b.fold(kind::SEQ, &parts));
    }
    let drop_all = b.ident("d");
    let all_blank = pushes(b, 255);
    sides.push(b.seq(drop_all, all_blank));
    let root = b.fold(kind::CHOICE, &sides);
    b.rule(b"body", root);
}

/// A rule that pushes the first pattern and repeats the body.
fn run_rule(b: &mut Builder, name: &str, first: u8, kind: u8, counts: (u32, u32)) {
    let start = pushes(b, first);
    let body = b.ident("body");
    let turns = b.node(kind, body, counts.0, counts.1);
    let root = b.seq(start, turns);
    b.rule(name.as_bytes(), root);
}

/// The body that goes round so many patterns, and one rule for each repetition.
fn round(count: usize, repetitions: &[(u8, u32, u32)]) -> Grammar {
    let mut b = Builder::default();
    let patterns = patterns(count);
    pattern_body(&mut b, &patterns, patterns[0]);
    for (i, &(kind, x, y)) in repetitions.iter().enumerate() {
        run_rule(&mut b, &format!("run{i}"), patterns[0], kind, (x, y));
    }
    b.g
}

/// The body that ends at the last pattern.
fn ending(count: usize, repetitions: &[(u8, u32, u32)]) -> Grammar {
    let mut b = Builder::default();
    let patterns = patterns(count);
    pattern_body(&mut b, &patterns, patterns[count - 1]);
    for (i, &(kind, x, y)) in repetitions.iter().enumerate() {
        run_rule(&mut b, &format!("run{i}"), patterns[0], kind, (x, y));
    }
    b.g
}

fn starts() -> Vec<Sided> {
    let huge = u32::MAX;
    let answered = [
        (kind::REP_EXACT, 64, 0),
        (kind::REP_MAX, 64, 0),
        (kind::REP_MIN_MAX, 64, 128),
    ];
    let round_64 = [
        (kind::REP, 0, 0),
        (kind::REP_EXACT, huge, 0),
        (kind::REP_MIN, 65, 0),
        (kind::REP_MIN_MAX, 1000, huge),
    ];
    let ends = [(kind::REP_ONCE, 0, 0), (kind::REP_MIN, 30, 0)];
    vec![
        sided("64 starts of 65", round(65, &answered), true),
        sided("round 64 patterns", round(64, &round_64), true),
        sided(
            "65 patterns, the first in a run of its own",
            ending(65, &ends),
            true,
        ),
        sided(
            "exactly 65 of 65",
            round(65, &[(kind::REP_EXACT, 65, 0)]),
            true,
        ),
        sided(
            "at most 65 of 65",
            round(65, &[(kind::REP_MAX, 65, 0)]),
            true,
        ),
        sided("greedy over 65", round(65, &[(kind::REP, 0, 0)]), true),
    ]
}
