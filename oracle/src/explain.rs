//! Prints an image as readable text: grammar, nodes, and reports in words.

use crate::image::{kind, Grammar};

/// Bytes as quoted text.
fn quoted(bytes: &[u8]) -> String {
    format!("\"{}\"", bytes.escape_ascii())
}

/// A node and its parts as pest writes them.
pub fn expression(g: &Grammar, n: u32) -> String {
    let node = &g.nodes[n as usize];
    let part = || expression(g, node.a);
    let tight = || match g.nodes[node.a as usize].kind {
        kind::POS_PRED | kind::NEG_PRED | kind::NODE_TAG => format!("({})", part()),
        _ => part(),
    };
    match node.kind {
        kind::STR => quoted(g.text_of(node)),
        kind::INSENS => format!("^{}", quoted(g.text_of(node))),
        kind::RANGE => "'a'..'z'".to_owned(),
        kind::IDENT => g.text_of(node).escape_ascii().to_string(),
        kind::PEEK_SLICE if node.b == 0 => format!("PEEK[{}..]", node.a as i32),
        kind::PEEK_SLICE => format!("PEEK[{}..{}]", node.a as i32, node.c as i32),
        kind::POS_PRED => format!("&{}", tight()),
        kind::NEG_PRED => format!("!{}", tight()),
        kind::SEQ => format!("({} ~ {})", part(), expression(g, node.b)),
        kind::CHOICE => format!("({} | {})", part(), expression(g, node.b)),
        kind::OPT => format!("{}?", tight()),
        kind::REP => format!("{}*", tight()),
        kind::REP_ONCE => format!("{}+", tight()),
        kind::REP_EXACT => format!("{}{{{}}}", tight(), node.b),
        kind::REP_MIN => format!("{}{{{},}}", tight(), node.b),
        kind::REP_MAX => format!("{}{{,{}}}", tight(), node.b),
        kind::REP_MIN_MAX => format!("{}{{{},{}}}", tight(), node.b, node.c),
        kind::PUSH => format!("PUSH({})", part()),
        kind::PUSH_LITERAL => format!("PUSH_LITERAL({})", quoted(g.text_of(node))),
        _ => format!("#t = {}", tight()),
    }
}

/// The rules of a grammar.
pub fn grammar(g: &Grammar) -> String {
    let mut lines = String::new();
    for rule in &g.rules {
        let name = g.name_of(rule).escape_ascii();
        lines += &format!("{name} = {{ {} }}\n", expression(g, rule.root));
    }
    lines
}

/// The nodes of a grammar, one a line: number, bits, span, text.
pub fn nodes(g: &Grammar) -> String {
    let mut lines = String::new();
    for (n, node) in g.nodes.iter().enumerate() {
        let text = expression(g, n as u32);
        let (bits, start, end) = (node.bits, node.start, node.end);
        lines += &format!("node {n} bits {bits} span {start}..{end}: {text}\n");
    }
    lines
}

/// A report in words.
pub fn report(g: &Grammar, report: u64) -> String {
    let node = (report & 0xffff) as u32;
    let state = report >> 16 & 0xffff;
    let reason = report >> 32;
    let words = match reason {
        1 => "repetition cannot fail",
        2 => "repetition does not progress",
        3 => "stack loop",
        4 => "choice cannot be reached after this side",
        _ => "left recursion",
    };
    let text = expression(g, node);
    format!("{report}: reason {reason} ({words}), state {state}, node {node}: {text}")
}
