//! The Rust as judge: a grammar as the tree of pest_meta, and its reports in document 01's numbers.

use pest::error::{Error, InputLocation};
use pest::Span;
use pest_meta::ast::RuleType;
use pest_meta::parser::{ParserExpr, ParserNode, ParserRule, Rule};
use pest_meta::{validate_ast, Doors, Rust};

use crate::image::{kind, Grammar};

/// A report: node + 65,536 x state + 2^32 x reason.
pub fn number(node: u32, state: u32, reason: u64) -> u64 {
    u64::from(node) + 65_536 * u64::from(state) + (reason << 32)
}

/// Bytes as text, one character a byte: different bytes stay different, ASCII stays as it is.
fn text(bytes: &[u8]) -> String {
    bytes.iter().map(|&b| char::from(b)).collect()
}

/// The grammar as the rules that pest_meta's parser would hand on.
pub fn rules(g: &Grammar) -> Vec<ParserRule<'static>> {
    let rule = |r: &crate::image::Rule| ParserRule {
        name: text(g.name_of(r)),
        span: Span::of_node(r.root, 0, 0),
        ty: RuleType::Normal,
        node: node(g, r.root),
    };
    g.rules.iter().map(rule).collect()
}

fn node(g: &Grammar, number: u32) -> ParserNode<'static> {
    let n = &g.nodes[number as usize];
    ParserNode {
        expr: expr(g, number),
        span: Span::of_node(number, n.start, n.end),
    }
}

fn expr(g: &Grammar, number: u32) -> ParserExpr<'static> {
    let n = &g.nodes[number as usize];
    let part = || Box::new(node(g, n.a));
    let right = || Box::new(node(g, n.b));
    let string = || text(g.text_of(n));
    match n.kind {
        kind::STR => ParserExpr::Str(string()),
        kind::INSENS => ParserExpr::Insens(string()),
        kind::RANGE => ParserExpr::Range("a".to_owned(), "z".to_owned()),
        kind::IDENT => ParserExpr::Ident(string()),
        kind::PEEK_SLICE => ParserExpr::PeekSlice(n.a as i32, (n.b == 1).then_some(n.c as i32)),
        kind::POS_PRED => ParserExpr::PosPred(part()),
        kind::NEG_PRED => ParserExpr::NegPred(part()),
        kind::SEQ => ParserExpr::Seq(part(), right()),
        kind::CHOICE => ParserExpr::Choice(part(), right()),
        kind::OPT => ParserExpr::Opt(part()),
        kind::REP => ParserExpr::Rep(part()),
        kind::REP_ONCE => ParserExpr::RepOnce(part()),
        kind::REP_EXACT => ParserExpr::RepExact(part(), n.b),
        kind::REP_MIN => ParserExpr::RepMin(part(), n.b),
        kind::REP_MAX => ParserExpr::RepMax(part(), n.b),
        kind::REP_MIN_MAX => ParserExpr::RepMinMax(part(), n.b, n.c),
        kind::PUSH => ParserExpr::Push(part()),
        kind::PUSH_LITERAL => ParserExpr::PushLiteral(string()),
        kind::NODE_TAG => ParserExpr::NodeTag(part(), "tag".to_owned()),
        other => unreachable!("kind {other}"),
    }
}

/// The reason of an error; none for the checks that document 01 leaves out.
fn reason(error: &Error<Rule>) -> Option<u64> {
    let message = error.message();
    if error.state.is_some() {
        Some(3)
    } else if message == "expression inside repetition cannot fail and will repeat infinitely" {
        Some(1)
    } else if message
        == "expression inside repetition is non-progressing and will repeat infinitely"
    {
        Some(2)
    } else if message == "expression cannot fail; following choices cannot be reached" {
        Some(4)
    } else if message.contains(" is left-recursive (") {
        Some(5)
    } else {
        assert!(left_out(message), "unknown message: {message}");
        None
    }
}

/// Messages of the whitespace, comment and tag checks.
fn left_out(message: &str) -> bool {
    ["WHITESPACE ", "COMMENT ", "tags on "]
        .iter()
        .any(|start| message.starts_with(start))
}

fn place(error: &Error<Rule>) -> (usize, usize) {
    match error.location {
        InputLocation::Span(span) => span,
        InputLocation::Pos(at) => (at, at),
    }
}

/// The reports of the whole validator in its own order, but for left recursion among equal spans:
/// there the Rust follows a hash map, and the order of rules stands in for it.
pub fn reports(g: &Grammar) -> Vec<u64> {
    let errors = validate_ast(&rules(g));
    let mut found: Vec<(Error<Rule>, u64)> = errors
        .into_iter()
        .filter_map(|e| reason(&e).map(|r| (e, r)))
        .collect();
    for ties in found.chunk_by_mut(|x, y| place(&x.0) == place(&y.0)) {
        let first = ties.iter().position(|x| x.1 == 5).unwrap_or(ties.len());
        ties[first..].sort_by_key(|x| first_rule(g, &x.0));
    }
    found.iter().map(|(e, r)| number_of(e, *r)).collect()
}

/// The rule whose search reported an Ident: the one that the Ident names.
fn first_rule(g: &Grammar, error: &Error<Rule>) -> Option<usize> {
    g.find_rule(g.text_of(&g.nodes[error.node as usize]))
}

fn number_of(error: &Error<Rule>, reason: u64) -> u64 {
    number(error.node, error.state.unwrap_or(0), reason)
}

/// The reports of the stack pass alone, reading the verdict bits of the image, in order of finding.
pub fn stack_reports(g: &Grammar) -> Vec<u64> {
    let bits: Vec<u8> = g.nodes.iter().map(|n| n.bits).collect();
    let errors = Rust::stack_pass(&rules(g), Some(&bits));
    errors.iter().map(|e| number_of(e, 3)).collect()
}
