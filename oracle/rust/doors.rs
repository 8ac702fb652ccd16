//! Stands where validator.rs looks for its module `stack_loops`: hands the work on to the real one,
//! marks the errors of the stack pass with their states, and opens the private verdict functions.

use std::collections::HashMap;

use pest::error::Error;

use super::to_hash_map;
use crate::parser::{ParserExpr, ParserNode, ParserRule, Rule};

mod changed;
mod real;

/// The real pass, or the changed copy that was chosen; each error is given the state noted for its node.
pub(super) fn validate_stack_repetition<'a, 'i: 'a>(
    rules: &'a [ParserRule<'i>],
) -> Vec<Error<Rule>> {
    crate::forget_notes();
    let mut errors =
        changed::pass(rules).unwrap_or_else(|| real::validate_stack_repetition(rules));
    for error in &mut errors {
        error.state = crate::first_note(error.node);
    }
    errors
}

/// The validator's verdict, or the lent bit.
fn is_non_failing<'i>(
    expr: &ParserExpr<'i>,
    rules: &HashMap<String, &ParserNode<'i>>,
    trace: &mut Vec<String>,
) -> bool {
    match crate::lent_bits(address(expr)) {
        Some(bits) => bits & 1 != 0,
        None => super::is_non_failing(expr, rules, trace),
    }
}

/// The validator's verdict, or the lent bit.
fn is_non_progressing<'i>(
    expr: &ParserExpr<'i>,
    rules: &HashMap<String, &ParserNode<'i>>,
    trace: &mut Vec<String>,
) -> bool {
    match crate::lent_bits(address(expr)) {
        Some(bits) => bits & 2 != 0,
        None => super::is_non_progressing(expr, rules, trace),
    }
}

fn address(expr: &ParserExpr<'_>) -> usize {
    std::ptr::from_ref(expr) as usize
}

/// Calls `f` on a node and all nodes below it.
fn each_node<'a, 'i>(node: &'a ParserNode<'i>, f: &mut dyn FnMut(&'a ParserNode<'i>)) {
    f(node);
    match &node.expr {
        ParserExpr::Seq(lhs, rhs) | ParserExpr::Choice(lhs, rhs) => {
            each_node(lhs, f);
            each_node(rhs, f);
        }
        ParserExpr::PosPred(part)
        | ParserExpr::NegPred(part)
        | ParserExpr::Opt(part)
        | ParserExpr::Rep(part)
        | ParserExpr::RepOnce(part)
        | ParserExpr::RepExact(part, _)
        | ParserExpr::RepMin(part, _)
        | ParserExpr::RepMax(part, _)
        | ParserExpr::RepMinMax(part, _, _)
        | ParserExpr::Push(part)
        | ParserExpr::NodeTag(part, _) => each_node(part, f),
        _ => (),
    }
}

/// The bits of each node, by the address of its expression.
fn by_address(rules: &[ParserRule<'_>], bits: &[u8]) -> HashMap<usize, u8> {
    let mut lent = HashMap::new();
    for rule in rules {
        each_node(&rule.node, &mut |node| {
            let _ = lent.insert(address(&node.expr), bits[node.span.node() as usize]);
        });
    }
    lent
}

/// Verdict bits of one expression in the rule `owner`.
fn bits_of(expr: &ParserExpr<'_>, map: &HashMap<String, &ParserNode<'_>>, owner: &str) -> u8 {
    let begun = || vec![owner.to_owned()];
    let cannot_fail = super::is_non_failing(expr, map, &mut vec![]);
    let not_progressing = super::is_non_progressing(expr, map, &mut vec![]);
    let passed = super::is_non_failing(expr, map, &mut begun())
        || super::is_non_progressing(expr, map, &mut begun());
    u8::from(cannot_fail) + 2 * u8::from(not_progressing) + 4 * u8::from(passed)
}

impl crate::Doors for crate::Rust {
    fn verdict_bits(rules: &[ParserRule<'_>]) -> Vec<(u32, u8)> {
        let map = to_hash_map(rules);
        let mut bits = vec![];
        for rule in rules {
            each_node(&rule.node, &mut |node| {
                bits.push((node.span.node(), bits_of(&node.expr, &map, &rule.name)))
            });
        }
        bits
    }

    fn stack_pass(rules: &[ParserRule<'_>], bits: Option<&[u8]>) -> Vec<Error<Rule>> {
        crate::lend_bits(bits.map(|bits| by_address(rules, bits)));
        let errors = validate_stack_repetition(rules);
        crate::lend_bits(None);
        errors
    }
}
