//! The syntax tree of a grammar, cut out of parser.rs; the parser itself is left out.

use pest::Span;

use crate::ast::RuleType;

/// The rules of pest's own grammar that the validator names.
#[allow(non_camel_case_types)]
#[derive(Clone, Copy, Debug, PartialEq, Eq)]
pub enum Rule {
    grammar_rule,
    line_doc,
    identifier,
}
