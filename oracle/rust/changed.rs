//! Changed copies of validator.rs, chosen by number: none in the judge itself.

use crate::parser::{ParserRule, Rule};
use pest::error::Error;

/// The answer of the chosen copy, where there is one.
#[allow(clippy::ptr_arg)]
pub fn validate_ast(_: &Vec<ParserRule<'_>>) -> Option<Vec<Error<Rule>>> {
    None
}
