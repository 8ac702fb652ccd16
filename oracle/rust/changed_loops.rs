//! Changed copies of stack_loops.rs, chosen by number: none in the judge itself.

use crate::parser::{ParserRule, Rule};
use pest::error::Error;

/// The answer of the chosen copy, where there is one.
pub(super) fn pass(_: &[ParserRule<'_>]) -> Option<Vec<Error<Rule>>> {
    None
}
