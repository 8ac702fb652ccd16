//! pest_meta's validator as it stands in docs/src, with doors to its private functions.
#![allow(unknown_lints, dead_code, mismatched_lifetime_syntaxes)]

use std::cell::{Cell, RefCell};
use std::collections::HashMap;

use parser::{ParserRule, Rule};
use pest::error::Error;
use pest::Span;

pub mod ast;
mod changed;
pub mod parser;
pub mod validator;

thread_local! {
    /// The states at which `loops_forever` said yes: (node, state), in order.
    static NOTES: RefCell<Vec<(u32, u32)>> = const { RefCell::new(vec![]) };
    /// Verdict bits 1 and 2 lent to the stack pass, by the address of the expression.
    static LENT: RefCell<Option<HashMap<usize, u8>>> = const { RefCell::new(None) };
    /// The number of the changed copy that stands in for the validator; only `oracle/mutants` has some.
    static CHOSEN: Cell<Option<u32>> = const { Cell::new(None) };
}

/// Chooses a changed copy.
pub fn choose(number: u32) {
    CHOSEN.with(|chosen| chosen.set(Some(number)));
}

/// The number of the chosen copy.
fn chosen() -> Option<u32> {
    CHOSEN.with(Cell::get)
}

/// The validator, or the changed copy that was chosen.
#[allow(clippy::ptr_arg)]
pub fn validate_ast(rules: &Vec<ParserRule<'_>>) -> Vec<Error<Rule>> {
    changed::validate_ast(rules).unwrap_or_else(|| validator::validate_ast(rules))
}

/// Notes the state of a repetition about to be reported: the one line put into stack_loops.rs.
fn note(span: Span<'_>, base: u32, len: u8, blank: u8, intact: bool) {
    let state = u32::from(blank) + 256 * u32::from(len) + 4096 * base + 16384 * u32::from(intact);
    NOTES.with(|notes| notes.borrow_mut().push((span.node(), state)));
}

/// Empties the notes.
fn forget_notes() {
    NOTES.with(|notes| notes.borrow_mut().clear());
}

/// The first state noted for a node: a node that is held back once is held back always.
fn first_note(node: u32) -> Option<u32> {
    NOTES.with(|notes| notes.borrow().iter().find(|n| n.0 == node).map(|n| n.1))
}

/// The lent bits of the expression at an address, where bits are lent.
fn lent_bits(address: usize) -> Option<u8> {
    LENT.with(|lent| lent.borrow().as_ref().map(|bits| bits[&address]))
}

/// Lends bits to the stack pass, or takes them back.
fn lend_bits(bits: Option<HashMap<usize, u8>>) {
    LENT.with(|lent| *lent.borrow_mut() = bits);
}

/// What the validator keeps private: the module in the place of `stack_loops` opens it.
pub trait Doors {
    /// Verdict bits 1, 2 and 4 of each node.
    fn verdict_bits(rules: &[ParserRule<'_>]) -> Vec<(u32, u8)>;

    /// The stack pass alone, with the verdict bits of each node given, or with its own verdicts.
    fn stack_pass(rules: &[ParserRule<'_>], bits: Option<&[u8]>) -> Vec<Error<Rule>>;
}

/// Who holds the doors.
pub struct Rust;
