//! Writes changed copies of the Rust's files side by side into one crate, each under its number.

use std::fs;

use super::{all, Edit, PARSER, STACK_LOOPS, VALIDATOR};

/// Writes the copies with these numbers, and the two modules that choose among them. A change of
/// parser.rs cannot stand beside others: it takes the place of the file.
pub fn batch(sources: &str, numbers: &[usize], changed: &str) {
    let edits = all(sources);
    let of = |file: &str| -> Vec<usize> {
        let fits = |n: &&usize| edits[**n].file == file;
        numbers.iter().filter(fits).copied().collect()
    };
    let loops = format!("{changed}/validator/stack_loops/changed");
    let whole = format!("{changed}/changed");
    for directory in [&loops, &whole] {
        let _ = fs::remove_dir_all(directory);
        fs::create_dir_all(directory).expect("room to write");
    }
    let write_all = |file: &str, directory: &str| {
        for n in of(file) {
            put(
                &format!("{directory}/c{n}.rs"),
                &edits[n].apply(&source(sources, file)),
            );
        }
    };
    write_all(STACK_LOOPS, &loops);
    write_all(VALIDATOR, &whole);
    put(&format!("{loops}.rs"), &choose_loops(&of(STACK_LOOPS)));
    put(&format!("{whole}.rs"), &choose_whole(&of(VALIDATOR)));
    put(&format!("{whole}/stack_loops.rs"), HANDED_ON);
    let parser = of(PARSER).first().map(|&n| edits[n].clone());
    let text = source(sources, PARSER);
    put(
        &format!("{changed}/{PARSER}"),
        &parser.map_or(text.clone(), |edit: Edit| edit.apply(&text)),
    );
}

fn source(sources: &str, file: &str) -> String {
    fs::read_to_string(format!("{sources}/{file}")).expect("a source")
}

fn put(path: &str, text: &str) {
    fs::write(path, text).expect("room to write");
}

/// What a changed validator.rs finds as its `stack_loops`: the pass as it is.
const HANDED_ON: &str = "\
use crate::parser::{ParserRule, Rule};
use pest::error::Error;
pub(super) fn validate_stack_repetition<'a, 'i: 'a>(
    rules: &'a [ParserRule<'i>],
) -> Vec<Error<Rule>> {
    <crate::Rust as crate::Doors>::stack_pass(rules, None)
}
";

/// The module that chooses a copy of stack_loops.rs.
fn choose_loops(numbers: &[usize]) -> String {
    let mut text = String::from(
        "use super::{is_non_failing, is_non_progressing, to_hash_map};\n\
         use crate::parser::{ParserRule, Rule};\nuse pest::error::Error;\n",
    );
    let mut arms = String::new();
    for n in numbers {
        text += &format!("mod c{n};\n");
        arms += &format!("Some({n}) => Some(c{n}::validate_stack_repetition(rules)),\n");
    }
    text + "pub(super) fn pass(rules: &[ParserRule<'_>]) -> Option<Vec<Error<Rule>>> {\n"
        + &format!("match crate::chosen() {{\n{arms}_ => None,\n}}\n}}\n")
}

/// The module that chooses a copy of validator.rs.
fn choose_whole(numbers: &[usize]) -> String {
    let mut text =
        String::from("use crate::parser::{ParserRule, Rule};\nuse pest::error::Error;\n");
    let mut arms = String::new();
    for n in numbers {
        text += &format!("#[path = \"changed/c{n}.rs\"]\nmod c{n};\n");
        arms += &format!("Some({n}) => Some(c{n}::validate_ast(rules)),\n");
    }
    text + "pub fn validate_ast(rules: &Vec<ParserRule<'_>>) -> Option<Vec<Error<Rule>>> {\n"
        + &format!("match crate::chosen() {{\n{arms}_ => None,\n}}\n}}\n")
}
