//! Single-place changes of the Rust's text, made mechanically, for the mutation score.

mod copies;
mod lines;
mod tokens;
mod words;

use std::ops::Range;

pub use copies::batch;

/// One change: a stretch of a file and what is put in its place.
#[derive(Clone, Debug, PartialEq, Eq)]
pub struct Edit {
    pub file: &'static str,
    pub group: &'static str,
    pub place: Range<usize>,
    pub new: String,
}

/// The files that are changed, under the built copy of the Rust.
const STACK_LOOPS: &str = "validator/stack_loops/real.rs";
const VALIDATOR: &str = "validator.rs";
const PARSER: &str = "parser.rs";

/// A stretch of a file to make changes in: group, file, and the text it begins with.
const STRETCHES: [(&str, &str, &str); 10] = [
    ("stack pass", STACK_LOOPS, "impl AbsStack {"),
    ("passes and order", VALIDATOR, "pub fn validate_ast<"),
    ("passes and order", VALIDATOR, "fn validate_repetition<"),
    ("passes and order", VALIDATOR, "fn validate_choices<"),
    ("passes and order", VALIDATOR, "fn validate_left_recursion<"),
    ("passes and order", VALIDATOR, "fn to_hash_map<"),
    ("passes and order", VALIDATOR, "fn left_recursion<"),
    (
        "passes and order",
        PARSER,
        "    pub fn filter_map_top_down<",
    ),
    ("verdicts", VALIDATOR, "fn is_non_failing<"),
    ("verdicts", VALIDATOR, "fn is_non_progressing<"),
];

/// Words that mark a line as no part of what is judged.
const LEFT_OUT: [&str; 5] = [
    "#[derive",
    "crate::note",
    "validate_whitespace_comment",
    "validate_tag_silent_rules",
    "grammar-extras",
];

/// All changes, over the sources in a directory.
pub fn all(directory: &str) -> Vec<Edit> {
    let mut edits: Vec<Edit> = vec![];
    for (group, file, beginning) in STRETCHES {
        let path = format!("{directory}/{file}");
        let text = std::fs::read_to_string(&path).unwrap_or_else(|e| panic!("{path}: {e}"));
        let stretch = stretch(&text, beginning, file == STACK_LOOPS);
        let mut found = words::changes(&text, &stretch);
        found.extend(lines::changes(&text, &stretch));
        for (place, new) in found {
            let edit = Edit {
                file,
                group,
                place,
                new,
            };
            if !edits.contains(&edit) && !is_left_out(&text, &edit) && !is_nothing(&text, &edit) {
                edits.push(edit);
            }
        }
    }
    edits
}

/// From where a text begins to the closing brace in the same column, or to the end of the file.
fn stretch(text: &str, beginning: &str, to_end: bool) -> Range<usize> {
    let start = text
        .find(beginning)
        .unwrap_or_else(|| panic!("no {beginning}"));
    if to_end {
        return start..text.len();
    }
    let indent = beginning.len() - beginning.trim_start().len();
    let closing = format!("\n{}}}\n", " ".repeat(indent));
    let end = text[start..].find(&closing).expect("a closing brace");
    start..start + end + closing.len()
}

fn is_left_out(text: &str, edit: &Edit) -> bool {
    let start = text[..edit.place.start].rfind('\n').map_or(0, |at| at + 1);
    let end = edit.place.end + text[edit.place.end..].find('\n').unwrap_or(0);
    LEFT_OUT.iter().any(|word| text[start..end].contains(word))
}

/// The change puts the same words there again.
fn is_nothing(text: &str, edit: &Edit) -> bool {
    text[edit.place.clone()]
        .split_whitespace()
        .eq(edit.new.split_whitespace())
}

impl Edit {
    /// The changed text of the file.
    pub fn apply(&self, text: &str) -> String {
        let (before, after) = (&text[..self.place.start], &text[self.place.end..]);
        format!("{before}{}{after}", self.new)
    }

    /// One line that tells the change: file, line and column, the old text and the new.
    pub fn tell(&self, directory: &str) -> String {
        let text = std::fs::read_to_string(format!("{directory}/{}", self.file)).expect("a source");
        let before = &text[..self.place.start];
        let line = 1 + before.matches('\n').count();
        let column = 1 + before.len() - before.rfind('\n').map_or(0, |at| at + 1);
        let short = |s: &str| s.split_whitespace().collect::<Vec<_>>().join(" ");
        let (old, new) = (short(&text[self.place.clone()]), short(&self.new));
        format!("{}:{line}:{column}\t{old}\t{new}", self.file)
    }
}
