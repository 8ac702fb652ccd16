//! Claims with their numbers, checked on the Rust and on the model by `oracle claims`.

use super::Bits::{Clear, Rust};
use super::Spans::{Same, Text};
use super::{grammar, Bits, Spans};
use crate::image::Grammar;
use crate::{compare, judge, model};

/// A claim: what it says, a grammar, and the reports as (reason, node, state).
pub struct Claim {
    pub says: &'static str,
    pub text: &'static str,
    pub bits: Bits,
    pub spans: Spans,
    pub reports: &'static [(u64, u32, u32)],
}

/// Any, 0, 0, intact: what every rule is walked from.
const ENTRY: u32 = 24_576;

const fn claim(
    says: &'static str,
    text: &'static str,
    bits: Bits,
    spans: Spans,
    reports: &'static [(u64, u32, u32)],
) -> Claim {
    Claim {
        says,
        text,
        bits,
        spans,
        reports,
    }
}

/// Document 01's starred grammars.
pub const STARRED: &[Claim] = &[
    claim(
        "push and pop",
        r#"a = { (PUSH("") ~ POP)* }"#,
        Clear,
        Text,
        &[(3, 4, ENTRY)],
    ),
    claim(
        "push and pop under skips",
        r#"a = { (PUSH("") ~ POP)* } WHITESPACE = { " " }"#,
        Clear,
        Text,
        &[],
    ),
    claim(
        "peek all on the empty stack",
        "a = { POP_ALL ~ PEEK_ALL* }",
        Clear,
        Text,
        &[(3, 2, 0)],
    ),
    claim(
        "peek all on the empty stack under skips",
        r#"a = { POP_ALL ~ PEEK_ALL* } WHITESPACE = { " " }"#,
        Clear,
        Text,
        &[(3, 2, 0)],
    ),
    claim("bare peek all", "a = { PEEK_ALL* }", Clear, Text, &[]),
    claim(
        "a predicate or a stop",
        r#"a = { POP_ALL ~ (&"a" | POP)* }"#,
        Clear,
        Text,
        &[(3, 5, 0)],
    ),
    claim("growth", r#"a = { PUSH_LITERAL("")* }"#, Clear, Text, &[]),
    claim("plain text", r#"a = { "a"* }"#, Clear, Text, &[]),
    claim(
        "min above max is max required copies",
        r#"a = { POP_ALL ~ PUSH_LITERAL(""){5,2} ~ (POP ~ POP ~ PEEK_ALL ~ PUSH_LITERAL(""){2})* }"#,
        Clear,
        Text,
        &[(3, 12, 515)],
    ),
    claim(
        "and so is exactly 2",
        r#"a = { POP_ALL ~ PUSH_LITERAL(""){2} ~ (POP ~ POP ~ PEEK_ALL ~ PUSH_LITERAL(""){2})* }"#,
        Clear,
        Text,
        &[(3, 12, 515)],
    ),
    claim(
        "a name that names itself",
        "a = { b } b = { b }",
        Rust,
        Text,
        &[(5, 1, 0)],
    ),
];

/// What running the Rust showed.
pub const CLAIMS: &[Claim] = &[
    claim(
        "walking opens no pair: only the left recursion is reported",
        "a = { a ~ (PEEK[0..0])* }",
        Rust,
        Text,
        &[(5, 0, 0)],
    ),
    claim(
        "the walk's answer is not the remembered one",
        "r = { !r ~ (PEEK[0..0])* }",
        Rust,
        Text,
        &[(5, 0, 0), (3, 3, ENTRY)],
    ),
    claim(
        "nothing below a tag for 1",
        r#"a = { #t = (""*) }"#,
        Rust,
        Text,
        &[],
    ),
    claim(
        "nothing below a tag for 2",
        r#"a = { #t = ((!"a")*) }"#,
        Rust,
        Text,
        &[],
    ),
    claim(
        "nothing below a tag for 4",
        r#"a = { #t = ("" | "a") }"#,
        Rust,
        Text,
        &[],
    ),
    claim(
        "a tag itself is judged as a part",
        r#"a = { (#t = "")* }"#,
        Rust,
        Text,
        &[(1, 2, 0)],
    ),
    claim(
        "the stack pass goes through tags",
        "a = { #t = ((PEEK[0..0])*) }",
        Rust,
        Text,
        &[(3, 1, ENTRY)],
    ),
    claim(
        "left recursion goes through tags",
        "a = { #t = a }",
        Rust,
        Text,
        &[(5, 0, 0)],
    ),
    claim(
        "the loop is looked for at the entry state",
        "a = { POP_ALL+ }",
        Rust,
        Text,
        &[],
    ),
    claim(
        "the reported state is the entry state",
        "a = { PUSH_LITERAL(\"\") ~ (PEEK ~ PEEK[0..0])+ }",
        Rust,
        Text,
        &[(3, 4, 24_833)],
    ),
    claim(
        "names of rules: left recursion",
        "POP = { POP }",
        Rust,
        Text,
        &[(5, 0, 0)],
    ),
    claim(
        "names of rules: verdicts",
        r#"POP = { "" } a = { POP* }"#,
        Rust,
        Text,
        &[(1, 2, 0)],
    ),
    claim(
        "names of rules: the stack pass takes the built-in one",
        r#"PEEK_ALL = { "a" } a = { POP_ALL ~ PEEK_ALL* }"#,
        Rust,
        Text,
        &[(3, 3, 0)],
    ),
    claim(
        "a rule PEEK that pushes turns the stack pass off",
        r#"WHITESPACE = { PEEK } PEEK = { PUSH(" ") } a = { (PEEK[0..0])* }"#,
        Rust,
        Text,
        &[],
    ),
    claim(
        "a rule POP that does not push does not keep it on",
        r#"WHITESPACE = { POP } POP = { " " } a = { (PEEK[0..0])* }"#,
        Rust,
        Text,
        &[],
    ),
    claim(
        "a push under a predicate keeps the stack pass on",
        r#"WHITESPACE = { !PUSH(" ") } a = { (PEEK[0..0])* }"#,
        Rust,
        Text,
        &[(3, 4, ENTRY)],
    ),
    claim(
        "a push in no copy turns it off",
        r#"WHITESPACE = { PUSH(" "){0} } a = { (PEEK[0..0])* }"#,
        Rust,
        Text,
        &[],
    ),
    claim(
        "ties: the outer choice first",
        r#"a = { "" | "" | "a" }"#,
        Rust,
        Same,
        &[(4, 1, 0), (4, 0, 0)],
    ),
    claim(
        "no ties: by span",
        r#"a = { "" | "" | "a" }"#,
        Rust,
        Text,
        &[(4, 0, 0), (4, 1, 0)],
    ),
    claim(
        "ties: left part first",
        r#"a = { ""* ~ ""* }"#,
        Rust,
        Same,
        &[(1, 1, 0), (1, 3, 0)],
    ),
    claim(
        "ties: left side first",
        r#"a = { ""* | ""* }"#,
        Rust,
        Same,
        &[(1, 1, 0), (1, 3, 0), (4, 1, 0)],
    ),
    claim(
        "ties: the stack pass as met",
        r#"a = { ("x" ~ (PEEK[0..0])+) | (PEEK[0..0])* }"#,
        Rust,
        Same,
        &[(3, 2, ENTRY), (3, 5, ENTRY)],
    ),
    claim(
        "ties: left recursion in the order of rules",
        "a = { b } b = { a }",
        Rust,
        Same,
        &[(5, 1, 0), (5, 0, 0)],
    ),
    claim(
        "ties: 1 and 2 before 3 before 4 before 5",
        r#"a = { (PEEK[0..0])* ~ a } b = { ("" | "a" | b)* }"#,
        Rust,
        Same,
        &[(1, 9, 0), (3, 1, ENTRY), (4, 4, 0), (5, 2, 0), (5, 7, 0)],
    ),
    claim(
        "copies never run are not walked",
        "a = { ((PEEK[0..0])*){0} }",
        Rust,
        Text,
        &[],
    ),
    claim(
        "nor where at most 0 run",
        "a = { ((PEEK[0..0])*){,0} ~ ((PEEK[0..0])*){2,0} }",
        Rust,
        Text,
        &[],
    ),
    claim(
        "copies never run are judged for 2 and 4",
        r#"a = { ((!"a")*){,0} ~ ("" | "b"){1,0} }"#,
        Rust,
        Text,
        &[(2, 2, 0), (4, 4, 0)],
    ),
    claim(
        "copies never run are judged for 1",
        r#"a = { (""*){0} }"#,
        Rust,
        Text,
        &[(1, 1, 0)],
    ),
    claim(
        "a count of 0 is gone into for 5",
        "a = { a{0} }",
        Rust,
        Text,
        &[(5, 0, 0)],
    ),
    claim(
        "a tag over a choice is no choice",
        r#"a = { (#t = ("" | "a")) | "b" }"#,
        Rust,
        Text,
        &[(4, 3, 0)],
    ),
    claim(
        "real bits: a predicate does not progress",
        r#"a = { POP_ALL ~ (&"a" | POP)* }"#,
        Rust,
        Text,
        &[(2, 5, 0)],
    ),
    claim(
        "real bits: a literal cannot fail",
        r#"a = { PUSH_LITERAL("")* }"#,
        Rust,
        Text,
        &[(1, 1, 0)],
    ),
    claim(
        "min above max has neither bit",
        r#"a = { ("a"{1,0})* }"#,
        Rust,
        Text,
        &[(3, 2, ENTRY)],
    ),
    claim(
        "EOI does not progress, rule or not",
        r#"EOI = { "x" } a = { EOI* }"#,
        Rust,
        Text,
        &[(2, 2, 0)],
    ),
    claim(
        "SOI does not progress, but fails as its rule does",
        r#"SOI = { "" } a = { SOI* } b = { EOI* }"#,
        Rust,
        Text,
        &[(1, 2, 0), (2, 4, 0)],
    ),
    claim(
        "one level of choice only",
        r#"a = { "" | "b" | "c" | "d" }"#,
        Rust,
        Text,
        &[(4, 0, 0)],
    ),
    claim(
        "a rule on the trail is not entered again",
        r#"a = { b | "x" ~ a } b = { c } c = { b | a }"#,
        Rust,
        Text,
        &[(5, 5, 0), (5, 6, 0), (5, 7, 0)],
    ),
    claim(
        "nothing is reported after a sure stop",
        "a = { POP_ALL ~ POP ~ (PEEK[0..0])* }",
        Rust,
        Text,
        &[],
    ),
    claim(
        "nor after a repetition that never ends, even one held back",
        r#"a = { ""* ~ (PEEK[0..0])* }"#,
        Rust,
        Text,
        &[(1, 1, 0)],
    ),
    claim(
        "no report through a name",
        "b = { POP_ALL ~ a } a = { PEEK_ALL* }",
        Rust,
        Text,
        &[],
    ),
    claim(
        "under skips one copy is in place: exactly 1",
        r#"a = { (PEEK[0..0]{1})* } WHITESPACE = { " " }"#,
        Clear,
        Text,
        &[(3, 2, ENTRY)],
    ),
    claim(
        "under skips one copy is in place: at most 1",
        r#"a = { (PEEK[0..0]{,1})* } WHITESPACE = { " " }"#,
        Clear,
        Text,
        &[(3, 2, ENTRY)],
    ),
    claim(
        "under skips one copy is in place: 5 to 1",
        r#"a = { (PEEK[0..0]{5,1})* } WHITESPACE = { " " }"#,
        Clear,
        Text,
        &[(3, 2, ENTRY)],
    ),
    claim(
        "under skips two copies are not",
        r#"a = { (PEEK[0..0]{2})* } WHITESPACE = { " " }"#,
        Clear,
        Text,
        &[],
    ),
    claim(
        "an open pair answers UNKNOWN",
        r#"a = { a ~ "b" | (PEEK[0..0])* }"#,
        Rust,
        Text,
        &[(5, 0, 0), (3, 4, ENTRY)],
    ),
];

impl Claim {
    pub fn grammar(&self) -> Grammar {
        grammar(self.text, self.bits, self.spans)
    }

    /// The claimed reports as numbers.
    pub fn numbers(&self) -> Vec<u64> {
        let number = |&(reason, node, state): &(u64, u32, u32)| judge::number(node, state, reason);
        self.reports.iter().map(number).collect()
    }

    /// What differs: nothing where the Rust and the model both say as claimed. With clear bits the
    /// Rust is asked for its stack pass, which reads them; no other reason can be reported then.
    pub fn wrong(&self) -> Option<String> {
        let g = self.grammar();
        let claimed = self.numbers();
        let rust = match self.bits {
            Bits::Rust => judge::reports(&g),
            Bits::Clear => compare::ordered(&g, judge::stack_reports(&g)),
        };
        let model = model::check_grammar(&g, model::PLENTY).reports;
        (rust != claimed || model != claimed)
            .then(|| format!("claimed {claimed:?}, Rust {rust:?}, model {model:?}"))
    }
}
