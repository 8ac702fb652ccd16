//! Changes of single words, signs, numbers, strings and calls.

use std::ops::Range;

use super::tokens::{self, Kind, Token};

type Change = (Range<usize>, String);

/// What a word may be changed into.
const WORDS: [(&str, &[&str]); 47] = [
    ("true", &["false"]),
    ("false", &["true"]),
    ("lhs", &["rhs"]),
    ("rhs", &["lhs"]),
    ("Empty", &["Blank", "Any"]),
    ("Blank", &["Empty", "Any"]),
    ("Any", &["Empty", "Blank"]),
    ("ok", &["err"]),
    ("err", &["ok"]),
    ("min", &["max"]),
    ("max", &["min"]),
    ("is_some", &["is_none"]),
    ("is_none", &["is_some"]),
    ("any", &["all"]),
    ("self", &["other"]),
    ("other", &["self"]),
    ("succeeds", &["either"]),
    ("either", &["fails"]),
    ("fails", &["either"]),
    ("popped_one", &["popped_all"]),
    ("popped_all", &["popped_one"]),
    ("top_blank", &["all_blank", "non_empty", "is_empty"]),
    ("all_blank", &["top_blank", "is_empty"]),
    ("is_empty", &["non_empty", "all_blank"]),
    ("non_empty", &["is_empty", "top_blank"]),
    ("outcome", &["visit"]),
    ("visit", &["outcome"]),
    ("is_non_failing", &["is_non_progressing"]),
    ("is_non_progressing", &["is_non_failing"]),
    ("s", &["at", "mid", "AbsStack::UNKNOWN"]),
    ("at", &["s"]),
    ("mid", &["s"]),
    ("failed", &["s"]),
    ("l", &["r"]),
    ("r", &["l"]),
    ("a", &["b"]),
    ("b", &["a"]),
    ("after", &["s"]),
    ("out", &["cur"]),
    ("cur", &["out", "s"]),
    ("n", &["at"]),
    ("first", &["last"]),
    ("last", &["first"]),
    ("len", &["blank"]),
    ("node", &["inner"]),
    ("inner", &["node"]),
    ("restored", &["None"]),
];

/// Words that are names of variables: they must stand in the body.
const LOCALS: [&str; 15] = [
    "self", "other", "s", "at", "mid", "l", "r", "a", "b", "out", "cur", "node", "inner", "lhs",
    "rhs",
];

/// What a sign between blanks may be changed into.
const SIGNS: [(&str, &[&str]); 16] = [
    ("==", &["!="]),
    ("!=", &["=="]),
    ("<", &["<=", ">"]),
    (">", &[">=", "<"]),
    ("<=", &["<", ">"]),
    (">=", &[">"]),
    ("&&", &["||"]),
    ("||", &["&&"]),
    ("+", &["-"]),
    ("-", &["+"]),
    ("%", &["/", "+"]),
    ("&", &["|"]),
    ("|", &["&"]),
    ("<<", &[">>"]),
    (">>", &["<<"]),
    ("+=", &["-="]),
];

/// Signs of assignment, and the rest.
const ASSIGNS: [(&str, &[&str]); 2] = [("&=", &["|=", "="]), ("|=", &["&=", "="])];

/// Method calls that may be dropped.
const METHODS: [&str; 8] = [
    "map",
    "or_else",
    "join",
    "min",
    "saturating_sub",
    "clone",
    "exact",
    "push",
];

/// All changes of this sort in a stretch, heads of functions left out.
pub fn changes(text: &str, stretch: &Range<usize>) -> Vec<Change> {
    let tokens = tokens::of(text, stretch);
    let mut changes = vec![];
    for body in bodies(text, &tokens) {
        for i in body.clone() {
            let token = &tokens[i];
            let word = &text[token.place.clone()];
            match token.kind {
                Kind::Word => changes.extend(word_changes(text, &tokens, &body, i)),
                Kind::Number => changes.extend(number_changes(token, word)),
                Kind::Text => changes.extend(text_changes(token, word)),
                Kind::Sign => changes.extend(sign_changes(text, token, word)),
            }
            if word == "(" && i > 0 && tokens[i - 1].kind == Kind::Word {
                changes.extend(call_changes(text, &tokens, i));
            }
        }
    }
    changes
}

/// The tokens between the heads of functions: each stretch from an opening brace to the next `fn`.
fn bodies(text: &str, tokens: &[Token]) -> Vec<Range<usize>> {
    let mut bodies = vec![];
    let mut start = 0;
    let mut in_head = false;
    for (i, token) in tokens.iter().enumerate() {
        let word = &text[token.place.clone()];
        if word == "fn" {
            bodies.push(start..i);
            in_head = true;
        } else if word == "{" && in_head {
            in_head = false;
            start = i;
        }
    }
    bodies.push(start..tokens.len());
    bodies
}

fn into_each(token: &Token, words: &[&str]) -> Vec<Change> {
    let change = |word: &&str| (token.place.clone(), (*word).to_owned());
    words.iter().map(change).collect()
}

/// A word becomes another one that stands in the same body too, or that can stand anywhere.
fn word_changes(text: &str, tokens: &[Token], body: &Range<usize>, i: usize) -> Vec<Change> {
    let word = &text[tokens[i].place.clone()];
    let Some((_, new)) = WORDS.iter().find(|(old, _)| *old == word) else {
        return vec![];
    };
    let stands = |w: &str| body.clone().any(|j| &text[tokens[j].place.clone()] == w);
    let field = i > 0 && &text[tokens[i - 1].place.clone()] == ".";
    let local = |w: &&&str| !LOCALS.contains(*w) || !field && stands(w);
    let fitting: Vec<&str> = new.iter().filter(local).copied().collect();
    into_each(&tokens[i], &fitting)
}

/// One more and one less, the suffix kept.
fn number_changes(token: &Token, word: &str) -> Vec<Change> {
    let digits = word
        .find(|c: char| !c.is_ascii_digit())
        .unwrap_or(word.len());
    let Ok(number) = word[..digits].parse::<u64>() else {
        return vec![];
    };
    let mut numbers = vec![number + 1];
    numbers.extend(number.checked_sub(1));
    let change = |n: &u64| (token.place.clone(), format!("{n}{}", &word[digits..]));
    numbers.iter().map(change).collect()
}

/// A name in quotes becomes another; messages stay.
fn text_changes(token: &Token, word: &str) -> Vec<Change> {
    if word.contains(' ') {
        return vec![];
    }
    vec![(token.place.clone(), "\"?\"".to_owned())]
}

fn sign_changes(text: &str, token: &Token, word: &str) -> Vec<Change> {
    let before = text[..token.place.start].chars().next_back();
    let after = text[token.place.end..].chars().next();
    let blanks = before == Some(' ') && after.is_some_and(char::is_whitespace);
    let table = if blanks { &SIGNS[..] } else { &[] };
    let mut changes = vec![];
    for (old, new) in table.iter().chain(&ASSIGNS) {
        if *old == word {
            changes.extend(into_each(token, new));
        }
    }
    let negation = word == "!" && !before.is_some_and(char::is_alphanumeric);
    if negation {
        changes.push((token.place.clone(), String::new()));
    }
    changes
}

/// Arguments exchanged, and `Some(..)` made `None`; a method call such as `.or_else(..)` dropped.
fn call_changes(text: &str, tokens: &[Token], open: usize) -> Vec<Change> {
    let Some((close, commas)) = arguments(text, tokens, open) else {
        return vec![];
    };
    let name = &text[tokens[open - 1].place.clone()];
    let whole = tokens[open - 1].place.start..tokens[close].place.end;
    let mut changes = vec![];
    let pattern = text[whole.end..].trim_start().starts_with('=')
        && !text[whole.end..].trim_start().starts_with("==");
    if name == "Some" && !pattern {
        changes.push((whole.clone(), "None".to_owned()));
    }
    if METHODS.contains(&name) && open > 1 && &text[tokens[open - 2].place.clone()] == "." {
        changes.push((tokens[open - 2].place.start..whole.end, String::new()));
    }
    let mut edges = vec![tokens[open].place.end];
    edges.extend(commas);
    edges.push(tokens[close].place.start);
    for three in edges.windows(3) {
        let begin = three[0] + usize::from(three[0] != edges[0]);
        let (left, right) = (
            text[begin..three[1]].trim(),
            text[three[1] + 1..three[2]].trim(),
        );
        if !left.is_empty() && !right.is_empty() {
            changes.push((begin..three[2], format!(" {right}, {left}")));
        }
    }
    changes
}

/// The closing parenthesis of a call, and the places of the commas between its arguments.
fn arguments(text: &str, tokens: &[Token], open: usize) -> Option<(usize, Vec<usize>)> {
    let mut depth = 0;
    let mut commas = vec![];
    for (i, token) in tokens.iter().enumerate().skip(open) {
        match &text[token.place.clone()] {
            "(" | "[" | "{" => depth += 1,
            ")" | "]" | "}" => depth -= 1,
            "," if depth == 1 => commas.push(token.place.start),
            _ => (),
        }
        if depth == 0 {
            return Some((i, commas));
        }
    }
    None
}
