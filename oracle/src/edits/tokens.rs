//! A small reader of Rust text: words, numbers, strings and signs, without comments.

use std::ops::Range;

#[derive(Clone, Copy, Debug, PartialEq, Eq)]
pub enum Kind {
    Word,
    Number,
    Text,
    Sign,
}

#[derive(Clone, Debug)]
pub struct Token {
    pub kind: Kind,
    pub place: Range<usize>,
}

const LONG_SIGNS: [&str; 18] = [
    "..=", "<<=", ">>=", "==", "!=", "<=", ">=", "&&", "||", "->", "=>", "::", "..", "<<", ">>",
    "+=", "&=", "|=",
];

/// The tokens of a stretch.
pub fn of(text: &str, stretch: &Range<usize>) -> Vec<Token> {
    let mut tokens = vec![];
    let mut at = stretch.start;
    while at < stretch.end {
        let rest = &text[at..stretch.end];
        let first = rest.chars().next().unwrap_or(' ');
        if rest.starts_with("//") {
            at += rest.find('\n').unwrap_or(rest.len());
            continue;
        }
        if first.is_whitespace() {
            at += first.len_utf8();
            continue;
        }
        let (kind, len) = token(rest, first);
        tokens.push(Token {
            kind,
            place: at..at + len,
        });
        at += len;
    }
    tokens
}

fn token(rest: &str, first: char) -> (Kind, usize) {
    let word_len = |s: &str| {
        s.find(|c: char| !c.is_alphanumeric() && c != '_')
            .unwrap_or(s.len())
    };
    if first.is_ascii_digit() {
        (Kind::Number, word_len(rest))
    } else if first.is_alphabetic() || first == '_' {
        (Kind::Word, word_len(rest))
    } else if first == '\'' {
        (Kind::Sign, 1 + word_len(&rest[1..]))
    } else if first == '"' {
        (Kind::Text, string_len(rest))
    } else {
        let long = LONG_SIGNS.iter().find(|sign| rest.starts_with(**sign));
        (Kind::Sign, long.map_or(first.len_utf8(), |sign| sign.len()))
    }
}

/// The length of a string, its quotes included.
fn string_len(rest: &str) -> usize {
    let mut escaped = false;
    for (at, c) in rest.char_indices().skip(1) {
        if c == '"' && !escaped {
            return at + 1;
        }
        escaped = c == '\\' && !escaped;
    }
    rest.len()
}
