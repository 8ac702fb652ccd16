//! Changes of whole lines: statements and arms dropped or exchanged, conditions fixed, fields set.

use std::ops::Range;

type Change = (Range<usize>, String);

/// What a field of an outcome or a state may be set to.
const FIELDS: [(&str, &[&str]); 7] = [
    ("ok", &["None", "Some(s)", "Some(AbsStack::UNKNOWN)"]),
    ("err", &["None", "Some(s)", "Some(AbsStack::UNKNOWN)"]),
    ("empty", &["true", "false"]),
    (
        "base",
        &["StackBase::Empty", "StackBase::Blank", "StackBase::Any"],
    ),
    ("len", &["0", "self.len"]),
    ("blank", &["0", "self.blank"]),
    ("base_intact", &["true", "false", "self.base_intact"]),
];

/// A line without its end: where it stands, and its text without the blanks around.
struct Line<'t> {
    place: Range<usize>,
    text: &'t str,
    indent: usize,
}

/// All changes of this sort in a stretch.
pub fn changes(text: &str, stretch: &Range<usize>) -> Vec<Change> {
    let lines = lines_of(text, stretch);
    let mut changes = vec![];
    for (i, line) in lines.iter().enumerate() {
        if line.text.starts_with("//") || line.text.starts_with('#') {
            continue;
        }
        changes.extend(dropped(line));
        changes.extend(alternatives(line, lines.get(i + 1)));
        changes.extend(conditions(line));
        changes.extend(fields(line));
        if let Some(next) = lines.get(i + 1) {
            changes.extend(exchanged(line, next));
        }
    }
    changes
}

fn lines_of<'t>(text: &'t str, stretch: &Range<usize>) -> Vec<Line<'t>> {
    let mut lines = vec![];
    let mut at = stretch.start;
    for line in text[stretch.clone()].split_inclusive('\n') {
        let body = line.trim_end();
        let indent = body.len() - body.trim_start().len();
        lines.push(Line {
            place: at..at + body.len(),
            text: body.trim_start(),
            indent,
        });
        at += line.len();
    }
    lines
}

fn balanced(text: &str) -> bool {
    let count = |signs: [char; 3]| text.chars().filter(|c| signs.contains(c)).count();
    count(['(', '[', '{']) == count([')', ']', '}'])
}

/// A statement on one line.
fn is_statement(line: &Line<'_>) -> bool {
    let declared = ["let ", "const ", "use ", "type ", "mod "];
    line.text.ends_with(';')
        && balanced(line.text)
        && !declared.iter().any(|word| line.text.starts_with(word))
}

/// An arm on one line.
fn is_arm(line: &Line<'_>) -> bool {
    line.text.contains(" => ") && line.text.ends_with(',') && balanced(line.text)
}

fn dropped(line: &Line<'_>) -> Vec<Change> {
    if is_statement(line) || is_arm(line) {
        vec![(line.place.clone(), String::new())]
    } else {
        vec![]
    }
}

/// One of several patterns of an arm left out.
fn alternatives(line: &Line<'_>, next: Option<&Line<'_>>) -> Vec<Change> {
    let head_end = line.text.find("=>").unwrap_or(line.text.len());
    let head = &line.text[..head_end];
    let tail = &line.text[head_end..];
    let mut changes = vec![];
    if line.text.starts_with("| ") && balanced(head) {
        changes.push((line.place.clone(), tail.to_owned()));
    }
    let goes_on = next.is_some_and(|next| next.text.starts_with("| "));
    if goes_on && line.text.starts_with("ParserExpr::") && head_end == line.text.len() {
        if let Some(next) = next {
            let bar = next.place.start + next.indent;
            changes.push((line.place.start..bar + 1, String::new()));
        }
    }
    let patterns: Vec<&str> = head.trim().split(" | ").collect();
    if patterns.len() > 1 && !tail.is_empty() && !line.text.starts_with("| ") {
        for skipped in 0..patterns.len() {
            let mut left = patterns.clone();
            left.remove(skipped);
            changes.push((line.place.clone(), format!("{} {tail}", left.join(" | "))));
        }
    }
    changes
}

/// The condition of an `if` on one line turned round, or made always or never true.
fn conditions(line: &Line<'_>) -> Vec<Change> {
    let Some(at) = line.text.find("if ") else {
        return vec![];
    };
    let is_if = at == 0 || line.text[..at].ends_with(' ');
    let end = line.text.rfind(" {").unwrap_or(0);
    if !is_if || end <= at + 3 || line.text[at..].starts_with("if let") {
        return vec![];
    }
    let condition = &line.text[at + 3..end];
    let start = line.place.start + line.indent + at + 3;
    let place = start..start + condition.len();
    vec![
        (place.clone(), format!("!({condition})")),
        (place.clone(), format!("true || ({condition})")),
        (place, format!("false && ({condition})")),
    ]
}

/// A field on one line set to something else.
fn fields(line: &Line<'_>) -> Vec<Change> {
    let mut changes = vec![];
    for (name, values) in FIELDS {
        let Some(rest) = line.text.strip_prefix(name) else {
            continue;
        };
        if !rest.starts_with(": ") || !rest.ends_with(',') || !balanced(rest) {
            continue;
        }
        let start = line.place.start + line.indent + name.len() + 2;
        for value in values {
            changes.push((start..line.place.end - 1, (*value).to_owned()));
        }
    }
    changes
}

/// The second of two arms may take what the first one takes.
fn may_overlap(first: &str, second: &str) -> bool {
    let head = |arm: &str| arm.split(['(', ' ']).next().map(str::to_owned);
    second.starts_with("_ ") || first.starts_with('(') || head(first) == head(second)
}

/// Two statements in a row exchanged, or two arms where the second may take the place of the first.
fn exchanged(line: &Line<'_>, next: &Line<'_>) -> Vec<Change> {
    let overlap = is_arm(line) && is_arm(next) && may_overlap(line.text, next.text);
    let both = is_statement(line) && is_statement(next) || overlap;
    if !both || line.indent != next.indent {
        return vec![];
    }
    let place = line.place.start..next.place.end;
    vec![(place, format!("{}\n{}", next.text, line.text))]
}
