//! The Rust's answers on a list of images, to hold a changed copy of it against.

use crate::image::Grammar;
use crate::judge;

/// The reports on an image: of the whole validator, or of its stack pass with the image's bits.
pub struct Answer {
    pub whole: bool,
    pub image: Vec<u8>,
    pub reports: Vec<u64>,
}

/// What the Rust reports.
pub fn reports(g: &Grammar, whole: bool) -> Vec<u64> {
    if whole {
        judge::reports(g)
    } else {
        judge::stack_reports(g)
    }
}

/// Adds an answer to a list.
pub fn write(bytes: &mut Vec<u8>, answer: &Answer) {
    let counts = [answer.image.len(), answer.reports.len()];
    bytes.push(u8::from(answer.whole));
    for count in counts {
        bytes.extend((count as u32).to_le_bytes());
    }
    bytes.extend(&answer.image);
    for report in &answer.reports {
        bytes.extend(report.to_le_bytes());
    }
}

/// Reads a list.
pub fn read(bytes: &[u8]) -> Vec<Answer> {
    let mut answers = vec![];
    let mut left = bytes;
    while !left.is_empty() {
        let whole = take(&mut left, 1)[0] == 1;
        let length = number(take(&mut left, 4));
        let count = number(take(&mut left, 4));
        let image = take(&mut left, length as usize).to_vec();
        let reports = (0..count).map(|_| number(take(&mut left, 8))).collect();
        answers.push(Answer {
            whole,
            image,
            reports,
        });
    }
    answers
}

fn take<'b>(left: &mut &'b [u8], count: usize) -> &'b [u8] {
    let (taken, rest) = left.split_at(count);
    *left = rest;
    taken
}

fn number(bytes: &[u8]) -> u64 {
    bytes.iter().rev().fold(0, |n, &b| 256 * n + u64::from(b))
}
