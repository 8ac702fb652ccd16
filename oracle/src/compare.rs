//! Holds the model against the Rust on generated grammars.

use std::collections::BTreeMap;

use crate::image::{self, Grammar};
use crate::{bits, explain, gen, judge, model};

/// What was seen of one kind.
#[derive(Default)]
pub struct Seen {
    pub images: u32,
    /// Images on which the whole validator was compared, and on which the stack pass alone was.
    pub whole: u32,
    pub stack_only: u32,
    pub reasons: BTreeMap<u64, u32>,
    pub refusals: BTreeMap<u32, u32>,
    pub most_outcomes: u32,
    pub most_walked: u32,
    pub differences: Vec<String>,
}

/// Compares on images of a kind.
pub fn kind(kind: &str, seed: u64, count: u32) -> Seen {
    let mut seen = Seen::default();
    for image in gen::images(kind, seed, count) {
        one(&image, &mut seen);
    }
    seen
}

/// Compares on one image.
pub fn one(bytes: &[u8], seen: &mut Seen) {
    let answer = model::check(bytes, model::PLENTY);
    seen.images += 1;
    *seen.refusals.entry(answer.refusal).or_default() += 1;
    seen.most_outcomes = seen.most_outcomes.max(answer.taken.outcome);
    seen.most_walked = seen.most_walked.max(answer.taken.walked);
    for report in &answer.reports {
        *seen.reasons.entry(report >> 32).or_default() += 1;
    }
    if answer.refusal != 0 {
        return;
    }
    let g = image::decode(bytes).expect("the model has read it");
    if bits::affordable(&g) && bits::are_rust_bits(&g) {
        seen.whole += 1;
        differ(&g, &judge::reports(&g), &answer.reports, seen);
    }
    seen.stack_only += 1;
    let of_stack: Vec<u64> = answer
        .reports
        .iter()
        .copied()
        .filter(|r| r >> 32 == 3)
        .collect();
    differ(&g, &ordered(&g, judge::stack_reports(&g)), &of_stack, seen);
}

/// Reports in the order of spans.
pub fn ordered(g: &Grammar, mut reports: Vec<u64>) -> Vec<u64> {
    reports.sort_by_key(|r| {
        let node = &g.nodes[(r & 0xffff) as usize];
        (node.start, node.end)
    });
    reports
}

fn differ(g: &Grammar, rust: &[u64], model: &[u64], seen: &mut Seen) {
    if rust != model {
        let text = explain::grammar(g);
        seen.differences
            .push(format!("Rust {rust:?}\nmodel {model:?}\n{text}"));
    }
}
