//! Random grammars by kind and seed, as images.

mod deep;
mod loops;
pub mod mutate;
mod probes;
mod shape;
mod skips;
mod tree;

use crate::bits;
use crate::image::{self, Grammar};
use crate::rng::Rng;
use tree::{Profile, Skips};

/// The kinds of grammar that can be asked for.
pub const KINDS: [&str; 17] = [
    "small",
    "large",
    "deep",
    "stack",
    "loops",
    "probes",
    "recursive",
    "left",
    "skips",
    "modifying",
    "tags",
    "names",
    "ties",
    "counts",
    "clear",
    "bits",
    "odd",
];

/// How the verdict bits are set.
#[derive(Clone, Copy, PartialEq, Eq)]
enum Bits {
    Rust,
    Clear,
    Random,
}

/// A grammar of a kind.
pub fn grammar(kind: &str, rng: &mut Rng) -> Grammar {
    let mut g = tree_of(kind, rng);
    let bits = match kind {
        "clear" => Bits::Clear,
        "bits" | "odd" => Bits::Random,
        _ => Bits::Rust,
    };
    if kind != "ties" && rng.once_in(3) {
        g = shape::renumbered(&g, rng);
    }
    shape::set_spans(&mut g, kind == "ties", rng);
    set_bits(&mut g, bits, rng);
    g
}

/// An image of a kind; `damaged` ones are images of other kinds with some bytes changed.
pub fn image(kind: &str, rng: &mut Rng) -> Vec<u8> {
    if kind != "damaged" {
        return image::encode(&grammar(kind, rng));
    }
    let kind = *rng.pick(&["small", "stack", "names", "left"]);
    let image = image::encode(&grammar(kind, rng));
    mutate::damaged(&image, rng)
}

/// The images of a kind and a seed.
pub fn images(kind: &str, seed: u64, count: u32) -> impl Iterator<Item = Vec<u8>> {
    let mut rng = Rng::new(seed);
    let kind = kind.to_owned();
    (0..count).map(move |_| image(&kind, &mut rng))
}

/// The Rust's bits where the Rust can give them in good time; else random ones.
fn set_bits(g: &mut Grammar, bits: Bits, rng: &mut Rng) {
    if bits == Bits::Rust && bits::affordable(g) {
        bits::set_rust_bits(g);
    } else if bits != Bits::Clear {
        let often = rng.between(1, 6);
        for node in &mut g.nodes {
            node.bits = (0..3).map(|bit| u8::from(rng.once_in(often)) << bit).sum();
        }
    }
}

fn tree_of(kind: &str, rng: &mut Rng) -> Grammar {
    match kind {
        "deep" => deep::grammar(rng),
        "loops" => loops::grammar(rng),
        "probes" => probes::grammar(rng),
        "modifying" if !rng.once_in(4) => skips::grammar(rng),
        "clear" | "bits" | "ties" | "skips" | "tags" if rng.once_in(2) => {
            loops::grammar_of(kind == "skips", kind == "tags", rng)
        }
        "large" => tree::grammar(&large(rng), rng),
        _ => tree::grammar(&profile(kind, rng), rng),
    }
}

fn large(rng: &mut Rng) -> Profile {
    Profile {
        rules: *rng.pick(&[3, 20, 100, 255]),
        nodes: rng.between(200, 2000),
        depth: rng.between(6, 14),
        skips: *rng.pick(&[Skips::None, Skips::Plain]),
        ..*rng.pick(&[Profile::MIXED, Profile::STACK])
    }
}

fn profile(kind: &str, rng: &mut Rng) -> Profile {
    let mut p = Profile {
        rules: rng.between(1, 4),
        nodes: rng.between(4, 40),
        depth: rng.between(2, 6),
        ..Profile::MIXED
    };
    set_weights(&mut p, kind, rng);
    p.skips = match kind {
        "skips" => Skips::Plain,
        "modifying" => Skips::Modifying,
        _ if rng.once_in(6) => Skips::Plain,
        _ => Skips::None,
    };
    p
}

/// What a kind has more of than others.
fn set_weights(p: &mut Profile, kind: &str, rng: &mut Rng) {
    match kind {
        "stack" => p.with_weights(&Profile::STACK),
        "clear" | "bits" => p.with_weights(&Profile::LOOPS),
        "recursive" => {
            p.with_weights(rng.pick(&[Profile::STACK, Profile::LOOPS]));
            p.leaves[5] = 30;
            p.any_rule = true;
        }
        "left" | "odd" => {
            p.with_weights(&Profile::LEFT);
            p.rules = rng.between(1, 7);
            p.any_rule = true;
        }
        "skips" | "modifying" => p.with_weights(rng.pick(&[Profile::STACK, Profile::LOOPS])),
        "tags" => {
            p.with_weights(rng.pick(&[Profile::MIXED, Profile::LOOPS]));
            p.inner[12] = 25;
        }
        "names" => {
            p.with_weights(rng.pick(&[Profile::MIXED, Profile::STACK]));
            p.rules = rng.between(2, 8);
            p.built_in_rules = true;
            p.any_rule = rng.once_in(2);
        }
        "counts" => {
            p.with_weights(rng.pick(&[Profile::LOOPS, Profile::STACK]));
            (7..11).for_each(|i| p.inner[i] = 20);
        }
        _ => (),
    }
}
