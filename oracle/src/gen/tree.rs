//! Random trees after a profile of weights.

use crate::builder::Builder;
use crate::image::{kind, Grammar};
use crate::rng::Rng;

/// Whether WHITESPACE or COMMENT stand among the rules, and what they may do.
#[derive(Clone, Copy, PartialEq, Eq)]
pub enum Skips {
    None,
    Plain,
    Modifying,
}

/// Size and weights of a random grammar.
#[derive(Clone, Copy)]
pub struct Profile {
    pub rules: u32,
    pub nodes: u32,
    pub depth: u32,
    /// Weights of the leaves, in the order of `Tree::leaf`.
    pub leaves: [u32; 17],
    /// Weights of the other nodes, in the order of `INNER`.
    pub inner: [u32; 13],
    pub skips: Skips,
    /// Rules may be named as the built-in stack names.
    pub built_in_rules: bool,
    /// Names may be of any rule, not only of later ones.
    pub any_rule: bool,
}

const INNER: [u8; 13] = [
    kind::POS_PRED,
    kind::NEG_PRED,
    kind::SEQ,
    kind::CHOICE,
    kind::OPT,
    kind::REP,
    kind::REP_ONCE,
    kind::REP_EXACT,
    kind::REP_MIN,
    kind::REP_MAX,
    kind::REP_MIN_MAX,
    kind::PUSH,
    kind::NODE_TAG,
];

impl Profile {
    /// A little of everything.
    pub const MIXED: Profile = Profile {
        rules: 2,
        nodes: 20,
        depth: 4,
        leaves: [4, 6, 1, 2, 2, 8, 3, 2, 3, 3, 2, 1, 2, 2, 2, 2, 3],
        inner: [3, 3, 14, 8, 4, 5, 4, 3, 3, 2, 3, 5, 2],
        skips: Skips::None,
        built_in_rules: false,
        any_rule: false,
    };

    /// Mostly operations on the stack.
    pub const STACK: Profile = Profile {
        leaves: [3, 2, 1, 0, 0, 6, 8, 4, 6, 5, 7, 2, 3, 1, 6, 5, 1],
        inner: [3, 3, 16, 9, 5, 6, 4, 4, 3, 3, 3, 8, 1],
        ..Profile::MIXED
    };

    /// Mostly things that succeed in place, so that loops are found.
    pub const LOOPS: Profile = Profile {
        leaves: [3, 1, 1, 0, 0, 6, 7, 3, 4, 6, 6, 3, 6, 0, 7, 4, 0],
        inner: [4, 2, 16, 5, 4, 9, 7, 3, 5, 3, 3, 7, 2],
        ..Profile::MIXED
    };

    /// Mostly names at the left.
    pub const LEFT: Profile = Profile {
        leaves: [5, 3, 1, 1, 0, 40, 2, 0, 1, 0, 1, 0, 1, 0, 3, 1, 3],
        inner: [3, 2, 18, 10, 4, 3, 2, 2, 2, 2, 2, 3, 2],
        ..Profile::MIXED
    };

    /// Takes the weights of another profile.
    pub fn with_weights(&mut self, other: &Profile) {
        self.leaves = other.leaves;
        self.inner = other.inner;
    }
}

const PLAIN_NAMES: [&[u8]; 8] = [b"a", b"b", b"c", b"ab", b"r_1", b"\xff\x00", b"PUSH", b"r"];

const BUILT_IN_NAMES: [&[u8]; 10] = [
    b"POP",
    b"PEEK",
    b"POP_ALL",
    b"PEEK_ALL",
    b"DROP",
    b"SOI",
    b"EOI",
    b"ANY",
    b"PO",
    b"POP_",
];

const UNKNOWN_NAMES: [&[u8]; 6] = [b"SOI", b"EOI", b"ANY", b"zz", b"POP_A", b"WHITE"];

const COUNTS: [u32; 14] = [0, 0, 1, 1, 1, 2, 2, 3, 5, 8, 9, 64, 65, u32::MAX];

/// A grammar after a profile.
pub fn grammar(profile: &Profile, rng: &mut Rng) -> Grammar {
    let names = names(profile, rng);
    let mut tree = Tree {
        builder: Builder::default(),
        profile,
        names: &names,
        rule: 0,
        left: 0,
    };
    let each = profile.nodes / profile.rules.max(1);
    for (rule, name) in names.iter().enumerate() {
        tree.rule = rule;
        tree.left = rng.between(each / 2, each + each / 2).max(1);
        let root = tree.root(rng);
        tree.builder.rule(name, root);
    }
    tree.builder.g
}

/// Distinct names for the rules.
fn names(profile: &Profile, rng: &mut Rng) -> Vec<Vec<u8>> {
    let mut names: Vec<Vec<u8>> = vec![];
    if profile.skips != Skips::None {
        if !rng.once_in(4) {
            names.push(b"WHITESPACE".to_vec());
        }
        if names.is_empty() || rng.once_in(3) {
            names.push(b"COMMENT".to_vec());
        }
    }
    while names.len() < profile.rules as usize {
        let name = if profile.built_in_rules && !rng.once_in(3) {
            rng.pick(&BUILT_IN_NAMES).to_vec()
        } else if profile.rules > 6 {
            format!("n{}", names.len()).into_bytes()
        } else {
            rng.pick(&PLAIN_NAMES).to_vec()
        };
        if !names.contains(&name) {
            names.push(name);
        }
    }
    let turn = rng.below(names.len() as u32) as usize;
    names.rotate_left(turn);
    names
}

/// A tree that grows rule by rule.
struct Tree<'p> {
    builder: Builder,
    profile: &'p Profile,
    names: &'p [Vec<u8>],
    rule: usize,
    /// Nodes left for this rule.
    left: u32,
}

impl Tree<'_> {
    fn is_skip(&self) -> bool {
        [&b"WHITESPACE"[..], b"COMMENT"].contains(&self.names[self.rule].as_slice())
    }

    fn root(&mut self, rng: &mut Rng) -> u32 {
        if self.is_skip() && self.profile.skips == Skips::Plain {
            return self.plain_skip(rng);
        }
        self.expr(self.profile.depth, rng)
    }

    /// A skip that leaves the stack alone, or touches it only under a predicate.
    fn plain_skip(&mut self, rng: &mut Rng) -> u32 {
        match rng.below(5) {
            0 => {
                let pop = self.builder.ident("POP");
                let part = self.builder.one(kind::PUSH, pop);
                self.builder.one(kind::NEG_PRED, part)
            }
            1 => self.builder.ident("PEEK_ALL"),
            2 => self.builder.node(kind::RANGE, 0, 0, 0),
            _ => self.builder.str(" "),
        }
    }

    fn expr(&mut self, depth: u32, rng: &mut Rng) -> u32 {
        self.left = self.left.saturating_sub(1);
        if depth == 0 || self.left < 2 || rng.once_in(6) {
            return self.leaf(rng);
        }
        let kind = INNER[rng.weighted(&self.profile.inner)];
        let part = self.expr(depth - 1, rng);
        match kind {
            kind::SEQ | kind::CHOICE => {
                let other = self.expr(depth - 1, rng);
                self.builder.node(kind, part, other, 0)
            }
            kind::REP_EXACT | kind::REP_MIN | kind::REP_MAX => {
                self.builder.node(kind, part, *rng.pick(&COUNTS), 0)
            }
            kind::REP_MIN_MAX => {
                let (min, max) = (*rng.pick(&COUNTS), *rng.pick(&COUNTS));
                self.builder.node(kind, part, min, max)
            }
            _ => self.builder.one(kind, part),
        }
    }

    fn leaf(&mut self, rng: &mut Rng) -> u32 {
        match rng.weighted(&self.profile.leaves) {
            0 => self.builder.str(""),
            1 => self.builder.str("ab"),
            2 => self.builder.leaf(kind::INSENS, b""),
            3 => self.builder.leaf(kind::INSENS, b"x"),
            4 => self.builder.node(kind::RANGE, 0, 0, 0),
            5 => self.name(rng),
            6 => self.builder.ident("POP"),
            7 => self.builder.ident("PEEK"),
            8 => self.builder.ident("POP_ALL"),
            9 => self.builder.ident("PEEK_ALL"),
            10 => self.builder.ident("DROP"),
            11 => self.builder.node(kind::PEEK_SLICE, 0, 0, 0),
            12 => self.builder.node(kind::PEEK_SLICE, 0, 1, 0),
            13 => self.slice(rng),
            14 => self.builder.leaf(kind::PUSH_LITERAL, b""),
            15 => self.builder.leaf(kind::PUSH_LITERAL, b"y"),
            _ => self.unknown_name(rng),
        }
    }

    /// The name of a rule: a later one, or any.
    fn name(&mut self, rng: &mut Rng) -> u32 {
        let first = if self.profile.any_rule {
            0
        } else {
            self.rule + 1
        };
        match self.names.get(first..) {
            Some(names) if !names.is_empty() => {
                let name = rng.pick(names);
                self.builder.leaf(kind::IDENT, name)
            }
            _ => self.unknown_name(rng),
        }
    }

    fn unknown_name(&mut self, rng: &mut Rng) -> u32 {
        let which = rng.below(UNKNOWN_NAMES.len() as u32) as usize;
        self.builder.leaf(kind::IDENT, UNKNOWN_NAMES[which])
    }

    fn slice(&mut self, rng: &mut Rng) -> u32 {
        let ends = [0, 1, u32::MAX, 7, 1 << 31];
        let (start, end) = (*rng.pick(&ends), *rng.pick(&ends));
        if rng.once_in(2) {
            self.builder.node(kind::PEEK_SLICE, start, 0, 0)
        } else {
            self.builder.node(kind::PEEK_SLICE, start, 1, end)
        }
    }
}
