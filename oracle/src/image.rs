//! Document 01's node image: a grammar as lists, written to bytes and read back with refusals 1 to 7.

/// Most rules, nodes and text bytes.
pub const LIMITS: [u64; 3] = [256, 2048, 8192];

/// The kinds of node, by document 01's numbers.
pub mod kind {
    pub const STR: u8 = 1;
    pub const INSENS: u8 = 2;
    pub const RANGE: u8 = 3;
    pub const IDENT: u8 = 4;
    pub const PEEK_SLICE: u8 = 5;
    pub const POS_PRED: u8 = 6;
    pub const NEG_PRED: u8 = 7;
    pub const SEQ: u8 = 8;
    pub const CHOICE: u8 = 9;
    pub const OPT: u8 = 10;
    pub const REP: u8 = 11;
    pub const REP_ONCE: u8 = 12;
    pub const REP_EXACT: u8 = 13;
    pub const REP_MIN: u8 = 14;
    pub const REP_MAX: u8 = 15;
    pub const REP_MIN_MAX: u8 = 16;
    pub const PUSH: u8 = 17;
    pub const PUSH_LITERAL: u8 = 18;
    pub const NODE_TAG: u8 = 19;
}

/// A node: kind, verdict bits, fields, span.
#[derive(Clone, Copy, Debug, Default, PartialEq, Eq)]
pub struct Node {
    pub kind: u8,
    pub bits: u8,
    pub a: u32,
    pub b: u32,
    pub c: u32,
    pub start: u32,
    pub end: u32,
}

/// A rule: where its name stands in the text, and its root.
#[derive(Clone, Copy, Debug, PartialEq, Eq)]
pub struct Rule {
    pub name_at: u32,
    pub name_len: u32,
    pub root: u32,
}

/// What an image says.
#[derive(Clone, Debug, Default, PartialEq, Eq)]
pub struct Grammar {
    pub rules: Vec<Rule>,
    pub nodes: Vec<Node>,
    pub text: Vec<u8>,
}

/// What a kind's fields A, B, C hold.
#[derive(Clone, Copy, PartialEq, Eq)]
enum Fields {
    Text,
    Nothing,
    Slice,
    OnePart,
    TwoParts,
    PartAndCount,
    PartAndTwoCounts,
}

/// The table of kinds; none where the kind is unknown.
fn fields(kind: u8) -> Option<Fields> {
    match kind {
        1 | 2 | 4 | 18 => Some(Fields::Text),
        3 => Some(Fields::Nothing),
        5 => Some(Fields::Slice),
        6 | 7 | 10 | 11 | 12 | 17 | 19 => Some(Fields::OnePart),
        8 | 9 => Some(Fields::TwoParts),
        13..=15 => Some(Fields::PartAndCount),
        16 => Some(Fields::PartAndTwoCounts),
        _ => None,
    }
}

impl Node {
    /// The parts of a node, left first.
    pub fn parts(&self) -> Vec<u32> {
        match fields(self.kind) {
            Some(Fields::TwoParts) => vec![self.a, self.b],
            Some(Fields::OnePart | Fields::PartAndCount | Fields::PartAndTwoCounts) => vec![self.a],
            _ => vec![],
        }
    }
}

impl Grammar {
    /// The text bytes of a node that has text.
    pub fn text_of(&self, node: &Node) -> &[u8] {
        &self.text[node.a as usize..][..node.b as usize]
    }

    /// The name of a rule.
    pub fn name_of(&self, rule: &Rule) -> &[u8] {
        &self.text[rule.name_at as usize..][..rule.name_len as usize]
    }

    /// The rule with a name.
    pub fn find_rule(&self, name: &[u8]) -> Option<usize> {
        self.rules.iter().position(|r| self.name_of(r) == name)
    }

    /// The rule that owns each node.
    pub fn owners(&self) -> Vec<usize> {
        let mut owners = vec![0; self.nodes.len()];
        for (i, rule) in self.rules.iter().enumerate() {
            owners[rule.root as usize] = i;
        }
        for n in (0..self.nodes.len()).rev() {
            for part in self.nodes[n].parts() {
                owners[part as usize] = owners[n];
            }
        }
        owners
    }
}

/// Writes a grammar as an image.
pub fn encode(g: &Grammar) -> Vec<u8> {
    let rules_at = 24;
    let nodes_at = rules_at + 12 * g.rules.len();
    let text_at = nodes_at + 24 * g.nodes.len();
    let contents = [
        (rules_at, g.rules.len()),
        (nodes_at, g.nodes.len()),
        (text_at, g.text.len()),
    ];
    let mut image = vec![];
    for (position, count) in contents {
        put(&mut image, &[position as u32, count as u32]);
    }
    for r in &g.rules {
        put(&mut image, &[r.name_at, r.name_len, r.root]);
    }
    for n in &g.nodes {
        image.extend([n.kind, n.bits, 0, 0]);
        put(&mut image, &[n.a, n.b, n.c, n.start, n.end]);
    }
    image.extend(&g.text);
    image
}

fn put(image: &mut Vec<u8>, words: &[u32]) {
    for word in words {
        image.extend(word.to_le_bytes());
    }
}

/// The number of 32 bits at a byte.
fn word(image: &[u8], at: usize) -> u32 {
    u32::from_le_bytes([image[at], image[at + 1], image[at + 2], image[at + 3]])
}

/// Reads an image, or gives the refusal: 1 to 7, tried in that order over the whole image.
pub fn decode(image: &[u8]) -> Result<Grammar, u32> {
    if image.len() < 24 {
        return Err(1);
    }
    let position = |i: usize| u64::from(word(image, 8 * i));
    let count = |i: usize| u64::from(word(image, 8 * i + 4));
    if (0..3).any(|i| count(i) > LIMITS[i]) {
        return Err(2);
    }
    let nodes_at = 24 + 12 * count(0);
    let text_at = nodes_at + 24 * count(1);
    let end = text_at + count(2);
    if [position(0), position(1), position(2)] != [24, nodes_at, text_at]
        || image.len() as u64 != end
    {
        return Err(3);
    }
    let bodies = &image[24..];
    let (rules, rest) = bodies.split_at(12 * count(0) as usize);
    let (nodes, text) = rest.split_at(24 * count(1) as usize);
    if nodes.chunks(24).any(|n| !node_ok(n, text.len() as u64)) {
        return Err(4);
    }
    let g = Grammar {
        rules: rules.chunks(12).map(read_rule).collect(),
        nodes: nodes.chunks(24).map(read_node).collect(),
        text: text.to_vec(),
    };
    if g.rules.iter().any(|r| !rule_ok(r, &g)) {
        return Err(5);
    }
    if names_shared(&g) {
        return Err(6);
    }
    if !parts_ok(&g) {
        return Err(7);
    }
    Ok(g)
}

fn read_rule(bytes: &[u8]) -> Rule {
    Rule {
        name_at: word(bytes, 0),
        name_len: word(bytes, 4),
        root: word(bytes, 8),
    }
}

fn read_node(bytes: &[u8]) -> Node {
    Node {
        kind: bytes[0],
        bits: bytes[1],
        a: word(bytes, 4),
        b: word(bytes, 8),
        c: word(bytes, 12),
        start: word(bytes, 16),
        end: word(bytes, 20),
    }
}

/// Text from a position over a length lies inside the text.
fn inside(at: u32, len: u32, text: u64) -> bool {
    u64::from(at) + u64::from(len) <= text
}

/// Refusal 4 for one node.
fn node_ok(bytes: &[u8], text: u64) -> bool {
    let n = read_node(bytes);
    let Some(fields) = fields(n.kind) else {
        return false;
    };
    let body_ok = match fields {
        Fields::Text => inside(n.a, n.b, text) && n.c == 0 && (n.kind != kind::IDENT || n.b > 0),
        Fields::Nothing => n.a == 0 && n.b == 0 && n.c == 0,
        Fields::Slice => n.b == 1 || n.b == 0 && n.c == 0,
        Fields::OnePart => n.b == 0 && n.c == 0,
        Fields::TwoParts | Fields::PartAndCount => n.c == 0,
        Fields::PartAndTwoCounts => true,
    };
    body_ok && n.bits <= 7 && bytes[2] == 0 && bytes[3] == 0 && n.start <= n.end
}

/// Refusal 5 for one rule.
fn rule_ok(rule: &Rule, g: &Grammar) -> bool {
    rule.name_len > 0
        && inside(rule.name_at, rule.name_len, g.text.len() as u64)
        && (rule.root as usize) < g.nodes.len()
}

/// Refusal 6: two rules share a name.
fn names_shared(g: &Grammar) -> bool {
    let mut names: Vec<&[u8]> = g.rules.iter().map(|r| g.name_of(r)).collect();
    names.sort();
    names.windows(2).any(|pair| pair[0] == pair[1])
}

/// Refusal 7: a part's number is below its node's; every node is exactly once a part or a root.
fn parts_ok(g: &Grammar) -> bool {
    let mut uses = vec![0u32; g.nodes.len()];
    for rule in &g.rules {
        uses[rule.root as usize] += 1;
    }
    for (number, node) in g.nodes.iter().enumerate() {
        for part in node.parts() {
            if part as usize >= number {
                return false;
            }
            uses[part as usize] += 1;
        }
    }
    uses.iter().all(|&n| n == 1)
}
