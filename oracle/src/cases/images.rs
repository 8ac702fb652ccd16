//! Images on both sides of refusals 1 to 7, and images with two faults at once.

use crate::builder::Builder;
use crate::image::{encode, kind, Grammar, Node, Rule};

/// An image with what it is for.
pub struct Faulty {
    pub says: String,
    pub image: Vec<u8>,
}

/// A rule for each of these kinds of node.
pub fn of_kinds(kinds: impl Iterator<Item = u8>) -> Grammar {
    let mut b = Builder::default();
    b.text(b"abcPOP");
    for kind in kinds {
        let root = one_of(&mut b, kind);
        b.rule(format!("k{kind}").as_bytes(), root);
    }
    for (n, node) in b.g.nodes.iter_mut().enumerate() {
        (node.start, node.end) = (n as u32, n as u32 + 1);
    }
    b.g
}

fn one_of(b: &mut Builder, kind: u8) -> u32 {
    match kind {
        kind::STR | kind::INSENS | kind::IDENT | kind::PUSH_LITERAL => b.leaf(kind, b"ab"),
        kind::RANGE => b.node(kind, 0, 0, 0),
        kind::PEEK_SLICE => b.node(kind, 1, 1, 2),
        _ => {
            let part = b.str("a");
            let second = match kind {
                kind::SEQ | kind::CHOICE => b.str("b"),
                kind::REP_EXACT | kind::REP_MIN | kind::REP_MAX | kind::REP_MIN_MAX => 1,
                _ => 0,
            };
            b.node(kind, part, second, u32::from(kind == kind::REP_MIN_MAX) * 2)
        }
    }
}

/// A small grammar for faults outside the nodes: `a = { "x" } b = { a ~ "" }`.
fn small() -> Grammar {
    crate::notation::read("a = { \"x\" } b = { a ~ \"\" }")
}

struct Faults {
    list: Vec<Faulty>,
}

/// All of them.
pub fn all() -> Vec<Faulty> {
    let mut faults = Faults { list: vec![] };
    faults.lengths();
    faults.contents();
    faults.nodes();
    faults.rules();
    faults.parts();
    faults.two_at_once();
    faults.full();
    faults.list
}

impl Faults {
    fn add(&mut self, says: impl Into<String>, image: Vec<u8>) {
        self.list.push(Faulty {
            says: says.into(),
            image,
        });
    }

    /// The small grammar, changed.
    fn small(&mut self, says: &str, change: impl FnOnce(&mut Grammar)) {
        let mut g = small();
        change(&mut g);
        self.add(says, encode(&g));
    }

    /// Images of 0 to 25 bytes.
    fn lengths(&mut self) {
        let empty = encode(&Grammar::default());
        self.add("the empty image", empty.clone());
        self.add("no byte", vec![]);
        self.add("23 bytes", empty[..23].to_vec());
        self.add("25 bytes", [&empty[..], &[0]].concat());
    }

    /// Each field of the table of contents, one more and one less, and counts over their limits.
    fn contents(&mut self) {
        let good = encode(&small());
        self.add("a good image", good.clone());
        self.add("one byte short", good[..good.len() - 1].to_vec());
        self.add("one byte long", [&good[..], &[0]].concat());
        let numbers = [1u32, u32::MAX, 1 << 31, 256, 2048, 8192];
        for field in 0..6 {
            for by in numbers {
                let mut image = good.clone();
                let at = 4 * field;
                let old = u32::from_le_bytes(image[at..at + 4].try_into().expect("4 bytes"));
                image[at..at + 4].copy_from_slice(&old.wrapping_add(by).to_le_bytes());
                self.add(format!("contents field {field} and {by}"), image);
            }
        }
        for (field, limit) in [(1, 256u32), (3, 2048), (5, 8192)] {
            for count in [limit, limit + 1] {
                let mut image = encode(&Grammar::default());
                image[4 * field..4 * field + 4].copy_from_slice(&count.to_le_bytes());
                self.add(format!("count {count} alone"), image);
            }
        }
    }

    /// Each field of a node of each kind, set to a few numbers.
    fn nodes(&mut self) {
        self.add("every kind", encode(&of_kinds(1..=19)));
        for kind in 1..=19 {
            self.fields_of(kind);
        }
        self.texts();
        self.spans();
        self.slices();
    }

    fn fields_of(&mut self, kind: u8) {
        let g = of_kinds(std::iter::once(kind));
        let at = 24 + 12 + 24 * g.rules[0].root as usize;
        for (byte, value) in [(0, 0), (0, 20), (0, 255), (1, 7), (1, 8), (2, 1), (3, 128)] {
            let mut image = encode(&g);
            image[at + byte] = value;
            self.add(format!("kind {kind} byte {byte} {value}"), image);
        }
        for field in 1..4 {
            for value in [1, 1 << 24, u32::MAX] {
                let mut image = encode(&g);
                image[at + 4 * field..][..4].copy_from_slice(&u32::to_le_bytes(value));
                self.add(format!("kind {kind} field {field} {value}"), image);
            }
        }
    }

    /// Text of a Str and an Ident at the edges.
    fn texts(&mut self) {
        let text = small().text.len() as u32;
        let edges = [
            (0, 0),
            (0, 1),
            (text, 0),
            (text + 1, 0),
            (u32::MAX, 0),
            (0, text),
            (0, text + 1),
            (text - 1, 1),
            (text, 1),
            (u32::MAX, 1),
            (1, u32::MAX),
            (u32::MAX, u32::MAX),
            (1 << 31, 1 << 31),
        ];
        for (a, b) in edges {
            self.small(&format!("Str {a} {b}"), |g| {
                (g.nodes[0].a, g.nodes[0].b) = (a, b)
            });
            self.small(&format!("Ident {a} {b}"), |g| {
                (g.nodes[1].a, g.nodes[1].b) = (a, b)
            });
        }
    }

    fn spans(&mut self) {
        let spans = [
            (5, 5),
            (6, 5),
            (0, u32::MAX),
            (u32::MAX, 0),
            (u32::MAX, u32::MAX),
        ];
        for (start, end) in spans {
            self.small(&format!("span {start} {end}"), |g| {
                (g.nodes[3].start, g.nodes[3].end) = (start, end)
            });
        }
    }

    fn slices(&mut self) {
        let fields = [
            (0, 0, 0),
            (0, 0, 1),
            (0, 1, 0),
            (5, 1, 5),
            (0, 2, 0),
            (u32::MAX, 0, 0),
        ];
        for (a, b, c) in fields {
            self.small(&format!("PeekSlice {a} {b} {c}"), |g| {
                let old = g.nodes[0];
                g.nodes[0] = Node {
                    kind: kind::PEEK_SLICE,
                    a,
                    b,
                    c,
                    ..old
                };
            });
        }
    }

    fn rules(&mut self) {
        let text = small().text.len() as u32;
        let fields = [
            (0, 0, 0),
            (0, text, 0),
            (0, text + 1, 0),
            (text, 1, 0),
            (u32::MAX, 1, 0),
            (0, u32::MAX, 0),
            (0, 1, 3),
            (0, 1, 4),
            (0, 1, u32::MAX),
        ];
        for (name_at, name_len, root) in fields {
            self.small(&format!("rule {name_at} {name_len} {root}"), |g| {
                g.rules[0] = Rule {
                    name_at,
                    name_len,
                    root,
                }
            });
        }
        self.small("the same name, the same place", |g| {
            g.rules[1].name_at = g.rules[0].name_at
        });
        self.small("the same name in another place", |g| {
            g.text.push(b'a');
            g.rules[1].name_at = g.text.len() as u32 - 1;
        });
        self.small("a name that begins like the other", |g| {
            g.text.extend(b"ab");
            g.rules[1].name_at = g.text.len() as u32 - 2;
            g.rules[1].name_len = 2;
        });
        self.small("names are bytes", |g| {
            g.text.extend([0, 255, 0, 254]);
            let at = g.text.len() as u32 - 4;
            (g.rules[0].name_at, g.rules[0].name_len) = (at, 2);
            (g.rules[1].name_at, g.rules[1].name_len) = (at + 2, 2);
        });
    }

    fn parts(&mut self) {
        for (a, b) in [
            (1, 1),
            (2, 1),
            (3, 2),
            (1, 3),
            (1, 4),
            (u32::MAX, 2),
            (0, 2),
            (1, 0),
        ] {
            self.small(&format!("parts {a} {b}"), |g| {
                (g.nodes[3].a, g.nodes[3].b) = (a, b)
            });
        }
        self.small("a root that is a part", |g| g.rules[0].root = 1);
        self.small("two rules with one root", |g| g.rules[0].root = 3);
        self.small("a node that nothing uses", |g| g.nodes.push(g.nodes[0]));
        self.small("nodes and no rules", |g| g.rules.clear());
        self.small("rules and no nodes", |g| g.nodes.clear());
        self.small("text only", |g| {
            g.nodes.clear();
            g.rules.clear();
        });
        let mut b = Builder::default();
        let one = b.str("a");
        let root = b.seq(one, one);
        b.rule(b"a", root);
        self.add("Seq with A = B", encode(&b.g));
    }

    /// The lower refusal wins, wherever the faults stand.
    fn two_at_once(&mut self) {
        self.small("4 in the last node and 5", |g| {
            g.nodes[3].bits = 8;
            g.rules[0].name_len = 0;
        });
        self.small("5 in the last rule and 6", |g| {
            g.rules[1] = Rule {
                root: 99,
                ..g.rules[0]
            };
        });
        self.small("6 and 7", |g| {
            g.rules[1].name_at = g.rules[0].name_at;
            g.nodes[3].a = 2;
        });
        self.small("5 and 7", |g| {
            g.rules[1].name_len = 0;
            g.nodes[3].a = 2;
        });
        self.small("4 and 7", |g| {
            g.nodes[3].a = 9;
            g.nodes[0].start = 1000;
            g.nodes[0].end = 0;
        });
        let mut image = encode(&small());
        image[4] = 1;
        image[5] = 1;
        image[0] = 0;
        self.add("2 and 3", image.clone());
        image[5] = 0;
        let last = 24 + 12 * 2 + 24 * 3;
        image[last] = 77;
        self.add("3 and 4", image);
    }

    /// All three counts at their limits: 60,440 bytes, nothing to report.
    fn full(&mut self) {
        let mut b = Builder::default();
        for rule in 0..256u32 {
            let name = format!("r{rule}");
            let (left, right) = (b.str(""), b.str("z"));
            let pair = b.seq(left, right);
            let root = b.nested(kind::PUSH, 5, pair);
            b.rule(name.as_bytes(), root);
        }
        b.g.text.resize(8192, b'z');
        self.add("every count at its limit", encode(&b.g));
    }
}
