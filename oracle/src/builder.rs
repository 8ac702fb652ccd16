//! Puts grammars together, parts before their nodes.

use crate::image::{kind, Grammar, Node, Rule};

/// A grammar under construction.
#[derive(Default)]
pub struct Builder {
    pub g: Grammar,
}

impl Builder {
    /// Where these bytes stand in the text; they are added where they do not stand yet.
    pub fn text(&mut self, bytes: &[u8]) -> (u32, u32) {
        let text = &mut self.g.text;
        let found = (0..=text.len()).find(|&at| text[at..].starts_with(bytes));
        let at = found.unwrap_or(text.len());
        if found.is_none() {
            text.extend(bytes);
        }
        (at as u32, bytes.len() as u32)
    }

    /// A node with fields A, B, C.
    pub fn node(&mut self, kind: u8, a: u32, b: u32, c: u32) -> u32 {
        self.g.nodes.push(Node {
            kind,
            a,
            b,
            c,
            ..Node::default()
        });
        self.g.nodes.len() as u32 - 1
    }

    /// A node with text: Str, Insens, Ident or PushLiteral.
    pub fn leaf(&mut self, kind: u8, bytes: &[u8]) -> u32 {
        let (at, len) = self.text(bytes);
        self.node(kind, at, len, 0)
    }

    /// A node with one part and no count.
    pub fn one(&mut self, kind: u8, part: u32) -> u32 {
        self.node(kind, part, 0, 0)
    }

    pub fn str(&mut self, text: &str) -> u32 {
        self.leaf(kind::STR, text.as_bytes())
    }

    pub fn ident(&mut self, name: &str) -> u32 {
        self.leaf(kind::IDENT, name.as_bytes())
    }

    pub fn seq(&mut self, left: u32, right: u32) -> u32 {
        self.node(kind::SEQ, left, right, 0)
    }

    pub fn choice(&mut self, left: u32, right: u32) -> u32 {
        self.node(kind::CHOICE, left, right, 0)
    }

    /// Folds nodes with Seq or Choice, to the left as pest's parser does.
    pub fn fold(&mut self, kind: u8, nodes: &[u32]) -> u32 {
        let mut all = nodes[0];
        for &node in &nodes[1..] {
            all = self.node(kind, all, node, 0);
        }
        all
    }

    /// A node with so many nodes of one part above it.
    pub fn nested(&mut self, kind: u8, times: u32, part: u32) -> u32 {
        (0..times).fold(part, |part, _| self.one(kind, part))
    }

    pub fn rule(&mut self, name: &[u8], root: u32) {
        let (name_at, name_len) = self.text(name);
        self.g.rules.push(Rule {
            name_at,
            name_len,
            root,
        });
    }
}
