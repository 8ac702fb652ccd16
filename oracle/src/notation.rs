//! Reads grammars written as pest writes them: `a = { POP_ALL ~ PEEK_ALL* }`, rules one after another.
//! Parts get numbers before their nodes, left first; spans are places in the text.

use crate::builder::Builder;
use crate::image::{kind, Grammar};

/// Reads a grammar; panics where the text is none, since only the oracle's own texts are read.
pub fn read(text: &str) -> Grammar {
    let mut reader = Reader {
        text: text.as_bytes(),
        at: 0,
        builder: Builder::default(),
    };
    while reader.peek() != 0 {
        reader.rule();
    }
    reader.builder.g
}

struct Reader<'t> {
    text: &'t [u8],
    at: usize,
    builder: Builder,
}

impl Reader<'_> {
    /// The next byte that is not white; 0 at the end.
    fn peek(&mut self) -> u8 {
        while self
            .text
            .get(self.at)
            .is_some_and(|b| b.is_ascii_whitespace())
        {
            self.at += 1;
        }
        self.text.get(self.at).copied().unwrap_or(0)
    }

    /// Takes these bytes if they come next.
    fn take(&mut self, bytes: &str) -> bool {
        self.peek();
        let next = self.text[self.at..].starts_with(bytes.as_bytes());
        if next {
            self.at += bytes.len();
        }
        next
    }

    fn need(&mut self, bytes: &str) {
        let rest = String::from_utf8_lossy(&self.text[self.at..]).into_owned();
        assert!(self.take(bytes), "no {bytes} at: {rest}");
    }

    fn name(&mut self) -> Vec<u8> {
        self.peek();
        let len = self.text[self.at..]
            .iter()
            .take_while(|b| b.is_ascii_alphanumeric() || **b == b'_')
            .count();
        let name = self.text[self.at..][..len].to_vec();
        assert!(len > 0, "no name at byte {}", self.at);
        self.at += len;
        name
    }

    fn number(&mut self) -> Option<u32> {
        let negative = self.take("-");
        self.peek();
        let len = self.text[self.at..]
            .iter()
            .take_while(|b| b.is_ascii_digit())
            .count();
        let digits = std::str::from_utf8(&self.text[self.at..][..len]).unwrap_or("");
        self.at += len;
        let number: u32 = digits.parse().ok()?;
        Some(if negative {
            number.wrapping_neg()
        } else {
            number
        })
    }

    /// The bytes up to a closing quote.
    fn quoted(&mut self, quote: u8) -> Vec<u8> {
        let len = self.text[self.at..]
            .iter()
            .take_while(|b| **b != quote)
            .count();
        let bytes = self.text[self.at..][..len].to_vec();
        self.at += len + 1;
        bytes
    }

    fn rule(&mut self) {
        let name = self.name();
        self.need("=");
        self.need("{");
        let root = self.choice();
        self.need("}");
        self.builder.rule(&name, root);
    }

    /// Gives a node its span: from a byte to where the reader stands.
    fn spanned(&mut self, node: u32, start: usize) -> u32 {
        let n = &mut self.builder.g.nodes[node as usize];
        n.start = start as u32;
        n.end = self.at as u32;
        node
    }

    fn choice(&mut self) -> u32 {
        self.peek();
        let start = self.at;
        let mut left = self.seq();
        while self.take("|") {
            let right = self.seq();
            let node = self.builder.choice(left, right);
            left = self.spanned(node, start);
        }
        left
    }

    fn seq(&mut self) -> u32 {
        self.peek();
        let start = self.at;
        let mut left = self.prefixed();
        while self.take("~") {
            let right = self.prefixed();
            let node = self.builder.seq(left, right);
            left = self.spanned(node, start);
        }
        left
    }

    fn prefixed(&mut self) -> u32 {
        let first = self.peek();
        let start = self.at;
        let kind = match first {
            b'&' => kind::POS_PRED,
            b'!' => kind::NEG_PRED,
            b'#' => kind::NODE_TAG,
            _ => return self.postfixed(),
        };
        self.at += 1;
        if kind == kind::NODE_TAG {
            self.name();
            self.need("=");
        }
        let part = self.prefixed();
        let node = self.builder.one(kind, part);
        self.spanned(node, start)
    }

    fn postfixed(&mut self) -> u32 {
        self.peek();
        let start = self.at;
        let mut node = self.term();
        loop {
            node = match self.peek() {
                b'?' => self.suffix(kind::OPT, node),
                b'*' => self.suffix(kind::REP, node),
                b'+' => self.suffix(kind::REP_ONCE, node),
                b'{' => self.counted(node),
                _ => return node,
            };
            self.spanned(node, start);
        }
    }

    fn suffix(&mut self, kind: u8, part: u32) -> u32 {
        self.at += 1;
        self.builder.one(kind, part)
    }

    /// `{n}`, `{n,}`, `{,n}` or `{n,m}`.
    fn counted(&mut self, part: u32) -> u32 {
        self.need("{");
        let least = self.number();
        let comma = self.take(",");
        let most = self.number();
        self.need("}");
        match (least, comma, most) {
            (Some(n), false, None) => self.builder.node(kind::REP_EXACT, part, n, 0),
            (Some(n), true, None) => self.builder.node(kind::REP_MIN, part, n, 0),
            (None, true, Some(n)) => self.builder.node(kind::REP_MAX, part, n, 0),
            (Some(n), true, Some(m)) => self.builder.node(kind::REP_MIN_MAX, part, n, m),
            _ => panic!("bad counts before byte {}", self.at),
        }
    }

    fn term(&mut self) -> u32 {
        let first = self.peek();
        let start = self.at;
        let node = match first {
            b'(' => {
                self.need("(");
                let inner = self.choice();
                self.need(")");
                return inner;
            }
            b'"' | b'^' => self.string(),
            b'\'' => self.range(),
            _ => self.named(),
        };
        self.spanned(node, start)
    }

    fn string(&mut self) -> u32 {
        let kind = if self.take("^") {
            kind::INSENS
        } else {
            kind::STR
        };
        self.need("\"");
        let bytes = self.quoted(b'"');
        self.builder.leaf(kind, &bytes)
    }

    fn range(&mut self) -> u32 {
        self.need("'");
        self.quoted(b'\'');
        self.need("..");
        self.need("'");
        self.quoted(b'\'');
        self.builder.node(kind::RANGE, 0, 0, 0)
    }

    /// A name, `PUSH(..)`, `PUSH_LITERAL(".."  )` or `PEEK[..]`.
    fn named(&mut self) -> u32 {
        let name = self.name();
        if name == b"PUSH" && self.take("(") {
            let part = self.choice();
            self.need(")");
            return self.builder.one(kind::PUSH, part);
        }
        if name == b"PUSH_LITERAL" && self.take("(") {
            self.need("\"");
            let bytes = self.quoted(b'"');
            self.need(")");
            return self.builder.leaf(kind::PUSH_LITERAL, &bytes);
        }
        if name == b"PEEK" && self.take("[") {
            return self.slice();
        }
        self.builder.leaf(kind::IDENT, &name)
    }

    fn slice(&mut self) -> u32 {
        let start = self.number().unwrap_or(0);
        self.need("..");
        let end = self.number();
        self.need("]");
        let stands = u32::from(end.is_some());
        self.builder
            .node(kind::PEEK_SLICE, start, stands, end.unwrap_or(0))
    }
}
