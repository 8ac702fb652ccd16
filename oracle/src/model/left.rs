//! Reason 5: the left-recursion search from each rule, with refusals 12 and 13.

use super::Reports;
use crate::image::{kind, Grammar};
use crate::judge::number;

/// Most nodes open at once.
const MOST_OPEN: u32 = 256;

/// Most nodes entered from one rule.
const MOST_ENTERED: u32 = 65_536;

/// The search from one rule.
struct Search<'g> {
    g: &'g Grammar,
    /// The rules on the way, the first rule first.
    trail: Vec<usize>,
    open: u32,
    entered: u32,
}

/// Searches from every rule in order; one report at most for each.
pub fn recursion(g: &Grammar, reports: &mut Reports) -> Result<(), u32> {
    for (rule, r) in g.rules.iter().enumerate() {
        let mut search = Search {
            g,
            trail: vec![rule],
            open: 0,
            entered: 0,
        };
        if let Some(ident) = search.enter(r.root)? {
            reports.place(number(ident, 0, 5))?;
        }
    }
    Ok(())
}

impl Search<'_> {
    /// Enters a node: 12, then 13; gives the Ident that leads back to the first rule.
    fn enter(&mut self, n: u32) -> Result<Option<u32>, u32> {
        if self.open == MOST_OPEN {
            return Err(12);
        }
        if self.entered == MOST_ENTERED {
            return Err(13);
        }
        self.open += 1;
        self.entered += 1;
        let found = self.look(n);
        self.open -= 1;
        found
    }

    fn look(&mut self, n: u32) -> Result<Option<u32>, u32> {
        let node = &self.g.nodes[n as usize];
        match node.kind {
            kind::IDENT => self.name(n),
            kind::SEQ if self.g.nodes[node.a as usize].bits & 4 == 0 => self.enter(node.a),
            _ => self.first_of(&node.parts()),
        }
    }

    /// The first find among parts, left first.
    fn first_of(&mut self, parts: &[u32]) -> Result<Option<u32>, u32> {
        for &part in parts {
            let found = self.enter(part)?;
            if found.is_some() {
                return Ok(found);
            }
        }
        Ok(None)
    }

    /// Meeting the first rule is a find; a rule already on the trail is not entered again.
    fn name(&mut self, n: u32) -> Result<Option<u32>, u32> {
        let name = self.g.text_of(&self.g.nodes[n as usize]);
        let Some(rule) = self.g.find_rule(name) else {
            return Ok(None);
        };
        if rule == self.trail[0] {
            return Ok(Some(n));
        }
        if self.trail.contains(&rule) {
            return Ok(None);
        }
        self.trail.push(rule);
        let found = self.enter(self.g.rules[rule].root);
        self.trail.pop();
        found
    }
}
