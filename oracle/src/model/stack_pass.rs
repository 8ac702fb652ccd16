//! Reason 3: outcomes of nodes from abstract stacks, asked in order, with refusals 8 to 12.

use std::collections::{HashMap, HashSet};

use super::state::{join, State, ENTRY, UNKNOWN};
use super::{Places, Reports};
use crate::image::{kind, Grammar, Node};
use crate::judge::number;

/// Most nodes open at once.
const MOST_OPEN: u32 = 256;

/// Most distinct starts of a bounded or a greedy run.
const MOST_STARTS: usize = 64;

/// Most steps of `loops_forever`.
const MOST_STEPS: usize = 64;

/// The state after success or none, the state after failure or none, and whether a success surely
/// stays in place.
#[derive(Clone, Copy, Debug, PartialEq, Eq)]
struct Outcome {
    ok: Option<State>,
    err: Option<State>,
    empty: bool,
}

/// The answer about a pair that is still open.
const OPEN: Outcome = Outcome {
    ok: Some(UNKNOWN),
    err: Some(UNKNOWN),
    empty: false,
};

/// What is not run, or stops.
const NEVER: Outcome = Outcome {
    ok: None,
    err: None,
    empty: true,
};

/// Surely succeeds in place.
fn in_place(s: State) -> Outcome {
    Outcome {
        ok: Some(s),
        err: None,
        empty: true,
    }
}

/// Fails or moves on by any amount, with this stack either way.
fn fails_or_moves(s: State) -> Outcome {
    Outcome {
        ok: Some(s),
        err: Some(s),
        empty: false,
    }
}

/// A failed part under a choice, an optional or a copy: keeps its stack or takes the starting one.
fn kept_or_restored(err: Option<State>, start: State) -> Option<State> {
    err.map(|err| err.join(start))
}

impl Outcome {
    /// Where it cannot succeed, nothing moves.
    fn stays(&self) -> bool {
        self.ok.is_none() || self.empty
    }
}

/// How often a repetition runs: required copies, and the most of all where it has one.
struct Bounds {
    required: u32,
    most: Option<u32>,
}

/// The bounds of a repetition; RepMinMax with min above max: max required copies, none optional.
fn bounds(node: &Node) -> Bounds {
    let (required, most) = match node.kind {
        kind::REP => (0, None),
        kind::REP_ONCE => (1, None),
        kind::REP_MIN => (node.b, None),
        kind::REP_EXACT => (node.b, Some(node.b)),
        kind::REP_MAX => (0, Some(node.b)),
        _ => (node.b.min(node.c), Some(node.c)),
    };
    Bounds { required, most }
}

/// What a run of copies learns on its way.
#[derive(Default)]
struct Run {
    starts: Vec<State>,
    can_fail: bool,
    can_move: bool,
}

impl Run {
    /// A copy is about to be asked at a state not met before: the 65th gives 11.
    fn begin(&mut self, at: State) -> Result<(), u32> {
        if self.starts.len() == MOST_STARTS {
            return Err(11);
        }
        self.starts.push(at);
        Ok(())
    }

    fn note(&mut self, copy: &Outcome) {
        self.can_fail |= copy.err.is_some();
        self.can_move |= !copy.stays();
    }

    /// The state after all copies, read off the period that begins where `at` was met first.
    fn read_off(&self, at: State, count: u32) -> Option<State> {
        let first = self.starts.iter().position(|&s| s == at)?;
        let period = self.starts.len() - first;
        Some(self.starts[first + (count as usize - first) % period])
    }
}

/// The stack pass: what is remembered, what was walked, what was reported.
struct Pass<'g> {
    g: &'g Grammar,
    places: Places,
    skips: bool,
    outcomes: HashMap<(u32, State), Option<Outcome>>,
    walked: HashSet<(u32, State)>,
    reported: HashSet<u32>,
    reports: &'g mut Reports,
    walking: bool,
    open: u32,
}

type Asked = Result<Outcome, u32>;

/// The whole pass, unless a skip rule may change the stack; tells the places taken.
pub fn run(
    g: &Grammar,
    places: Places,
    reports: &mut Reports,
    taken: &mut Places,
) -> Result<(), u32> {
    let skip_rules: Vec<usize> = [&b"WHITESPACE"[..], b"COMMENT"]
        .iter()
        .filter_map(|name| g.find_rule(name))
        .collect();
    if rules_modify_stack(g, &skip_rules) {
        return Ok(());
    }
    let mut pass = Pass {
        g,
        places,
        skips: !skip_rules.is_empty(),
        outcomes: HashMap::new(),
        walked: HashSet::new(),
        reported: HashSet::new(),
        reports,
        walking: false,
        open: 0,
    };
    let walked = pass.walk_rules();
    taken.outcome = pass.outcomes.len() as u32;
    taken.walked = pass.walked.len() as u32;
    walked
}

/// Some Push, PushLiteral, POP, DROP or POP_ALL outside predicates is reached from these rules.
fn rules_modify_stack(g: &Grammar, from: &[usize]) -> bool {
    let mut reached: Vec<usize> = from.to_vec();
    let mut next = 0;
    while next < reached.len() {
        let mut todo = vec![g.rules[reached[next]].root];
        next += 1;
        while let Some(n) = todo.pop() {
            let node = &g.nodes[n as usize];
            match node.kind {
                kind::PUSH | kind::PUSH_LITERAL => return true,
                kind::POS_PRED | kind::NEG_PRED => (),
                kind::IDENT => match g.text_of(node) {
                    b"POP" | b"DROP" | b"POP_ALL" => return true,
                    name => reached.extend(g.find_rule(name).filter(|r| !reached.contains(r))),
                },
                _ => todo.extend(node.parts()),
            }
        }
    }
    false
}

impl Pass<'_> {
    /// Every rule is walked from Any, 0, 0, intact.
    fn walk_rules(&mut self) -> Result<(), u32> {
        for rule in &self.g.rules {
            self.walking = true;
            self.visit(rule.root, ENTRY)?;
            self.walking = false;
        }
        Ok(())
    }

    /// Asks about a node: 12 first, remembered answers included.
    fn opened(&mut self, ask: impl FnOnce(&mut Self) -> Asked) -> Asked {
        if self.open == MOST_OPEN {
            return Err(12);
        }
        self.open += 1;
        let answer = ask(self);
        self.open -= 1;
        answer
    }

    /// While walking, a (node, state) not yet walked is stepped afresh; else its outcome is asked.
    fn visit(&mut self, n: u32, s: State) -> Asked {
        self.opened(|pass| {
            if !pass.walking || pass.walked.contains(&(n, s)) {
                return pass.remembered(n, s);
            }
            if pass.walked.len() as u64 >= u64::from(pass.places.walked) {
                return Err(9);
            }
            pass.walked.insert((n, s));
            pass.step(n, s)
        })
    }

    /// The outcome of a node; turns walking off.
    fn outcome(&mut self, n: u32, s: State) -> Asked {
        self.opened(|pass| pass.remembered(n, s))
    }

    /// The remembered outcome; UNKNOWN for an open pair; a new pair takes a place and is stepped.
    fn remembered(&mut self, n: u32, s: State) -> Asked {
        match self.outcomes.get(&(n, s)) {
            Some(answer) => Ok(answer.unwrap_or(OPEN)),
            None if self.outcomes.len() as u64 >= u64::from(self.places.outcome) => Err(8),
            None => {
                self.outcomes.insert((n, s), None);
                let walking = std::mem::replace(&mut self.walking, false);
                let answer = self.step(n, s)?;
                self.walking = walking;
                self.outcomes.insert((n, s), Some(answer));
                Ok(answer)
            }
        }
    }

    /// One node from one state, by its kind.
    fn step(&mut self, n: u32, s: State) -> Asked {
        let node = self.g.nodes[n as usize];
        match node.kind {
            kind::STR | kind::INSENS if node.b == 0 => Ok(in_place(s)),
            kind::STR | kind::INSENS | kind::RANGE => Ok(fails_or_moves(s)),
            kind::PUSH_LITERAL => Ok(in_place(s.push(node.b == 0))),
            kind::PEEK_SLICE => Ok(slice(&node, s)),
            kind::IDENT => self.ident(&node, s),
            kind::POS_PRED | kind::NEG_PRED => self.predicate(&node, s),
            kind::SEQ => self.seq(&node, s),
            kind::CHOICE => self.choice(&node, s),
            kind::OPT => self.opt(&node, s),
            kind::PUSH => self.push(&node, s),
            kind::NODE_TAG => self.visit(node.a, s),
            _ => self.repeat(n, &node, s),
        }
    }

    /// Built-in stack names come before rules; unknown names fail or move on.
    fn ident(&mut self, node: &Node, s: State) -> Asked {
        let name = self.g.text_of(node);
        if let Some(answer) = built_in(name, s) {
            return Ok(answer);
        }
        match self.g.find_rule(name) {
            Some(rule) => self.outcome(self.g.rules[rule].root, s),
            None => Ok(fails_or_moves(s)),
        }
    }

    /// Predicates restore position and stack.
    fn predicate(&mut self, node: &Node, s: State) -> Asked {
        let part = self.visit(node.a, s)?;
        let (yes, no) = (part.ok.is_some(), part.err.is_some());
        let (ok, err) = match node.kind {
            kind::POS_PRED => (yes, no),
            _ => (no, yes),
        };
        Ok(Outcome {
            ok: ok.then_some(s),
            err: err.then_some(s),
            empty: true,
        })
    }

    /// A failed Seq restores; under skips a Seq is never empty.
    fn seq(&mut self, node: &Node, s: State) -> Asked {
        let left = self.visit(node.a, s)?;
        let right = match left.ok {
            Some(between) => self.visit(node.b, between)?,
            None => NEVER,
        };
        Ok(Outcome {
            ok: right.ok,
            err: (left.err.is_some() || right.err.is_some()).then_some(s),
            empty: !self.skips && left.empty && right.empty,
        })
    }

    /// The right side is run from what the failed left side leaves or the start.
    fn choice(&mut self, node: &Node, s: State) -> Asked {
        let left = self.visit(node.a, s)?;
        let right = match kept_or_restored(left.err, s) {
            Some(failed) => self.visit(node.b, failed)?,
            None => NEVER,
        };
        Ok(Outcome {
            ok: join(left.ok, right.ok),
            err: kept_or_restored(right.err, s),
            empty: left.stays() && right.stays(),
        })
    }

    fn opt(&mut self, node: &Node, s: State) -> Asked {
        let part = self.visit(node.a, s)?;
        Ok(Outcome {
            ok: join(part.ok, kept_or_restored(part.err, s)),
            err: None,
            empty: part.stays(),
        })
    }

    /// Push pushes the length matched.
    fn push(&mut self, node: &Node, s: State) -> Asked {
        let part = self.visit(node.a, s)?;
        Ok(Outcome {
            ok: part.ok.map(|after| after.push(part.empty)),
            ..part
        })
    }

    /// A repetition: loop search and report, required copies, then optional copies or the greedy run.
    fn repeat(&mut self, n: u32, node: &Node, s: State) -> Asked {
        let bounds = bounds(node);
        if bounds.most.is_none() && self.walking && self.loops_forever(node.a, s)? {
            self.report(n, node, s)?;
        }
        let (middle, required) = self.steps(node.a, s, bounds.required, true)?;
        let err = required.can_fail.then_some(s);
        let Some(middle) = middle else {
            return Ok(Outcome { err, ..NEVER });
        };
        let (ok, rest) = match bounds.most {
            Some(most) => self.steps(node.a, middle, most - bounds.required, false)?,
            None => self.greedy(node.a, middle)?,
        };
        let between_turns = self.skips && bounds.most.unwrap_or(u32::MAX) > 1;
        let moves = between_turns || required.can_move || rest.can_move;
        Ok(Outcome {
            ok,
            err,
            empty: !moves,
        })
    }

    /// A bounded run: each copy from where the one before ended. A failed required copy ends it; an
    /// optional one keeps its stack or takes the copy's start.
    fn steps(
        &mut self,
        body: u32,
        s: State,
        count: u32,
        required: bool,
    ) -> Result<(Option<State>, Run), u32> {
        let mut run = Run::default();
        let mut at = s;
        for _ in 0..count {
            if let Some(end) = run.read_off(at, count) {
                return Ok((Some(end), run));
            }
            run.begin(at)?;
            let copy = self.visit(body, at)?;
            run.note(&copy);
            let next = if required {
                copy.ok
            } else {
                join(copy.ok, kept_or_restored(copy.err, at))
            };
            match next {
                Some(next) => at = next,
                None => return Ok((None, run)),
            }
        }
        Ok((Some(at), run))
    }

    /// The greedy run: ends, with success, at the first failed copy. Every state it can end with is
    /// joined; a failed copy keeps its stack or takes its start.
    fn greedy(&mut self, body: u32, s: State) -> Result<(Option<State>, Run), u32> {
        let mut run = Run::default();
        let mut ended = None;
        let mut next = Some(s);
        while let Some(at) = next.filter(|at| !run.starts.contains(at)) {
            run.begin(at)?;
            let copy = self.visit(body, at)?;
            run.note(&copy);
            ended = join(ended, kept_or_restored(copy.err, at));
            next = copy.ok;
        }
        Ok((ended, run))
    }

    /// Turns from a state succeed in place and come back to the entries of an earlier turn, the list
    /// below the cut untouched since. Each ask is an outcome.
    fn loops_forever(&mut self, body: u32, s: State) -> Result<bool, u32> {
        let mut at = s.fresh();
        let mut seen = vec![at];
        for _ in 0..MOST_STEPS {
            let turn = self.outcome(body, at)?;
            let Some(after) = turn.ok.filter(|_| turn.err.is_none() && turn.empty) else {
                return Ok(false);
            };
            if !after.intact() {
                seen.clear();
            } else if seen.iter().any(|earlier| earlier.same_top(after)) {
                return Ok(true);
            }
            at = after.fresh();
            seen.push(at);
        }
        Ok(false)
    }

    /// Held back if the body has bit 1 or 2; each node once, with the first state found to loop.
    fn report(&mut self, n: u32, node: &Node, s: State) -> Result<(), u32> {
        let held_back = self.g.nodes[node.a as usize].bits & 3 != 0;
        if held_back || !self.reported.insert(n) {
            return Ok(());
        }
        self.reports.place(number(n, u32::from(s.0), 3))
    }
}

/// PeekSlice 0 without end is PEEK_ALL; 0 to 0 succeeds; other slices fail or move on.
fn slice(node: &Node, s: State) -> Outcome {
    match (node.a, node.b, node.c) {
        (0, 0, _) => peek_all(s),
        (0, 1, 0) => in_place(s),
        _ => fails_or_moves(s),
    }
}

/// Moves by the sum of all entries or fails, a sum of 0 always matching.
fn peek_all(s: State) -> Outcome {
    if s.all_blank() {
        in_place(s)
    } else {
        fails_or_moves(s)
    }
}

/// The five built-in stack names.
fn built_in(name: &[u8], s: State) -> Option<Outcome> {
    match name {
        b"PEEK_ALL" => Some(peek_all(s)),
        b"POP_ALL" => Some(pop_all(s)),
        b"PEEK" => Some(match_top(s, s)),
        b"POP" => Some(match_top(s, s.pop_one())),
        b"DROP" => Some(drop_top(s)),
        _ => None,
    }
}

/// As PEEK_ALL, also empties; failed, it leaves any bottom part.
fn pop_all(s: State) -> Outcome {
    if s.all_blank() {
        return in_place(s.pop_all());
    }
    Outcome {
        ok: Some(s.pop_all()),
        err: Some(UNKNOWN),
        empty: false,
    }
}

/// PEEK and POP: stop on an empty stack; else move by the top's length or fail, 0 always matching.
fn match_top(s: State, after: State) -> Outcome {
    if s.surely_empty() {
        NEVER
    } else if s.top_blank() {
        in_place(after)
    } else {
        fails_or_moves(after)
    }
}

/// DROP fails on an empty stack.
fn drop_top(s: State) -> Outcome {
    Outcome {
        ok: (!s.surely_empty()).then(|| s.pop_one()),
        err: (s.length() == 0).then_some(s),
        empty: !s.surely_empty(),
    }
}
