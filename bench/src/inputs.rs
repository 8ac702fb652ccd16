//! The inputs: grammars made by rule or from fixed seeds, each within document 01's limits.

use oracle::bits;
use oracle::builder::Builder;
use oracle::image::{kind, Grammar};
use oracle::notation;
use oracle::rng::Rng;

/// A name and a grammar, its spans as in a text and its bits the Rust's.
pub struct Input {
    pub name: String,
    pub grammar: Grammar,
}

/// All inputs but the corpus, in the order of the table.
pub fn all() -> Vec<Input> {
    let mut inputs = vec![
        finished("small: (PUSH(\"\") ~ POP)*", starred()),
        finished("bench: a pixel list", pixel_list()),
        finished("names: 250 rules", names(250)),
        finished("stack: PUSH, PEEK, POP", stack(8)),
        finished("deep: 256 open", deep()),
        finished("wide choices", wide()),
        finished("left recursion, 60 rules", ring(60)),
        finished("reports: seven a rule", reports()),
        backwards("reports, last rule first", reports()),
    ];
    for times in [1, 2, 4, 8] {
        let name = format!("growth, names x{times}");
        inputs.push(finished(&name, names(31 * times)));
    }
    for times in [1, 2, 4, 8] {
        let name = format!("growth, stack x{times}");
        inputs.push(finished(&name, stack(times)));
    }
    inputs
}

/// With spans as in a text, rule after rule.
fn finished(name: &str, grammar: Grammar) -> Input {
    let order: Vec<usize> = (0..grammar.rules.len()).collect();
    spanned(name, grammar, &order)
}

/// With spans as in a text that has the last rule first.
fn backwards(name: &str, grammar: Grammar) -> Input {
    let order: Vec<usize> = (0..grammar.rules.len()).rev().collect();
    spanned(name, grammar, &order)
}

fn spanned(name: &str, mut grammar: Grammar, order: &[usize]) -> Input {
    let mut at = 0;
    for &rule in order {
        let root = grammar.rules[rule].root;
        set_spans(&mut grammar, root, &mut at);
    }
    bits::set_rust_bits(&mut grammar);
    Input {
        name: name.to_owned(),
        grammar,
    }
}

/// A node spans from its first part to its last.
fn set_spans(g: &mut Grammar, n: u32, at: &mut u32) {
    let start = *at;
    for part in g.nodes[n as usize].parts() {
        set_spans(g, part, at);
        *at += 1;
    }
    *at += 1;
    let node = &mut g.nodes[n as usize];
    (node.start, node.end) = (start, *at);
}

/// Document 01's starred case.
fn starred() -> Grammar {
    read("a = { (PUSH(\"\") ~ POP)* }")
}

/// What a bench would load: a list of pixels, with quoting by the stack.
fn pixel_list() -> Grammar {
    read(
        "WHITESPACE = { \" \" | \"\t\" }
         COMMENT = { \"#\" ~ (!newline ~ ANY)* }
         newline = { \"\n\" | \"\r\n\" }
         digit = { '0'..'9' }
         number = { digit+ }
         sign = { \"+\" | \"-\" }
         value = { sign? ~ number ~ (\".\" ~ number)? }
         row = { \"row\" ~ number }
         column = { \"col\" ~ number }
         place = { row ~ \",\" ~ column }
         range = { number ~ \"-\" ~ number }
         span = { \"rows\" ~ range | \"cols\" ~ range }
         fence = { PUSH(\"'\"{1,3}) ~ (!PEEK ~ ANY)* ~ POP }
         note = { \"note\" ~ fence }
         level = { \"hot\" | \"warm\" | \"dead\" | \"stuck\" ~ value }
         entry = { (place | span) ~ level ~ note? }
         entries = { entry ~ (newline+ ~ entry)* }
         key = { ('a'..'z' | \"_\")+ }
         field = { key ~ \"=\" ~ (value | fence | key) }
         header = { \"sensor\" ~ key ~ (newline+ ~ field)* }
         block = { PUSH(key) ~ \"{\" ~ entries ~ \"}\" ~ POP }
         blocks = { block ~ (newline+ ~ block){0,63} }
         file = { SOI ~ header ~ newline+ ~ (blocks | entries) ~ newline* ~ EOI }",
    )
}

fn read(text: &str) -> Grammar {
    notation::read(text)
}

const WORDS: [&str; 16] = [
    "pixel", "row", "column", "defect", "cluster", "gain", "offset", "dark", "bright", "frame",
    "sensor", "map", "line", "block", "header", "value",
];

/// Names of 12 to 40 bytes, all different.
fn long_names(count: u32) -> Vec<String> {
    let mut rng = Rng::new(1);
    let name = |i: u32, rng: &mut Rng| {
        let length = rng.between(12, 40) as usize;
        let mut name = String::new();
        while name.len() + 4 < length {
            name += *rng.pick(&WORDS);
            name.push('_');
        }
        name.truncate(length - 4);
        name + &format!("_{i:03}")
    };
    (0..count).map(|i| name(i, &mut rng)).collect()
}

/// Rules of eight nodes: `"k" ~ x ~ y* | z`, where x, y and z are names of rules at least an eighth of the way further on.
fn names(rules: u32) -> Grammar {
    let names = long_names(rules);
    let mut rng = Rng::new(3);
    let mut b = Builder::default();
    for i in 0..rules {
        let from = i + rules.div_ceil(8);
        let key = b.str("k");
        let side = |b: &mut Builder, rng: &mut Rng| {
            if from < rules {
                b.ident(&names[rng.between(from, rules - 1) as usize])
            } else {
                b.str("v")
            }
        };
        let x = side(&mut b, &mut rng);
        let head = b.seq(key, x);
        let y = side(&mut b, &mut rng);
        let many = b.one(kind::REP, y);
        let both = b.seq(head, many);
        let z = side(&mut b, &mut rng);
        let root = b.choice(both, z);
        b.rule(names[i as usize].as_bytes(), root);
    }
    b.g
}

/// Rules of stack work in sequences, choices, optionals and repetitions: about 250 nodes a time.
fn stack(times: u32) -> Grammar {
    let mut rng = Rng::new(2);
    let mut b = Builder::default();
    for i in 0..5 * times {
        let turns: Vec<u32> = (0..5).map(|_| stack_turn(&mut b, i, &mut rng)).collect();
        let root = b.fold(kind::SEQ, &turns);
        b.rule(format!("r{i}").as_bytes(), root);
    }
    b.g
}

/// One turn of stack work, about ten nodes.
fn stack_turn(b: &mut Builder, rule: u32, rng: &mut Rng) -> u32 {
    let ops: Vec<u32> = (0..4).map(|_| stack_op(b, rule, rng)).collect();
    let left = b.seq(ops[0], ops[1]);
    let right = b.seq(ops[2], ops[3]);
    let both = b.choice(left, right);
    match rng.below(5) {
        0 => b.one(kind::OPT, both),
        1 => b.one(kind::REP, both),
        2 => b.one(kind::REP_ONCE, both),
        3 => b.node(kind::REP_MIN_MAX, both, 1, 3),
        _ => b.one(kind::POS_PRED, both),
    }
}

/// The first five rules name no other; the rest name these, from many states.
fn stack_op(b: &mut Builder, rule: u32, rng: &mut Rng) -> u32 {
    match rng.below(12) {
        0 | 1 => {
            let part = b.str("");
            b.one(kind::PUSH, part)
        }
        2 => {
            let part = b.str("a");
            b.one(kind::PUSH, part)
        }
        3 => b.leaf(kind::PUSH_LITERAL, b""),
        4 => b.ident("PEEK"),
        5 => b.ident("POP"),
        6 => b.ident("DROP"),
        7 => b.ident("PEEK_ALL"),
        8 => b.node(kind::PEEK_SLICE, 0, 1, 0),
        9 if rule < 5 => b.ident("POP_ALL"),
        _ if rule < 5 => b.leaf(kind::PUSH_LITERAL, b""),
        _ => {
            let other = rng.below(5);
            b.ident(&format!("r{other}"))
        }
    }
}

/// Eight rules of 255 nodes with one part each, over a Str: 256 nodes open at once.
fn deep() -> Grammar {
    const KINDS: [u8; 4] = [kind::POS_PRED, kind::PUSH, kind::OPT, kind::NEG_PRED];
    let mut b = Builder::default();
    for i in 0..8u32 {
        let mut n = b.str("a");
        for level in 0..255 {
            n = b.one(KINDS[((i + level) % 4) as usize], n);
        }
        b.rule(format!("d{i}").as_bytes(), n);
    }
    b.g
}

/// Eight rules, each a choice of 120 sides: texts, names, and sequences of the two.
fn wide() -> Grammar {
    let mut b = Builder::default();
    for i in 0..8u32 {
        let sides: Vec<u32> = (0..120u32)
            .map(|side| {
                let text = b.str(&format!("w{side}"));
                match side % 16 {
                    5 if i > 0 => {
                        let name = b.ident(&format!("c{}", i - 1));
                        b.seq(text, name)
                    }
                    _ => text,
                }
            })
            .collect();
        let root = b.fold(kind::CHOICE, &sides);
        b.rule(format!("c{i}").as_bytes(), root);
    }
    b.g
}

/// Rules in a ring, each beginning with the next: every one is left-recursive.
fn ring(rules: u32) -> Grammar {
    let mut b = Builder::default();
    for i in 0..rules {
        let name = b.ident(&format!("ring{}", (i + 1) % rules));
        let text = b.str("x");
        let both = b.seq(name, text);
        let end = b.str("y");
        let root = b.choice(both, end);
        b.rule(format!("ring{i}").as_bytes(), root);
    }
    b.g
}

/// As many reports as rules of eight nodes can give: `((""*)*)*`, seven deep.
fn reports() -> Grammar {
    let mut b = Builder::default();
    for i in 0..256u32 {
        let text = b.str("");
        let root = b.nested(kind::REP, 7, text);
        b.rule(format!("n{i}").as_bytes(), root);
    }
    b.g
}
