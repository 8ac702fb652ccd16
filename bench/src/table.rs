//! The tables of figures, from callgrind's dumps and from what `count` said of each input.

use std::collections::BTreeMap;
use std::fs;
use std::path::Path;

use crate::profile::Profile;

/// Both verdict functions of the Rust.
const VERDICTS: [&str; 2] = ["is_non_failing", "is_non_progressing"];

/// One input: what was said of it, and its dumps by side.
struct Row<'p> {
    label: String,
    nodes: u64,
    asked: u64,
    walked: u64,
    reports: u64,
    lent: u64,
    sides: BTreeMap<&'p str, &'p Profile>,
}

impl Row<'_> {
    fn of(&self, side: &str) -> &Profile {
        self.sides[side]
    }

    fn total(&self, side: &str) -> u64 {
        self.of(side).total
    }

    /// Instructions of ours below a call from the entry.
    fn entry(&self, side: &str, to: &str) -> u64 {
        self.of(side).between("thatchnip_check", to)
    }

    /// Instructions of the Rust below a call from `validate_ast`.
    fn validator(&self, to: &str) -> u64 {
        self.of("rust").between("validator::validate_ast", to)
    }

    /// Instructions of the verdict functions.
    fn verdicts(&self) -> u64 {
        self.of("rust").below(&VERDICTS)
    }

    /// The three walks top down, each over a copy of the trees: repetitions, choices, tags.
    fn walks(&self) -> u64 {
        self.validator("filter_internal") + self.validator("ParserExpr as core::clone::Clone")
    }

    /// The Rust without its verdicts and without the walk for tags, which the port leaves out: a third of the walks.
    fn strict(&self) -> u64 {
        let judged = self.of("rust").between("filter_internal", "is_non_");
        self.total("rust") - self.verdicts() - (self.walks() - judged.min(self.walks())) / 3
    }
}

pub fn print(folder: &Path, said: &Path) {
    let profiles = Profile::read_all(folder);
    let said = fs::read_to_string(said).expect("what `count` said");
    let (each, inputs): (Vec<&str>, Vec<&str>) =
        said.lines().partition(|line| line.starts_with("each|"));
    let rows: Vec<Row> = inputs.iter().map(|line| row(line, &profiles)).collect();
    against(&rows);
    stack_pass(&rows);
    our_parts(&rows);
    their_parts(&rows);
    tables(&rows);
    if !each.is_empty() {
        one_by_one(&each, &profiles);
    }
    largest(&rows);
}

fn row<'p>(line: &str, profiles: &'p [Profile]) -> Row<'p> {
    let words: Vec<&str> = line.split('|').collect();
    let count = |i: usize| words[i].parse::<u64>().expect("a count");
    let sides = profiles.iter().filter_map(|p| {
        let (name, side) = p.name.split_once('|')?;
        (name == words[0]).then_some((side, p))
    });
    Row {
        label: match count(1) {
            1 => words[0].to_owned(),
            images => format!("{}, {} images", words[0], number(images)),
        },
        nodes: count(2),
        asked: count(3),
        walked: count(4),
        reports: count(5),
        lent: count(6),
        sides: sides.collect(),
    }
}

fn against(rows: &[Row]) {
    head(
        "Instructions. Ours: tables of twice the places taken. Rust: `validate_ast` on a ready tree; whole: with building and dropping the tree.",
        &["Input", "Nodes", "Reports", "Ours", "Rust, whole", "Rust", "Verdicts in it", "Ours / whole", "Ours / Rust", "Ours / Rust without verdicts"],
    );
    for r in rows {
        let (ours, rust, verdicts) = (r.total("twice"), r.total("rust"), r.verdicts());
        let whole = rust + r.total("tree");
        let counts = [r.nodes, r.reports, ours, whole, rust, verdicts].map(number);
        let ratios = [whole, rust, rust - verdicts].map(|other| ratio(ours, other));
        line(&r.label, &[&counts[..], &ratios[..]].concat());
    }
}

fn stack_pass(rows: &[Row]) {
    head(
        "The stack pass alone. Ours: the calls of `analysis::Pass` from the entry. Rust: `validate_stack_repetition`.",
        &["Input", "Pairs asked", "Pairs walked", "Ours", "Rust", "Ours / Rust"],
    );
    for r in rows {
        let (ours, rust) = (r.entry("twice", "analysis::Pass::"), r.total("rust stack"));
        let counts = [r.asked, r.walked, ours, rust].map(number);
        line(&r.label, &[&counts[..], &[ratio(ours, rust)]].concat());
    }
}

fn our_parts(rows: &[Row]) {
    head(
        "Ours by part. Copying: memcpy, wherever it is called. The entry itself: refusals 1 to 6, names, the final order.",
        &["Input", "Stack pass", "Reasons 1, 2, 4", "Reason 5", "Refusal 7", "Clearing", "The entry itself", "Copying, of all these"],
    );
    for r in rows {
        let below = |to: &str| r.entry("twice", to);
        let counts = [
            below("analysis::Pass::"),
            below("topdown::walk"),
            below("left::Quest::enter"),
            below("part_rule_broken"),
            below("memset"),
            r.of("twice").own("thatchnip_check"),
            r.of("twice").own("memcpy"),
        ];
        line(&r.label, &counts.map(number));
    }
}

fn their_parts(rows: &[Row]) {
    head(
        "The Rust by part. Strict: without verdicts and without a third of the walks (tags, left out of the port; an estimate).",
        &["Input", "Stack pass", "Three walks top down", "Left recursion", "Strict", "Ours / strict"],
    );
    for r in rows {
        let counts = [
            r.validator("validate_stack_repetition"),
            r.walks(),
            r.validator("check_expr"),
            r.strict(),
        ]
        .map(number);
        line(
            &r.label,
            &[&counts[..], &[ratio(r.total("twice"), r.strict())]].concat(),
        );
    }
}

fn tables(rows: &[Row]) {
    head(
        "Tables lent: just enough, twice that, and large (131,072 outcome and walked places, 4,096 reports: 1,605,632 bytes).",
        &["Input", "Bytes at twice", "Enough", "Twice", "Clearing in it", "Large", "Clearing in it", "Large / Rust"],
    );
    for r in rows {
        let clearing = |side: &str| r.entry(side, "memset");
        let counts = [
            r.lent,
            r.total("enough"),
            r.total("twice"),
            clearing("twice"),
            r.total("large"),
            clearing("large"),
        ];
        line(
            &r.label,
            &[
                &counts.map(number)[..],
                &[ratio(r.total("large"), r.total("rust"))],
            ]
            .concat(),
        );
    }
}

/// The images of the corpus one by one, by their number of nodes.
fn one_by_one(each: &[&str], profiles: &[Profile]) {
    let nodes = each
        .iter()
        .map(|line| line["each|".len()..].parse::<u64>().expect("nodes"));
    let totals = |side: &str| -> Vec<u64> {
        let name = format!("each|{side}");
        profiles
            .iter()
            .filter(|p| p.name == name)
            .map(|p| p.total)
            .collect()
    };
    let pairs = totals("ours").into_iter().zip(totals("rust"));
    let images: Vec<(u64, (u64, u64))> = nodes.zip(pairs).collect();
    head(
        "The images of the corpus one by one, tables of twice the places taken.",
        &[
            "Nodes",
            "Images",
            "Ours",
            "Rust",
            "Ours / Rust",
            "Over one half",
            "Highest ratio",
        ],
    );
    for (least, most) in [
        (0, 0),
        (1, 4),
        (5, 9),
        (10, 19),
        (20, 49),
        (50, 199),
        (200, 2048),
    ] {
        let group: Vec<(u64, u64)> = images
            .iter()
            .filter(|i| (least..=most).contains(&i.0))
            .map(|i| i.1)
            .collect();
        let sum = |f: fn(&(u64, u64)) -> u64| group.iter().map(f).sum::<u64>();
        let over = group.iter().filter(|(ours, rust)| 2 * ours > *rust).count();
        let highest = group
            .iter()
            .map(|(ours, rust)| *ours as f64 / *rust as f64)
            .fold(0.0, f64::max);
        let (ours, rust) = (sum(|p| p.0), sum(|p| p.1));
        let words = [
            number(group.len() as u64),
            number(ours),
            number(rust),
            ratio(ours, rust),
            number(over as u64),
            format!("{highest:.2}"),
        ];
        let nodes = if least == most {
            least.to_string()
        } else {
            format!("{least} to {most}")
        };
        line(&nodes, &words);
    }
}

fn largest(rows: &[Row]) {
    println!("\nFunctions of ours with most instructions of their own.\n");
    for r in rows {
        let share = |cost: u64| 100.0 * cost as f64 / r.total("twice").max(1) as f64;
        let names: Vec<String> = r
            .of("twice")
            .largest(8)
            .iter()
            .map(|(name, cost)| format!("{name} {:.0} %", share(*cost)))
            .collect();
        println!("- {}: {}", r.label, names.join(", "));
    }
}

fn head(title: &str, columns: &[&str]) {
    println!(
        "\n{title}\n\n| {} |\n|---{}|",
        columns.join(" | "),
        "|---:".repeat(columns.len() - 1)
    );
}

fn line(label: &str, words: &[String]) {
    println!("| {label} | {} |", words.join(" | "));
}

/// A number with commas.
fn number(n: u64) -> String {
    let digits = n.to_string();
    let mut text = String::new();
    for (i, digit) in digits.chars().enumerate() {
        if i > 0 && (digits.len() - i).is_multiple_of(3) {
            text.push(',');
        }
        text.push(digit);
    }
    text
}

fn ratio(ours: u64, other: u64) -> String {
    let ratio = ours as f64 / other.max(1) as f64;
    if ratio < 0.1 {
        format!("{ratio:.3}")
    } else {
        format!("{ratio:.2}")
    }
}
