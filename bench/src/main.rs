//! The benchmark: the proved check and the Rust validator on the same inputs. `bench/run` has the commands.

mod counter;
mod inputs;
mod ours;
mod profile;
mod table;

use std::path::Path;

use oracle::image::{self, Grammar};
use oracle::model::{self, Places};
use oracle::{bits, corpus, judge};
use pest_meta::{validate_ast, Doors, Rust};

use counter::{counted, dump};
use ours::Tables;

/// A grammar with its image and the places that its check takes.
struct Case {
    grammar: Grammar,
    image: Vec<u8>,
    taken: Places,
    /// What must be reported.
    reports: Vec<u64>,
    /// The image's bits are the Rust's, so that the Rust must report the same.
    same: bool,
}

impl Case {
    fn new(grammar: Grammar) -> Case {
        let answer = model::check_grammar(&grammar, model::PLENTY);
        assert_eq!(answer.refusal, 0);
        Case {
            image: image::encode(&grammar),
            taken: answer.taken,
            reports: answer.reports,
            same: bits::are_rust_bits(&grammar),
            grammar,
        }
    }
}

/// The images of the corpus that are accepted and that the Rust can judge, each once.
fn recorded(file: &str) -> Vec<Case> {
    let bytes = std::fs::read(file).expect("the corpus");
    let mut images: Vec<Vec<u8>> = corpus::read(&bytes)
        .into_iter()
        .filter(|case| case.refusal == 0)
        .map(|case| case.image)
        .collect();
    images.sort_unstable();
    images.dedup();
    let grammars = images.iter().filter_map(|image| image::decode(image).ok());
    grammars.filter(bits::affordable).map(Case::new).collect()
}

/// Tables to lend: just large enough, twice as large, or as large as any grammar may need.
const LENT: [&str; 3] = ["enough", "twice", "large"];

fn lent(how: &str, taken: Places) -> Tables {
    let places = match how {
        "enough" => taken,
        "twice" => Places {
            outcome: 2 * taken.outcome,
            walked: 2 * taken.walked,
            report: 2 * taken.report,
        },
        _ => Places {
            outcome: 131_072,
            walked: 131_072,
            report: 4_096,
        },
    };
    Tables::new(places)
}

/// Counts both sides on the cases of one input, and says what they are.
fn measure(name: &str, cases: &[Case]) {
    for how in LENT {
        for case in cases {
            let mut tables = lent(how, case.taken);
            let number = counted(|| tables.check(&case.image));
            assert_eq!(number, case.reports.len() as u64, "{name}: our number");
            assert_eq!(
                tables.reports(case.reports.len()),
                case.reports,
                "{name}: our reports"
            );
        }
        dump(&format!("{name}|{how}"));
    }
    for case in cases {
        counted(|| drop(judge::rules(&case.grammar)));
    }
    dump(&format!("{name}|tree"));
    for case in cases {
        let rules = judge::rules(&case.grammar);
        counted(|| drop(validate_ast(&rules)));
        assert!(
            !case.same || judge::reports(&case.grammar) == case.reports,
            "{name}: the Rust's reports"
        );
    }
    dump(&format!("{name}|rust"));
    for case in cases {
        let rules = judge::rules(&case.grammar);
        counted(|| drop(Rust::stack_pass(&rules, None)));
    }
    dump(&format!("{name}|rust stack"));
    let sum = |f: fn(&Case) -> usize| cases.iter().map(f).sum::<usize>();
    println!(
        "{name}|{}|{}|{}|{}|{}|{}",
        cases.len(),
        sum(|c| c.grammar.nodes.len()),
        sum(|c| c.taken.outcome as usize),
        sum(|c| c.taken.walked as usize),
        sum(|c| c.reports.len()),
        sum(|c| lent("twice", c.taken).len()),
    );
}

/// Everything once, so that what is made at first use is not counted.
fn warm(cases: &[Case]) {
    for case in cases {
        lent("large", case.taken).check(&case.image);
        let rules = judge::rules(&case.grammar);
        drop(validate_ast(&rules));
    }
    dump("warm");
}

/// Counts the inputs whose name has this part.
fn count(corpus: &str, part: &str) {
    let recorded = recorded(corpus);
    warm(&recorded[..recorded.len().min(50)]);
    for input in inputs::all() {
        if input.name.contains(part) {
            measure(&input.name, &[Case::new(input.grammar)]);
        }
    }
    let name = "the recorded corpus";
    if name.contains(part) {
        measure(name, &recorded);
        measure_each(&recorded);
    }
}

/// Counts both sides on each case apart.
fn measure_each(cases: &[Case]) {
    for case in cases {
        let mut tables = lent("twice", case.taken);
        counted(|| tables.check(&case.image));
        dump("each|ours");
        let rules = judge::rules(&case.grammar);
        counted(|| drop(validate_ast(&rules)));
        dump("each|rust");
        println!("each|{}", case.grammar.nodes.len());
    }
}

fn main() {
    let arguments: Vec<String> = std::env::args().skip(1).collect();
    let arguments: Vec<&str> = arguments.iter().map(String::as_str).collect();
    match arguments[..] {
        ["count", corpus] => count(corpus, ""),
        ["count", corpus, part] => count(corpus, part),
        ["table", counts, said] => table::print(Path::new(counts), Path::new(said)),
        _ => {
            eprintln!("usage: bench count CORPUS [PART OF A NAME] | bench table COUNTS SAID");
            std::process::exit(2);
        }
    }
}
