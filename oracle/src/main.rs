//! The oracle's command line.

use std::io::Write;

use oracle::cases::claims::{CLAIMS, STARRED};
use oracle::{
    answers, bits, cases, compare, corpus, edits, explain, gen, image, judge, model, record, stream,
};

const USAGE: &str = "\
oracle rust FILE..                       the Rust's reports on images, one line a file
oracle model --places O W R FILE..       the model's answer: REFUSAL COUNT REPORT REPORT ..
oracle gen KIND SEED COUNT DIR           writes images; DIR - gives a stream of length and bytes
oracle compare SEED COUNT [KIND..]       Rust against model on COUNT generated images a kind
oracle claims                            document 01's starred cases and claims about the Rust
oracle sides                             the model's answers at the sides of each limit
oracle record FILE                       writes the recorded corpus, and FILE.txt about it
oracle stream SEED COUNT [KIND..]        a corpus of COUNT generated images a kind, to standard output
oracle replay FILE                       the model's and the Rust's answers against a corpus
oracle answers FILE LIST                 the Rust's answers on a corpus, for `oracle/mutants`
oracle edits SOURCES                     single-place changes of the Rust, one a line
oracle batch SOURCES NUMBERS CHANGED     writes copies with these changes, side by side
oracle write FILE TEXT [clear]           the image of a grammar in pest's notation
oracle explain FILE                      an image as text, with its reports in words";

fn main() {
    let work = std::thread::Builder::new().stack_size(4 << 30).spawn(run);
    let code = work.expect("a thread").join().unwrap_or(1);
    std::process::exit(code);
}

fn run() -> i32 {
    let args: Vec<String> = std::env::args().skip(1).collect();
    let words: Vec<&str> = args.iter().map(String::as_str).collect();
    match words.as_slice() {
        ["rust", files @ ..] => rust(files),
        ["model", "--places", o, w, r, files @ ..] => run_model(places(o, w, r), files),
        ["gen", kind, seed, count, dir] => generate(kind, number(seed), number(count) as u32, dir),
        ["compare", seed, count, kinds @ ..] => compare(number(seed), number(count) as u32, kinds),
        ["claims"] => claims(),
        ["sides"] => sides(),
        ["record", file] => record(file),
        ["stream", seed, count, kinds @ ..] => stream(number(seed), number(count) as u32, kinds),
        ["replay", file] => replay(file),
        ["answers", file, list] => answers(file, list),
        ["edits", sources] => list_edits(sources),
        ["batch", sources, list, changed] => batch(sources, list, changed),
        ["write", file, text] => write(file, text, cases::Bits::Rust),
        ["write", file, text, "clear"] => write(file, text, cases::Bits::Clear),
        ["explain", file] => explain(file),
        _ => {
            eprintln!("{USAGE}");
            2
        }
    }
}

fn number(word: &str) -> u64 {
    word.parse().expect("a number")
}

fn places(o: &str, w: &str, r: &str) -> model::Places {
    model::Places {
        outcome: number(o) as u32,
        walked: number(w) as u32,
        report: number(r) as u32,
    }
}

fn read(file: &str) -> Vec<u8> {
    std::fs::read(file).unwrap_or_else(|e| panic!("{file}: {e}"))
}

/// One line: refusal, count, reports.
fn line(refusal: u32, reports: &[u64]) -> String {
    let mut line = format!("{refusal} {}", reports.len());
    for report in reports {
        line += &format!(" {report}");
    }
    line
}

fn rust(files: &[&str]) -> i32 {
    for file in files {
        match image::decode(&read(file)) {
            Ok(g) => println!("{}", line(0, &judge::reports(&g))),
            Err(refusal) => println!("{}", line(refusal, &[])),
        }
    }
    0
}

fn run_model(places: model::Places, files: &[&str]) -> i32 {
    for file in files {
        let answer = model::check(&read(file), places);
        println!("{}", line(answer.refusal, &answer.reports));
    }
    0
}

fn generate(kind: &str, seed: u64, count: u32, dir: &str) -> i32 {
    let mut out = std::io::stdout().lock();
    for (i, image) in gen::images(kind, seed, count).enumerate() {
        let written = if dir == "-" {
            out.write_all(&(image.len() as u32).to_le_bytes())
                .and_then(|()| out.write_all(&image))
        } else {
            std::fs::write(format!("{dir}/{kind}-{seed}-{i}.img"), &image)
        };
        written.expect("room to write");
    }
    0
}

/// The kinds asked for, or all.
fn asked<'a>(kinds: &[&'a str]) -> Vec<&'a str> {
    if kinds.is_empty() {
        gen::KINDS.iter().copied().chain(["damaged"]).collect()
    } else {
        kinds.to_vec()
    }
}

fn compare(seed: u64, count: u32, kinds: &[&str]) -> i32 {
    let mut differences = 0;
    for kind in asked(kinds) {
        let seen = compare::kind(kind, seed, count);
        println!(
            "{kind}: {} images, {} held against the whole validator, {} against the stack pass; \
             reasons {:?}; refusals {:?}; most places {} and {}; {} differences",
            seen.images,
            seen.whole,
            seen.stack_only,
            seen.reasons,
            seen.refusals,
            seen.most_outcomes,
            seen.most_walked,
            seen.differences.len()
        );
        for difference in seen.differences.iter().take(3) {
            println!("{difference}");
        }
        differences += seen.differences.len();
    }
    println!("{differences} differences");
    i32::from(differences > 0)
}

fn explain(file: &str) -> i32 {
    let bytes = read(file);
    let answer = model::check(&bytes, model::PLENTY);
    println!("refusal {}", answer.refusal);
    if let Ok(g) = image::decode(&bytes) {
        print!("{}{}", explain::grammar(&g), explain::nodes(&g));
        for report in &answer.reports {
            println!("{}", explain::report(&g, *report));
        }
    }
    0
}

fn claims() -> i32 {
    let mut wrong = 0;
    for claim in STARRED.iter().chain(CLAIMS) {
        let verdict = claim.wrong();
        let word = if verdict.is_some() { "WRONG" } else { "holds" };
        println!(
            "{word}: {}: {} {:?}",
            claim.says,
            claim.text,
            claim.numbers()
        );
        if let Some(how) = verdict {
            println!("    {how}");
            wrong += 1;
        }
    }
    println!("{wrong} wrong");
    i32::from(wrong > 0)
}

/// The sides of each limit: the model's answer, and the Rust's where it comes in good time.
fn sides() -> i32 {
    for side in cases::limits::all() {
        let answer = model::check_grammar(&side.g, model::PLENTY);
        let (nodes, taken) = (side.g.nodes.len(), answer.taken);
        let rust = if bits::affordable(&side.g) && bits::are_rust_bits(&side.g) {
            line(0, &judge::reports(&side.g))
        } else {
            "not asked".to_owned()
        };
        println!(
            "{}: {nodes} nodes: {}; Rust: {rust}; places {} {}",
            side.says,
            line(answer.refusal, &answer.reports),
            taken.outcome,
            taken.walked
        );
    }
    for fault in cases::images::all() {
        let answer = model::check(&fault.image, model::PLENTY);
        println!("{}: {}", fault.says, line(answer.refusal, &answer.reports));
    }
    0
}

fn record(file: &str) -> i32 {
    let record = record::make();
    let bytes = corpus::write(&record.cases);
    let text = record.statistics(bytes.len());
    print!("{text}");
    std::fs::write(file, bytes).expect("room to write");
    std::fs::write(format!("{file}.txt"), text).expect("room to write");
    i32::from(!record.seen.differences.is_empty())
}

/// Cases to standard output, and how the Rust and the model agree on them to standard error.
fn stream(seed: u64, count: u32, kinds: &[&str]) -> i32 {
    let mut out = std::io::BufWriter::new(std::io::stdout().lock());
    let seen = stream::write(&mut out, seed, count, &asked(kinds)).expect("room to write");
    eprintln!(
        "{} images, {} held against the whole validator, {} against its stack pass: {} differences",
        seen.images,
        seen.whole,
        seen.stack_only,
        seen.differences.len()
    );
    i32::from(!seen.differences.is_empty())
}

fn replay(file: &str) -> i32 {
    let cases = corpus::read(&read(file));
    let mut seen = compare::Seen::default();
    let mut wrong = 0;
    for case in &cases {
        let answer = model::check(&case.image, case.places);
        wrong += u32::from(corpus::Case::new(&case.image, case.places, &answer) != *case);
        if case.refusal == 0 {
            compare::one(&case.image, &mut seen);
        }
    }
    let (count, whole, stack) = (cases.len(), seen.whole, seen.stack_only);
    let differences = seen.differences.len();
    println!("{count} cases, {wrong} answered otherwise by the model");
    println!("{whole} held against the whole validator, {stack} against the stack pass: {differences} differences");
    i32::from(wrong > 0 || differences > 0)
}

fn answers(file: &str, list: &str) -> i32 {
    let mut known = std::collections::HashSet::new();
    let mut bytes = vec![];
    for case in corpus::read(&read(file)) {
        let sound = model::check(&case.image, model::PLENTY).refusal == 0;
        if !sound || !known.insert(case.image.clone()) {
            continue;
        }
        let g = image::decode(&case.image).expect("the model has read it");
        let whole = bits::affordable(&g) && bits::are_rust_bits(&g);
        let answer = answers::Answer {
            whole,
            reports: answers::reports(&g, whole),
            image: case.image,
        };
        answers::write(&mut bytes, &answer);
    }
    std::fs::write(list, bytes).expect("room to write");
    0
}

fn list_edits(sources: &str) -> i32 {
    for (i, edit) in edits::all(sources).iter().enumerate() {
        println!("{i}\t{}\t{}", edit.group, edit.tell(sources));
    }
    0
}

fn batch(sources: &str, list: &str, changed: &str) -> i32 {
    let numbers = std::fs::read_to_string(list).expect("a list of numbers");
    let numbers: Vec<usize> = numbers
        .split_whitespace()
        .map(|n| number(n) as usize)
        .collect();
    edits::batch(sources, &numbers, changed);
    0
}

fn write(file: &str, text: &str, bits: cases::Bits) -> i32 {
    let g = cases::grammar(text, bits, cases::Spans::Text);
    std::fs::write(file, image::encode(&g)).expect("room to write");
    0
}
