//! Runs a changed copy of the Rust over recorded answers; ends with 1 at the first other answer.
//! Takes the list that `oracle answers` writes, and the number of the copy.

#![allow(dead_code)]

#[path = "../src/answers.rs"]
mod answers;
#[path = "../src/image.rs"]
mod image;
#[path = "../src/judge.rs"]
mod judge;

fn main() {
    let work = std::thread::Builder::new().stack_size(1 << 30).spawn(run);
    std::process::exit(work.expect("a thread").join().unwrap_or(3));
}

fn run() -> i32 {
    let args: Vec<String> = std::env::args().collect();
    let bytes = std::fs::read(&args[1]).expect("the list");
    pest_meta::choose(args[2].parse().expect("a number"));
    for (i, answer) in answers::read(&bytes).iter().enumerate() {
        let g = image::decode(&answer.image).expect("a good image");
        if answers::reports(&g, answer.whole) != answer.reports {
            println!("{i}");
            return 1;
        }
    }
    0
}
