//! The oracle holds together: claims, Rust against model, images there and back, the recorded corpus.

use oracle::cases::claims::{CLAIMS, STARRED};
use oracle::{compare, corpus, gen, image, model, stream};

/// Runs on a stack that is deep enough for the Rust's recursion.
fn deep(work: fn()) {
    let thread = std::thread::Builder::new().stack_size(1 << 30).spawn(work);
    thread.expect("a thread").join().expect("no panic");
}

#[test]
fn starred_cases_and_claims_hold() {
    deep(|| {
        for claim in STARRED.iter().chain(CLAIMS) {
            assert_eq!(claim.wrong(), None, "{}", claim.says);
        }
    });
}

#[test]
fn the_two_printed_numbers() {
    assert_eq!(STARRED[0].numbers(), [14_495_514_628]);
    assert_eq!(STARRED[2].numbers(), [12_884_901_890]);
}

#[test]
fn push_at_seven_and_at_eight() {
    let state = |len| model::state::State::new(model::state::EMPTY, len, 0, true);
    assert_eq!(state(7).push(true).length(), 8);
    assert_eq!(state(8).push(true), model::state::UNKNOWN);
}

#[test]
fn the_rust_and_the_model_agree() {
    deep(|| {
        for kind in gen::KINDS.iter().chain(&["damaged"]) {
            let seen = compare::kind(kind, 7, 100);
            assert_eq!(seen.differences, Vec::<String>::new(), "{kind}");
        }
    });
}

#[test]
fn images_read_back() {
    deep(|| {
        let mut rng = oracle::rng::Rng::new(8);
        for kind in gen::KINDS {
            let g = gen::grammar(kind, &mut rng);
            assert_eq!(image::decode(&image::encode(&g)), Ok(g), "{kind}");
        }
    });
}

#[test]
fn the_corpus_is_what_the_model_says() {
    deep(|| {
        let bytes = std::fs::read("corpus/corpus.bin").expect("the corpus");
        let cases = corpus::read(&bytes);
        assert_eq!(corpus::write(&cases), bytes);
        answered_so(&cases);
    });
}

#[test]
fn a_stream_is_such_a_corpus() {
    deep(|| {
        let mut bytes = vec![];
        let seen = stream::write(&mut bytes, 9, 20, &["small", "deep", "damaged"]);
        assert_eq!(seen.expect("room").differences, Vec::<String>::new());
        let cases = corpus::read(&bytes);
        assert_eq!(cases.len(), 60);
        answered_so(&cases);
    });
}

/// The model gives these answers.
fn answered_so(cases: &[corpus::Case]) {
    for case in cases {
        let answer = model::check(&case.image, case.places);
        let again = corpus::Case::new(&case.image, case.places, &answer);
        assert_eq!(&again, case);
    }
}
