//! The recorded corpus: cases with their tables and answers, and the file they stand in.
//!
//! Little-endian. First the number of cases (32 bits). Each case: image length (32), image bytes,
//! outcome, walked and report places (32 each), refusal (32), count (32), reports (64 each).

use crate::model::{Answer, Places};

/// One recorded answer.
#[derive(Clone, Debug, PartialEq, Eq)]
pub struct Case {
    pub image: Vec<u8>,
    pub places: Places,
    pub refusal: u32,
    pub reports: Vec<u64>,
}

impl Case {
    pub fn new(image: &[u8], places: Places, answer: &Answer) -> Case {
        Case {
            image: image.to_vec(),
            places,
            refusal: answer.refusal,
            reports: answer.reports.clone(),
        }
    }
}

/// The bytes of a corpus.
pub fn write(cases: &[Case]) -> Vec<u8> {
    let mut bytes = vec![];
    put(&mut bytes, &[cases.len() as u32]);
    for case in cases {
        bytes.extend(write_case(case));
    }
    bytes
}

/// The bytes of a case.
pub fn write_case(case: &Case) -> Vec<u8> {
    let mut bytes = vec![];
    put(&mut bytes, &[case.image.len() as u32]);
    bytes.extend(&case.image);
    let Places {
        outcome,
        walked,
        report,
    } = case.places;
    let count = case.reports.len() as u32;
    put(&mut bytes, &[outcome, walked, report, case.refusal, count]);
    for r in &case.reports {
        bytes.extend(r.to_le_bytes());
    }
    bytes
}

fn put(bytes: &mut Vec<u8>, words: &[u32]) {
    for word in words {
        bytes.extend(word.to_le_bytes());
    }
}

/// Reads a corpus; panics where the bytes are none.
pub fn read(bytes: &[u8]) -> Vec<Case> {
    let mut left = bytes;
    let count = word(&mut left);
    let cases = (0..count).map(|_| read_case(&mut left)).collect();
    assert!(left.is_empty(), "bytes after the last case");
    cases
}

fn read_case(left: &mut &[u8]) -> Case {
    let length = word(left) as usize;
    let (image, rest) = left.split_at(length);
    *left = rest;
    let places = Places {
        outcome: word(left),
        walked: word(left),
        report: word(left),
    };
    let refusal = word(left);
    let count = word(left);
    let reports = (0..count)
        .map(|_| u64::from(word(left)) + (u64::from(word(left)) << 32))
        .collect();
    Case {
        image: image.to_vec(),
        places,
        refusal,
        reports,
    }
}

fn word(left: &mut &[u8]) -> u32 {
    let (bytes, rest) = left.split_at(4);
    *left = rest;
    u32::from_le_bytes(bytes.try_into().expect("4 bytes"))
}
