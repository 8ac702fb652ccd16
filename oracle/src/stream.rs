//! Generated images with the model's answers, in the corpus's form, for the proved program to replay.

use std::io::{self, Write};

use crate::compare::{self, Seen};
use crate::corpus::{self, Case};
use crate::gen;
use crate::model::{self, Places, PLENTY};
use crate::rng::Rng;

/// The most places that the program lends.
const ROOM: Places = Places {
    outcome: 131_071,
    walked: 16_383,
    report: 8_191,
};

/// Writes so many images of each kind, one case each; on the way each is held against the Rust.
pub fn write(out: &mut impl Write, seed: u64, count: u32, kinds: &[&str]) -> io::Result<Seen> {
    let mut seen = Seen::default();
    let mut rng = Rng::new(seed);
    let cases = count * kinds.len() as u32;
    out.write_all(&cases.to_le_bytes())?;
    for kind in kinds {
        for image in gen::images(kind, seed, count) {
            compare::one(&image, &mut seen);
            out.write_all(&corpus::write_case(&case(&image, &mut rng)))?;
        }
    }
    out.flush()?;
    Ok(seen)
}

/// An image with tables just large enough in every second case, else one place short or with random places.
fn case(image: &[u8], rng: &mut Rng) -> Case {
    let exact = model::check(image, PLENTY).taken;
    let mut places = exact;
    match rng.below(8) {
        0 => places.outcome = exact.outcome.saturating_sub(1),
        1 => places.walked = exact.walked.saturating_sub(1),
        2 => places.report = exact.report.saturating_sub(1),
        3 => {
            places.outcome = rng.between(0, 2 * exact.outcome + 1);
            places.walked = rng.between(0, 2 * exact.walked + 1);
            places.report = rng.between(0, 2 * exact.report + 1);
        }
        _ => (),
    }
    let places = Places {
        outcome: places.outcome.min(ROOM.outcome),
        walked: places.walked.min(ROOM.walked),
        report: places.report.min(ROOM.report),
    };
    Case::new(image, places, &model::check(image, places))
}
