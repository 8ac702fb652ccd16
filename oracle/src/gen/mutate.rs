//! Damaged images: bytes changed, cut off or added, fields exchanged or set to awkward numbers.

use crate::rng::Rng;

/// The image with one to three damages.
pub fn damaged(image: &[u8], rng: &mut Rng) -> Vec<u8> {
    let mut image = image.to_vec();
    for _ in 0..rng.between(1, 3) {
        damage(&mut image, rng);
    }
    image
}

fn damage(image: &mut Vec<u8>, rng: &mut Rng) {
    match rng.below(10) {
        0 => image.truncate(rng.below(image.len() as u32 + 1) as usize),
        1 => image.push(rng.word() as u8),
        2 => flip_a_bit(image, rng),
        3 => set_a_byte(image, rng),
        4 => exchange_fields(image, rng),
        5 => copy_a_name(image, rng),
        _ => set_a_field(image, rng),
    }
}

fn flip_a_bit(image: &mut [u8], rng: &mut Rng) {
    if !image.is_empty() {
        let at = rng.below(image.len() as u32) as usize;
        image[at] ^= 1 << rng.below(8);
    }
}

fn set_a_byte(image: &mut [u8], rng: &mut Rng) {
    if !image.is_empty() {
        let at = rng.below(image.len() as u32) as usize;
        image[at] = rng.below(256) as u8;
    }
}

/// The place of a random 32-bit field; none where the image has no whole field.
fn a_field(image: &[u8], rng: &mut Rng) -> Option<usize> {
    let fields = image.len() as u32 / 4;
    (fields > 0).then(|| 4 * rng.below(fields) as usize)
}

fn exchange_fields(image: &mut [u8], rng: &mut Rng) {
    if let (Some(x), Some(y)) = (a_field(image, rng), a_field(image, rng)) {
        for i in 0..4 {
            image.swap(x + i, y + i);
        }
    }
}

/// Gives a rule the name of another one.
fn copy_a_name(image: &mut [u8], rng: &mut Rng) {
    let rules = image.get(4).map_or(0, |&n| u32::from(n));
    if rules == 0 || image.len() < 24 + 12 * rules as usize {
        return;
    }
    let from = 24 + 12 * rng.below(rules) as usize;
    let to = 24 + 12 * rng.below(rules) as usize;
    image.copy_within(from..from + 8, to);
}

fn set_a_field(image: &mut [u8], rng: &mut Rng) {
    let awkward = [
        0,
        1,
        2,
        3,
        23,
        24,
        25,
        256,
        257,
        2048,
        2049,
        8192,
        8193,
        1 << 31,
        u32::MAX,
    ];
    if let Some(at) = a_field(image, rng) {
        let value = if rng.once_in(3) {
            let old = u32::from_le_bytes([image[at], image[at + 1], image[at + 2], image[at + 3]]);
            old.wrapping_add(rng.between(0, 2)).wrapping_sub(1)
        } else {
            *rng.pick(&awkward)
        };
        image[at..at + 4].copy_from_slice(&value.to_le_bytes());
    }
}
