//! What the tests share: the linked library behind guard bytes, a plain implementation of the same
//! functions, and seeded random numbers.

pub mod compare;
pub mod library;
pub mod plain;
pub mod random;

use random::Random;

/// One reading of a GCR record: its image, and how each blockette was read.
#[derive(Clone)]
pub struct Pass {
    pub image: Vec<u8>,
    pub marks: Vec<u8>,
}

impl Pass {
    /// An image that was read without errors.
    pub fn good(image: Vec<u8>) -> Pass {
        let marks = vec![plain::GOOD; image.len() / 256];
        Pass { image, marks }
    }

    /// Spoils the blockette at `place` in tape order and marks it so.
    pub fn spoil(&mut self, place: usize, random: &mut Random) {
        spoil_blockette(&mut self.image, place, random);
        self.marks[place] = random.error();
    }
}

/// What a merge leaves: the refusal or 0, and its two spaces after the call.
pub type Merged = (u32, Vec<u8>, Vec<u8>);

/// An image of the right length for its count, its other bytes random: no check blockette fits.
pub fn random_image(count: usize, random: &mut Random) -> Vec<u8> {
    let mut image = random.bytes(plain::image_length(count, 1));
    image[..2].copy_from_slice(&plain::count_bytes(count));
    image
}

/// Spoils the blockette at `place` in tape order of a GCR image: every byte gets another value.
pub fn spoil_blockette(image: &mut [u8], place: usize, random: &mut Random) {
    let start = 2 + 256 * place;
    for byte in &mut image[start..start + 256] {
        *byte ^= random.between(1, 255) as u8;
    }
}

/// The parity of the blockette at `place` of `marks` places: 1 is odd, 0 is even.
pub fn parity(place: usize, marks: usize) -> usize {
    (marks - 1 - place) % 2
}

/// Counts at the edges of every blockette up to the limit: 256k - 1, 256k and 256k + 1; and the one
/// below the limit.
pub fn edges() -> Vec<usize> {
    let mut counts = Vec::new();
    for k in 1..=plain::blockettes(plain::LIMIT) {
        counts.extend([256 * k - 1, 256 * k, 256 * k + 1]);
    }
    counts.retain(|&count| count <= plain::LIMIT);
    counts.push(plain::LIMIT - 1);
    counts
}
