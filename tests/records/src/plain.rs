//! Builder, scan and restorer written from document 01, section Records, with the limit of document
//! 02, its merge and its place of a bad byte, in the plainest way: with blockettes held by their
//! numbers and nothing folded in place. It knows nothing of the library.
//!
//! Each function that writes gets the lent space as it is before the call and gives the whole of it
//! as it must be after the call, so that a comparison covers the bytes that keep their value.

// blockettes go by number here, as they do in the document
#![allow(clippy::needless_range_loop)]

use crate::{Merged, Pass};

/// "Raise the limit to 65,535"
pub const LIMIT: usize = 65_535;
pub const NO_COUNT: usize = 65_536;
/// "or 65,535 plus 256 for none"
pub const NO_PLACE: usize = 65_535 + 256;
pub const GOOD: u8 = 15;

pub type Blockette = [u8; 256];

/// "n = c/256 rounded up blockettes"
pub fn blockettes(count: usize) -> usize {
    count.div_ceil(256)
}

/// "count c rotated right one bit as 16 bits, high byte first"
pub fn count_bytes(count: usize) -> [u8; 2] {
    let lowest_bit = count % 2;
    let rotated = count / 2 + 32_768 * lowest_bit;
    [(rotated / 256) as u8, (rotated % 256) as u8]
}

/// The count whose rotation the first two bytes of an image are.
pub fn image_count(image: &[u8]) -> usize {
    if image.len() < 2 {
        return NO_COUNT;
    }
    let rotated = 256 * image[0] as usize + image[1] as usize;
    let highest_bit = rotated / 32_768;
    rotated % 32_768 * 2 + highest_bit
}

pub fn image_length(count: usize, density: u8) -> usize {
    if count > LIMIT {
        0
    } else if density == 0 {
        2 + count
    } else if count == 0 {
        2
    } else {
        2 + 256 * blockettes(count) + 512
    }
}

/// "Marks: one for each GCR blockette"
pub fn mark_count(count: usize, density: u8) -> usize {
    if count > LIMIT || density == 0 || count == 0 {
        0
    } else {
        blockettes(count) + 2
    }
}

/// The data blockettes of a record, by number.
fn data_by_number(bytes: &[u8]) -> Vec<Blockette> {
    let n = blockettes(bytes.len());
    let mut data = vec![[0; 256]; n];
    for (place, byte) in bytes.iter().enumerate() {
        data[n - 1 - place / 256][place % 256] = *byte;
    }
    data
}

fn xor(a: &Blockette, b: &Blockette) -> Blockette {
    let mut sum = [0; 256];
    for i in 0..256 {
        sum[i] = a[i] ^ b[i];
    }
    sum
}

/// The image of a record that is not above the limit.
pub fn image(bytes: &[u8], density: u8) -> Vec<u8> {
    let mut image = count_bytes(bytes.len()).to_vec();
    if density == 0 {
        image.extend(bytes);
        return image;
    }
    if bytes.is_empty() {
        return image;
    }
    let data = data_by_number(bytes);
    let mut odd = [0; 256];
    let mut even = [0; 256];
    for number in 0..data.len() {
        if number % 2 == 1 {
            odd = xor(&odd, &data[number]);
        } else {
            even = xor(&even, &data[number]);
        }
    }
    for number in (0..data.len()).rev() {
        image.extend(data[number]);
    }
    image.extend(odd);
    image.extend(even);
    image
}

fn with_start(space: &[u8], given: &[u8]) -> Vec<u8> {
    let mut after = space.to_vec();
    after[..given.len()].copy_from_slice(given);
    after
}

/// "The byte itself is written as it came, every record byte after it is zero"
fn zeros_behind(bytes: &[u8], place: usize) -> Vec<u8> {
    let mut written = bytes.to_vec();
    for after in place + 1..bytes.len() {
        written[after] = 0;
    }
    written
}

/// The builder: the refusal or 0, and the image space after the call.
pub fn build(bytes: &[u8], density: u8, place: usize, space: &[u8]) -> (u32, Vec<u8>) {
    if bytes.len() > LIMIT {
        return (9, space.to_vec());
    }
    if space.len() < image_length(bytes.len(), density) {
        return (11, space.to_vec());
    }
    let written = if place == NO_PLACE {
        bytes.to_vec()
    } else if place < bytes.len() {
        zeros_behind(bytes, place)
    } else {
        return (15, space.to_vec());
    };
    (0, with_start(space, &image(&written, density)))
}

/// One error that the scan met.
#[derive(Clone, Copy)]
struct Entry {
    mark: u8,
    kind: u8,
    number: usize,
}

/// The entries of the report, each with none as 0 0 0: first odd error, first even error, and "the
/// first blockette that is the second bad one of its parity", where the scan stops.
pub fn scan_report(marks: &[u8]) -> [u8; 9] {
    let mut odd: Option<Entry> = None;
    let mut even: Option<Entry> = None;
    let mut stop: Option<Entry> = None;
    for (place, mark) in marks.iter().enumerate() {
        if *mark == GOOD {
            continue;
        }
        let after = marks.len() - 1 - place;
        let entry = match after {
            0 => Entry {
                mark: *mark,
                kind: 2,
                number: 0,
            },
            1 => Entry {
                mark: *mark,
                kind: 2,
                number: 1,
            },
            _ => Entry {
                mark: *mark,
                kind: 1,
                number: after - 2,
            },
        };
        let first = if entry.number % 2 == 1 {
            &mut odd
        } else {
            &mut even
        };
        if first.is_some() {
            stop = Some(entry);
            break;
        }
        *first = Some(entry);
    }
    let mut report = [0; 9];
    for (part, entry) in report.chunks_mut(3).zip([odd, even, stop]) {
        if let Some(entry) = entry {
            part.copy_from_slice(&[entry.mark, entry.kind, (entry.number % 256) as u8]);
        }
    }
    report
}

pub fn scan(marks: &[u8], space: &[u8]) -> (u32, Vec<u8>) {
    if space.len() < 9 {
        return (11, space.to_vec());
    }
    (0, with_start(space, &scan_report(marks)))
}

/// "wrong length of image or marks"; an image without a count has no right length.
fn wrong_length(image: &[u8], marks: &[u8]) -> bool {
    let count = image_count(image);
    count > LIMIT || image.len() != image_length(count, 1) || marks.len() != mark_count(count, 1)
}

/// "1-9 an error, 15 good"
fn wrong_mark(marks: &[u8]) -> bool {
    marks.iter().any(|mark| !matches!(mark, 1..=9 | 15))
}

/// The blockette at a place in tape order of an image.
fn blockette_at(image: &[u8], place: usize) -> Blockette {
    let start = 2 + 256 * place;
    image[start..start + 256].try_into().expect("256 bytes")
}

/// The restorer: the refusal or 0, and the output space after the call.
pub fn restore(image: &[u8], marks: &[u8], space: &[u8]) -> (u32, Vec<u8>) {
    let unchanged = space.to_vec();
    if wrong_length(image, marks) {
        return (9, unchanged);
    }
    if wrong_mark(marks) {
        return (10, unchanged);
    }
    let count = image_count(image);
    if space.len() < count {
        return (11, unchanged);
    }
    if count == 0 {
        return (0, unchanged);
    }

    // by number: what the image has, and which ones are bad
    let n = blockettes(count);
    let at = |place| blockette_at(image, place);
    let mut data = Vec::new();
    let mut bad = Vec::new();
    for number in 0..n {
        data.push(at(n - 1 - number));
        bad.push(marks[n - 1 - number] != GOOD);
    }
    let check = [at(n + 1), at(n)];
    let check_bad = [marks[n + 1] != GOOD, marks[n] != GOOD];

    for parity in 0..2 {
        let mut bad_ones: Vec<usize> = Vec::new();
        for number in 0..n {
            if number % 2 == parity && bad[number] {
                bad_ones.push(number);
            }
        }
        if bad_ones.len() + usize::from(check_bad[parity]) > 1 {
            return (12, unchanged);
        }
        if let Some(lost) = bad_ones.first() {
            let mut sum = check[parity];
            for number in 0..n {
                if number % 2 == parity && number != *lost {
                    sum = xor(&sum, &data[number]);
                }
            }
            data[*lost] = sum;
        }
    }

    let mut bytes = Vec::new();
    for number in (0..n).rev() {
        bytes.extend(data[number]);
    }
    bytes.truncate(count);
    (0, with_start(space, &bytes))
}

/// Which check blockettes are not the XOR of their data, 32 for the even one and 64 for the odd
/// one, or 9 for a wrong length. No paper has it.
pub fn verify(image: &[u8]) -> u32 {
    let count = image_count(image);
    if count > LIMIT || image.len() != image_length(count, 1) {
        return 9;
    }
    if count == 0 {
        return 0;
    }
    let n = blockettes(count);
    let mut checks = [[0; 256]; 2];
    for number in 0..n {
        let parity = number % 2;
        checks[parity] = xor(&checks[parity], &blockette_at(image, n - 1 - number));
    }
    let mut unfit = 0;
    if blockette_at(image, n) != checks[1] {
        unfit += 64;
    }
    if blockette_at(image, n + 1) != checks[0] {
        unfit += 32;
    }
    unfit
}

/// The image and the marks of two passes over one record, or the refusal.
fn merged(first: &Pass, second: &Pass) -> Result<(Vec<u8>, Vec<u8>), u32> {
    let passes = [first, second];
    // "9, 10, 13, 14, then 11, in that order"
    if passes
        .iter()
        .any(|pass| wrong_length(&pass.image, &pass.marks))
    {
        return Err(9);
    }
    if passes.iter().any(|pass| wrong_mark(&pass.marks)) {
        return Err(10);
    }
    let count = image_count(&first.image);
    if count != image_count(&second.image) {
        return Err(13);
    }
    let mut image = count_bytes(count).to_vec();
    let mut marks = Vec::new();
    for place in 0..mark_count(count, 1) {
        let [from_first, from_second] = passes.map(|pass| blockette_at(&pass.image, place));
        let [first_mark, second_mark] = passes.map(|pass| pass.marks[place]);
        if first_mark == GOOD && second_mark == GOOD && from_first != from_second {
            return Err(14);
        }
        // "from the first pass if that marks it good, else from the second if that does, else from
        // the first with its mark"
        let (blockette, mark) = if first_mark == GOOD {
            (from_first, GOOD)
        } else if second_mark == GOOD {
            (from_second, GOOD)
        } else {
            (from_first, first_mark)
        };
        image.extend(blockette);
        marks.push(mark);
    }
    Ok((image, marks))
}

/// The merge of two passes.
pub fn merge(first: &Pass, second: &Pass, image_space: &[u8], marks_space: &[u8]) -> Merged {
    let refused = |refusal| (refusal, image_space.to_vec(), marks_space.to_vec());
    match merged(first, second) {
        Err(refusal) => refused(refusal),
        Ok((image, marks))
            if image_space.len() < image.len() || marks_space.len() < marks.len() =>
        {
            refused(11)
        }
        Ok((image, marks)) => (
            0,
            with_start(image_space, &image),
            with_start(marks_space, &marks),
        ),
    }
}
