//! The programs to compare with: builder, restorer and merge as one would first write them, one byte
//! in each turn of the loop. All make the library's tests and refuse with its numbers. `by_index`
//! finds the check byte or the mark of each byte by its place; `by_iterator` walks each blockette
//! beside its check blockette or its mark, a form that the Rust compiler vectorises.

// loops by index are what is to be measured here
#![allow(clippy::needless_range_loop, clippy::manual_memcpy)]

use records_tests::Pass;

const LIMIT: usize = 65_535;
const GOOD: u8 = 15;

/// What a builder has to know before it writes: whether there are check blockettes, how many data
/// blockettes, and the refusal or 0.
fn plan_build(count: usize, density: u8, room: usize) -> (bool, usize, u32) {
    let n = count.div_ceil(256);
    let checked = density != 0 && count != 0;
    let length = if checked {
        2 + 256 * (n + 2)
    } else {
        2 + count
    };
    let refusal = if count > LIMIT {
        9
    } else if room < length {
        11
    } else {
        0
    };
    (checked, n, refusal)
}

/// The count of an image; none where the image or its marks have a wrong length.
fn whole_count(image: &[u8], marks: &[u8]) -> Option<usize> {
    let &[high, low, ..] = image else {
        return None;
    };
    let count = u16::from_be_bytes([high, low]).rotate_left(1) as usize;
    let places = if count == 0 {
        0
    } else {
        count.div_ceil(256) + 2
    };
    (count <= LIMIT && image.len() == 2 + 256 * places && marks.len() == places).then_some(count)
}

fn wrong_mark(marks: &[u8]) -> bool {
    marks.iter().any(|mark| !matches!(mark, 1..=9 | 15))
}

/// What a restorer has to know: the count, the bad blockette of each parity by its place on tape,
/// and the refusal or 0.
fn plan_restore(image: &[u8], marks: &[u8], room: usize) -> (usize, [Option<usize>; 2], u32) {
    let mut bad = [None; 2];
    let Some(count) = whole_count(image, marks) else {
        return (0, bad, 9);
    };
    if wrong_mark(marks) {
        return (count, bad, 10);
    }
    if room < count {
        return (count, bad, 11);
    }
    for place in 0..marks.len() {
        if marks[place] != GOOD {
            let parity = (marks.len() - 1 - place) % 2;
            if bad[parity].is_some() {
                return (count, bad, 12);
            }
            bad[parity] = Some(place);
        }
    }
    (count, bad, 0)
}

/// Whether two passes can be merged, but for blockettes that are unlike and for the spaces.
fn plan_merge(first: &Pass, second: &Pass) -> u32 {
    let [count, other] = [first, second].map(|pass| whole_count(&pass.image, &pass.marks));
    if count.is_none() || other.is_none() {
        9
    } else if wrong_mark(&first.marks) || wrong_mark(&second.marks) {
        10
    } else if count != other {
        13
    } else {
        0
    }
}

fn count_bytes(count: usize) -> [u8; 2] {
    (count as u16).rotate_right(1).to_be_bytes()
}

pub mod by_index {
    use super::{count_bytes, plan_build, plan_merge, plan_restore, Pass, GOOD};

    #[inline(never)]
    pub fn build(bytes: &[u8], density: u8, image: &mut [u8]) -> u32 {
        let count = bytes.len();
        let (checked, n, refusal) = plan_build(count, density, image.len());
        if refusal != 0 {
            return refusal;
        }
        [image[0], image[1]] = count_bytes(count);
        if !checked {
            for i in 0..count {
                image[2 + i] = bytes[i];
            }
            return 0;
        }
        let mut check = [[0; 256]; 2];
        for i in 0..count {
            let parity = (n - 1 - i / 256) % 2;
            image[2 + i] = bytes[i];
            check[parity][i % 256] ^= bytes[i];
        }
        for i in count..256 * n {
            image[2 + i] = 0;
        }
        for i in 0..256 {
            image[2 + 256 * n + i] = check[1][i];
            image[2 + 256 * (n + 1) + i] = check[0][i];
        }
        0
    }

    #[inline(never)]
    pub fn restore(image: &[u8], marks: &[u8], out: &mut [u8]) -> u32 {
        let (count, bad, refusal) = plan_restore(image, marks, out.len());
        if refusal != 0 {
            return refusal;
        }
        for i in 0..count {
            out[i] = image[2 + i];
        }
        if bad.iter().flatten().all(|place| 256 * place >= count) {
            return 0;
        }
        // the sum of all other blockettes of a parity, its check blockette included
        let mut sum = [[0; 256]; 2];
        for i in 0..256 * marks.len() {
            let parity = (marks.len() - 1 - i / 256) % 2;
            if bad[parity] != Some(i / 256) {
                sum[parity][i % 256] ^= image[2 + i];
            }
        }
        for parity in 0..2 {
            if let Some(place) = bad[parity] {
                for i in 256 * place..(256 * (place + 1)).min(count) {
                    out[i] = sum[parity][i % 256];
                }
            }
        }
        0
    }

    #[inline(never)]
    pub fn merge(first: &Pass, second: &Pass, image: &mut [u8], marks: &mut [u8]) -> u32 {
        let refusal = plan_merge(first, second);
        if refusal != 0 {
            return refusal;
        }
        for i in 2..first.image.len() {
            let place = (i - 2) / 256;
            if first.marks[place] == GOOD
                && second.marks[place] == GOOD
                && first.image[i] != second.image[i]
            {
                return 14;
            }
        }
        if image.len() < first.image.len() || marks.len() < first.marks.len() {
            return 11;
        }
        [image[0], image[1]] = [first.image[0], first.image[1]];
        for i in 2..first.image.len() {
            let place = (i - 2) / 256;
            image[i] = if first.marks[place] != GOOD && second.marks[place] == GOOD {
                second.image[i]
            } else {
                first.image[i]
            };
        }
        for place in 0..first.marks.len() {
            marks[place] = if second.marks[place] == GOOD {
                GOOD
            } else {
                first.marks[place]
            };
        }
        0
    }
}

pub mod by_iterator {
    use super::{count_bytes, plan_build, plan_merge, plan_restore, Pass, GOOD};

    fn fold(sum: &mut [u8; 256], blockette: &[u8]) {
        for (sum, byte) in sum.iter_mut().zip(blockette) {
            *sum ^= byte;
        }
    }

    #[inline(never)]
    pub fn build(bytes: &[u8], density: u8, image: &mut [u8]) -> u32 {
        let count = bytes.len();
        let (checked, n, refusal) = plan_build(count, density, image.len());
        if refusal != 0 {
            return refusal;
        }
        [image[0], image[1]] = count_bytes(count);
        for (to, byte) in image[2..].iter_mut().zip(bytes) {
            *to = *byte;
        }
        if !checked {
            return 0;
        }
        let mut check = [[0; 256]; 2];
        for (place, blockette) in bytes.chunks(256).enumerate() {
            fold(&mut check[(n - 1 - place) % 2], blockette);
        }
        image[2 + count..2 + 256 * n].fill(0);
        image[2 + 256 * n..2 + 256 * (n + 1)].copy_from_slice(&check[1]);
        image[2 + 256 * (n + 1)..2 + 256 * (n + 2)].copy_from_slice(&check[0]);
        0
    }

    #[inline(never)]
    pub fn restore(image: &[u8], marks: &[u8], out: &mut [u8]) -> u32 {
        let (count, bad, refusal) = plan_restore(image, marks, out.len());
        if refusal != 0 {
            return refusal;
        }
        for (to, byte) in out[..count].iter_mut().zip(&image[2..]) {
            *to = *byte;
        }
        if bad.iter().flatten().all(|place| 256 * place >= count) {
            return 0;
        }
        // the sum of all other blockettes of a parity, its check blockette included
        let mut sum = [[0; 256]; 2];
        for (place, blockette) in image[2..].chunks(256).enumerate() {
            let parity = (marks.len() - 1 - place) % 2;
            if bad[parity] != Some(place) {
                fold(&mut sum[parity], blockette);
            }
        }
        for (sum, bad) in sum.iter().zip(bad) {
            if let Some(blockette) = bad.and_then(|place| out[..count].chunks_mut(256).nth(place)) {
                blockette.copy_from_slice(&sum[..blockette.len()]);
            }
        }
        0
    }

    fn blockettes(pass: &Pass) -> impl Iterator<Item = (&[u8], &u8)> {
        pass.image[2..].chunks_exact(256).zip(&pass.marks)
    }

    #[inline(never)]
    pub fn merge(first: &Pass, second: &Pass, image: &mut [u8], marks: &mut [u8]) -> u32 {
        let refusal = plan_merge(first, second);
        if refusal != 0 {
            return refusal;
        }
        let mut both = blockettes(first).zip(blockettes(second));
        if both.any(|((one, a), (other, b))| *a == GOOD && *b == GOOD && one != other) {
            return 14;
        }
        if image.len() < first.image.len() || marks.len() < first.marks.len() {
            return 11;
        }
        image[..2].copy_from_slice(&first.image[..2]);
        let both = blockettes(first).zip(blockettes(second));
        let spaces = image[2..].chunks_exact_mut(256).zip(marks);
        for ((space, mark), (one, other)) in spaces.zip(both) {
            let (blockette, from) = if *one.1 != GOOD && *other.1 == GOOD {
                other
            } else {
                one
            };
            space.copy_from_slice(blockette);
            *mark = *from;
        }
        0
    }
}
