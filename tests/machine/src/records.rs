//! Records on tape: images, blockettes, marks and the scan. Nothing here knows the controller.

use crate::mutants::Mutant;

/// The most data bytes that a record may have: all that its 16 bits can count.
pub const RECORD_LIMIT: usize = 65_535;
/// The place of a byte with bad parity, where no byte has it.
pub const NO_PLACE: usize = RECORD_LIMIT + 256;
/// Data bytes in a GCR blockette.
pub const BLOCKETTE: usize = 256;
/// Both check blockettes, 1 first.
pub const CHECK_BYTES: usize = 2 * BLOCKETTE;

/// For the first blockette of a record whose count is supplied; it never comes as a mark.
pub const TORN: u8 = 0;
pub const FIRST_ERROR: u8 = 1;
pub const LAST_ERROR: u8 = 9;
pub const GOOD: u8 = 15;

#[derive(Clone, Copy, Debug, PartialEq, Eq)]
pub enum Density {
    Mfm,
    Gcr,
}

/// The two count bytes: the count rotated right one bit, high byte first.
pub fn count_bytes(count: u16) -> [u8; 2] {
    count.rotate_right(1).to_be_bytes()
}

/// The count that an image starts with; none if it is shorter than two bytes.
pub fn count_of(image: &[u8]) -> Option<usize> {
    let bytes = [*image.first()?, *image.get(1)?];
    Some(u16::from_be_bytes(bytes).rotate_left(1) as usize)
}

/// Data blockettes of a GCR record.
pub fn blockettes(count: usize) -> usize {
    count.div_ceil(BLOCKETTE)
}

pub fn image_length(count: usize, density: Density) -> usize {
    match density {
        Density::Mfm => 2 + count,
        Density::Gcr if count == 0 => 2,
        Density::Gcr => 2 + blockettes(count) * BLOCKETTE + CHECK_BYTES,
    }
}

pub fn marks_length(count: usize, density: Density) -> usize {
    match density {
        Density::Mfm => 0,
        Density::Gcr if count == 0 => 0,
        Density::Gcr => blockettes(count) + 2,
    }
}

pub fn is_mark(mark: u8) -> bool {
    (FIRST_ERROR..=LAST_ERROR).contains(&mark) || mark == GOOD
}

/// Writes the image of a record to the start of `image` and gives its length.
pub fn build(record: &[u8], density: Density, image: &mut [u8]) -> usize {
    let length = image_length(record.len(), density);
    let image = &mut image[..length];
    image[..2].copy_from_slice(&count_bytes(record.len() as u16));
    image[2..2 + record.len()].copy_from_slice(record);
    if density == Density::Gcr && !record.is_empty() {
        image[2 + record.len()..].fill(0);
        let n = blockettes(record.len());
        let (data, checks) = image[2..].split_at_mut(n * BLOCKETTE);
        let (odd, even) = checks.split_at_mut(BLOCKETTE);
        for (index, blockette) in data.chunks_exact(BLOCKETTE).enumerate() {
            let check = if (n - 1 - index) % 2 == 1 {
                &mut *odd
            } else {
                &mut *even
            };
            for (sum, byte) in check.iter_mut().zip(blockette) {
                *sum ^= byte;
            }
        }
    }
    length
}

/// The check blockettes of a whole GCR image, 1 first; none for a record without bytes.
pub fn check_blockettes(image: &[u8]) -> Option<&[u8]> {
    (image.len() > 2).then(|| &image[image.len() - CHECK_BYTES..])
}

#[derive(Clone, Copy, Debug, PartialEq, Eq)]
pub enum Kind {
    Data = 1,
    Check = 2,
}

/// Number and kind of the blockette at `index` in tape order, where `n` hold data:
/// data n-1 down to 0, then check 1, check 0.
pub fn blockette_at(index: usize, n: usize) -> (u8, Kind) {
    if index < n {
        ((n - 1 - index) as u8, Kind::Data)
    } else {
        ((n + 1 - index) as u8, Kind::Check)
    }
}

#[derive(Clone, Copy, Debug, PartialEq, Eq)]
pub enum Verdict {
    Clean,
    /// At most one bad blockette of each parity: code 15.
    Recoverable,
    /// Code 16, with the place in tape order of the second bad one of a parity.
    StoppedAt(usize),
}

#[derive(Clone, Copy, Debug, PartialEq, Eq)]
pub struct Scan {
    pub verdict: Verdict,
    /// Whether a data blockette is among the bad ones that were found.
    pub data_bad: bool,
    pub tertiary: u32,
    pub quintary: u32,
}

/// Goes through the marks of a whole GCR record in tape order.
pub fn scan(marks: &[u8], mutant: Option<Mutant>) -> Scan {
    let n = marks.len().saturating_sub(2);
    // Mark and kind as two digits, then the number; zero where no error was.
    let mut first_odd = 0u32;
    let mut first_even = 0u32;
    let mut quintary = 0;
    let mut stop = None;
    let mut data_bad = false;
    for (index, &mark) in marks.iter().enumerate() {
        if mark == GOOD {
            continue;
        }
        let (mut number, kind) = blockette_at(index, n);
        if mutant == Some(Mutant::CountedUpward) && kind == Kind::Data {
            number = index as u8;
        }
        if mutant == Some(Mutant::CheckBlocketteNotCounted) && kind == Kind::Check {
            continue;
        }
        data_bad = match (kind, mutant) {
            (Kind::Data, Some(Mutant::RetryOddUnread)) if number % 2 == 1 => data_bad,
            (Kind::Data, Some(Mutant::RetryEvenUnread)) if number % 2 == 0 => data_bad,
            (Kind::Data, Some(Mutant::RetryTornUnread)) if mark == TORN => data_bad,
            (Kind::Data, _) => true,
            (Kind::Check, Some(Mutant::RetryCheckExcuses)) => false,
            (Kind::Check, _) => data_bad,
        };
        let error = (mark as u32) << 12 | (kind as u32) << 8 | number as u32;
        let first = if number % 2 == 1 {
            &mut first_odd
        } else {
            &mut first_even
        };
        if *first == 0 {
            *first = error;
        } else if stop.is_none() {
            quintary = error;
            stop = Some(index);
            if mutant != Some(Mutant::ScanRunsOn) {
                break;
            }
        }
    }
    let tertiary = first_odd << 16 | first_even;
    let verdict = match stop {
        Some(index) => Verdict::StoppedAt(index),
        None if tertiary != 0 => Verdict::Recoverable,
        None => Verdict::Clean,
    };
    Scan {
        verdict,
        data_bad,
        tertiary,
        quintary,
    }
}

/// Data bytes that a read delivers: all, or those of the data blockettes before the stop.
pub fn readable(count: usize, verdict: Verdict) -> usize {
    match verdict {
        Verdict::StoppedAt(index) => count.min(index.min(blockettes(count)) * BLOCKETTE),
        Verdict::Clean | Verdict::Recoverable => count,
    }
}
