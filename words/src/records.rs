//! The records, called through include/ctc_records.h, alone or beside the controller. A slice is handed over with its
//! own length, and what is written shares no byte with what is read: that is all that the proved functions ask for.

use std::ptr;

/// The most bytes of a record.
pub const COUNT_LIMIT: usize = 65_535;
pub const BLOCKETTE_LENGTH: usize = 256;
/// The most marks of a record.
pub const MARKS_MOST: usize = 258;
/// The length of the longest image.
pub const IMAGE_MOST: usize = 66_050;
/// The place that says that no byte came with bad parity.
pub const NO_PLACE: u64 = 65_791;
pub const MARK_GOOD: u8 = 15;
pub const MARK_ERROR_LEAST: u8 = 1;
pub const MARK_ERROR_MOST: u8 = 9;
/// What ctc_verify tells beside refusals.
const UNFIT_EVEN: u32 = 32;
const UNFIT_ODD: u32 = 64;

mod c {
    #[link(name = "records", kind = "static")]
    extern "C" {
        pub fn ctc_build(
            bytes: *const u8,
            bytes_len: u64,
            density: u8,
            place: u64,
            image: *mut u8,
            image_len: u64,
        ) -> u32;
        pub fn ctc_restore(
            image: *const u8,
            image_len: u64,
            marks: *const u8,
            marks_len: u64,
            out: *mut u8,
            out_len: u64,
        ) -> u32;
        pub fn ctc_merge(
            first: *const u8,
            first_len: u64,
            first_marks: *const u8,
            first_marks_len: u64,
            second: *const u8,
            second_len: u64,
            second_marks: *const u8,
            second_marks_len: u64,
            image: *mut u8,
            image_len: u64,
            marks: *mut u8,
            marks_len: u64,
        ) -> u32;
        pub fn ctc_verify(image: *const u8, image_len: u64) -> u32;
        pub fn ctc_image_length(count: u64, density: u8) -> u64;
        pub fn ctc_mark_count(count: u64, density: u8) -> u64;
        pub fn ctc_image_count(image: *const u8, image_len: u64) -> u64;
    }
}

/// The number of a refusal.
#[derive(Clone, Copy, Debug, PartialEq, Eq)]
pub struct Refusal(pub u8);

/// A pointer to what is handed over with its length.
pub(crate) fn pointer(bytes: &[u8]) -> *const u8 {
    if bytes.is_empty() {
        ptr::null()
    } else {
        bytes.as_ptr()
    }
}

pub(crate) fn pointer_mut(bytes: &mut [u8]) -> *mut u8 {
    if bytes.is_empty() {
        ptr::null_mut()
    } else {
        bytes.as_mut_ptr()
    }
}

/// The image of a record, none where it is too long for one.
pub fn build(bytes: &[u8], density: u8) -> Option<Vec<u8>> {
    let mut image = vec![0; image_length(bytes.len(), density)?];
    let refusal = unsafe {
        c::ctc_build(
            pointer(bytes),
            bytes.len() as u64,
            density,
            NO_PLACE,
            image.as_mut_ptr(),
            image.len() as u64,
        )
    };
    (refusal == 0).then_some(image)
}

/// The length of the image of so many bytes, none where there is no such record.
pub fn image_length(count: usize, density: u8) -> Option<usize> {
    let length = unsafe { c::ctc_image_length(count as u64, density) };
    (length != 0).then_some(length as usize)
}

pub fn mark_count(count: usize, density: u8) -> usize {
    (unsafe { c::ctc_mark_count(count as u64, density) }) as usize
}

/// The count that the first two bytes of an image say.
pub fn image_count(image: &[u8]) -> Option<u16> {
    let count = unsafe { c::ctc_image_count(pointer(image), image.len() as u64) };
    u16::try_from(count).ok()
}

/// The bytes of a record, from its GCR image and marks.
pub fn restore(image: &[u8], marks: &[u8]) -> Result<Vec<u8>, Refusal> {
    let mut out = vec![0; usize::from(image_count(image).unwrap_or(0))];
    let refusal = unsafe {
        c::ctc_restore(
            pointer(image),
            image.len() as u64,
            pointer(marks),
            marks.len() as u64,
            pointer_mut(&mut out),
            out.len() as u64,
        )
    };
    match refusal {
        0 => Ok(out),
        refusal => Err(Refusal(refusal as u8)),
    }
}

/// Which check blockettes do not fit the data of their parity.
#[derive(Clone, Copy, Debug, PartialEq, Eq)]
pub struct Unfit {
    pub even: bool,
    pub odd: bool,
}

/// Holds the data of a GCR image to its check blockettes.
pub fn verify(image: &[u8]) -> Result<Unfit, Refusal> {
    let told = unsafe { c::ctc_verify(pointer(image), image.len() as u64) };
    match told & !(UNFIT_EVEN | UNFIT_ODD) {
        0 => Ok(Unfit {
            even: told & UNFIT_EVEN != 0,
            odd: told & UNFIT_ODD != 0,
        }),
        refusal => Err(Refusal(refusal as u8)),
    }
}

/// One image with its marks, out of two passes over a record.
pub fn merge(first: (&[u8], &[u8]), second: (&[u8], &[u8])) -> Result<(Vec<u8>, Vec<u8>), Refusal> {
    let mut image = vec![0; first.0.len()];
    let mut marks = vec![0; first.1.len()];
    let refusal = unsafe {
        c::ctc_merge(
            pointer(first.0),
            first.0.len() as u64,
            pointer(first.1),
            first.1.len() as u64,
            pointer(second.0),
            second.0.len() as u64,
            pointer(second.1),
            second.1.len() as u64,
            pointer_mut(&mut image),
            image.len() as u64,
            pointer_mut(&mut marks),
            marks.len() as u64,
        )
    };
    match refusal {
        0 => Ok((image, marks)),
        refusal => Err(Refusal(refusal as u8)),
    }
}
