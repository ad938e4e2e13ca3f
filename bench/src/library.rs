//! The library's builder, restorer and merge, on slices.

use records_tests::library::raw;
use records_tests::plain::NO_PLACE;
use records_tests::Pass;

pub fn build(bytes: &[u8], density: u8, image: &mut [u8]) -> u32 {
    // SAFETY: slices are valid for their lengths, and the one to be written is borrowed alone
    unsafe {
        raw::ctc_build(
            bytes.as_ptr(),
            bytes.len(),
            density,
            NO_PLACE,
            image.as_mut_ptr(),
            image.len(),
        )
    }
}

pub fn restore(image: &[u8], marks: &[u8], out: &mut [u8]) -> u32 {
    // SAFETY: slices are valid for their lengths, and the one to be written is borrowed alone
    unsafe {
        raw::ctc_restore(
            image.as_ptr(),
            image.len(),
            marks.as_ptr(),
            marks.len(),
            out.as_mut_ptr(),
            out.len(),
        )
    }
}

pub fn merge(first: &Pass, second: &Pass, image: &mut [u8], marks: &mut [u8]) -> u32 {
    // SAFETY: slices are valid for their lengths, and those to be written are borrowed alone
    unsafe {
        raw::ctc_merge(
            first.image.as_ptr(),
            first.image.len(),
            first.marks.as_ptr(),
            first.marks.len(),
            second.image.as_ptr(),
            second.image.len(),
            second.marks.as_ptr(),
            second.marks.len(),
            image.as_mut_ptr(),
            image.len(),
            marks.as_mut_ptr(),
            marks.len(),
        )
    }
}
