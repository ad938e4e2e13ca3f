//! The linked library. Each call lends copies that stand between guard bytes, and panics where a
//! guard or an input changed; what a function wrote comes back as the whole lent space.

use crate::{Merged, Pass};
use std::cell::Cell;

/// The functions as C sees them.
pub mod raw {
    #[link(name = "records", kind = "static")]
    extern "C" {
        pub fn ctc_build(
            bytes: *const u8,
            bytes_len: usize,
            density: u8,
            place: usize,
            image: *mut u8,
            image_len: usize,
        ) -> u32;
        pub fn ctc_restore(
            image: *const u8,
            image_len: usize,
            marks: *const u8,
            marks_len: usize,
            out: *mut u8,
            out_len: usize,
        ) -> u32;
        pub fn ctc_merge(
            first: *const u8,
            first_len: usize,
            first_marks: *const u8,
            first_marks_len: usize,
            second: *const u8,
            second_len: usize,
            second_marks: *const u8,
            second_marks_len: usize,
            image: *mut u8,
            image_len: usize,
            marks: *mut u8,
            marks_len: usize,
        ) -> u32;
        pub fn ctc_image_length(count: usize, density: u8) -> usize;
        pub fn ctc_mark_count(count: usize, density: u8) -> usize;
        pub fn ctc_image_count(image: *const u8, image_len: usize) -> usize;
        pub fn ctc_scan(
            marks: *const u8,
            marks_len: usize,
            report: *mut u8,
            report_len: usize,
        ) -> u32;
        pub fn ctc_verify(image: *const u8, image_len: usize) -> u32;
    }
}

/// Guard bytes before and after each lent space, at the least.
const GUARD: usize = 64;

thread_local! {
    /// How many spaces were lent: it moves guards and addresses, so that no call depends on an
    /// alignment, and no wrong write hides for ever behind a guard byte of the same value.
    static LENT: Cell<usize> = const { Cell::new(0) };
}

/// A copy of some bytes in the middle of guard bytes.
struct Lent {
    memory: Vec<u8>,
    start: usize,
    length: usize,
    turn: usize,
}

impl Lent {
    fn holding(bytes: &[u8]) -> Lent {
        let turn = LENT.with(|lent| {
            lent.set(lent.get() + 1);
            lent.get()
        });
        let start = GUARD + turn % 17;
        let end = start + bytes.len();
        let mut memory: Vec<u8> = (0..start).map(|place| guard_byte(place, turn)).collect();
        memory.extend(bytes);
        memory.extend((end..end + GUARD).map(|place| guard_byte(place, turn)));
        Lent {
            memory,
            start,
            length: bytes.len(),
            turn,
        }
    }

    fn pointer(&mut self) -> *mut u8 {
        self.memory[self.start..].as_mut_ptr()
    }

    /// The bytes after the call; panics where a guard changed.
    fn after(&self, name: &str) -> Vec<u8> {
        let end = self.start + self.length;
        for place in (0..self.start).chain(end..self.memory.len()) {
            assert!(
                self.memory[place] == guard_byte(place, self.turn),
                "{name}, {} bytes: wrote outside it, at its place {}",
                self.length,
                place as isize - self.start as isize,
            );
        }
        self.memory[self.start..end].to_vec()
    }

    fn expect_unchanged(&self, name: &str, before: &[u8]) {
        assert!(
            self.after(name) == before,
            "{name}, an input of {} bytes: changed",
            self.length
        );
    }
}

fn guard_byte(place: usize, turn: usize) -> u8 {
    (place * 29 + turn * 101 + 0xA5) as u8
}

pub fn build(bytes: &[u8], density: u8, place: usize, space: &[u8]) -> (u32, Vec<u8>) {
    let mut input = Lent::holding(bytes);
    let mut image = Lent::holding(space);
    // SAFETY: both pointers are valid for their lengths and the spaces are apart
    let refusal = unsafe {
        raw::ctc_build(
            input.pointer(),
            input.length,
            density,
            place,
            image.pointer(),
            image.length,
        )
    };
    input.expect_unchanged("bytes", bytes);
    (refusal, image.after("image space"))
}

pub fn restore(image: &[u8], marks: &[u8], space: &[u8]) -> (u32, Vec<u8>) {
    let mut image_input = Lent::holding(image);
    let mut marks_input = Lent::holding(marks);
    let mut out = Lent::holding(space);
    // SAFETY: the three pointers are valid for their lengths and the spaces are apart
    let refusal = unsafe {
        raw::ctc_restore(
            image_input.pointer(),
            image_input.length,
            marks_input.pointer(),
            marks_input.length,
            out.pointer(),
            out.length,
        )
    };
    image_input.expect_unchanged("image", image);
    marks_input.expect_unchanged("marks", marks);
    (refusal, out.after("output space"))
}

pub fn merge(first: &Pass, second: &Pass, image_space: &[u8], marks_space: &[u8]) -> Merged {
    let inputs = [&first.image, &first.marks, &second.image, &second.marks];
    let mut lent = inputs.map(|input| Lent::holding(input));
    let mut image = Lent::holding(image_space);
    let mut marks = Lent::holding(marks_space);
    let [first_image, first_marks, second_image, second_marks] = &mut lent;
    // SAFETY: the six pointers are valid for their lengths and the spaces are apart
    let refusal = unsafe {
        raw::ctc_merge(
            first_image.pointer(),
            first_image.length,
            first_marks.pointer(),
            first_marks.length,
            second_image.pointer(),
            second_image.length,
            second_marks.pointer(),
            second_marks.length,
            image.pointer(),
            image.length,
            marks.pointer(),
            marks.length,
        )
    };
    let names = ["first image", "first marks", "second image", "second marks"];
    for ((lent, name), input) in lent.iter().zip(names).zip(inputs) {
        lent.expect_unchanged(name, input);
    }
    (
        refusal,
        image.after("image space"),
        marks.after("marks space"),
    )
}

pub fn scan(marks: &[u8], space: &[u8]) -> (u32, Vec<u8>) {
    let mut input = Lent::holding(marks);
    let mut report = Lent::holding(space);
    // SAFETY: both pointers are valid for their lengths and the spaces are apart
    let refusal = unsafe {
        raw::ctc_scan(
            input.pointer(),
            input.length,
            report.pointer(),
            report.length,
        )
    };
    input.expect_unchanged("marks", marks);
    (refusal, report.after("report space"))
}

pub fn verify(image: &[u8]) -> u32 {
    let mut input = Lent::holding(image);
    // SAFETY: the pointer is valid for its length
    let told = unsafe { raw::ctc_verify(input.pointer(), input.length) };
    input.expect_unchanged("image", image);
    told
}

pub fn image_count(image: &[u8]) -> usize {
    let mut input = Lent::holding(image);
    // SAFETY: the pointer is valid for its length
    let count = unsafe { raw::ctc_image_count(input.pointer(), input.length) };
    input.expect_unchanged("image", image);
    count
}

pub fn image_length(count: usize, density: u8) -> usize {
    // SAFETY: it takes numbers alone
    unsafe { raw::ctc_image_length(count, density) }
}

pub fn mark_count(count: usize, density: u8) -> usize {
    // SAFETY: it takes numbers alone
    unsafe { raw::ctc_mark_count(count, density) }
}
