//! The record cases of document 01's bench list, their answers written out by hand.

use records_tests::library;
use records_tests::plain::NO_PLACE;

/// The image that the library builds in a space of its length.
fn image(bytes: &[u8], density: u8) -> Vec<u8> {
    let length = library::image_length(bytes.len(), density);
    let (refusal, image) = library::build(bytes, density, NO_PLACE, &vec![0xEE; length]);
    assert_eq!(refusal, 0);
    image
}

/// Tertiary and quintary as the controller makes them from a report: mark and kind are two digits
/// of one byte.
fn status(marks: &[u8]) -> ([u8; 4], [u8; 4]) {
    let (refusal, report) = library::scan(marks, &[0xEE; 9]);
    assert_eq!(refusal, 0);
    let digits = |at: usize| 16 * report[at] + report[at + 1];
    (
        [digits(0), report[2], digits(3), report[5]],
        [0, 0, digits(6), report[8]],
    )
}

#[test]
fn counts_5_3_and_256_are_rotated() {
    for (count, rotated) in [(5, [0x80, 0x02]), (3, [0x80, 0x01]), (256, [0x00, 0x80])] {
        for density in [0, 1] {
            assert_eq!(
                image(&vec![0x77; count], density)[..2],
                rotated,
                "count {count}"
            );
        }
        assert_eq!(library::image_count(&rotated), count);
    }
}

#[test]
fn a_record_of_600_with_mark_9_on_1_and_3_on_check_0() {
    // tape order: 2, 1, 0, check 1, check 0
    assert_eq!(
        status(&[15, 9, 15, 15, 3]),
        ([0x91, 0x01, 0x32, 0x00], [0, 0, 0, 0])
    );
    let bytes: Vec<u8> = (0..600).map(|place| (place * 7 % 251) as u8).collect();
    let mut spoiled = image(&bytes, 1);
    assert_eq!(spoiled.len(), 1282);
    spoiled[2 + 256..2 + 512].fill(0x55);
    spoiled[2 + 1024..].fill(0x55);
    let (refusal, out) = library::restore(&spoiled, &[15, 9, 15, 15, 3], &[0; 600]);
    assert_eq!(refusal, 0);
    assert!(out == bytes);
}

#[test]
fn a_record_of_600_with_6_on_2_and_4_on_0() {
    let marks = [6, 15, 4, 15, 15];
    assert_eq!(
        status(&marks),
        ([0x00, 0x00, 0x61, 0x02], [0x00, 0x00, 0x41, 0x00])
    );
    let image = image(&[0x11; 600], 1);
    let (refusal, out) = library::restore(&image, &marks, &[0xEE; 600]);
    assert_eq!(refusal, 12);
    assert_eq!(out, [0xEE; 600]);
}

#[test]
fn one_byte_5a_is_the_257th_check_byte() {
    let image = image(&[0x5A], 1);
    let mut expected = vec![0; 2 + 256 + 512];
    expected[..3].copy_from_slice(&[0x80, 0x00, 0x5A]);
    expected[2 + 256 + 256] = 0x5A;
    assert_eq!(image, expected);
}

#[test]
fn blockettes_are_numbered_downward() {
    // 2, 1 and 0 hold 1, 2 and 4: check 1 is of blockette 1 alone, check 0 of 2 and 0
    let mut bytes = vec![1; 256];
    bytes.extend([2; 256]);
    bytes.extend([4; 100]);
    let image = image(&bytes, 1);
    assert_eq!(image[2..2 + 612], bytes);
    assert_eq!(image[2 + 612..2 + 768], [0; 156]);
    assert_eq!(image[2 + 768..2 + 1024], [2; 256]);
    assert_eq!(image[2 + 1024..2 + 1124], [5; 100]);
    assert_eq!(image[2 + 1124..], [1; 156]);
}

#[test]
fn the_longest_record_has_blockettes_255_to_0() {
    // each blockette holds its number; the last, number 0, holds 1 and lacks a byte
    let mut bytes: Vec<u8> = (0..65_535).map(|place| (255 - place / 256) as u8).collect();
    bytes[65_280..].fill(1);
    let image = image(&bytes, 1);
    assert_eq!(image.len(), 66_050);
    assert_eq!(image[..2], [0xFF, 0xFF]);
    assert_eq!(image[2..2 + 65_535], bytes);
    assert_eq!(image[2 + 65_535], 0);
    // 1, 3, ... 255 cancel each other, and so do 2, 4, ... 254
    assert_eq!(image[2 + 65_536..2 + 65_792], [0; 256]);
    assert_eq!(image[2 + 65_792..2 + 66_047], [1; 255]);
    assert_eq!(image[2 + 66_047], 0);

    // mark 9 on blockette 255, 3 on blockette 128; then 2 on 255 and 7 on check 1
    let mut marks = [15; 258];
    (marks[0], marks[127]) = (9, 3);
    assert_eq!(
        status(&marks),
        ([0x91, 0xFF, 0x31, 0x80], [0x00, 0x00, 0x00, 0x00])
    );
    let mut spoiled = image.clone();
    spoiled[2..2 + 256].fill(0x55);
    spoiled[2 + 256 * 127..2 + 256 * 128].fill(0x55);
    let (refusal, out) = library::restore(&spoiled, &marks, &[0; 65_535]);
    assert_eq!(refusal, 0);
    assert!(out == bytes);
    let mut marks = [15; 258];
    (marks[0], marks[256]) = (2, 7);
    assert_eq!(
        status(&marks),
        ([0x21, 0xFF, 0x00, 0x00], [0x00, 0x00, 0x72, 0x01])
    );
    assert_eq!(library::restore(&image, &marks, &[0; 65_535]).0, 12);
}

#[test]
fn one_byte_more_than_the_longest_record() {
    let bytes = vec![0x5A; 65_536];
    for density in [0, 1] {
        let (refusal, space) = library::build(&bytes, density, NO_PLACE, &[0xEE; 70_000]);
        assert_eq!(refusal, 9);
        assert!(space == [0xEE; 70_000]);
    }
}

#[test]
fn a_record_of_no_bytes_is_two_bytes() {
    for density in [0, 1, 255] {
        assert_eq!(image(&[], density), [0, 0]);
    }
    assert_eq!(
        library::restore(&[0, 0], &[], &[0xEE; 4]),
        (0, vec![0xEE; 4])
    );
    assert_eq!(
        library::restore(&[0, 0], &[15, 15], &[0xEE; 4]),
        (9, vec![0xEE; 4])
    );
}
