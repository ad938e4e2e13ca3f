//! A null pointer is allowed where its length is 0, for each argument in turn.

use records_tests::library::raw;
use records_tests::plain::NO_PLACE;
use std::ptr::{null, null_mut};

const BYTES: [u8; 5] = [1, 2, 3, 4, 5];

#[test]
fn build_from_no_bytes() {
    for density in [0, 1] {
        let mut image = [0xEE; 4];
        let refusal =
            unsafe { raw::ctc_build(null(), 0, density, NO_PLACE, image.as_mut_ptr(), 4) };
        assert_eq!((refusal, image), (0, [0, 0, 0xEE, 0xEE]));
        for place in [0, 1, usize::MAX] {
            let mut image = [0xEE; 4];
            let refusal =
                unsafe { raw::ctc_build(null(), 0, density, place, image.as_mut_ptr(), 4) };
            assert_eq!((refusal, image), (15, [0xEE; 4]), "place {place}");
        }
    }
}

#[test]
fn build_into_no_space() {
    for density in [0, 1] {
        assert_eq!(
            unsafe { raw::ctc_build(BYTES.as_ptr(), 5, density, NO_PLACE, null_mut(), 0) },
            11
        );
        assert_eq!(
            unsafe { raw::ctc_build(null(), 0, density, NO_PLACE, null_mut(), 0) },
            11
        );
    }
}

#[test]
fn build_into_no_space_with_a_place() {
    for density in [0, 1] {
        for place in [0, 4, 5, usize::MAX] {
            let five = unsafe { raw::ctc_build(BYTES.as_ptr(), 5, density, place, null_mut(), 0) };
            let none = unsafe { raw::ctc_build(null(), 0, density, place, null_mut(), 0) };
            assert_eq!((five, none), (11, 11), "place {place}");
        }
    }
}

#[test]
fn restore_from_no_image() {
    let mut out = [0xEE; 5];
    let marks = [15; 3];
    let refusal = unsafe { raw::ctc_restore(null(), 0, marks.as_ptr(), 3, out.as_mut_ptr(), 5) };
    assert_eq!((refusal, out), (9, [0xEE; 5]));
    assert_eq!(
        unsafe { raw::ctc_restore(null(), 0, null(), 0, null_mut(), 0) },
        9
    );
}

#[test]
fn restore_with_no_marks() {
    let mut out = [0xEE; 5];
    let mut image = [0; 770];
    let refusal =
        unsafe { raw::ctc_build(BYTES.as_ptr(), 5, 1, NO_PLACE, image.as_mut_ptr(), 770) };
    assert_eq!(refusal, 0);
    let refusal = unsafe { raw::ctc_restore(image.as_ptr(), 770, null(), 0, out.as_mut_ptr(), 5) };
    assert_eq!((refusal, out), (9, [0xEE; 5]));
    // a record of no bytes has none
    let refusal = unsafe { raw::ctc_restore([0, 0].as_ptr(), 2, null(), 0, out.as_mut_ptr(), 5) };
    assert_eq!((refusal, out), (0, [0xEE; 5]));
}

#[test]
fn restore_into_no_space() {
    let mut image = [0; 770];
    let refusal =
        unsafe { raw::ctc_build(BYTES.as_ptr(), 5, 1, NO_PLACE, image.as_mut_ptr(), 770) };
    assert_eq!(refusal, 0);
    let marks = [15; 3];
    let refusal =
        unsafe { raw::ctc_restore(image.as_ptr(), 770, marks.as_ptr(), 3, null_mut(), 0) };
    assert_eq!(refusal, 11);
    assert_eq!(
        unsafe { raw::ctc_restore([0, 0].as_ptr(), 2, null(), 0, null_mut(), 0) },
        0
    );
}

/// Each of the six arguments of a merge in turn, its length 0 where it is null.
#[test]
fn merge_without_one_of_the_six() {
    let mut image = [0; 770];
    let refusal =
        unsafe { raw::ctc_build(BYTES.as_ptr(), 5, 1, NO_PLACE, image.as_mut_ptr(), 770) };
    assert_eq!(refusal, 0);
    let marks = [15; 3];
    for (missing, answer) in [(0, 9), (1, 9), (2, 9), (3, 9), (4, 11), (5, 11), (6, 0)] {
        let mut merged = [0xEE; 771];
        let mut merged_marks = [0xEE; 4];
        let lent = |argument, bytes: &[u8]| match argument == missing {
            true => (null(), 0),
            false => (bytes.as_ptr(), bytes.len()),
        };
        let (first, first_len) = lent(0, &image);
        let (first_marks, first_marks_len) = lent(1, &marks);
        let (second, second_len) = lent(2, &image);
        let (second_marks, second_marks_len) = lent(3, &marks);
        let (space, space_len) = match missing {
            4 => (null_mut(), 0),
            _ => (merged.as_mut_ptr(), 771),
        };
        let (marks_space, marks_space_len) = match missing {
            5 => (null_mut(), 0),
            _ => (merged_marks.as_mut_ptr(), 4),
        };
        let refusal = unsafe {
            raw::ctc_merge(
                first,
                first_len,
                first_marks,
                first_marks_len,
                second,
                second_len,
                second_marks,
                second_marks_len,
                space,
                space_len,
                marks_space,
                marks_space_len,
            )
        };
        assert_eq!(refusal, answer, "without argument {missing}");
        if refusal == 0 {
            assert!(merged[..770] == image && merged[770] == 0xEE);
            assert_eq!(merged_marks, [15, 15, 15, 0xEE]);
        } else {
            assert!(merged == [0xEE; 771] && merged_marks == [0xEE; 4]);
        }
    }
}

/// Records of no bytes have no marks, so that neither marks nor a space for them are needed.
#[test]
fn merge_with_no_marks() {
    let empty = [0, 0];
    let (pass, none) = (empty.as_ptr(), null());
    let mut image = [0xEE; 3];
    let space = image.as_mut_ptr();
    let into = |space, room| unsafe {
        raw::ctc_merge(
            pass,
            2,
            none,
            0,
            pass,
            2,
            none,
            0,
            space,
            room,
            null_mut(),
            0,
        )
    };
    assert_eq!((into(space, 3), image), (0, [0, 0, 0xEE]));
    assert_eq!(into(null_mut(), 0), 11);
}

#[test]
fn count_of_no_image() {
    assert_eq!(unsafe { raw::ctc_image_count(null(), 0) }, 65_536);
}

#[test]
fn verify_of_no_image() {
    assert_eq!(unsafe { raw::ctc_verify(null(), 0) }, 9);
}

#[test]
fn scan_of_no_marks_or_into_no_space() {
    let mut report = [0xEE; 10];
    let refusal = unsafe { raw::ctc_scan(null(), 0, report.as_mut_ptr(), 10) };
    assert_eq!((refusal, report), (0, [0, 0, 0, 0, 0, 0, 0, 0, 0, 0xEE]));
    let marks = [15; 3];
    assert_eq!(
        unsafe { raw::ctc_scan(marks.as_ptr(), 3, null_mut(), 0) },
        11
    );
    assert_eq!(unsafe { raw::ctc_scan(null(), 0, null_mut(), 0) }, 11);
}
