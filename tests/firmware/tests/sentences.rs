//! Document 02's sixth wish, sentence by sentence, with answers written out by hand: the controller
//! and the machine give them alike.

use firmware_tests::{both, Answer, Call, Lent};
use machine::records::{CHECK_BYTES, NO_PLACE};

const MFM: u8 = 0;
const GCR: u8 = 1;

/// A write of eight host bytes 11, 22, ... 88 at the most.
fn write(density: u8, thrown: u8, count: u16, host: usize, place: usize) -> Call {
    Call {
        density,
        thrown,
        count,
        host: (1..=host).map(|number| number as u8 * 0x11).collect(),
        place,
        lent: Lent {
            space: vec![0xEE; 1100],
            check: vec![0xEE; CHECK_BYTES],
        },
    }
}

/// What a write that is not refused gives: bits 16 to 18 after the data call and after the result,
/// the image, and the check store.
struct Written {
    bits: u32,
    image: Vec<u8>,
    check: Vec<u8>,
}

/// Bits 16-18 of primary, bit 16 first.
const BAD: u32 = 0b100;
const RAN_OUT: u32 = 0b001;

#[track_caller]
fn written(call: &Call) -> Written {
    let Answer {
        refusal,
        words: [first, second],
        length,
        lent,
        ..
    } = both(call);
    assert_eq!(refusal, 0);
    let bits = first >> 13 & 0b111;
    assert_eq!(second >> 13 & 0b111, bits, "the result keeps the bits");
    // The drive has a tape, so that the result's code stays 00.
    assert_eq!((first & 0xFF, second & 0xFF), (0x22, 0x22), "the report");
    assert_eq!((first >> 16 & 0x1F, second >> 16 & 0x1F), (0, 0));
    // Bit 2 comes with the result, and only by bit 16 or 18.
    let retry = bits & (BAD | RAN_OUT) != 0;
    assert_eq!((first >> 29 & 1, second >> 29 & 1), (0, retry as u32));
    assert!(lent.space[length..].iter().all(|&byte| byte == 0xEE));
    Written {
        bits,
        image: lent.space[..length].to_vec(),
        check: lent.check,
    }
}

/// The record bytes of an MFM write, whose count is in front of them, and its bits.
#[track_caller]
fn mfm(thrown: u8, count: u16, host: usize, place: usize) -> (Vec<u8>, u32) {
    let Written { bits, image, check } = written(&write(MFM, thrown, count, host, place));
    assert_eq!(image.len(), 2 + count as usize);
    assert!(check.iter().all(|&byte| byte == 0xEE), "MFM has no checks");
    (image[2..].to_vec(), bits)
}

#[track_caller]
fn refused(call: &Call) -> u32 {
    let answer = both(call);
    assert!(answer.lent == call.lent, "a refused call wrote");
    answer.refusal
}

/// "The data call takes that place, counted from 0 over all bytes handed in"
#[test]
fn counted_over_all_bytes() {
    assert_eq!(mfm(2, 4, 6, 2), (vec![0x33, 0, 0, 0], BAD));
    assert_eq!(mfm(2, 4, 6, 3), (vec![0x33, 0x44, 0, 0], BAD));
    assert_eq!(mfm(0, 4, 6, 2), (vec![0x11, 0x22, 0x33, 0], BAD));
}

/// "or 65,535 plus 256 for none"
#[test]
fn none() {
    assert_eq!(NO_PLACE, 65_791);
    assert_eq!(mfm(2, 4, 6, 65_791), (vec![0x33, 0x44, 0x55, 0x66], 0));
    assert_eq!(mfm(0, 0, 0, 65_791), (vec![], 0));
    // also where a byte stands there
    let mut long = write(MFM, 0, 2, 0, 65_791);
    long.host = vec![0x5A; 65_792];
    assert_eq!(written(&long).bits, 0);
    assert_eq!(written(&long).image, [0, 1, 0x5A, 0x5A]);
}

/// "The byte itself is written as it came, every record byte after it is zero, and bit 16 is set."
#[test]
fn the_byte_itself_and_zeros() {
    assert_eq!(mfm(0, 3, 3, 0), (vec![0x11, 0, 0], BAD));
    assert_eq!(mfm(0, 3, 3, 1), (vec![0x11, 0x22, 0], BAD));
    // the last byte of the record: nothing is zeroed, and the bit is set
    assert_eq!(mfm(0, 3, 3, 2), (vec![0x11, 0x22, 0x33], BAD));
    assert_eq!(mfm(5, 1, 8, 5), (vec![0x66], BAD));
}

/// The same in GCR, where check blockettes and check store are of what is written.
#[test]
fn checks_are_of_what_is_written() {
    // blockettes 1 and 0, of 256 and 44 bytes; the last byte of blockette 1 is bad, and then the third of blockette 0
    for (place, in_0) in [(256, 0), (259, 3)] {
        let mut call = write(GCR, 1, 300, 0, place);
        call.host = [[0x11; 1].as_slice(), &[0x22; 256], &[0x33; 44]].concat();
        let mut expected = vec![0x00, 0x96];
        expected.extend([0x22; 256]);
        let mut zeroed = [0; 256];
        zeroed[..in_0].fill(0x33);
        expected.extend(zeroed);
        expected.extend([0x22; 256]);
        expected.extend(zeroed);
        let Written { bits, image, check } = written(&call);
        assert_eq!(bits, BAD);
        assert_eq!(image, expected, "place {place}");
        assert_eq!(check, expected[514..], "place {place}");
    }
}

/// "A bad byte among those thrown away makes the whole record zeros and sets that bit too."
#[test]
fn among_those_thrown_away() {
    for place in 0..3 {
        assert_eq!(mfm(3, 4, 8, place), (vec![0; 4], BAD), "place {place}");
    }
    let Written { bits, image, check } = written(&write(GCR, 3, 4, 8, 2));
    assert_eq!((bits, &image[..2]), (BAD, &[0x00, 0x02][..]));
    assert_eq!(image[2..], [0; 768]);
    assert_eq!(check, [0; 512]);
    // with count 0 as well
    assert_eq!(mfm(3, 0, 3, 0), (vec![], BAD));
    assert_eq!(written(&write(GCR, 3, 0, 3, 2)).bits, BAD);
}

/// "A place past the bytes that the store needs counts as none."
#[test]
fn past_what_the_store_needs() {
    for place in 5..8 {
        let whole = vec![0x33, 0x44, 0x55];
        assert_eq!(mfm(2, 3, 8, place), (whole, 0), "place {place}");
    }
    assert_eq!(mfm(0, 0, 1, 0), (vec![], 0));
    assert_eq!(mfm(3, 0, 8, 3), (vec![], 0));
}

/// "Underflow is flagged only where the host ran out before any bad byte."
#[test]
fn underflow() {
    assert_eq!(mfm(2, 4, 5, NO_PLACE), (vec![0x33, 0x44, 0x55, 0], RAN_OUT));
    assert_eq!(mfm(2, 4, 5, 4), (vec![0x33, 0x44, 0x55, 0], BAD));
    assert_eq!(mfm(2, 4, 5, 2), (vec![0x33, 0, 0, 0], BAD));
    // the host ran out among the bytes thrown away
    assert_eq!(mfm(4, 2, 3, NO_PLACE), (vec![0, 0], RAN_OUT));
    assert_eq!(mfm(4, 2, 3, 2), (vec![0, 0], BAD));
    assert_eq!(mfm(4, 0, 3, NO_PLACE), (vec![], RAN_OUT));
    assert_eq!(mfm(4, 0, 3, 0), (vec![], BAD));
    assert_eq!(mfm(0, 2, 0, NO_PLACE), (vec![0, 0], RAN_OUT));
}

/// "Bit 16 sets bit 2 at the result.": primary after the data call, and after a result with code 0.
#[test]
fn point_6_5_bit_16_sets_bit_2() {
    // changed and report 22; the result adds motion 01 and bit 22
    let clear = [0x8000_0022, 0x8020_0222];
    let bad = [0x8000_8022, 0xA020_8222];
    let ran_out = [0x8000_2022, 0xA020_2222];
    for (thrown, count, host, place, words) in [
        (2, 4, 6, NO_PLACE, clear),
        // past the bytes that the store needs
        (2, 4, 7, 6, clear),
        // the last, the first, and one thrown away
        (2, 4, 6, 5, bad),
        (2, 4, 6, 2, bad),
        (2, 4, 6, 1, bad),
        // without record bytes
        (2, 0, 2, NO_PLACE, clear),
        (2, 0, 2, 1, bad),
        // the host ran out: before any bad byte, and after one
        (2, 4, 5, NO_PLACE, ran_out),
        (2, 4, 5, 4, bad),
    ] {
        for (density, bit_23) in [(MFM, 0), (GCR, 0x100)] {
            let answer = both(&write(density, thrown, count, host, place));
            assert_eq!(answer.refusal, 0);
            let told = answer.words;
            let expected = words.map(|word| word | bit_23);
            assert_eq!(told, expected, "place {place} of {host}: {told:08X?}");
        }
    }
}

/// "Refused: 15 a place that is neither in the host bytes nor the value for none, after 11."
#[test]
fn refused_places() {
    for density in [MFM, GCR] {
        for place in [6, 7, 65_535, 65_790, 65_792, usize::MAX] {
            assert_eq!(refused(&write(density, 2, 4, 6, place)), 15, "{place}");
        }
        assert_eq!(refused(&write(density, 0, 0, 0, 0)), 15);
        // a place that the store needs, and the host has not
        assert_eq!(refused(&write(density, 2, 4, 5, 5)), 15);
        let mut long = write(density, 0, 2, 0, 65_792);
        long.host = vec![0x5A; 65_792];
        assert_eq!(refused(&long), 15);
        long.host.push(0x5A);
        assert_eq!(written(&long).bits, 0);
    }
}

/// 1, 6, 11, 15, each with all that come after it.
#[test]
fn refusals_in_their_order() {
    for density in [MFM, GCR] {
        let mut call = write(density, 2, 4, 6, 6);
        assert_eq!(refused(&call), 15);
        call.lent
            .space
            .truncate(if density == MFM { 5 } else { 769 });
        assert_eq!(refused(&call), 11);
        call.place = 5;
        assert_eq!(refused(&call), 11);
        for length in [0, 511, 513] {
            call.lent.check.resize(length, 0xEE);
            for place in [5, 6] {
                call.place = place;
                assert_eq!(refused(&call), 6);
            }
        }
        call.density = 2;
        assert_eq!(refused(&call), 1);
    }
}
