//! Wish 6 of document 02 at the builder: the place of a byte that came with bad parity.

use records_tests::plain::{self, LIMIT, NO_PLACE};
use records_tests::random::Random;
use records_tests::{compare, edges, library};

/// Builds in a space that is at times longer than the image; the refusal or 0.
fn build_in(bytes: &[u8], density: u8, place: usize, random: &mut Random) -> u32 {
    let longer = random.between(0, 2) * 100;
    let space = random.bytes(plain::image_length(bytes.len(), density) + longer);
    compare::build(bytes, density, place, &space).0
}

#[test]
fn every_place_of_small_records() {
    let mut random = Random::of_test(60);
    for count in (0..=40).chain([255, 256, 257, 511, 512, 513, 600, 768, 769]) {
        let bytes = random.bytes(count);
        for density in [0, 1, 255] {
            for place in 0..count {
                assert_eq!(build_in(&bytes, density, place, &mut random), 0);
            }
            for place in count..count + 5 {
                assert_eq!(build_in(&bytes, density, place, &mut random), 15);
            }
        }
    }
}

/// At each edge of a blockette, of records that end there and of the longest one.
#[test]
fn places_at_every_edge() {
    let mut random = Random::of_test(61);
    let longest = random.bytes(LIMIT);
    for count in edges() {
        for density in [0, 1] {
            for place in [0, count / 2, count - 1] {
                let bytes = &longest[..count];
                assert_eq!(build_in(bytes, density, place, &mut random), 0);
            }
            assert_eq!(build_in(&longest, density, count - 1, &mut random), 0);
        }
    }
}

#[test]
fn places_that_are_none() {
    let mut random = Random::of_test(62);
    let far = [
        NO_PLACE - 1,
        NO_PLACE + 1,
        LIMIT + 1,
        (1 << 16) + NO_PLACE,
        1 << 32,
        (1 << 32) + NO_PLACE,
        usize::MAX - 1,
        usize::MAX,
    ];
    for count in [0, 1, 255, 256, 257, 16_384, LIMIT - 1, LIMIT] {
        let bytes = random.bytes(count);
        for density in [0, 1, 2] {
            for place in far.into_iter().chain([count, count + 1]) {
                assert_eq!(build_in(&bytes, density, place, &mut random), 15, "{place}");
            }
            assert_eq!(build_in(&bytes, density, NO_PLACE, &mut random), 0);
        }
    }
}

/// 9, 11, 15, each with every one that comes after it.
#[test]
fn refusals_in_their_order() {
    let mut random = Random::of_test(63);
    for density in [0, 1] {
        for reasons in 0..8 {
            let count = if reasons & 1 != 0 { LIMIT + 1 } else { 700 };
            let needed = if density == 0 { 702 } else { 1282 };
            let room = if reasons & 2 != 0 { needed - 1 } else { 70_000 };
            let bytes = random.bytes(count);
            let space = random.bytes(room);
            let answer = match reasons {
                0 => 0,
                4 => 15,
                2 | 6 => 11,
                _ => 9,
            };
            let right = [0, count - 1, NO_PLACE];
            let wrong = [count, count + 1, usize::MAX];
            for place in if reasons & 4 != 0 { wrong } else { right } {
                let (refusal, after) = compare::build(&bytes, density, place, &space);
                assert_eq!(refusal, answer, "reasons {reasons}, place {place}");
                assert!(refusal == 0 || after == space);
            }
        }
    }
}

#[test]
fn random_places() {
    let mut random = Random::of_test(64);
    for turn in 0..2000 {
        let most = if turn % 8 == 0 { LIMIT + 2 } else { 1500 };
        let count = random.between(0, most);
        let bytes = random.bytes(count);
        let density = random.between(0, 2) as u8;
        let place = match random.between(0, 5) {
            0 => NO_PLACE,
            1 => random.between(0, NO_PLACE + 10),
            2 => count.saturating_sub(random.between(0, 3)),
            3 => random.word() as usize,
            _ => random.between(0, count),
        };
        let needed = plain::image_length(count, density);
        let room = match random.between(0, 4) {
            0 => needed.saturating_sub(random.between(1, 300)),
            1 => needed + random.between(1, 300),
            _ => needed,
        };
        let space = random.bytes(room);
        compare::build(&bytes, density, place, &space);
    }
}

/// By hand: the byte itself stays, and the check blockettes are those of what is written.
#[test]
fn a_bad_byte_in_the_second_blockette() {
    // 1 and 0 hold 11 and 22; the bad byte is the third of blockette 0
    let mut bytes = vec![0x11; 256];
    bytes.extend([0x22; 256]);
    let (refusal, image) = library::build(&bytes, 1, 258, &[0xEE; 1026]);
    assert_eq!(refusal, 0);
    assert_eq!(image[..2], [0x01, 0x00]);
    assert_eq!(image[2..258], [0x11; 256]);
    assert_eq!(image[258..261], [0x22; 3]);
    assert_eq!(image[261..514], [0; 253]);
    assert_eq!(image[514..770], [0x11; 256]);
    assert_eq!(image[770..773], [0x22; 3]);
    assert_eq!(image[773..], [0; 253]);
}

#[test]
fn the_first_and_the_last_byte_by_hand() {
    let built = |place| library::build(&[1, 2, 3], 0, place, &[0xEE; 6]);
    assert_eq!(built(0), (0, vec![0x80, 0x01, 1, 0, 0, 0xEE]));
    assert_eq!(built(1), (0, vec![0x80, 0x01, 1, 2, 0, 0xEE]));
    assert_eq!(built(2), (0, vec![0x80, 0x01, 1, 2, 3, 0xEE]));
    assert_eq!(built(3), (15, vec![0xEE; 6]));
    assert_eq!(built(65_791), (0, vec![0x80, 0x01, 1, 2, 3, 0xEE]));
}

/// "a record's own bytes in demand 2 are those written": a spoiled blockette comes back so.
#[test]
fn what_is_written_is_restored() {
    let mut random = Random::of_test(65);
    for place in [0, 255, 256, 300, 599] {
        let bytes = random.bytes(600);
        let (refusal, mut image) = library::build(&bytes, 1, place, &[0; 1282]);
        assert_eq!(refusal, 0);
        records_tests::spoil_blockette(&mut image, 1, &mut random);
        let (refusal, out) = library::restore(&image, &[15, 9, 15, 15, 15], &[0xEE; 600]);
        assert_eq!(refusal, 0);
        assert!(out[..=place] == bytes[..=place]);
        assert!(out[place + 1..].iter().all(|&byte| byte == 0), "{place}");
    }
}
