//! The builder against the plain one.

use records_tests::plain::{LIMIT, NO_PLACE};
use records_tests::random::Random;
use records_tests::{compare, edges, plain};

/// Builds in both densities, in a space that fits and in one that is longer.
fn build_both(bytes: &[u8], random: &mut Random) {
    for density in [0, 1] {
        let length = plain::image_length(bytes.len(), density);
        let exact = random.bytes(length);
        assert_eq!(compare::build(bytes, density, NO_PLACE, &exact).0, 0);
        let tail = random.between(1, 300);
        let longer = random.bytes(length + tail);
        assert_eq!(compare::build(bytes, density, NO_PLACE, &longer).0, 0);
    }
}

#[test]
fn every_small_count() {
    let mut random = Random::of_test(10);
    for count in 0..=1100 {
        let bytes = random.bytes(count);
        build_both(&bytes, &mut random);
    }
}

#[test]
fn every_edge_of_a_blockette() {
    let mut random = Random::of_test(11);
    for count in edges() {
        let bytes = random.bytes(count);
        build_both(&bytes, &mut random);
    }
}

#[test]
fn random_counts() {
    let mut random = Random::of_test(12);
    for _ in 0..300 {
        let count = random.between(0, LIMIT);
        let bytes = random.bytes(count);
        build_both(&bytes, &mut random);
    }
}

#[test]
fn bytes_of_one_value() {
    let mut random = Random::of_test(13);
    for value in [0x00, 0x01, 0x80, 0xFF] {
        for count in [1, 255, 256, 257, 512, 513, 768, LIMIT - 1, LIMIT] {
            build_both(&vec![value; count], &mut random);
        }
    }
}

#[test]
fn every_density() {
    let mut random = Random::of_test(14);
    let bytes = random.bytes(300);
    for density in 0..=255 {
        let space = random.bytes(2000);
        let (refusal, image) = compare::build(&bytes, density, NO_PLACE, &space);
        assert_eq!(refusal, 0);
        let length = if density == 0 { 302 } else { 1026 };
        assert_eq!(image[length..], space[length..], "density {density}");
        assert_ne!(image[..length], space[..length], "density {density}");
    }
}

#[test]
fn nothing_to_build() {
    let mut random = Random::of_test(15);
    for density in [0, 1, 255] {
        let space = random.bytes(600);
        let (refusal, image) = compare::build(&[], density, NO_PLACE, &space);
        assert_eq!((refusal, &image[..2]), (0, &[0, 0][..]));
        assert_eq!(image[2..], space[2..]);
    }
}

#[test]
fn above_the_limit() {
    let mut random = Random::of_test(16);
    for count in [LIMIT + 1, LIMIT + 2, LIMIT + 256, 70_000, 131_071, 131_072] {
        let bytes = random.bytes(count);
        for density in [0, 1, 2] {
            // 9 comes before 11, so the space makes no difference
            for room in [0, 1, 2, 66_050, count + 1000] {
                let space = random.bytes(room);
                let (refusal, after) = compare::build(&bytes, density, NO_PLACE, &space);
                assert_eq!(refusal, 9, "{count} bytes, space of {room}");
                assert!(after == space);
            }
        }
    }
}

#[test]
fn short_spaces() {
    let mut random = Random::of_test(17);
    let few = [0, 1, 2, 100, 255, 256, 257, 511, 512, 513, 600, 1000, LIMIT];
    for count in few.into_iter().chain(edges()) {
        let bytes = random.bytes(count);
        for density in [0, 1] {
            let needed = plain::image_length(count, density);
            let mut rooms = vec![needed - 1, needed];
            if few.contains(&count) {
                rooms.extend([0, 1, 2, count, count + 2, needed / 2]);
                rooms.extend(needed.saturating_sub(260)..needed + 3);
            }
            for room in rooms {
                let space = random.bytes(room);
                let (refusal, after) = compare::build(&bytes, density, NO_PLACE, &space);
                assert_eq!(
                    refusal,
                    if room < needed { 11 } else { 0 },
                    "{count}, space of {room}"
                );
                assert!(refusal == 0 || after == space);
            }
        }
    }
}
