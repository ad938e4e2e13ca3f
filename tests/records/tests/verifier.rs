//! The test of the check blockettes against the plain one.

use records_tests::plain::{self, LIMIT, NO_PLACE};
use records_tests::random::Random;
use records_tests::{compare, edges, library, parity, random_image, spoil_blockette};

/// What is told of a blockette that alone is another than was built.
fn unfit_at(place: usize, marks: usize) -> u32 {
    [32, 64][parity(place, marks)]
}

#[test]
fn what_the_library_builds_fits() {
    let mut random = Random::of_test(60);
    for count in edges() {
        let length = plain::image_length(count, 1);
        for place in [NO_PLACE, 0, random.between(0, count - 1), count - 1] {
            let bytes = random.bytes(count);
            let (refusal, image) = library::build(&bytes, 1, place, &vec![0xEE; length]);
            assert_eq!(refusal, 0);
            assert_eq!(compare::verify(&image), 0, "count {count}, place {place}");
        }
    }
}

#[test]
fn one_bit_in_every_blockette() {
    let mut random = Random::of_test(61);
    for count in (1..1100).step_by(61).chain([16_384, 16_385, 65_281, LIMIT]) {
        let mut image = plain::image(&random.bytes(count), 1);
        let marks = plain::mark_count(count, 1);
        for place in 0..marks {
            let byte = [0, 255, random.between(1, 254)][place % 3];
            let changed = 2 + 256 * place + byte;
            image[changed] ^= 1 << (place % 8);
            assert_eq!(
                compare::verify(&image),
                unfit_at(place, marks),
                "count {count}, place {place}, byte {byte}"
            );
            image[changed] ^= 1 << (place % 8);
        }
    }
}

#[test]
fn every_bit_of_a_blockette() {
    let mut random = Random::of_test(62);
    for place in 0..5 {
        let mut image = plain::image(&random.bytes(600), 1);
        for bit in 0..8 * 256 {
            image[2 + 256 * place + bit / 8] ^= 1 << (bit % 8);
            assert_eq!(compare::verify(&image), unfit_at(place, 5), "bit {bit}");
            image[2 + 256 * place + bit / 8] ^= 1 << (bit % 8);
        }
    }
}

#[test]
fn two_spoiled_blockettes() {
    let mut random = Random::of_test(63);
    for count in [1, 300, 1500] {
        let marks = plain::mark_count(count, 1);
        for one in 0..marks {
            for other in 0..marks {
                let mut image = plain::image(&random.bytes(count), 1);
                spoil_blockette(&mut image, one, &mut random);
                let alone = compare::verify(&image);
                assert_eq!(alone, unfit_at(one, marks));
                if other == one {
                    continue;
                }
                spoil_blockette(&mut image, other, &mut random);
                assert_eq!(
                    compare::verify(&image),
                    alone | unfit_at(other, marks),
                    "count {count}, places {one} and {other}"
                );
            }
        }
    }
}

/// The same change in two blockettes of a parity cancels out, as the header says.
#[test]
fn changes_that_cancel_out() {
    let mut random = Random::of_test(64);
    let built = plain::image(&random.bytes(2000), 1);
    let marks = plain::mark_count(2000, 1);
    for one in 0..marks {
        for other in 0..marks {
            let mut image = built.clone();
            let change = random.bytes(256);
            for i in 0..256 {
                image[2 + 256 * one + i] ^= change[i];
                image[2 + 256 * other + i] ^= change[i];
            }
            let expected = if parity(one, marks) == parity(other, marks) {
                0
            } else {
                96
            };
            assert_eq!(compare::verify(&image), expected, "{one} and {other}");
        }
    }
}

#[test]
fn random_images() {
    let mut random = Random::of_test(65);
    for case in 0..2000 {
        let most = if case % 20 == 0 { LIMIT } else { 2000 };
        let count = random.between(1, most);
        assert_eq!(compare::verify(&random_image(count, &mut random)), 96);
        let mut image = plain::image(&random.bytes(count), 1);
        let marks = plain::mark_count(count, 1);
        for _ in 0..random.between(0, 3) {
            let place = 2 + random.between(0, 256 * marks - 1);
            image[place] ^= 1 << random.between(0, 7);
        }
        compare::verify(&image);
    }
}

#[test]
fn no_bytes() {
    assert_eq!(compare::verify(&[0, 0]), 0);
    assert_eq!(compare::verify(&[0, 0, 0]), 9);
    assert_eq!(compare::verify(&[0, 0].repeat(385)), 9);
}

#[test]
fn lengths_that_do_not_fit_the_count() {
    let mut random = Random::of_test(66);
    for count in (0..1100).step_by(37).chain([16_384, 65_280, 65_281, LIMIT]) {
        let right = plain::image_length(count, 1);
        let mut image = plain::image(&random.bytes(count), 1);
        image.extend(random.bytes(600));
        for length in (0..=right + 600).filter(|length| {
            *length < 300 || length % 256 < 5 || (right - 2..=right + 2).contains(length)
        }) {
            let told = compare::verify(&image[..length]);
            assert_eq!(told, if length == right { 0 } else { 9 }, "{length} bytes");
        }
    }
}

#[test]
fn every_count_in_an_image_of_three_blockettes() {
    let mut random = Random::of_test(67);
    for count in 0..=LIMIT {
        let mut image = random_image(1, &mut random);
        image[..2].copy_from_slice(&plain::count_bytes(count));
        let fits = (1..=256).contains(&count);
        assert_eq!(
            compare::verify(&image),
            if fits { 96 } else { 9 },
            "{count}"
        );
    }
}
