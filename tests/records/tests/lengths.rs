//! Image length, number of marks, and the count that an image says.

use records_tests::plain::LIMIT;
use records_tests::random::Random;
use records_tests::{library, plain};

/// Counts above the limit, up to the largest number there is.
fn counts_above() -> Vec<usize> {
    let mut counts: Vec<usize> = (LIMIT + 1..=LIMIT + 1000).collect();
    for shift in 17..usize::BITS {
        counts.extend([(1 << shift) - 1, 1 << shift, (1 << shift) + LIMIT]);
    }
    counts.extend(usize::MAX - 600..=usize::MAX);
    counts
}

#[test]
fn image_length_of_every_count() {
    for count in 0..=LIMIT {
        for density in [0, 1, 2, 128, 255] {
            assert_eq!(
                library::image_length(count, density),
                plain::image_length(count, density),
                "count {count}, density {density}",
            );
        }
    }
}

#[test]
fn image_length_above_the_limit_is_0() {
    for count in counts_above() {
        for density in [0, 1, 255] {
            assert_eq!(library::image_length(count, density), 0, "count {count}");
        }
    }
}

#[test]
fn mark_count_of_every_count() {
    for count in 0..=LIMIT {
        for density in [0, 1, 2, 128, 255] {
            assert_eq!(
                library::mark_count(count, density),
                plain::mark_count(count, density),
                "count {count}, density {density}",
            );
        }
    }
}

#[test]
fn mark_count_above_the_limit_is_0() {
    for count in counts_above() {
        for density in [0, 1, 255] {
            assert_eq!(library::mark_count(count, density), 0, "count {count}");
        }
    }
}

#[test]
fn known_lengths() {
    assert_eq!(library::image_length(0, 0), 2);
    assert_eq!(library::image_length(0, 1), 2);
    assert_eq!(library::image_length(1, 0), 3);
    assert_eq!(library::image_length(1, 1), 770);
    assert_eq!(library::image_length(600, 1), 1282);
    assert_eq!(library::mark_count(1, 1), 3);
    assert_eq!(library::mark_count(600, 1), 5);
    for (count, mfm, gcr, marks) in [
        (16_384, 16_386, 16_898, 66),
        (16_385, 16_387, 17_154, 67),
        (65_280, 65_282, 65_794, 257),
        (65_281, 65_283, 66_050, 258),
        (65_535, 65_537, 66_050, 258),
        (65_536, 0, 0, 0),
    ] {
        assert_eq!(library::image_length(count, 0), mfm, "{count}");
        assert_eq!(library::image_length(count, 1), gcr, "{count}");
        assert_eq!(library::mark_count(count, 0), 0, "{count}");
        assert_eq!(library::mark_count(count, 1), marks, "{count}");
    }
}

#[test]
fn image_count_of_all_first_two_bytes() {
    for high in 0..=255 {
        for low in 0..=255 {
            let image = [high, low];
            assert_eq!(
                library::image_count(&image),
                plain::image_count(&image),
                "{image:?}"
            );
        }
    }
}

#[test]
fn image_count_turns_the_rotation_back() {
    for count in 0..=65_535 {
        assert_eq!(library::image_count(&plain::count_bytes(count)), count);
    }
}

#[test]
fn image_count_looks_at_two_bytes_alone() {
    let mut random = Random::of_test(1);
    for length in 2..600 {
        let image = random.bytes(length);
        assert_eq!(
            library::image_count(&image),
            plain::image_count(&image[..2]),
            "{length} bytes"
        );
    }
}

#[test]
fn image_count_of_a_short_image_is_none() {
    assert_eq!(library::image_count(&[]), plain::NO_COUNT);
    for byte in 0..=255 {
        assert_eq!(library::image_count(&[byte]), plain::NO_COUNT);
    }
}
