//! What is built, spoiled in at most one odd and one even blockette and marked so, comes back; and so
//! does what is merged from two passes that are spoiled alike in no more. The plain implementation
//! takes no part here: the record itself is the answer.

use records_tests::plain::{LIMIT, NO_PLACE};
use records_tests::random::Random;
use records_tests::{edges, library, parity, spoil_blockette, Pass};

fn built(bytes: &[u8]) -> Vec<u8> {
    let length = library::image_length(bytes.len(), 1);
    let (refusal, image) = library::build(bytes, 1, NO_PLACE, &vec![0xC3; length]);
    assert_eq!(refusal, 0, "{} bytes", bytes.len());
    image
}

/// Spoils and marks the blockettes at `bad`, restores, and compares with the record.
fn restores(bytes: &[u8], image: &[u8], bad: &[usize], random: &mut Random) {
    let mut spoiled = image.to_vec();
    let mut marks = vec![15; library::mark_count(bytes.len(), 1)];
    for place in bad {
        spoil_blockette(&mut spoiled, *place, random);
        marks[*place] = random.error();
    }
    let tail = random.between(0, 70);
    let space = random.bytes(bytes.len() + tail);
    let (refusal, out) = library::restore(&spoiled, &marks, &space);
    let count = bytes.len();
    assert_eq!(refusal, 0, "{count} bytes, bad {bad:?}");
    assert!(
        out[..count] == *bytes,
        "{count} bytes, bad {bad:?}: another record came back"
    );
    assert!(
        out[count..] == space[count..],
        "{count} bytes, bad {bad:?}: wrote past the record"
    );
}

/// Spoils two passes, both at `in_both` and each in blockettes of its own; merges them, restores, and
/// compares with the record. Tells whether neither pass can be restored alone.
fn restores_merged(bytes: &[u8], image: &[u8], in_both: &[usize], random: &mut Random) -> bool {
    let (count, length) = (bytes.len(), image.len());
    let good = Pass::good(image.to_vec());
    let places = good.marks.len();
    let mut passes = [good.clone(), good];
    for place in 0..places {
        // 0 and 1: in that pass alone; more: in neither
        let alone = random.between(0, 4);
        for (number, pass) in passes.iter_mut().enumerate() {
            if in_both.contains(&place) || alone == number {
                pass.spoil(place, random);
            }
        }
    }
    let [first, second] = &passes;
    let tail = random.between(0, 70);
    let image_space = random.bytes(length + tail);
    let marks_space = random.bytes(places + tail);
    let (refusal, merged, marks) = library::merge(first, second, &image_space, &marks_space);
    assert_eq!(refusal, 0, "{count} bytes, bad in both {in_both:?}");
    let mut expected = vec![15; places];
    for place in in_both {
        expected[*place] = first.marks[*place];
    }
    assert!(
        marks[..places] == expected,
        "{count} bytes, bad in both {in_both:?}: other marks"
    );
    assert!(
        merged[length..] == image_space[length..] && marks[places..] == marks_space[places..],
        "{count} bytes: wrote past the merged record"
    );
    let restored = |image: &[u8], marks: &[u8]| library::restore(image, marks, &vec![0; count]);
    let (refusal, out) = restored(&merged[..length], &marks[..places]);
    assert_eq!(refusal, 0, "{count} bytes, bad in both {in_both:?}");
    assert!(
        out == *bytes,
        "{count} bytes, bad in both {in_both:?}: another record came back"
    );
    let alone = |pass: &Pass| restored(&pass.image, &pass.marks).0;
    alone(first) == 12 && alone(second) == 12
}

/// Every choice of at most one odd and at most one even place.
fn choices(places: usize) -> Vec<Vec<usize>> {
    let mut choices = vec![vec![]];
    for first in 0..places {
        choices.push(vec![first]);
        for second in first + 1..places {
            if parity(first, places) != parity(second, places) {
                choices.push(vec![first, second]);
            }
        }
    }
    choices
}

#[test]
fn every_small_count_and_every_choice() {
    let mut random = Random::of_test(50);
    for count in 0..=1100 {
        let bytes = random.bytes(count);
        let image = built(&bytes);
        for bad in choices(library::mark_count(count, 1)) {
            restores(&bytes, &image, &bad, &mut random);
        }
    }
}

#[test]
fn every_edge_of_a_blockette() {
    let mut random = Random::of_test(51);
    for count in edges() {
        let bytes = random.bytes(count);
        let image = built(&bytes);
        let choices = choices(library::mark_count(count, 1));
        for _ in 0..10 {
            let bad = &choices[random.between(0, choices.len() - 1)];
            restores(&bytes, &image, bad, &mut random);
        }
    }
}

#[test]
fn the_limit_and_every_choice() {
    let mut random = Random::of_test(52);
    let bytes = random.bytes(LIMIT);
    let image = built(&bytes);
    let choices = choices(library::mark_count(LIMIT, 1));
    assert_eq!(choices.len(), 130 * 130);
    for bad in choices {
        restores(&bytes, &image, &bad, &mut random);
    }
}

#[test]
fn random_counts_and_choices() {
    let mut random = Random::of_test(53);
    for _ in 0..1000 {
        let count = random.between(1, LIMIT);
        let bytes = random.bytes(count);
        let image = built(&bytes);
        let choices = choices(library::mark_count(count, 1));
        let bad = &choices[random.between(0, choices.len() - 1)];
        restores(&bytes, &image, bad, &mut random);
    }
}

#[test]
fn two_passes_at_every_edge_of_a_blockette() {
    let mut random = Random::of_test(55);
    for count in edges() {
        let bytes = random.bytes(count);
        let image = built(&bytes);
        let choices = choices(library::mark_count(count, 1));
        let in_both = &choices[random.between(0, choices.len() - 1)];
        restores_merged(&bytes, &image, in_both, &mut random);
    }
}

#[test]
fn two_passes_of_small_records_and_every_choice() {
    let mut random = Random::of_test(56);
    let mut neither = 0;
    for count in (0..=1100).step_by(11) {
        let bytes = random.bytes(count);
        let image = built(&bytes);
        for in_both in choices(library::mark_count(count, 1)) {
            neither += usize::from(restores_merged(&bytes, &image, &in_both, &mut random));
        }
    }
    assert!(neither > 100, "only {neither} pairs needed both passes");
}

#[test]
fn mfm_images_hold_the_bytes() {
    let mut random = Random::of_test(54);
    for count in [0, 1, 5, 255, 256, 257, 1000, LIMIT] {
        let bytes = random.bytes(count);
        let (refusal, image) = library::build(&bytes, 0, NO_PLACE, &vec![0x3C; count + 2]);
        assert_eq!(refusal, 0);
        assert_eq!(library::image_count(&image), count);
        assert!(image[2..] == bytes);
    }
}
