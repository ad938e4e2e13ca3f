//! The restorer against the plain one, and its refusals.

use records_tests::plain::{self, LIMIT};
use records_tests::random::Random;
use records_tests::{compare, edges, parity, random_image, spoil_blockette};

fn good_marks(count: usize) -> Vec<u8> {
    vec![15; plain::mark_count(count, 1)]
}

/// Marks with at most one bad odd and at most one bad even blockette.
fn restorable_marks(count: usize, random: &mut Random) -> Vec<u8> {
    let mut marks = good_marks(count);
    for wanted in 0..2 {
        if marks.is_empty() || random.between(0, 3) == 0 {
            continue;
        }
        let mut place = random.between(0, marks.len() - 1);
        if parity(place, marks.len()) != wanted {
            place = if place == 0 { 1 } else { place - 1 };
        }
        marks[place] = random.error();
    }
    marks
}

#[test]
fn good_blockettes_are_given_as_they_are() {
    let mut random = Random::of_test(30);
    let mut counts: Vec<usize> = (0..=1100).collect();
    counts.extend(edges());
    for count in counts {
        let image = random_image(count, &mut random);
        let tail = random.between(0, 300);
        let space = random.bytes(count + tail);
        let (refusal, out) = compare::restore(&image, &good_marks(count), &space);
        assert_eq!(refusal, 0, "count {count}");
        assert!(
            count == 0 || out[..count] == image[2..2 + count],
            "count {count}"
        );
        assert!(out[count..] == space[count..], "count {count}");
    }
}

#[test]
fn bad_check_blockettes_need_no_repair() {
    let mut random = Random::of_test(31);
    for count in [1, 255, 256, 257, 600, 1000, LIMIT] {
        let image = random_image(count, &mut random);
        for bad in 1..4 {
            let mut marks = good_marks(count);
            let last = marks.len() - 1;
            if bad & 1 != 0 {
                marks[last] = random.error();
            }
            if bad & 2 != 0 {
                marks[last - 1] = random.error();
            }
            let space = random.bytes(count);
            let (refusal, out) = compare::restore(&image, &marks, &space);
            assert_eq!(refusal, 0);
            assert!(out == image[2..2 + count], "count {count}");
        }
    }
}

#[test]
fn images_that_nobody_built() {
    let mut random = Random::of_test(32);
    for case in 0..3000 {
        let count = random.between(0, if case % 5 == 0 { LIMIT } else { 2500 });
        let image = random_image(count, &mut random);
        let marks = restorable_marks(count, &mut random);
        let tail = random.between(0, 300);
        let space = random.bytes(count + tail);
        assert_eq!(compare::restore(&image, &marks, &space).0, 0);
    }
}

#[test]
fn random_legal_marks() {
    let mut random = Random::of_test(33);
    let mut given = [0, 0];
    for case in 0..4000 {
        let count = random.between(1, if case % 10 == 0 { LIMIT } else { 2000 });
        let image = random_image(count, &mut random);
        let mut marks = good_marks(count);
        for mark in &mut marks {
            if random.between(0, 3) == 0 {
                *mark = random.error();
            }
        }
        let space = random.bytes(count);
        let (refusal, _) = compare::restore(&image, &marks, &space);
        given[usize::from(refusal == 12)] += 1;
    }
    assert!(
        given[0] > 100 && given[1] > 100,
        "{given:?} is no fair mixture"
    );
}

#[test]
fn two_bad_of_one_parity() {
    let mut random = Random::of_test(34);
    for count in [1, 256, 257, 512, 600, 900, 1100, LIMIT - 1, LIMIT] {
        let image = plain::image(&random.bytes(count), 1);
        let places = plain::mark_count(count, 1);
        // of many places, every tenth with all; the others with those near and the check blockettes
        for first in 0..places {
            for second in first + 1..places {
                let near = second - first < 4 || second + 3 > places;
                if places > 20 && !near && first % 10 > 0 {
                    continue;
                }
                let mut marks = good_marks(count);
                marks[first] = random.error();
                marks[second] = random.error();
                let space = random.bytes(count + 20);
                let (refusal, after) = compare::restore(&image, &marks, &space);
                let alike = parity(first, places) == parity(second, places);
                assert_eq!(
                    refusal,
                    if alike { 12 } else { 0 },
                    "{count}, {first} and {second}"
                );
                assert!(!alike || after == space, "{count}, {first} and {second}");
            }
        }
    }
}

#[test]
fn three_or_more_bad() {
    let mut random = Random::of_test(35);
    for _ in 0..500 {
        let count = random.between(1, 3000);
        let image = random_image(count, &mut random);
        let mut marks = good_marks(count);
        let mut places: Vec<usize> = (0..marks.len()).collect();
        for _ in 0..random.between(3, marks.len()) {
            let place = places.swap_remove(random.between(0, places.len() - 1));
            marks[place] = random.error();
        }
        let space = random.bytes(count);
        let (refusal, after) = compare::restore(&image, &marks, &space);
        assert_eq!(refusal, 12);
        assert!(after == space);
    }
}

#[test]
fn every_value_of_a_mark_at_every_place() {
    let mut random = Random::of_test(36);
    for count in [1, 300, 1100] {
        let image = plain::image(&random.bytes(count), 1);
        for place in 0..plain::mark_count(count, 1) {
            for value in 0..=255 {
                let mut marks = good_marks(count);
                marks[place] = value;
                let space = random.bytes(count);
                let (refusal, after) = compare::restore(&image, &marks, &space);
                let legal = matches!(value, 1..=9 | 15);
                assert_eq!(
                    refusal,
                    if legal { 0 } else { 10 },
                    "mark {value} at {place}"
                );
                assert!(legal || after == space);
            }
        }
    }
}

#[test]
fn wrong_lengths_of_the_image() {
    let mut random = Random::of_test(37);
    for count in [0, 1, 255, 256, 257, 600, 1100, LIMIT] {
        let image = plain::image(&random.bytes(count), 1);
        let marks = good_marks(count);
        let mut lengths = vec![0, 1, 2, 3, 258, 514, 515, count + 2, 16_898, 66_050, 70_000];
        lengths.extend(image.len().saturating_sub(258)..image.len() + 258);
        for length in lengths {
            let mut damaged = image.clone();
            damaged.resize(length, 0);
            let space = random.bytes(count + 100);
            let (refusal, after) = compare::restore(&damaged, &marks, &space);
            let wrong = length != image.len();
            assert_eq!(
                refusal,
                if wrong { 9 } else { 0 },
                "count {count}, image of {length}"
            );
            assert!(!wrong || after == space);
        }
    }
}

#[test]
fn wrong_numbers_of_marks() {
    let mut random = Random::of_test(38);
    for count in [0, 1, 256, 257, 600, 1100, LIMIT] {
        let image = plain::image(&random.bytes(count), 1);
        let right = plain::mark_count(count, 1);
        for length in 0..=300 {
            let space = random.bytes(count + 100);
            let (refusal, after) = compare::restore(&image, &vec![15; length], &space);
            let wrong = length != right;
            assert_eq!(
                refusal,
                if wrong { 9 } else { 0 },
                "count {count}, {length} marks"
            );
            assert!(!wrong || after == space);
        }
    }
}

#[test]
fn damaged_counts() {
    let mut random = Random::of_test(39);
    for count in [0, 1, 256, 600, LIMIT] {
        let built = plain::image(&random.bytes(count), 1);
        let marks = good_marks(count);
        let space = random.bytes(LIMIT);
        let near = count.saturating_sub(300)..65_536.min(count + 300);
        for said in (0..=65_535).step_by(97).chain(edges()).chain(near) {
            let mut image = built.clone();
            image[..2].copy_from_slice(&plain::count_bytes(said));
            let (refusal, after) = compare::restore(&image, &marks, &space);
            // a count of as many blockettes cannot be told from the right one
            let fits = plain::blockettes(said) == plain::blockettes(count);
            assert_eq!(
                refusal,
                if fits { 0 } else { 9 },
                "built {count}, says {said}"
            );
            assert!(fits || after == space);
        }
    }
}

#[test]
fn images_that_no_count_fits() {
    let mut random = Random::of_test(40);
    // 65,536 bytes would have 256 blockettes, and their 16 bits say 0; no count asks for 257
    for (n, said) in [(256, 0), (256, 65_280), (257, 0), (257, 1), (257, 65_535)] {
        let mut image = random.bytes(2 + 256 * (n + 2));
        image[..2].copy_from_slice(&plain::count_bytes(said));
        let space = random.bytes(65_536);
        for marks in [vec![15; n + 2], vec![15; 258], vec![15; 3], vec![]] {
            let (refusal, after) = compare::restore(&image, &marks, &space);
            assert_eq!(refusal, 9, "{n} blockettes, says {said}");
            assert!(after == space);
        }
    }
}

#[test]
fn images_shorter_than_a_count() {
    let mut random = Random::of_test(41);
    for image in [&[][..], &[0], &[1], &[0x80], &[255]] {
        for marks in [&[][..], &[15, 15, 15], &[0]] {
            let space = random.bytes(300);
            let (refusal, after) = compare::restore(image, marks, &space);
            assert_eq!(refusal, 9);
            assert!(after == space);
        }
    }
}

#[test]
fn mfm_images_are_refused() {
    let mut random = Random::of_test(42);
    for count in [1, 255, 256, 512, 600, LIMIT] {
        let image = plain::image(&random.bytes(count), 0);
        for marks in [vec![], good_marks(count)] {
            let space = random.bytes(LIMIT);
            assert_eq!(
                compare::restore(&image, &marks, &space).0,
                9,
                "count {count}"
            );
        }
    }
}

#[test]
fn short_spaces() {
    let mut random = Random::of_test(43);
    for count in [0, 1, 2, 255, 256, 257, 600, 1000, LIMIT - 1, LIMIT] {
        let image = plain::image(&random.bytes(count), 1);
        let marks = restorable_marks(count, &mut random);
        let mut rooms = vec![0, 1, 256, count / 2];
        rooms.extend(count.saturating_sub(260)..count + 260);
        for room in rooms {
            let space = random.bytes(room);
            let (refusal, after) = compare::restore(&image, &marks, &space);
            assert_eq!(
                refusal,
                if room < count { 11 } else { 0 },
                "count {count}, space {room}"
            );
            assert!(refusal == 0 || after == space);
        }
    }
}

#[test]
fn the_lowest_refusal_comes_first() {
    let mut random = Random::of_test(44);
    for count in [300, 600, 1100, LIMIT] {
        for reasons in 0..32 {
            let (short_image, short_marks) = (reasons & 1 != 0, reasons & 2 != 0);
            let (illegal, short_space) = (reasons & 4 != 0, reasons & 8 != 0);
            let unrestorable = reasons & 16 != 0;

            let mut image = plain::image(&random.bytes(count), 1);
            let mut marks = good_marks(count);
            let last = marks.len() - 1;
            if unrestorable {
                marks[0] = random.error();
                marks[2] = random.error();
            }
            if illegal {
                // before and behind the blockette that makes 12
                let place = [1, last][random.between(0, 1)];
                marks[place] = [0, 10, 14, 16, 255][random.between(0, 4)];
            }
            if short_image {
                image.pop();
            }
            if short_marks {
                marks.push(15);
            }
            let space = random.bytes(if short_space { count - 1 } else { count });

            let (refusal, after) = compare::restore(&image, &marks, &space);
            let expected = if short_image || short_marks {
                9
            } else if illegal {
                10
            } else if short_space {
                11
            } else if unrestorable {
                12
            } else {
                0
            };
            assert_eq!(refusal, expected, "count {count}, reasons {reasons:05b}");
            assert!(refusal == 0 || after == space);
        }
    }
}

#[test]
fn anything_at_all() {
    let mut random = Random::of_test(45);
    let mut given = [0; 13];
    for case in 0..20_000 {
        let count = random.between(0, 1500);
        let mut image = plain::image(&random.bytes(count), 1);
        let mut marks = restorable_marks(count, &mut random);
        let mut room = count + random.between(0, 3);
        for (place, mark) in marks.iter().enumerate() {
            if *mark != 15 {
                spoil_blockette(&mut image, place, &mut random);
            }
        }
        // one or two kinds of damage, or none
        for _ in 0..random.between(0, 2) {
            match (random.between(0, 4), marks.len()) {
                (0, _) => image.resize(random.between(0, 2400), 0),
                (1, _) => marks.resize(random.between(0, 12), 15),
                (2, 1..) => {
                    let place = random.between(0, marks.len() - 1);
                    marks[place] = random.byte();
                }
                (3, _) => room = random.between(0, count),
                (4, 1..) => {
                    let place = random.between(0, marks.len() - 1);
                    marks[place] = random.error();
                }
                _ => {}
            }
        }
        let space = random.bytes(room);
        let (refusal, _) = compare::restore(&image, &marks, &space);
        given[refusal as usize] += 1;
        assert!(
            case < 19_999 || [0, 9, 10, 11, 12].iter().all(|n| given[*n] > 100),
            "{given:?}"
        );
    }
}
