//! The merge of two passes against the plain one, and its refusals.

use records_tests::plain::{self, GOOD, LIMIT};
use records_tests::random::Random;
use records_tests::{compare, edges, random_image, spoil_blockette, Pass};

/// A record read without errors. Its check blockettes fit nothing: a merge does not look at that.
fn good_pass(count: usize, random: &mut Random) -> Pass {
    Pass::good(random_image(count, random))
}

/// Two passes over one record, each blockette spoiled in either with a chance of one in so many.
fn spoiled_passes(count: usize, one_in: usize, random: &mut Random) -> [Pass; 2] {
    let good = good_pass(count, random);
    [good.clone(), good].map(|mut pass| {
        for place in 0..pass.marks.len() {
            if random.between(1, one_in) == 1 {
                pass.spoil(place, random);
            }
        }
        pass
    })
}

fn say_count(pass: &mut Pass, count: usize) {
    pass.image[..2].copy_from_slice(&plain::count_bytes(count));
}

fn blockette(pass: &Pass, place: usize) -> &[u8] {
    &pass.image[2 + 256 * place..2 + 256 * (place + 1)]
}

/// Merges in spaces of these lengths and gives the answer; a refusal must leave both as they were.
fn answer(first: &Pass, second: &Pass, rooms: (usize, usize), random: &mut Random) -> u32 {
    let image_space = random.bytes(rooms.0);
    let marks_space = random.bytes(rooms.1);
    let (refusal, image, marks) = compare::merge(first, second, &image_space, &marks_space);
    assert!(refusal == 0 || (image == image_space && marks == marks_space));
    refusal
}

/// Merges in spaces that fit and in longer ones.
fn merge(first: &Pass, second: &Pass, random: &mut Random) -> Pass {
    let (length, places) = (first.image.len(), first.marks.len());
    let more = (random.between(1, 300), random.between(1, 300));
    for rooms in [(length + more.0, places), (length, places + more.1)] {
        assert_eq!(answer(first, second, rooms, random), 0);
    }
    let image_space = random.bytes(length);
    let marks_space = random.bytes(places);
    let (refusal, image, marks) = compare::merge(first, second, &image_space, &marks_space);
    assert_eq!(refusal, 0);
    Pass { image, marks }
}

/// Room for every image and for all marks.
const ENOUGH: (usize, usize) = (66_050, 258);

#[test]
fn every_choice_of_good_and_bad() {
    let mut random = Random::of_test(60);
    for count in [1, 256, 257, 600] {
        let places = plain::mark_count(count, 1);
        for choice in 0..4_usize.pow(places as u32) {
            let bad = |number: usize, place: usize| choice >> (2 * place + number) & 1 == 1;
            let built = good_pass(count, &mut random);
            let mut passes = [built.clone(), built.clone()];
            for place in 0..places {
                for (number, pass) in passes.iter_mut().enumerate() {
                    if bad(number, place) {
                        pass.spoil(place, &mut random);
                    }
                }
            }
            let [first, second] = &passes;
            let merged = merge(first, second, &mut random);
            assert_eq!(merged.image[..2], built.image[..2]);
            for place in 0..places {
                let (from, mark) = match (bad(0, place), bad(1, place)) {
                    (true, true) => (first, first.marks[place]),
                    _ => (&built, GOOD),
                };
                assert_eq!(merged.marks[place], mark, "choice {choice:b}, {place}");
                assert!(
                    blockette(&merged, place) == blockette(from, place),
                    "choice {choice:b}, {place}"
                );
            }
        }
    }
}

#[test]
fn a_record_of_600_by_hand() {
    // tape order: 2, 1, 0, check 1, check 0; each blockette holds one value
    let image_of = |values: [u8; 5]| {
        let mut image = vec![0x01, 0x2C];
        image.extend(values.iter().flat_map(|value| [*value; 256]));
        image
    };
    let first = Pass {
        image: image_of([10, 91, 92, 40, 93]),
        marks: vec![15, 4, 7, 15, 1],
    };
    let second = Pass {
        image: image_of([81, 20, 82, 40, 50]),
        marks: vec![9, 15, 3, 15, 15],
    };
    let mut random = Random::of_test(61);
    let merged = merge(&first, &second, &mut random);
    assert!(merged.image == image_of([10, 20, 92, 40, 50]));
    assert_eq!(merged.marks, [15, 15, 7, 15, 15]);
    let merged = merge(&second, &first, &mut random);
    assert!(merged.image == image_of([10, 20, 82, 40, 50]));
    assert_eq!(merged.marks, [15, 15, 3, 15, 15]);
}

#[test]
fn every_edge_of_a_blockette() {
    let mut random = Random::of_test(62);
    for count in edges() {
        let [first, second] = spoiled_passes(count, 3, &mut random);
        merge(&first, &second, &mut random);
    }
}

#[test]
fn random_records() {
    let mut random = Random::of_test(63);
    for case in 0..600 {
        let count = random.between(0, if case % 3 == 0 { LIMIT } else { 2500 });
        let [first, second] = spoiled_passes(count, [1, 2, 8, 60][case % 4], &mut random);
        merge(&first, &second, &mut random);
    }
}

#[test]
fn bad_in_both_is_the_first_with_its_mark() {
    let mut random = Random::of_test(64);
    for count in [300, 600] {
        for place in 0..plain::mark_count(count, 1) {
            for marks in 0..81 {
                let mut first = good_pass(count, &mut random);
                let mut second = first.clone();
                first.spoil(place, &mut random);
                second.spoil(place, &mut random);
                first.marks[place] = 1 + marks / 9;
                second.marks[place] = 1 + marks % 9;
                let merged = merge(&first, &second, &mut random);
                assert!(merged.image == first.image && merged.marks == first.marks);
            }
        }
    }
}

#[test]
fn a_pass_with_itself() {
    let mut random = Random::of_test(65);
    for count in [0, 1, 256, 600, LIMIT] {
        let [pass, _] = spoiled_passes(count, 2, &mut random);
        let merged = merge(&pass, &pass, &mut random);
        assert!(merged.image == pass.image && merged.marks == pass.marks);
    }
}

/// One bit of the second pass is turned round; the blockette may be good or bad in either.
fn expect_unlike(count: usize, place: usize, byte: usize, random: &mut Random) {
    for bad in 0..4 {
        let mut first = good_pass(count, random);
        let mut second = first.clone();
        second.image[2 + 256 * place + byte] ^= 1 << random.between(0, 7);
        if bad & 1 != 0 {
            first.marks[place] = random.error();
        }
        if bad & 2 != 0 {
            second.marks[place] = random.error();
        }
        let rooms = (first.image.len(), first.marks.len());
        assert_eq!(
            answer(&first, &second, rooms, random),
            if bad == 0 { 14 } else { 0 },
            "count {count}, place {place}, byte {byte}, bad {bad}"
        );
    }
}

#[test]
fn unlike_in_any_byte_of_any_blockette() {
    let mut random = Random::of_test(66);
    for count in [1, 600] {
        for place in 0..plain::mark_count(count, 1) {
            for byte in 0..256 {
                expect_unlike(count, place, byte, &mut random);
            }
        }
    }
    for place in 0..plain::mark_count(LIMIT, 1) {
        for byte in [0, random.between(1, 254), 255] {
            expect_unlike(LIMIT, place, byte, &mut random);
        }
    }
}

#[test]
fn counts_that_differ() {
    let mut random = Random::of_test(67);
    let few = [
        0, 1, 2, 255, 256, 257, 512, 513, 600, 768, 769, 16_384, 65_280, 65_281, 65_535,
    ];
    let mut pairs = Vec::new();
    for one in few {
        pairs.extend(few.map(|other| (one, other)));
        // each bit alone
        pairs.extend((0..16).map(|bit| (one, one ^ 1 << bit)));
    }
    // as many blockettes, and all of them alike
    pairs.extend((513..=768).map(|other| (600, other)));
    for (one, other) in pairs {
        let first = good_pass(one, &mut random);
        let mut second = good_pass(other, &mut random);
        if first.image.len() == second.image.len() {
            second.image.clone_from(&first.image);
            say_count(&mut second, other);
        }
        // 13 comes before 11, so the spaces make no difference
        for rooms in [ENOUGH, (0, 0)] {
            let expected = match (one == other, rooms == ENOUGH) {
                (false, _) => 13,
                (true, false) => 11,
                (true, true) => 0,
            };
            assert_eq!(
                answer(&first, &second, rooms, &mut random),
                expected,
                "counts {one} and {other}"
            );
        }
    }
}

/// Merges with `wrong` as the first pass and as the second, the other one being `right`.
fn expect_either(wrong: &Pass, right: &Pass, refusal: u32, random: &mut Random) {
    assert_eq!(answer(wrong, right, ENOUGH, random), refusal, "first pass");
    assert_eq!(answer(right, wrong, ENOUGH, random), refusal, "second pass");
}

#[test]
fn wrong_lengths_of_an_image() {
    let mut random = Random::of_test(68);
    for count in [0, 1, 256, 257, 600, LIMIT] {
        let right = good_pass(count, &mut random);
        let length = right.image.len();
        let mut lengths = vec![0, 1, 2, 3, 258, 514, count + 2, 16_898, 66_050, 66_306];
        lengths.extend([length - 1, length + 1, length + 256, length + 512]);
        lengths.extend([length.saturating_sub(256), length.saturating_sub(512)]);
        for wrong_length in lengths {
            let mut wrong = right.clone();
            wrong.image.resize(wrong_length, 0);
            let refusal = if wrong_length == length { 0 } else { 9 };
            expect_either(&wrong, &right, refusal, &mut random);
        }
    }
}

#[test]
fn wrong_numbers_of_marks() {
    let mut random = Random::of_test(69);
    for count in [0, 1, 256, 257, 600, LIMIT] {
        let right = good_pass(count, &mut random);
        for number in (0..=12).chain(250..=270) {
            let mut wrong = right.clone();
            wrong.marks.resize(number, GOOD);
            let refusal = if number == right.marks.len() { 0 } else { 9 };
            expect_either(&wrong, &right, refusal, &mut random);
        }
    }
}

#[test]
fn each_length_is_by_its_own_count() {
    let mut random = Random::of_test(70);
    // the other pass has the length that this one says
    for (one, other) in [(600, 1), (1, 600), (0, 600), (LIMIT, 600), (600, LIMIT)] {
        let right = good_pass(other, &mut random);
        let mut wrong = good_pass(one, &mut random);
        say_count(&mut wrong, other);
        expect_either(&wrong, &right, 9, &mut random);
    }
}

#[test]
fn images_shorter_than_a_count() {
    let mut random = Random::of_test(71);
    for image in [&[][..], &[0], &[0x80], &[255]] {
        for marks in [&[][..], &[15, 15, 15]] {
            let wrong = Pass {
                image: image.to_vec(),
                marks: marks.to_vec(),
            };
            for count in [0, 1] {
                let right = good_pass(count, &mut random);
                expect_either(&wrong, &right, 9, &mut random);
            }
            expect_either(&wrong, &wrong, 9, &mut random);
        }
    }
}

#[test]
fn mfm_images_are_refused() {
    let mut random = Random::of_test(72);
    for count in [1, 256, 600, LIMIT] {
        let right = good_pass(count, &mut random);
        let mut wrong = right.clone();
        wrong.image = plain::image(&random.bytes(count), 0);
        expect_either(&wrong, &right, 9, &mut random);
        wrong.marks.clear();
        expect_either(&wrong, &wrong, 9, &mut random);
    }
}

#[test]
fn every_value_of_a_mark_at_every_place() {
    let mut random = Random::of_test(73);
    for count in [1, 600] {
        let right = good_pass(count, &mut random);
        for place in 0..right.marks.len() {
            for value in 0..=255 {
                let mut wrong = right.clone();
                wrong.marks[place] = value;
                let refusal = if matches!(value, 1..=9 | 15) { 0 } else { 10 };
                expect_either(&wrong, &right, refusal, &mut random);
            }
        }
    }
    let right = good_pass(LIMIT, &mut random);
    for place in 0..right.marks.len() {
        let mut wrong = right.clone();
        wrong.marks[place] = [0, 10, 14, 16, 255][place % 5];
        expect_either(&wrong, &right, 10, &mut random);
    }
}

#[test]
fn spaces() {
    let mut random = Random::of_test(74);
    for count in [0, 1, 255, 256, 257, 600, LIMIT - 1, LIMIT] {
        let [first, second] = spoiled_passes(count, 3, &mut random);
        let (length, places) = (first.image.len(), first.marks.len());
        let around = |needed: usize| {
            let mut rooms = vec![0, 1, needed / 2, needed.saturating_sub(2), needed];
            rooms.extend([needed.saturating_sub(1), needed + 1, needed + 256]);
            rooms
        };
        for image_room in around(length).into_iter().chain([count, count + 2]) {
            for marks_room in around(places) {
                let short = image_room < length || marks_room < places;
                assert_eq!(
                    answer(&first, &second, (image_room, marks_room), &mut random),
                    if short { 11 } else { 0 },
                    "count {count}, spaces of {image_room} and {marks_room}"
                );
            }
        }
    }
}

#[test]
fn records_of_no_bytes() {
    let empty = Pass {
        image: vec![0, 0],
        marks: vec![],
    };
    for room in 0..=4 {
        let (refusal, image, marks) = compare::merge(&empty, &empty, &vec![0xEE; room], &[0xDD; 3]);
        let expected = if room < 2 { 11 } else { 0 };
        assert_eq!((refusal, marks), (expected, vec![0xDD; 3]));
        assert!(refusal != 0 || image[..2] == [0, 0]);
    }
}

#[test]
fn refusals_in_their_order() {
    let mut random = Random::of_test(75);
    for count in [300, 600, LIMIT] {
        for reasons in 0..1024 {
            let is = |reason: usize| reasons >> reason & 1 == 1;
            let first = good_pass(count, &mut random);
            let mut passes = [first.clone(), first];
            let places = passes[0].marks.len();
            let mut rooms = (passes[0].image.len(), places);
            if is(8) {
                rooms.0 -= 1;
            }
            if is(9) {
                rooms.1 -= 1;
            }
            if is(7) {
                let place = [0, places - 2, places - 1][random.between(0, 2)];
                spoil_blockette(&mut passes[1].image, place, &mut random);
            }
            if is(6) {
                // as many blockettes, so that only the counts tell
                say_count(&mut passes[random.between(0, 1)], count - 1);
            }
            for (number, pass) in passes.iter_mut().enumerate() {
                if is(4 + number) {
                    // a place that no unlike blockette has
                    pass.marks[1] = [0, 10, 14, 16, 255][random.between(0, 4)];
                }
                if is(2 + number) {
                    pass.marks.push(GOOD);
                }
                if is(number) {
                    pass.image.pop();
                }
            }
            let expected = if reasons & 0b1111 != 0 {
                9
            } else if is(4) || is(5) {
                10
            } else if is(6) {
                13
            } else if is(7) {
                14
            } else if is(8) || is(9) {
                11
            } else {
                0
            };
            let [first, second] = &passes;
            assert_eq!(
                answer(first, second, rooms, &mut random),
                expected,
                "count {count}, reasons {reasons:010b}"
            );
        }
    }
}

#[test]
fn anything_at_all() {
    let mut random = Random::of_test(76);
    let mut given = [0; 15];
    for _ in 0..20_000 {
        let count = random.between(0, 1500);
        let one_in = random.between(2, 12);
        let mut passes = spoiled_passes(count, one_in, &mut random);
        let mut rooms = (passes[0].image.len(), passes[0].marks.len());
        // one or two kinds of damage, or none
        for _ in 0..random.between(0, 2) {
            let pass = &mut passes[random.between(0, 1)];
            match (random.between(0, 6), pass.marks.len()) {
                (0, _) => pass.image.resize(random.between(0, 2400), 0),
                (1, _) => pass.marks.resize(random.between(0, 12), GOOD),
                (2, 1..) => {
                    let place = random.between(0, pass.marks.len() - 1);
                    pass.marks[place] = random.byte();
                }
                (3, _) if pass.image.len() > 2 => say_count(pass, random.between(0, 1500)),
                (4, _) if pass.image.len() > 2 => {
                    let place = random.between(2, pass.image.len() - 1);
                    pass.image[place] ^= random.between(1, 255) as u8;
                }
                (5, _) => rooms.0 = random.between(0, rooms.0 + 300),
                (6, _) => rooms.1 = random.between(0, rooms.1 + 3),
                _ => {}
            }
        }
        let [first, second] = &passes;
        given[answer(first, second, rooms, &mut random) as usize] += 1;
    }
    assert!(
        [0, 9, 10, 11, 13, 14].iter().all(|n| given[*n] > 100),
        "{given:?} is no fair mixture"
    );
}
