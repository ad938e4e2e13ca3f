//! The scan against the plain one.

use records_tests::compare;
use records_tests::random::Random;

const NONE: [u8; 3] = [0, 0, 0];

fn report(marks: &[u8]) -> [[u8; 3]; 3] {
    let (refusal, report) = compare::scan(marks, &[0xEE; 9]);
    assert_eq!(refusal, 0);
    let entry = |at: usize| [report[at], report[at + 1], report[at + 2]];
    [entry(0), entry(3), entry(6)]
}

#[test]
fn every_pattern_of_few_marks() {
    for length in 0..=8 {
        for pattern in 0..3_u32.pow(length) {
            let marks: Vec<u8> = (0..length)
                .map(|place| [15, 1, 9][(pattern / 3_u32.pow(place) % 3) as usize])
                .collect();
            report(&marks);
        }
    }
}

#[test]
fn no_error() {
    for length in 0..=300 {
        assert_eq!(
            report(&vec![15; length]),
            [NONE, NONE, NONE],
            "{length} marks"
        );
    }
}

#[test]
fn one_error_at_every_place() {
    for length in 1..=258 {
        for place in 0..length {
            let mut marks = vec![15; length];
            marks[place] = 7;
            let after = length - 1 - place;
            let entry = if after < 2 {
                [7, 2, after as u8]
            } else {
                [7, 1, (after - 2) as u8]
            };
            let expected = if after % 2 == 1 {
                [entry, NONE, NONE]
            } else {
                [NONE, entry, NONE]
            };
            assert_eq!(report(&marks), expected, "{length} marks, place {place}");
        }
    }
}

#[test]
fn check_blockettes_count() {
    // data 1 and 0, check 1 and 0
    assert_eq!(report(&[15, 15, 4, 5]), [[4, 2, 1], [5, 2, 0], NONE]);
    assert_eq!(report(&[3, 15, 4, 5]), [[3, 1, 1], NONE, [4, 2, 1]]);
    assert_eq!(report(&[15, 3, 4, 5]), [[4, 2, 1], [3, 1, 0], [5, 2, 0]]);
}

#[test]
fn errors_after_the_stop_are_not_seen() {
    // data 2, 1, 0, check 1 and 0: the stop is on data 0, before any odd error
    assert_eq!(report(&[6, 15, 4, 9, 9]), [NONE, [6, 1, 2], [4, 1, 0]]);
    // data 4 to 0: the stop is on data 1
    assert_eq!(
        report(&[15, 2, 15, 3, 4, 15, 15]),
        [[2, 1, 3], NONE, [3, 1, 1]]
    );
    // all bad: one of each, then the stop on the third
    assert_eq!(
        report(&[1, 2, 3, 4, 5, 6]),
        [[1, 1, 3], [2, 1, 2], [3, 1, 1]]
    );
}

#[test]
fn every_value_of_a_mark() {
    for value in 0..=255 {
        let expected = if value == 15 { NONE } else { [value, 1, 1] };
        assert_eq!(
            report(&[15, value, 15, 15, 15]),
            [expected, NONE, NONE],
            "mark {value}"
        );
    }
}

#[test]
fn numbers_are_taken_modulo_256() {
    for length in 250..=1100 {
        let mut marks = vec![15; length];
        marks[0] = 1;
        let after = length - 1;
        let entry = [1, 1, ((after - 2) % 256) as u8];
        let expected = if after % 2 == 1 {
            [entry, NONE, NONE]
        } else {
            [NONE, entry, NONE]
        };
        assert_eq!(report(&marks), expected, "{length} marks");
    }
}

#[test]
fn random_marks() {
    let mut random = Random::of_test(20);
    for case in 0..6000 {
        let length = random.between(0, if case % 10 == 0 { 1000 } else { 258 });
        let one_in = [2, 10, 40, 300][case % 4];
        let mut marks = vec![15; length];
        for mark in &mut marks {
            if random.between(1, one_in) == 1 {
                *mark = random.byte();
            }
        }
        report(&marks);
    }
}

#[test]
fn very_many_marks() {
    let mut random = Random::of_test(21);
    for length in [65_535, 65_536, 65_537, 100_000] {
        let mut marks = vec![15; length];
        report(&marks);
        for _ in 0..3 {
            let place = random.between(0, length - 1);
            marks[place] = random.error();
            report(&marks);
        }
    }
}

#[test]
fn spaces_of_every_length() {
    let mut random = Random::of_test(22);
    for marks in [
        &[][..],
        &[15],
        &[6, 15, 4, 15, 15],
        &[15, 9, 15, 15, 3],
        &[1; 258],
    ] {
        for room in 0..=64 {
            let space = random.bytes(room);
            let (refusal, after) = compare::scan(marks, &space);
            assert_eq!(refusal, if room < 9 { 11 } else { 0 }, "space of {room}");
            let written = if room < 9 { 0 } else { 9 };
            assert_eq!(after[written..], space[written..], "space of {room}");
        }
    }
}
