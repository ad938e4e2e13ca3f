//! A moving view of a cartridge: document 02's eleventh wish, by its sentences and the points of READING-02.md.

mod common;

use common::compared::{hold_to_stored, Comparison};
use machine::generator::Random;
use machine::kinds::Kind;
use machine::wear::{self, answers, view, Mutant, Record, Refusal, View};
use machine::wear::{FIXED, MUTANTS, RUN_LIMIT, SPACE_MUTANTS};
use std::collections::BTreeSet;

/// As tests/run compares them.
const RUNS: u64 = 600;
const LONGEST: usize = 3000;

fn run_of(codes: &[u8]) -> Vec<Record> {
    codes
        .iter()
        .map(|&code| Record {
            code,
            motion: 1,
            count: 512,
        })
        .collect()
}

/// The view of a run with these codes, in as much space as it needs.
fn seen(width: u64, codes: &[u8]) -> (View, Vec<u8>) {
    let mut space = vec![0xEE; 3 * codes.len()];
    let view = view(width, &run_of(codes), &mut space, None).unwrap();
    space.truncate(3 * view.stretches);
    (view, space)
}

#[test]
fn three_bytes_for_each_full_stretch() {
    let (view, bytes) = seen(3, &[0, 0x15, 0x16, 0x16, 0, 0x0C]);
    assert_eq!(view.stretches, 4);
    assert_eq!(bytes, [1, 1, 0, 1, 2, 0, 0, 2, 0, 0, 1, 1]);
    assert_eq!(view.first, Some(1));
}

/// Every run of up to five codes out of four, with widths 1 to 6, by another way of counting: each record is added to
/// the stretches that it is in.
#[test]
fn every_short_run() {
    const CODES: [u8; 4] = [0, 0x15, 0x16, 0x20];
    let mut compared = 0;
    for length in 0..=5usize {
        for number in 0..4usize.pow(length as u32) {
            let codes: Vec<u8> = (0..length)
                .map(|place| CODES[number / 4usize.pow(place as u32) % 4])
                .collect();
            for width in 1..=6usize {
                let stretches = (length + 1).saturating_sub(width);
                let mut expected = vec![0; 3 * stretches];
                for (place, &code) in codes.iter().enumerate() {
                    for start in
                        (0..stretches).filter(|start| (*start..start + width).contains(&place))
                    {
                        match code {
                            0 => {}
                            0x15 => expected[3 * start] += 1,
                            0x16 => expected[3 * start + 1] += 1,
                            _ => expected[3 * start + 2] += 1,
                        }
                    }
                }
                let mut first = None;
                for start in 0..stretches {
                    if first
                        .is_none_or(|best: usize| expected[3 * start + 1] > expected[3 * best + 1])
                    {
                        first = Some(start);
                    }
                }
                let got = seen(width as u64, &codes);
                assert_eq!(
                    got,
                    (View { stretches, first }, expected),
                    "{width} {codes:X?}"
                );
                compared += 1;
            }
        }
    }
    assert_eq!(compared, 6 * (1 + 4 + 16 + 64 + 256 + 1024));
}

#[test]
fn point_11_1_what_is_counted() {
    for code in 0..=255 {
        let counts = match code {
            0 => [0, 0, 0],
            0x15 => [1, 0, 0],
            0x16 => [0, 1, 0],
            _ => [0, 0, 1],
        };
        assert_eq!(seen(1, &[code]).1, counts, "{code:02X}");
    }
    // Motion and count are not looked at.
    let mut random = Random::new(11);
    for code in [0, 0x15, 0x16, 0x17] {
        for _ in 0..200 {
            let record = Record {
                code,
                motion: random.byte(),
                count: random.number() as u32,
            };
            let mut space = [9; 3];
            view(1, &[record], &mut space, None).unwrap();
            assert_eq!(space.to_vec(), seen(1, &[code]).1);
        }
    }
}

#[test]
fn point_11_2_the_first_with_most() {
    assert_eq!(seen(2, &[0, 0x15, 0, 7]).0.first, Some(0));
    assert_eq!(seen(1, &[0]).0.first, Some(0));
    assert_eq!(seen(2, &[0x16, 0, 0x16, 0x16, 0x16]).0.first, Some(2));
    assert_eq!(seen(2, &[0, 0, 0, 0x16]).0.first, Some(2));
    let no_stretch = View {
        stretches: 0,
        first: None,
    };
    assert_eq!(seen(2, &[0x16]), (no_stretch, Vec::new()));
    assert_eq!(seen(64, &[0x16; 63]), (no_stretch, Vec::new()));
    assert_eq!(seen(64, &[0x16; 64]).1, [0, 64, 0]);
    assert_eq!(seen(1, &[]), (no_stretch, Vec::new()));
}

#[test]
fn refusals_and_their_order() {
    let run = vec![run_of(&[0x16])[0]; RUN_LIMIT + 1];
    let refused = |width, length: usize, space: usize| {
        let mut bytes = vec![0xEE; space];
        let refusal = view(width, &run[..length], &mut bytes, None).err();
        // Where refused, nothing is written.
        assert!(refusal.is_none() || bytes.iter().all(|&byte| byte == 0xEE));
        refusal
    };
    let whole = 3 * (RUN_LIMIT + 1);
    for width in [0, 65, 66, 255, 256, 257, u64::MAX] {
        assert_eq!(refused(width, 100, 300), Some(Refusal::Width), "{width}");
        assert_eq!(refused(width, 0, 0), Some(Refusal::Width), "{width}");
        assert_eq!(
            refused(width, RUN_LIMIT + 1, 0),
            Some(Refusal::Width),
            "{width}"
        );
    }
    for width in 1..=64 {
        assert_eq!(refused(width, 100, 300), None, "{width}");
        assert_eq!(
            refused(width, RUN_LIMIT + 1, whole),
            Some(Refusal::Run),
            "{width}"
        );
        assert_eq!(
            refused(width, RUN_LIMIT + 1, 0),
            Some(Refusal::Run),
            "{width}"
        );
    }
    assert_eq!(refused(1, RUN_LIMIT, whole), None);
    assert_eq!(refused(1, RUN_LIMIT, 3 * RUN_LIMIT), None);
    assert_eq!(
        refused(1, RUN_LIMIT, 3 * RUN_LIMIT - 1),
        Some(Refusal::Space)
    );
    assert_eq!(Refusal::Space as u8, 11);
    assert_eq!(Refusal::Width as u8, 18);
    assert_eq!(Refusal::Run as u8, 19);
}

#[test]
fn point_11_3_space() {
    let run = run_of(&[0x15, 0x16, 7, 0, 0x16]);
    for width in 1..=8u64 {
        let stretches = 6usize.saturating_sub(width as usize);
        for length in 0..20 {
            let mut space = vec![0xEE; length];
            let answer = view(width, &run, &mut space, None);
            if length < 3 * stretches {
                assert_eq!(answer, Err(Refusal::Space));
                assert_eq!(space, vec![0xEE; length]);
            } else {
                assert_eq!(answer.unwrap().stretches, stretches);
                // The rest of it is as it was.
                assert!(space[..3 * stretches].iter().all(|&byte| byte <= 5));
                assert!(space[3 * stretches..].iter().all(|&byte| byte == 0xEE));
            }
        }
    }
}

fn says(run: &str, answer: &str) {
    let said = String::from_utf8(answers(run.as_bytes(), None)).unwrap();
    assert_eq!(said, answer, "to {run:?}");
}

#[test]
fn lines_of_a_run() {
    says("2\n15:1:0\n16:1:0\n", "0,1,0\n1,1,0\n");
    says("2\n15:1:0\n16:1:0", "0,1,0\n1,1,0\n");
    says("2\n15:1:0", "0,0,-\n");
    says("2", "0,0,-\n");
    says("", "?,1,-\n");
    says("\n", "?,1,-\n");
    says("\n2\n", "?,1,-\n");
    says("2\n\n", "?,2,-\n");
    says("x\nx\n", "?,1,-\n");
    says("2\n15:1:0\nx\n15:1:0\ny\n", "?,3,-\n");
    for width in [
        "0",
        "00",
        "65",
        "256",
        "65537",
        "4294967297",
        "18446744073709551617",
    ] {
        says(&format!("{width}\n15:1:0\n"), "18,-,-\n");
        says(&format!("{width}\n15:1:0\nx\n"), "?,3,-\n");
    }
    let long = "15:1:0\n".repeat(RUN_LIMIT);
    says(&format!("64\n{long}16:1:0\n"), "19,-,-\n");
    says(&format!("65\n{long}16:1:0\n"), "18,-,-\n");
    says(&format!("64\n{long}16:1:0\nx\n"), "?,65538,-\n");
    let last = answers(format!("64\n{long}").as_bytes(), None);
    assert!(last.starts_with(b"0,65472,0\n64,0,0\n"));
    assert_eq!(last.iter().filter(|&&byte| byte == b'\n').count(), 65_473);
}

/// What each stored run shows. All are answered as they are stored.
const STORED: [(&str, &str); 28] = [
    (
        "counts/codes-above-1F",
        "a code above 1F counts among the others, 35 and 36 too",
    ),
    (
        "counts/codes-are-hexadecimal",
        "0F and 10, decimal 15 and 16, are others",
    ),
    ("lines/empty", "without a line there is no width"),
    (
        "counts/first-of-several",
        "of two stretches with as many codes 16, the first",
    ),
    (
        "lines/last-line-without-end",
        "the last line counts without its end",
    ),
    (
        "counts/most-at-the-end",
        "the last stretch has most, and 15 and others do not count there",
    ),
    (
        "counts/motion-and-count-not-looked-at",
        "any motion, any count",
    ),
    ("counts/no-code-16", "the first stretch with most is 0"),
    ("counts/no-error", "code 0 is counted nowhere"),
    ("widths/run-of-the-width", "one stretch"),
    (
        "widths/run-shorter-than-width",
        "no stretches, and none as the first",
    ),
    (
        "stories/worn-cartridge",
        "errors that gather in the middle of a run",
    ),
    (
        "counts/stretches-overlap",
        "one for each place from 0 to length less width",
    ),
    (
        "lines/unreadable-before-refused",
        "an unreadable line comes before the refusal of the width",
    ),
    ("lines/unreadable-comment", "a comment is no width"),
    ("lines/unreadable-count", "a count of 32 bits at most"),
    (
        "lines/unreadable-empty-line",
        "an empty line is no record, at the end too",
    ),
    ("lines/unreadable-motion", "a motion of 255 at most"),
    (
        "lines/unreadable-record",
        "the number of the first line that is no record, with the width's as 1",
    ),
    ("lines/unreadable-width", "a blank behind the number"),
    ("widths/0", "refused"),
    ("widths/1", "a stretch for each record"),
    ("widths/64", "the widest"),
    ("widths/64-all-16", "64 is the greatest count"),
    ("widths/65", "refused, with a run shorter than that"),
    ("widths/alone", "a run of no records"),
    (
        "widths/of-many-digits",
        "refused, though it is 1 in 64 bits",
    ),
    (
        "lines/zeros-before-numbers",
        "readable, and the value counts",
    ),
];

#[test]
fn the_stored_runs() {
    hold_to_stored("wear", "log", &STORED, |run| answers(run, None));
}

/// All widths, all answers and long runs come up in the runs that are compared.
#[test]
fn what_the_random_runs_hold() {
    let (mut widths, mut kinds) = (BTreeSet::new(), BTreeSet::new());
    let mut longest = 0;
    for seed in 1..=RUNS {
        let run = wear::run(seed, LONGEST);
        assert_eq!(run, wear::run(seed, LONGEST));
        let said = answers(&run, None);
        let said = String::from_utf8(said).unwrap();
        let (head, _) = said.split_once('\n').unwrap();
        let (refusal, rest) = head.split_once(',').unwrap();
        kinds.insert(refusal.to_string());
        if refusal == "0" {
            let first = std::str::from_utf8(&run).unwrap().lines().next().unwrap();
            let width: usize = first.parse().unwrap();
            longest = longest.max(said.lines().count() + width - 2);
            if rest != "0,-" {
                widths.insert(width);
            }
        }
    }
    assert_eq!(widths, (1..=64).collect());
    assert_eq!(
        kinds.into_iter().collect::<Vec<_>>(),
        ["0", "18", "19", "?"]
    );
    assert_eq!(longest, RUN_LIMIT);
    // 1 + 10 + 62 + 18 + 22 + 64; the last has width 64.
    assert_eq!(FIXED.count(), 177);
    assert!(*FIXED.end() < RUNS);
    assert!(wear::run(*FIXED.end(), LONGEST).starts_with(b"64\n"));
    assert!(wear::run(*FIXED.start(), LONGEST).is_empty());
}

#[test]
fn each_wrong_rule_is_found() {
    let mut left: Vec<Mutant> = MUTANTS.to_vec();
    for seed in 1..=RUNS {
        let run = wear::run(seed, LONGEST);
        let right = answers(&run, None);
        left.retain(|&mutant| answers(&run, Some(mutant)) == right);
        if left.is_empty() {
            println!("all found by seed {seed}");
            return;
        }
    }
    panic!("not found: {left:?}");
}

/// Calls with space of many lengths; what is left in the space counts.
#[test]
fn each_wrong_rule_of_the_space_is_found() {
    let mut left: Vec<Mutant> = SPACE_MUTANTS.to_vec();
    let mut random = Random::new(1100);
    for _ in 0..2000 {
        let width = random.below(70) as u64;
        let length = match random.below(60) {
            0 => RUN_LIMIT + random.below(3),
            _ => random.below(100),
        };
        let run = vec![run_of(&[0x16])[0]; length];
        let stretches = (length + 1).saturating_sub(width as usize);
        let space = match random.below(4) {
            0 => 0,
            1 => random.below(3 * stretches + 9),
            _ => (3 * stretches + random.below(5)).saturating_sub(2),
        };
        let call = |mutant| {
            let mut bytes = vec![0xEE; space];
            let answer = view(width, &run, &mut bytes, mutant);
            (answer, bytes)
        };
        let right = call(None);
        left.retain(|&mutant| call(Some(mutant)) == right);
    }
    assert_eq!(left, []);
}

const COMPARISON: Comparison = Comparison {
    kind: Kind::Wear,
    word: "--wear",
    lines: LONGEST,
};

#[test]
fn a_right_program_is_no_difference() {
    let said = COMPARISON.run(&["--seed", "95", "--sessions", "20"], &[]);
    assert_eq!(said.status, Some(0), "{}", said.text);
    assert!(
        said.text.starts_with("compared 20 sessions, "),
        "{}",
        said.text
    );
}

#[test]
fn each_wrong_program_is_found() {
    COMPARISON.finds_each(&MUTANTS, RUNS);
}

#[test]
fn a_difference_is_shrunk() {
    for mutant in [Mutant::LastWithMost, Mutant::Decimal, Mutant::OldestLate] {
        let lines = COMPARISON.lines_left(&MUTANTS, mutant, "20");
        assert!(lines < 80, "{mutant:?}: {lines} lines");
    }
}
