//! Times the library on records beside two programs that fold one byte at a time, and its check fold
//! beside ISA-L's, where that is installed.

use crate::bars::{Bars, AGAIN};
use crate::byte_at_a_time::{by_index, by_iterator};
use crate::isal;
use crate::library;
use records_tests::random::Random;
use records_tests::{plain, Pass};
use std::hint::black_box;
use std::time::Instant;

const COUNT: usize = 65_535;
const PLACES: usize = COUNT.div_ceil(256) + 2;
const IMAGE: usize = image_length(COUNT);
const ROUNDS: usize = 3000;
/// Bytes of the calls in one timing: long enough for the clock, short enough to fall between two
/// interruptions.
const TIMED: usize = 20 * COUNT;
/// The sizes of record whose cost for each byte is printed.
const SIZES: [usize; 6] = [256, 1024, 2000, 4096, 16_384, COUNT];

type Build = fn(&[u8], u8, &mut [u8]) -> u32;
type Restore = fn(&[u8], &[u8], &mut [u8]) -> u32;
type Merge = fn(&Pass, &Pass, &mut [u8], &mut [u8]) -> u32;
type Call<'a> = Box<dyn Fn(&mut [u8]) -> u32 + 'a>;

struct Program {
    name: &'static str,
    build: Build,
    restore: Restore,
    merge: Merge,
}

/// The programs to be timed; the first is the one that the others are compared with.
const PROGRAMS: [Program; 3] = [
    Program {
        name: "library",
        build: library::build,
        restore: library::restore,
        merge: library::merge,
    },
    Program {
        name: "by index",
        build: by_index::build,
        restore: by_index::restore,
        merge: by_index::merge,
    },
    Program {
        name: "by iterator",
        build: by_iterator::build,
        restore: by_iterator::restore,
        merge: by_iterator::merge,
    },
];

/// The one that a row's bar is about.
const ITERATOR: usize = PROGRAMS.len() - 1;

/// What a row's ratio to it must at least be.
const BAR: f64 = 1.0;

/// The length of the GCR image of a record.
const fn image_length(count: usize) -> usize {
    2 + 256 * (count.div_ceil(256) + 2)
}

/// Places of the lent space that take turns: how two buffers lie to each other can double a time.
const STARTS: usize = 64;
const STEP: usize = 64;

/// One thing to be timed with every program, all of them on the same space.
struct Job<'a> {
    name: &'a str,
    calls: Vec<Call<'a>>,
    /// Calls in one timing.
    repeats: usize,
    length: usize,
    space: Vec<u8>,
    /// Nanoseconds of a call, the least of all rounds, for each program.
    least: Vec<f64>,
}

impl<'a> Job<'a> {
    fn of(name: &'a str, length: usize, calls: Vec<Call<'a>>) -> Self {
        Job {
            name,
            repeats: TIMED / COUNT,
            length,
            space: vec![0; length + STARTS * STEP],
            least: vec![f64::INFINITY; calls.len()],
            calls,
        }
    }

    fn building(name: &'a str, record: &'a [u8], density: u8) -> Self {
        let with = |Program { build, .. }| -> Call<'a> {
            Box::new(move |image| build(black_box(record), black_box(density), image))
        };
        Job {
            repeats: TIMED / record.len(),
            ..Job::of(name, image_length(record.len()), PROGRAMS.map(with).into())
        }
    }

    fn restoring(name: &'a str, image: &'a [u8], marks: &'a [u8]) -> Self {
        let with = |Program { restore, .. }| -> Call<'a> {
            Box::new(move |out| restore(black_box(image), black_box(marks), out))
        };
        Job::of(name, COUNT, PROGRAMS.map(with).into())
    }

    /// The space for the marks follows that for the image.
    fn merging(name: &'a str, [first, second]: &'a [Pass; 2]) -> Self {
        let with = |Program { merge, .. }| -> Call<'a> {
            Box::new(move |space| {
                let (image, marks) = space.split_at_mut(IMAGE);
                merge(black_box(first), black_box(second), image, marks)
            })
        };
        Job::of(name, IMAGE + PLACES, PROGRAMS.map(with).into())
    }

    fn time(&mut self, program: usize, round: usize) {
        let start = STEP * (round % STARTS);
        let space = &mut self.space[start..start + self.length];
        let begun = Instant::now();
        for _ in 0..self.repeats {
            assert_eq!((self.calls[program])(black_box(space)), 0);
        }
        let took = begun.elapsed().as_nanos() as f64 / self.repeats as f64;
        self.least[program] = self.least[program].min(took);
    }
}

/// A record with its image, the same image with one odd and one even blockette spoiled, and pairs of
/// passes over it: without errors, and each with blockettes of its own spoiled.
struct Example {
    record: Vec<u8>,
    image: Vec<u8>,
    good: Vec<u8>,
    spoiled: Vec<u8>,
    two_bad: Vec<u8>,
    good_passes: [Pass; 2],
    worn_passes: [Pass; 2],
}

pub fn random_bytes(count: usize) -> Vec<u8> {
    let mut state: u32 = 8000;
    let mut bytes = Vec::new();
    for _ in 0..count {
        state = state.wrapping_mul(1_664_525).wrapping_add(1_013_904_223);
        bytes.push((state >> 24) as u8);
    }
    bytes
}

fn example() -> Example {
    let record = random_bytes(COUNT);
    let mut image = vec![0; IMAGE];
    assert_eq!(library::build(&record, 1, &mut image), 0);
    let good = vec![15; PLACES];
    let mut two_bad = good.clone();
    let mut spoiled = image.clone();
    for (place, mark) in [(20, 3), (41, 7)] {
        two_bad[place] = mark;
        spoiled[2 + 256 * place..2 + 256 * (place + 1)].fill(0x55);
    }
    let pass = Pass::good(image.clone());
    let good_passes = [pass.clone(), pass];
    let mut worn_passes = good_passes.clone();
    let mut random = Random::of_test(80);
    // 20 in each, the last of them in both
    for place in (0..200).step_by(10) {
        worn_passes[0].spoil(place, &mut random);
        worn_passes[1].spoil((place + 5).min(190), &mut random);
    }
    Example {
        record,
        image,
        good,
        spoiled,
        two_bad,
        good_passes,
        worn_passes,
    }
}

/// All programs must do the same before they are timed.
fn expect_agreement(example: &Example) {
    for Program {
        name: program,
        build,
        restore,
        merge,
    } in PROGRAMS
    {
        let mut built = vec![0; IMAGE];
        assert_eq!(build(&example.record, 1, &mut built), 0, "{program}");
        assert!(built == example.image, "{program}: another GCR image");
        assert_eq!(build(&example.record, 0, &mut built), 0, "{program}");
        assert!(
            built[2..2 + COUNT] == example.record,
            "{program}: another MFM image"
        );
        for (image, marks) in [
            (&example.image, &example.good),
            (&example.spoiled, &example.two_bad),
        ] {
            let mut out = vec![0; COUNT];
            assert_eq!(restore(image, marks, &mut out), 0, "{program}");
            assert!(out == example.record, "{program}: another record came back");
        }
        for [first, second] in [&example.good_passes, &example.worn_passes] {
            let (mut image, mut marks) = (vec![0; IMAGE], vec![0; PLACES]);
            let (answer, merged, merged_marks) = plain::merge(first, second, &image, &marks);
            let given = merge(first, second, &mut image, &mut marks);
            assert_eq!((given, answer), (0, 0), "{program}");
            assert!(
                image == merged && marks == merged_marks,
                "{program}: another merged record"
            );
        }
    }
}

fn print_row(job: &str, least: &[f64]) {
    let ratios: Vec<String> = least[1..]
        .iter()
        .map(|time| format!("{:.2}", time / least[0]))
        .collect();
    let nanoseconds: Vec<String> = least.iter().map(|time| format!("{time:.0}")).collect();
    println!(
        "| {job} | {} | {} |",
        ratios.join(" | "),
        nanoseconds.join(" | ")
    );
}

/// The check fold, by what GCR costs a builder more than MFM.
fn folds(gcr: &Job, mfm: &Job) -> Vec<f64> {
    (gcr.least.iter().zip(&mfm.least))
        .map(|(gcr, mfm)| (gcr - mfm).max(1.0))
        .collect()
}

/// Nanoseconds of ISA-L's check fold of a record, the least of all rounds, where it is installed.
fn time_isal(record: &[u8]) -> Option<f64> {
    let mut fold = isal::Fold::of(record)?;
    let mut image = vec![0; image_length(record.len())];
    assert_eq!(library::build(record, 1, &mut image), 0);
    assert!(
        fold.checks().concat() == image[image.len() - 512..],
        "ISA-L: other check bytes"
    );
    let repeats = TIMED / record.len();
    let mut least = f64::INFINITY;
    for _ in 0..ROUNDS {
        let begun = Instant::now();
        for _ in 0..repeats {
            black_box(&mut fold).run();
        }
        least = least.min(begun.elapsed().as_nanos() as f64 / repeats as f64);
    }
    Some(least)
}

/// The rows of the table: the jobs, with the check fold behind the two builders.
fn rows<'a>(jobs: &[Job<'a>]) -> Vec<(&'a str, Vec<f64>)> {
    let [gcr, mfm, others @ ..] = jobs else {
        unreachable!("two builders come first");
    };
    let mut rows = vec![
        (gcr.name, gcr.least.clone()),
        (mfm.name, mfm.least.clone()),
        ("check fold (GCR less MFM)", folds(gcr, mfm)),
    ];
    rows.extend(others.iter().map(|job| (job.name, job.least.clone())));
    rows
}

fn ratio(least: &[f64]) -> f64 {
    least[ITERATOR] / least[0]
}

fn time_all(jobs: &mut [Job]) {
    for round in 0..ROUNDS {
        for job in &mut *jobs {
            for turn in 0..PROGRAMS.len() {
                // who comes first changes from round to round
                job.time((round + turn) % PROGRAMS.len(), round);
            }
        }
    }
}

pub fn print_table(bars: &mut Bars) {
    let example = example();
    expect_agreement(&example);
    let mut jobs = [
        Job::building("builder, GCR", &example.record, 1),
        Job::building("builder, MFM (no check bytes)", &example.record, 0),
        Job::restoring(
            "restorer, one odd and one even bad",
            &example.spoiled,
            &example.two_bad,
        ),
        Job::restoring("restorer, none bad", &example.image, &example.good),
        Job::merging("merge, 20 bad in each pass", &example.worn_passes),
        Job::merging("merge, none bad", &example.good_passes),
    ];
    time_all(&mut jobs);
    for _ in 1..AGAIN {
        if rows(&jobs).iter().all(|(_, least)| ratio(least) >= BAR) {
            break;
        }
        time_all(&mut jobs);
    }
    println!(
        "| 65,535-byte records | by index : library | by iterator : library | library, ns \
         | by index, ns | by iterator, ns |"
    );
    println!("|---|---:|---:|---:|---:|---:|");
    for (name, least) in rows(&jobs) {
        print_row(name, &least);
        bars.hold(name, ratio(&least), BAR);
    }
}

/// A figure, or a dash where there is none.
fn figure(value: Option<f64>) -> String {
    value.map_or("-".into(), |value| format!("{value:.3}"))
}

/// What a byte costs, over sizes of record, and ISA-L beside it.
pub fn print_sizes() {
    println!(
        "| bytes | builder | check fold | by iterator : library | ISA-L : library | by iterator | ISA-L |"
    );
    println!("|---:|---:|---:|---:|---:|---:|---:|");
    let mut installed = false;
    for size in SIZES {
        let record = random_bytes(size);
        let mut jobs = [
            Job::building("GCR", &record, 1),
            Job::building("MFM", &record, 0),
        ];
        for round in 0..ROUNDS {
            for job in &mut jobs {
                job.time(0, round);
                job.time(ITERATOR, round);
            }
        }
        let folds = folds(&jobs[0], &jobs[1]);
        let isal = time_isal(&record);
        installed |= isal.is_some();
        let each = size as f64;
        println!(
            "| {size} | {:.3} | {:.3} | {:.2} | {} | {:.3} | {} |",
            jobs[0].least[0] / each,
            folds[0] / each,
            folds[ITERATOR] / folds[0],
            figure(isal.map(|time| time / folds[0])),
            folds[ITERATOR] / each,
            figure(isal.map(|time| time / each)),
        );
    }
    if !installed {
        println!();
        println!("ISA-L is not installed (Debian's libisal-dev): no figures of its xor_gen.");
    }
}
