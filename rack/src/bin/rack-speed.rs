//! How fast the rack is: records of 65,535 bytes written, moved and read back through host, controller and transport,
//! beside what their copies and folds alone cost; and racks by the thousand beside one.

use ctc_rack::cartridge::{Cartridge, GCR};
use ctc_rack::driver::Command;
use ctc_rack::faults::INCH;
use ctc_rack::noise::LinkChances;
use ctc_rack::run::{run, Job, Ran, Setup, Wrongs};
use ctc_rack::scenario::made;
use ctc_rack::transport::Transport;
use std::hint::black_box;
use std::rc::Rc;
use std::time::{Duration, Instant};

const COUNT: usize = 65_535;
const RECORDS: usize = 32;
/// The records of a rack of which there are a thousand.
const SMALL: usize = 2000;
const IMAGE: usize = 66_050;
/// Its check bytes are folded when it is written, and when the host holds what it read to them.
const FOLDS: usize = 2;

/// Records of so many bytes are written, and read back.
fn setup(bytes: &Rc<Vec<u8>>, count: usize) -> Setup {
    let mut transports = [0, 1, 2, 3].map(Transport::new);
    transports[0].insert(Cartridge { length: 30_000 * INCH, ..Cartridge::default() });
    let commands = vec![
        Command::Write { name: String::new(), bytes: bytes.clone(), count },
        Command::WriteMarks(2),
        Command::Rewind,
        Command::Read { folder: String::new(), files: None },
    ];
    let job = Job { number: 0, drive: 0, density: GCR, commands, faults: Vec::new(), chances: LinkChances::default() };
    let (jobs, damages, wrongs) = (vec![job], Vec::new(), Wrongs::default());
    Setup { transports, jobs, damages, seed: 1, keeps: false, keeps_orders: false, judged: false, wrongs }
}

fn timed(work: impl FnOnce()) -> Duration {
    let start = Instant::now();
    work();
    start.elapsed()
}

fn best(times: usize, mut work: impl FnMut() -> Duration) -> Duration {
    (0..times).map(|_| work()).min().expect("at least one")
}

/// Folds blockettes of 256 bytes, eight bytes at a time.
fn fold(bytes: &[u8], folded: &mut [u64; 64]) {
    for pair in bytes.chunks_exact(512) {
        for (place, eight) in pair.chunks_exact(8).enumerate() {
            folded[place] ^= u64::from_le_bytes(eight.try_into().expect("eight bytes"));
        }
    }
}

/// Runs the same thing again and again, for a profiler: one record alone, or small racks of which a thousand are kept.
fn again(word: &str, times: usize) {
    let (one, four) = (Rc::new(made(COUNT)), Rc::new(made(4 * SMALL)));
    for _ in 0..times {
        match word {
            "alone" => drop(black_box(run(setup(&one, COUNT), &mut |_, _| {}))),
            _ => drop(black_box((0..1000).map(|_| run(setup(&four, SMALL), &mut |_, _| {})).collect::<Vec<_>>())),
        }
    }
}

fn main() {
    let words: Vec<String> = std::env::args().skip(1).collect();
    match words.iter().map(String::as_str).collect::<Vec<_>>()[..] {
        [] => compare(),
        [word @ ("alone" | "racks"), times] if times.parse::<usize>().is_ok() => {
            again(word, times.parse().unwrap_or(0));
        }
        _ => {
            eprintln!("rack-speed: no word, or 'alone' or 'racks' and how often, for a profiler");
            std::process::exit(2);
        }
    }
}

fn compare() {
    // each record once, as a run has them: not the same one from the cache again and again
    let records: Vec<Vec<u8>> = (0..RECORDS).map(|_| made(IMAGE)).collect();
    // into a space that is used again, onto the tape, out of it, and to the host, of which tape and host are kept
    let mut space = vec![0; IMAGE];
    let copies = best(20, || {
        let mut kept = Vec::new();
        timed(|| {
            for record in &records {
                space.copy_from_slice(black_box(record));
                let tape = black_box(&space).clone();
                let read = black_box(&tape).clone();
                kept.push(black_box(&read).clone());
                kept.push(tape);
            }
        })
    });
    // the same copies where nothing is kept, so that all of it stays in the cache
    let mut spaces = [(); 4].map(|()| vec![0; IMAGE]);
    let cached = best(20, || {
        timed(|| {
            for _ in 0..RECORDS {
                spaces[0].copy_from_slice(black_box(&records[0]));
                for place in 1..4 {
                    let (before, behind) = spaces.split_at_mut(place);
                    behind[0].copy_from_slice(black_box(&before[place - 1]));
                }
            }
        })
    });
    black_box(&spaces);
    let mut folded = [0; 64];
    let folds = best(20, || {
        timed(|| {
            for record in &records {
                for _ in 0..FOLDS {
                    fold(black_box(record), &mut folded);
                }
            }
        })
    });
    black_box(folded);
    let run_of = |records: usize| {
        let setup = setup(&Rc::new(made(records * COUNT)), COUNT);
        let mut kept = None;
        let time = timed(|| kept = Some(run(setup, &mut |_, _| {})));
        let ran = kept.expect("it ran");
        assert!(
            ran.broken.is_none()
                && ran.jobs[0].ledger.borrow().filed.iter().flat_map(|filed| &filed.records).count() == records
        );
        time
    };
    let whole = best(20, || run_of(RECORDS));
    // one record alone, in memory that the run before it used
    let alone = best(200, || run_of(1)).as_secs_f64() * 1e6;
    let each = |time: Duration| time.as_secs_f64() * 1e6 / RECORDS as f64;
    println!("a record of 65,535 bytes, written, moved and read back: {:.1} microseconds", each(whole));
    println!("its 4 copies into new memory: {:.1}, its {FOLDS} folds: {:.1}", each(copies), each(folds));
    println!("the whole is {:.2} times these copies and folds", each(whole) / (each(copies) + each(folds)));
    println!("one record alone in used memory: {alone:.1}, its 4 copies within the cache: {:.1}", each(cached));
    println!("it is {:.2} times these copies and folds", alone / (each(cached) + each(folds)));

    // the middle one of a thousand, so that what else the machine does is left out
    let bytes = Rc::new(made(4 * SMALL));
    let rack = |kept: &mut Vec<Ran>| {
        let setup = setup(&bytes, SMALL);
        timed(|| kept.push(run(setup, &mut |_, _| {})))
    };
    let middle = |mut times: Vec<Duration>| {
        times.sort();
        times[times.len() / 2]
    };
    let one = best(5, || middle((0..1000).map(|_| rack(&mut Vec::with_capacity(1))).collect()));
    let thousand = best(5, || {
        // all of them are there at once
        let mut kept = Vec::with_capacity(1000);
        let times = (0..1000).map(|_| rack(&mut kept)).collect();
        assert!(kept.iter().all(|ran| ran.broken.is_none()));
        middle(times)
    });
    println!(
        "a rack of four records of 2,000 bytes: {:.1} microseconds; each of 1,000 that are there at once: {:.1}",
        one.as_secs_f64() * 1e6,
        thousand.as_secs_f64() * 1e6
    );
}
