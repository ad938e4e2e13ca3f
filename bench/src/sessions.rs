//! Times the session program and the jobs program beside the independent Rust machine on the same lines.

use crate::bars::{Bars, AGAIN};
use crate::library;
use crate::records::random_bytes;
use crate::timing::{answers, seconds, RUNS};
use machine::generator;
use machine::lines::{HOST_LIMIT, IMAGE_LIMIT, MARKS_LIMIT};
use std::fs;
use std::io;
use std::path::Path;

/// Drive 0 has a tape, and GCR is chosen.
const GCR_DRIVE: &str = "S,0,22\nB,64\nB,38\nB,00\nB,00\nB,00\nB,0D\nB,00\nB,51\nT\n";
/// A store that writes 16,384 bytes, the most that a line has, up to its GO.
const WRITE: &str = "B,64\nB,58\nB,00\nB,00\nB,40\nB,00\nB,00\nB,7C\nT\nB,06\n";
/// A store that reads.
const READ: &str = "B,64\nB,48\nB,00\nB,00\nB,00\nB,00\nB,00\nB,2C\nT\n";
const LOAD_PRIMARY: &str = "B,62\nB,10\nB,00\nB,72\nT\nB,06\n";

fn hexadecimal(bytes: &[u8]) -> String {
    bytes.iter().map(|byte| format!("{byte:02X}")).collect()
}

fn data_line(count: usize) -> String {
    format!("D,{}\n", hexadecimal(&random_bytes(count)))
}

fn writes() -> String {
    let one = format!("{WRITE}{}R,00,0,0,,,0\nB,06\n", data_line(HOST_LIMIT));
    format!("{GCR_DRIVE}{}", one.repeat(1000))
}

fn reads() -> String {
    let mut image = vec![0; IMAGE_LIMIT];
    assert_eq!(library::build(&random_bytes(HOST_LIMIT), 1, &mut image), 0);
    let result = format!(
        "R,00,0,0,{},{},{HOST_LIMIT}\n",
        hexadecimal(&image),
        hexadecimal(&[15; MARKS_LIMIT])
    );
    format!("{GCR_DRIVE}{}", format!("{READ}{result}B,06\n").repeat(800))
}

fn random(session: fn(u64, usize) -> Vec<u8>) -> Vec<u8> {
    let mut text = Vec::new();
    for seed in 1..=600 {
        text.extend(session(seed, 500));
        // some have no end at their last line
        text.push(b'\n');
    }
    text
}

/// What a row's ratio must at least be: of lines that are short or of all kinds, and of lines with records.
const SHORT: f64 = 1.0;
const RECORDS: f64 = 2.5;

/// Which of the two programs plays a row.
#[derive(Clone, Copy)]
enum Program {
    Session,
    Jobs,
}

struct Row {
    name: &'static str,
    program: Program,
    text: Vec<u8>,
    bar: f64,
}

fn row(name: &'static str, text: impl Into<Vec<u8>>, bar: f64) -> Row {
    Row {
        name,
        program: Program::Session,
        text: text.into(),
        bar,
    }
}

fn rows() -> Vec<Row> {
    let thousand = data_line(1000).repeat(20_000);
    let most = data_line(16_000).repeat(1200);
    vec![
        row("ticks", "K\n".repeat(1_000_000), SHORT),
        row("single bytes", "B,15\n".repeat(1_000_000), SHORT),
        row("loads of primary", LOAD_PRIMARY.repeat(200_000), SHORT),
        row("random sessions", random(generator::session), SHORT),
        row("GCR writes of 16,384 bytes", writes(), RECORDS),
        row("GCR reads of 16,384 bytes", reads(), RECORDS),
        row("data lines of 1,000 bytes, refused", thousand, RECORDS),
        row("data lines of 16,000 bytes, refused", most, RECORDS),
        Row {
            program: Program::Jobs,
            ..row(
                "jobs, random sessions",
                random(generator::session_of_jobs),
                SHORT,
            )
        },
    ]
}

/// The least processor time of each of two programs, which take turns. Where the first is below the bar, both are timed
/// again.
fn least(programs: [&[&str]; 2], bar: f64, file: &Path) -> io::Result<[f64; 2]> {
    let mut least = [f64::INFINITY; 2];
    for _ in 0..AGAIN {
        for _ in 0..RUNS {
            for (program, least) in programs.iter().zip(&mut least) {
                *least = least.min(seconds(program, file)?);
            }
        }
        if least[1] / least[0] >= bar {
            break;
        }
    }
    Ok(least)
}

/// The sessions are written to a file, one at a time.
pub fn print_table(
    [session, jobs]: [&str; 2],
    machine: &str,
    file: &Path,
    bars: &mut Bars,
) -> io::Result<()> {
    println!("| session | Rust : program | lines | program, lines/s | Rust, lines/s |");
    println!("|---|---:|---:|---:|---:|");
    for Row {
        name,
        program,
        text,
        bar,
    } in rows()
    {
        let programs: [&[&str]; 2] = match program {
            Program::Session => [&[session], &[machine]],
            Program::Jobs => [&[jobs], &[machine, "--jobs"]],
        };
        fs::write(file, &text)?;
        if answers(programs[0], file)? != answers(programs[1], file)? {
            return Err(io::Error::other(format!("{name}: other answers")));
        }
        let lines = text.iter().filter(|&&byte| byte == b'\n').count();
        let [ours, theirs] = least(programs, bar, file)?.map(|time| lines as f64 / time);
        println!(
            "| {name} | {:.2} | {lines} | {ours:.0} | {theirs:.0} |",
            ours / theirs
        );
        bars.hold(name, ours / theirs, bar);
    }
    Ok(())
}
