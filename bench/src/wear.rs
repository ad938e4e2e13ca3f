//! Times the wear program beside two plain Rust programs, this one with a word: both read the same log; one counts
//! each stretch anew, the other slides along the run.

use crate::records::random_bytes;
use crate::timing::{answers, seconds, RUNS};
use std::fs;
use std::io::{self, BufWriter, Read, Write};
use std::path::Path;

/// The words of the two programs.
pub const ANEW: &str = "--counting-anew";
pub const SLIDING: &str = "--sliding";

type Counts = [usize; 3];

fn place(code: u8) -> Option<usize> {
    match code {
        0 => None,
        0x15 => Some(0),
        0x16 => Some(1),
        _ => Some(2),
    }
}

fn anew(codes: &[u8], width: usize) -> Vec<Counts> {
    let count = |stretch: &[u8]| {
        let mut counts = [0; 3];
        for place in stretch.iter().filter_map(|&code| place(code)) {
            counts[place] += 1;
        }
        counts
    };
    codes.windows(width).map(count).collect()
}

fn sliding(codes: &[u8], width: usize) -> Vec<Counts> {
    let mut views = Vec::with_capacity(codes.len());
    let mut counts = [0; 3];
    for (i, &code) in codes.iter().enumerate() {
        if let Some(place) = place(code) {
            counts[place] += 1;
        }
        if i >= width {
            if let Some(place) = place(codes[i - width]) {
                counts[place] -= 1;
            }
        }
        if i + 1 >= width {
            views.push(counts);
        }
    }
    views
}

/// Reads a log from standard input and prints its view.
pub fn view(word: &str) -> io::Result<()> {
    let mut log = String::new();
    io::stdin().read_to_string(&mut log)?;
    let mut lines = log.lines();
    let wrong = || io::Error::other("no log");
    let width: usize = lines.next().and_then(|line| line.parse().ok()).ok_or_else(wrong)?;
    let mut codes = Vec::new();
    for line in lines {
        let mut fields = line.split(':');
        let code = fields.next().and_then(|code| u8::from_str_radix(code, 16).ok());
        let motion = fields.next().and_then(|motion| motion.parse::<u8>().ok());
        let count = fields.next().and_then(|count| count.parse::<u32>().ok());
        let (Some(code), Some(_), Some(_)) = (code, motion, count) else {
            return Err(wrong());
        };
        codes.push(code);
    }
    let views = if word == ANEW { anew } else { sliding }(&codes, width);
    let mut out = BufWriter::new(io::stdout().lock());
    let mut first = 0;
    for (i, counts) in views.iter().enumerate() {
        if counts[1] > views[first][1] {
            first = i;
        }
    }
    writeln!(out, "0,{},{first}", views.len())?;
    for [a, b, c] in views {
        writeln!(out, "{a},{b},{c}")?;
    }
    out.flush()
}

/// A log: one record in four has an error, as random bytes fall.
fn log(records: usize, width: usize) -> String {
    let mut text = format!("{width}\n");
    for byte in random_bytes(records) {
        let code = match byte {
            0..=31 => 0x15,
            32..=47 => 0x16,
            48..=63 => 0x0C,
            _ => 0,
        };
        text += &format!("{code:02X}:1:512\n");
    }
    text
}

pub fn print_table(wear: &str, file: &Path) -> io::Result<()> {
    println!("| log | counting anew : wear | sliding : wear | wear, ns a record | counting anew, ns | sliding, ns |");
    println!("|---|---:|---:|---:|---:|---:|");
    let own = std::env::current_exe()?;
    let own = own.to_string_lossy();
    for (records, width) in [(6_553, 8), (65_535, 1), (65_535, 8), (65_535, 64)] {
        fs::write(file, log(records, width))?;
        let programs: [&[&str]; 3] = [&[wear], &[&own, ANEW], &[&own, SLIDING]];
        let right = answers(programs[0], file)?;
        let mut least = [f64::INFINITY; 3];
        for program in programs {
            if answers(program, file)? != right {
                return Err(io::Error::other(format!("width {width}: other answers")));
            }
        }
        for _ in 0..RUNS {
            for (program, least) in programs.iter().zip(&mut least) {
                *least = least.min(seconds(program, file)?);
            }
        }
        let [ours, anew, sliding] = least.map(|time| time * 1e9 / records as f64);
        println!(
            "| {records} records, width {width} | {:.2} | {:.2} | {ours:.0} | {anew:.0} | {sliding:.0} |",
            anew / ours,
            sliding / ours
        );
    }
    Ok(())
}
