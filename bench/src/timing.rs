//! The processor time of programs that are run on a file.

use std::fs::File;
use std::io;
use std::path::Path;
use std::process::{Command, Stdio};

/// Runs of each program on each file.
pub const RUNS: usize = 20;

extern "C" {
    fn getrusage(who: i32, usage: *mut i64) -> i32;
}

/// Processor time, in seconds, of all programs that were started here and have ended.
fn processor_time() -> f64 {
    const OF_CHILDREN: i32 = -1;
    // user time, then system time, each in seconds and microseconds; then fourteen other numbers
    let mut usage = [0; 18];
    // SAFETY: on 64-bit Linux the structure is these eighteen words
    let failed = unsafe { getrusage(OF_CHILDREN, usage.as_mut_ptr()) };
    assert_eq!(failed, 0);
    (usage[0] + usage[2]) as f64 + (usage[1] + usage[3]) as f64 / 1e6
}

/// Processor time of one run of a program with its words, from a file to nowhere.
pub fn seconds(command: &[&str], input: &Path) -> io::Result<f64> {
    let input = File::open(input)?;
    let before = processor_time();
    let status = Command::new(command[0])
        .args(&command[1..])
        .stdin(input)
        .stdout(Stdio::null())
        .status()?;
    if !status.success() {
        return Err(io::Error::other(format!(
            "{} ended with {status}",
            command[0]
        )));
    }
    Ok(processor_time() - before)
}

/// What it prints.
pub fn answers(command: &[&str], input: &Path) -> io::Result<Vec<u8>> {
    let input = File::open(input)?;
    let output = Command::new(command[0])
        .args(&command[1..])
        .stdin(input)
        .output()?;
    Ok(output.stdout)
}
