//! `log DRIVE WIDTH`: reads a session of jobs to the end of standard input and prints the wear log of a drive. What
//! moved the tape is asked of the machine's state before each call, and not of the orders and resets that it answers
//! with.

use machine::lines::{self, Session};
use machine::machine::Phase;
use std::io::{self, Read, Write};
use std::process::ExitCode;

fn main() -> ExitCode {
    let numbers: Option<Vec<usize>> = std::env::args().skip(1).map(|word| word.parse().ok()).collect();
    let Some([drive @ 0..=3, width]) = numbers.as_deref() else {
        eprintln!("usage: log DRIVE WIDTH");
        return ExitCode::from(2);
    };
    match write_log(*drive, *width) {
        Ok(()) => ExitCode::SUCCESS,
        Err(error) => {
            eprintln!("log: {error}");
            ExitCode::FAILURE
        }
    }
}

fn write_log(drive: usize, width: usize) -> io::Result<()> {
    let mut text = Vec::new();
    io::stdin().lock().read_to_end(&mut text)?;
    let mut output = io::stdout().lock();
    writeln!(output, "{width}")?;
    let mut session = Session::of_jobs(None);
    for line in lines::split(&text) {
        let moving = match session.machine.phase {
            Phase::ResultAwaited(job) => job.operation.moves_tape() && session.machine.selected == drive,
            _ => false,
        };
        let mut answer = Vec::new();
        session.answer(line, &mut answer);
        let record = answer.rsplit(|&byte| byte == b',').next().unwrap_or_default();
        if moving && record != b"-\n" {
            output.write_all(record)?;
        }
    }
    output.flush()
}
