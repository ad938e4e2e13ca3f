//! `compare [--jobs | --table | --wear | --contest] PROGRAM [--seed S] [--sessions N] [--lines L] [--supplied 0]
//! [-- ARGUMENTS of PROGRAM]`
//!
//! `--jobs` makes sessions of jobs; `--table` has the table printed; `--wear` makes runs of records, of which the
//! longer ones have up to L; `--contest` makes questions, first the whole range. `--shrink SECONDS` bounds the time for
//! shrinking a difference. `--supplied 0` makes no stores that supply a count, for a program that does not know them.
//! Exit 0: no difference; 1: a difference, shrunk and printed; 2: the comparison itself failed.

use machine::comparison::{join, shown, Program, SHRINK_LIMIT, TIME_LIMIT};
use machine::kinds::Kind;
use machine::{generator, lines};
use std::io::{self, Write};
use std::process::ExitCode;
use std::time::{Duration, Instant};

struct Options {
    program: Program,
    seed: u64,
    sessions: u64,
    lines: usize,
    supplied: bool,
}

fn options() -> Option<Options> {
    let mut arguments = std::env::args().skip(1).peekable();
    let kind = arguments.peek().and_then(|first| Kind::of_word(first));
    if kind.is_some() {
        arguments.next();
    }
    let mut options = Options {
        program: Program {
            path: arguments.next()?,
            arguments: Vec::new(),
            kind: kind.unwrap_or(Kind::Sessions),
            time_limit: TIME_LIMIT,
            shrink_limit: SHRINK_LIMIT,
        },
        seed: 1,
        sessions: 100,
        lines: 500,
        supplied: true,
    };
    while let Some(argument) = arguments.next() {
        if argument == "--" {
            options.program.arguments = arguments.collect();
            break;
        }
        let number: u64 = arguments.next()?.parse().ok()?;
        match argument.as_str() {
            "--seed" => options.seed = number,
            "--sessions" => options.sessions = number,
            "--lines" => options.lines = number as usize,
            "--supplied" => options.supplied = number != 0,
            "--seconds" => options.program.time_limit = Duration::from_secs(number),
            "--shrink" => options.program.shrink_limit = Duration::from_secs(number),
            _ => return None,
        }
    }
    Some(options)
}

fn main() -> ExitCode {
    let Some(options) = options() else {
        eprintln!(
            "usage: compare [{}] PROGRAM [--seed S] [--sessions N] [--lines L] [--seconds LIMIT] \
             [--shrink LIMIT] [--supplied 0] [-- ARGUMENTS of PROGRAM]",
            Kind::words()
        );
        return ExitCode::from(2);
    };
    match compare(&options) {
        Ok(true) => ExitCode::SUCCESS,
        Ok(false) => ExitCode::from(1),
        Err(error) => {
            eprintln!("compare: {}: {error}", options.program.path);
            ExitCode::from(2)
        }
    }
}

fn compare(options: &Options) -> io::Result<bool> {
    let mut out = io::stdout().lock();
    let mut told = Instant::now();
    let mut compared = 0;
    for session in 0..options.sessions {
        let seed = options.seed.wrapping_add(session);
        let kind = options.program.kind;
        let text = if kind == Kind::Sessions && !options.supplied {
            generator::session_without_supplied(seed, options.lines)
        } else {
            kind.generate(seed, options.lines)
        };
        if let Some(difference) = options.program.difference(&text)? {
            let line = lines::split(&text)
                .nth(difference.line)
                .filter(|_| kind.answers_lines());
            writeln!(out, "seed {seed}, line {}", difference.line + 1)?;
            if let Some(line) = line {
                writeln!(out, "  line     {}", shown(&join(&[line.to_vec()])))?;
            }
            writeln!(out, "  machine  {}", difference.machine)?;
            writeln!(out, "  program  {}", difference.program)?;
            out.flush()?;
            let count = match kind.answers_lines() {
                true => difference.line + 1,
                false => lines::split(&text).count(),
            };
            eprintln!("shrinking {count} lines");
            let (kept, shrunk) = options.program.shrink(&text, difference)?;
            writeln!(
                out,
                "shrunk to {} lines, the difference at line {}",
                kept.len(),
                shrunk.line + 1
            )?;
            writeln!(out, "  machine  {}", shrunk.machine)?;
            writeln!(out, "  program  {}", shrunk.program)?;
            writeln!(out, "the shrunk session, to be replayed:")?;
            out.write_all(&join(&kept))?;
            return Ok(false);
        }
        compared += lines::split(&text).count();
        if told.elapsed() >= Duration::from_secs(1) {
            told = Instant::now();
            eprintln!(
                "{} of {} sessions, {compared} lines",
                session + 1,
                options.sessions
            );
        }
    }
    writeln!(
        out,
        "compared {} sessions, {compared} lines: no difference",
        options.sessions
    )?;
    Ok(true)
}
