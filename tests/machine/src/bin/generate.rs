//! `generate SEED LINES [0]`: prints a random session; the same seed gives the same one.
//! With the 0 there are no stores that supply a count.
//! `generate --jobs SEED LINES`: prints one of jobs, and so with the other words of `compare`.

use machine::generator;
use machine::kinds::Kind;
use std::io::{self, Write};
use std::process::ExitCode;

fn main() -> ExitCode {
    let mut arguments: Vec<String> = std::env::args().skip(1).collect();
    let kind = arguments.first().and_then(|first| Kind::of_word(first));
    if kind.is_some() {
        arguments.remove(0);
    }
    let numbers: Option<Vec<u64>> = arguments.iter().map(|text| text.parse().ok()).collect();
    let text = match numbers.as_deref() {
        Some([seed, lines]) => kind
            .unwrap_or(Kind::Sessions)
            .generate(*seed, *lines as usize),
        Some([seed, lines, 0]) if kind.is_none() => {
            generator::session_without_supplied(*seed, *lines as usize)
        }
        _ => {
            eprintln!(
                "usage: generate SEED LINES [0] | generate {} SEED LINES",
                Kind::words()
            );
            return ExitCode::from(2);
        }
    };
    match io::stdout().lock().write_all(&text) {
        Ok(()) => ExitCode::SUCCESS,
        Err(error) => {
            eprintln!("generate: {error}");
            ExitCode::FAILURE
        }
    }
}
