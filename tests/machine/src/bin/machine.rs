//! `machine [--jobs | --table | --wear | --contest] [--mutant N]`: reads session lines to the end of standard input,
//! prints the answers. With `--jobs` they are those of jobs; with `--table` it prints the table, whatever it reads;
//! with `--wear` it reads a run of records and prints its view; with `--contest` it answers questions.

use machine::kinds::Kind;
use machine::lines::Session;
use machine::mutants::{JOB_MUTANTS, MUTANTS};
use std::io::{self, Read, Write};
use std::process::ExitCode;

/// Bytes asked of the system at once.
const PIECE: usize = 1 << 18;

fn main() -> ExitCode {
    let arguments: Vec<String> = std::env::args().skip(1).collect();
    let arguments: Vec<&str> = arguments.iter().map(String::as_str).collect();
    let (kind, arguments) = match arguments[..] {
        [word, ref rest @ ..] if Kind::of_word(word).is_some() => (Kind::of_word(word), rest),
        ref all => (None, all),
    };
    let kind = kind.unwrap_or(Kind::Sessions);
    let mutant = match arguments {
        [] => None,
        ["--mutant", number] => match number.parse::<usize>() {
            Ok(number) if (1..=kind.mutants()).contains(&number) => Some(number - 1),
            _ => return usage(kind.mutants()),
        },
        _ => return usage(kind.mutants()),
    };
    let answered = match kind {
        Kind::Sessions => answer_all(Session::new(mutant.map(|number| MUTANTS[number]))),
        Kind::Jobs => answer_all(Session::of_jobs(mutant.map(|number| JOB_MUTANTS[number]))),
        _ => answer_whole(kind, mutant),
    };
    match answered {
        Ok(()) => ExitCode::SUCCESS,
        Err(error) => {
            eprintln!("machine: {error}");
            ExitCode::FAILURE
        }
    }
}

fn usage(mutants: usize) -> ExitCode {
    eprintln!("usage: machine [{}] [--mutant 1-{mutants}]", Kind::words());
    ExitCode::from(2)
}

/// All is read before anything is answered.
fn answer_whole(kind: Kind, mutant: Option<usize>) -> io::Result<()> {
    let mut input = Vec::new();
    io::stdin().lock().read_to_end(&mut input)?;
    let answers = match mutant {
        Some(number) => kind.wrong(&input, number).unwrap_or_default(),
        None => kind.right(&input),
    };
    let mut output = io::stdout().lock();
    output.write_all(&answers)?;
    output.flush()
}

fn answer_all(mut session: Session) -> io::Result<()> {
    let mut input = io::stdin().lock();
    // Whole lines handed over together are written together.
    let mut output = io::stdout().lock();
    let mut piece = vec![0; PIECE];
    let mut begun = Vec::new();
    let mut answers = Vec::with_capacity(2 * PIECE);
    loop {
        let length = match input.read(&mut piece) {
            Err(error) if error.kind() == io::ErrorKind::Interrupted => continue,
            read => read?,
        };
        if length == 0 {
            break;
        }
        // A line cut by the end of the last piece is put together in `begun`.
        let mut rest = &piece[..length];
        while let Some(end) = rest.iter().position(|&byte| byte == b'\n') {
            if begun.is_empty() {
                session.answer(&rest[..end], &mut answers);
            } else {
                begun.extend_from_slice(&rest[..end]);
                session.answer(&begun, &mut answers);
                begun.clear();
            }
            rest = &rest[end + 1..];
        }
        begun.extend_from_slice(rest);
        // All that can be answered is out before the next read waits.
        output.write_all(&answers)?;
        answers.clear();
    }
    if !begun.is_empty() {
        session.answer(&begun, &mut answers);
        output.write_all(&answers)?;
    }
    output.flush()
}
