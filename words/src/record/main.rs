//! `ctc record split`, `join` and `marks`: files of any length as records, over the proved records library.

mod density;
mod files;
mod join;
mod marks;
mod split;
mod sum;

use std::env;
use std::ffi::{OsStr, OsString};
use std::io::{self, Write};
use std::path::Path;
use std::process::ExitCode;

/// The root script prints it too, before anything is built.
const USAGE: &str = include_str!("usage.txt");
const VERSION: &str = include_str!("../../../VERSION");

/// What ends a command but its success.
pub enum Failure {
    Usage(String),
    Failed(String),
    /// Everything was said already.
    Told,
    /// By a signal, of this number.
    Cut(i32),
}

impl Failure {
    pub fn file(action: &str, path: &Path, cause: io::Error) -> Failure {
        let cause = cause.to_string();
        let cause = cause.split(" (os error").next().unwrap_or_default();
        Failure::Failed(format!("cannot {action} {}: {cause}", path.display()))
    }
}

/// Where standard error cannot be written there is nobody to tell.
pub fn say(what: &str) {
    let _ = writeln!(io::stderr(), "ctc record: {what}");
}

/// To standard output, and told where it did not arrive.
pub fn print(text: &str) -> Result<(), Failure> {
    let mut output = io::stdout().lock();
    output
        .write_all(text.as_bytes())
        .and_then(|()| output.flush())
        .map_err(|cause| Failure::file("write", Path::new(files::STANDARD_OUTPUT), cause))
}

/// How much was cut or put together.
pub fn bytes_in_records(length: u64, records: u64) -> String {
    let several = |count: u64| if count == 1 { "" } else { "s" };
    format!(
        "{length} byte{} in {records} record{}",
        several(length),
        several(records)
    )
}

fn run(words: &[OsString]) -> Result<(), Failure> {
    let (verb, rest) = match words {
        [verb, rest @ ..] => (verb.to_str().unwrap_or_default(), rest),
        [] => ("", words),
    };
    if words.iter().any(|word| word == "--help" || word == "-h") {
        return print(USAGE);
    }
    if words.iter().any(|word| word == "--version") {
        return print(&format!("ctc record {VERSION}"));
    }
    match verb {
        "split" => split::run(rest),
        "join" => join::run(rest),
        "marks" => marks::run(rest),
        _ => Err(Failure::Usage(
            "the first word is split, join or marks".to_string(),
        )),
    }
}

fn main() -> ExitCode {
    let words: Vec<OsString> = env::args_os().skip(1).collect();
    match run(&words) {
        Ok(()) => ExitCode::SUCCESS,
        Err(Failure::Usage(what)) => {
            say(&what);
            let _ = writeln!(
                io::stderr(),
                "{}",
                USAGE.split("\n\n").next().unwrap_or_default()
            );
            ExitCode::from(2)
        }
        Err(Failure::Failed(what)) => {
            say(&what);
            ExitCode::FAILURE
        }
        Err(Failure::Told) => ExitCode::FAILURE,
        Err(Failure::Cut(signal)) => {
            say("cut off: nothing was written");
            ExitCode::from(128 + signal as u8)
        }
    }
}

/// The words of a command: those that name files, and its options.
pub struct Words<'a> {
    pub files: Vec<&'a OsStr>,
    options: Vec<(&'a str, &'a str)>,
}

impl<'a> Words<'a> {
    /// Each option with whether a word follows it.
    pub fn read(words: &'a [OsString], known: &[(&str, bool)]) -> Result<Words<'a>, Failure> {
        let mut read = Words {
            files: Vec::new(),
            options: Vec::new(),
        };
        let mut words = words.iter();
        while let Some(word) = words.next() {
            // a file's name may be no text; an option and what follows it are
            let text = word.to_str().unwrap_or_default();
            match known.iter().find(|(name, _)| *name == text) {
                Some((_, true)) => match words.next().map(|value| value.to_str()) {
                    Some(value) => read.options.push((text, value.unwrap_or("?"))),
                    None => return Err(Failure::Usage(format!("a word is missing behind {text}"))),
                },
                Some((_, false)) => read.options.push((text, "")),
                None if text.len() > 1 && text.starts_with('-') => {
                    return Err(Failure::Usage(format!(
                        "{text} is no option; a file of that name is ./{text}"
                    )));
                }
                None => read.files.push(word),
            }
        }
        Ok(read)
    }

    pub fn option(&self, name: &str) -> Option<&'a str> {
        self.options
            .iter()
            .rev()
            .find(|(known, _)| *known == name)
            .map(|(_, value)| *value)
    }
}
