//! `ctc-words explain | make | prompt | names`: the commands ./ctc explain and ./ctc make, and ./ctc session and ./ctc
//! jobs at a terminal.

use ctc_words::explain::{told_word, Explainer, Options};
use ctc_words::line::{split, Program};
use ctc_words::make::Made;
use ctc_words::names::{names, KINDS};
use ctc_words::prompt;
use ctc_words::statements::Statements;
use std::env;
use std::fs::File;
use std::io::{self, IsTerminal, Read, Write};
use std::path::Path;
use std::process::ExitCode;

const VERSION: &str = include_str!("../../VERSION");

const USAGE: &str = "\
usage: ctc-words explain [--session | --jobs] [--only-actions] [--drive N] [--answers | --statements] FILE | -
       ctc-words explain [LOAD] WORD
       ctc-words make FILE | -
       ctc-words prompt [--session | --jobs] [FILE | -]
       ctc-words names
       ctc-words --help | --version
";

/// A failure: what is said, and the exit status.
struct Failure(u8, String);

impl Failure {
    fn usage(what: impl Into<String>) -> Failure {
        Failure(2, format!("{}; --help says more", what.into()))
    }

    fn failed(what: impl Into<String>) -> Failure {
        Failure(1, what.into())
    }
}

type Done = Result<(), Failure>;

fn main() -> ExitCode {
    let arguments: Vec<String> = env::args_os()
        .skip(1)
        .map(|word| word.to_string_lossy().into_owned())
        .collect();
    let (name, done) = match arguments.first().map(String::as_str) {
        Some("--help" | "-h") => ("ctc-words", write(USAGE.as_bytes())),
        Some("--version") => (
            "ctc-words",
            write(format!("ctc-words {}\n", VERSION.trim()).as_bytes()),
        ),
        Some("explain") => ("explain", explain(&arguments[1..])),
        Some("make") => ("make", make(&arguments[1..])),
        Some("prompt") => ("prompt", prompt_words(&arguments[1..])),
        Some("names") => ("names", print_names(&arguments[1..])),
        _ => (
            "ctc-words",
            Err(Failure::usage(
                "the first word is explain, make, prompt or names",
            )),
        ),
    };
    match done {
        Ok(()) => ExitCode::SUCCESS,
        Err(Failure(status, what)) => {
            eprintln!("{name}: {what}");
            ExitCode::from(status)
        }
    }
}

fn write(text: &[u8]) -> Done {
    let mut out = io::stdout().lock();
    out.write_all(text)
        .and_then(|()| out.flush())
        .map_err(|error| Failure::failed(format!("standard output cannot be written: {error}")))
}

/// A file, or standard input for -.
fn open(file: &str) -> Result<Box<dyn Read>, Failure> {
    if file == "-" {
        return Ok(Box::new(io::stdin().lock()));
    }
    let path = Path::new(file);
    if path.is_dir() {
        return Err(Failure::failed(format!("{file} is a folder, and no file")));
    }
    match File::open(path) {
        Ok(opened) => Ok(Box::new(opened)),
        Err(error) if error.kind() == io::ErrorKind::NotFound => {
            Err(Failure::failed(format!("{file} is not there")))
        }
        Err(error) => Err(Failure::failed(format!("{file} cannot be read: {error}"))),
    }
}

/// Hands every line on, without its #0A, and writes what each block of them leaves.
fn each_line(file: &str, mut line: impl FnMut(&[u8], &mut Vec<u8>)) -> Done {
    let mut input = open(file)?;
    let mut text = vec![0; 1 << 16];
    let mut out = Vec::with_capacity(1 << 18);
    let mut filled = 0;
    loop {
        if filled == text.len() {
            text.resize(2 * filled, 0);
        }
        let count = match input.read(&mut text[filled..]) {
            Ok(count) => count,
            Err(error) if error.kind() == io::ErrorKind::Interrupted => continue,
            Err(error) => return Err(Failure::failed(format!("{file} cannot be read: {error}"))),
        };
        filled += count;
        let end = match text[filled - count..filled]
            .iter()
            .rposition(|&byte| byte == b'\n')
        {
            _ if count == 0 => filled,
            Some(last) => filled - count + last + 1,
            None => 0,
        };
        for one in split(&text[..end]) {
            line(one, &mut out);
        }
        text.copy_within(end..filled, 0);
        filled -= end;
        write(&out)?;
        out.clear();
        if count == 0 {
            return Ok(());
        }
    }
}

fn program_option(word: &str, program: &mut Program) -> bool {
    match word {
        "--session" => *program = Program::Session,
        "--jobs" => *program = Program::Jobs,
        _ => return false,
    }
    true
}

fn explain(words: &[String]) -> Done {
    let mut options = Options {
        program: Program::Jobs,
        answers: false,
        only_actions: false,
        drive: None,
    };
    let mut statements = false;
    let mut files: Vec<&str> = Vec::new();
    let mut left = words.iter().map(String::as_str);
    while let Some(word) = left.next() {
        match word {
            _ if program_option(word, &mut options.program) => {}
            "--answers" => options.answers = true,
            "--statements" => statements = true,
            "--only-actions" => options.only_actions = true,
            "--drive" => {
                let drive = left
                    .next()
                    .and_then(|number| number.parse().ok())
                    .filter(|drive| *drive < 4);
                options.drive = Some(
                    drive.ok_or_else(|| Failure::usage("behind --drive stands a drive, 0 to 3"))?,
                );
            }
            "-" => files.push(word),
            _ if word.starts_with('-') => {
                return Err(Failure::usage(format!("there is no option {word}")))
            }
            _ => files.push(word),
        }
    }
    if statements && (options.answers || options.only_actions || options.drive.is_some()) {
        return Err(Failure::usage(
            "--statements tells all lines, and takes no other option than --session",
        ));
    }
    let file = match files[..] {
        [file] => file,
        [load, word] => {
            let told = told_word(Some(load), word);
            let wrong = |why| Failure::usage(format!("'{load} {word}' is no status word: {why}"));
            return write(format!("{}\n", told.map_err(wrong)?).as_bytes());
        }
        [] => return Err(Failure::usage("a file, - or a status word is missing")),
        _ => {
            return Err(Failure::usage(format!(
                "one file at a time, and there are {}",
                files.len()
            )))
        }
    };
    let is_word = file.starts_with("0x") || file.bytes().all(|byte| byte.is_ascii_hexdigit());
    if is_word && !Path::new(file).exists() {
        let told = told_word(None, file);
        let wrong = |why| Failure::failed(format!("{file} is no file, and no word: {why}"));
        return write(format!("{}\n", told.map_err(wrong)?).as_bytes());
    }
    if statements {
        let mut told = Statements::default();
        let mut last = Vec::new();
        each_line(file, |line, out| told.tell(line, out))?;
        told.end(&mut last);
        return write(&last);
    }
    let mut explainer = Explainer::new(options);
    each_line(file, |line, out| explainer.tell(line, out))?;
    match explainer.unreadable() {
        None => Ok(()),
        Some((1, first)) => Err(Failure::failed(format!(
            "{file}:{first}: the line is unreadable"
        ))),
        Some((count, first)) => Err(Failure::failed(format!(
            "{file}:{first}: the first of {count} unreadable lines"
        ))),
    }
}

fn make(words: &[String]) -> Done {
    let file = match words {
        [file] if file == "-" || !file.starts_with('-') => file.as_str(),
        [] => {
            return Err(Failure::usage(
                "a file of words is missing, or - for standard input",
            ))
        }
        [option] => return Err(Failure::usage(format!("there is no option {option}"))),
        _ => {
            return Err(Failure::usage(format!(
                "one file at a time, and there are {} words",
                words.len()
            )))
        }
    };
    let mut text = Vec::new();
    open(file)?
        .read_to_end(&mut text)
        .map_err(|error| Failure::failed(format!("{file} cannot be read: {error}")))?;
    let folder = match Path::new(file).parent() {
        Some(folder) if file != "-" => folder.to_path_buf(),
        _ => Path::new("").to_path_buf(),
    };
    let shown = if file == "-" { "standard input" } else { file };
    let mut made = Made::new(&folder);
    let mut out = Vec::new();
    for (at, line) in split(&text).enumerate() {
        made.statement(line, &mut out).map_err(|error| {
            Failure::failed(format!(
                "{shown}:{}:{}: {}",
                at + 1,
                error.column,
                error.what
            ))
        })?;
    }
    made.end(&mut out);
    write(&out)
}

fn prompt_words(words: &[String]) -> Done {
    let mut program = Program::Session;
    let mut file = "-";
    for word in words {
        match word.as_str() {
            word if program_option(word, &mut program) => {}
            word if word == "-" || !word.starts_with('-') => file = word,
            word => return Err(Failure::usage(format!("there is no option {word}"))),
        }
    }
    let terminal = file == "-" && io::stdin().is_terminal();
    let mut prompt = prompt::Prompt::new(program, terminal);
    let mut out = Vec::new();
    prompt.start(&mut out);
    write(&out)?;
    if terminal {
        // a line at a time: each is answered before the next is waited for
        let mut line = String::new();
        loop {
            line.clear();
            match io::stdin().read_line(&mut line) {
                Ok(0) => break,
                Ok(_) => {}
                Err(error) => {
                    return Err(Failure::failed(format!(
                        "standard input cannot be read: {error}"
                    )))
                }
            }
            out.clear();
            prompt.answer(
                line.strip_suffix('\n').unwrap_or(&line).as_bytes(),
                &mut out,
            );
            write(&out)?;
        }
        return write(b"\n");
    }
    each_line(file, |line, out| prompt.answer(line, out))
}

fn print_names(words: &[String]) -> Done {
    if let Some(word) = words.first() {
        return Err(Failure::usage(format!(
            "no word is taken, and there is '{word}'"
        )));
    }
    let mut out = String::new();
    for (kind, word, hexadecimal) in KINDS {
        for name in names().all(kind) {
            let number = match hexadecimal {
                true if matches!(word, "store" | "load") => format!("{:X}", name.number),
                true => format!("{:02X}", name.number),
                false => name.number.to_string(),
            };
            out.push_str(&format!("{word:<10} {number:>5}  {}\n", name.words));
        }
    }
    write(out.as_bytes())
}
