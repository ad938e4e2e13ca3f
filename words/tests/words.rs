//! What explain says against what the proved programs answered, and what make makes against what explain reads back: on
//! all stored sessions, on random ones, and for every statement.

use ctc_words::explain::{told_word, Explainer, Options};
use ctc_words::interface::Store;
use ctc_words::line::{hex, put_line, split, Buffers, Line, Program};
use ctc_words::make::Made;
use ctc_words::names::{names, Kind};
use ctc_words::statement::{read, written, Statement};
use ctc_words::statements::Statements;
use ctc_words::status::{word_of, words};
use machine::{generator, lines};
use std::fs;
use std::path::{Path, PathBuf};

fn root() -> PathBuf {
    Path::new(env!("CARGO_MANIFEST_DIR")).join("..")
}

/// The sessions in a folder and those below it.
fn sessions_in(folder: &Path, program: Program, found: &mut Vec<(PathBuf, Program)>) {
    for entry in fs::read_dir(folder).expect("a folder of sessions") {
        let path = entry.expect("an entry").path();
        if path.is_dir() {
            sessions_in(&path, program, found);
        } else if path.extension().is_some_and(|end| end == "session") {
            found.push((path, program));
        }
    }
}

/// The stored sessions, with the program that plays them.
fn stored() -> Vec<(PathBuf, Program)> {
    let mut found = Vec::new();
    for (folder, program) in [
        ("sessions/session", Program::Session),
        ("sessions/jobs", Program::Jobs),
        ("sessions/words", Program::Jobs),
    ] {
        sessions_in(&root().join(folder), program, &mut found);
    }
    assert!(found.len() > 200, "{} stored sessions", found.len());
    found
}

/// A random session and one of jobs.
fn random(seed: u64) -> [(Vec<u8>, Program); 2] {
    [
        (generator::session(seed, 300), Program::Session),
        (generator::session_of_jobs(seed, 300), Program::Jobs),
    ]
}

fn told(text: &[u8], program: Program, answers: bool) -> Vec<u8> {
    let mut explainer = Explainer::new(Options {
        program,
        answers,
        only_actions: false,
        drive: None,
    });
    let mut out = Vec::new();
    split(text).for_each(|line| explainer.tell(line, &mut out));
    out
}

/// The first column of what is told with answers.
fn answers(text: &[u8], program: Program) -> Vec<u8> {
    let told = told(text, program, true);
    let mut out = Vec::new();
    for line in split(&told) {
        let end = line.iter().position(|&byte| byte == b'\t').expect("a tab");
        out.extend_from_slice(&line[..end]);
        out.push(b'\n');
    }
    out
}

/// The last column: the words.
fn words_of(text: &[u8], program: Program) -> Vec<String> {
    let told = told(text, program, true);
    split(&told)
        .map(|line| {
            let start = line.iter().rposition(|&byte| byte == b'\t').expect("a tab") + 1;
            String::from_utf8_lossy(&line[start..]).into_owned()
        })
        .collect()
}

fn statements(text: &[u8]) -> Vec<u8> {
    let mut told = Statements::default();
    let mut out = Vec::new();
    split(text).for_each(|line| told.tell(line, &mut out));
    told.end(&mut out);
    out
}

fn made(text: &[u8], folder: &Path) -> Result<Vec<u8>, String> {
    let mut made = Made::new(folder);
    let mut out = Vec::new();
    for (at, line) in split(text).enumerate() {
        made.statement(line, &mut out)
            .map_err(|error| format!("{}:{}: {}", at + 1, error.column, error.what))?;
    }
    made.end(&mut out);
    Ok(out)
}

/// With an end at its last line.
fn ended(text: &[u8]) -> Vec<u8> {
    let mut text = text.to_vec();
    if text.last().is_some_and(|&byte| byte != b'\n') {
        text.push(b'\n');
    }
    text
}

#[test]
fn answers_of_stored_sessions() {
    for (path, program) in stored() {
        let text = fs::read(&path).expect("a session");
        let Ok(wanted) = fs::read(path.with_extension("answers")) else {
            continue;
        };
        assert!(answers(&text, program) == wanted, "{}", path.display());
    }
}

#[test]
fn answers_of_random_sessions() {
    for seed in 1..=150 {
        let [(session, _), (jobs, _)] = random(seed);
        assert!(
            answers(&session, Program::Session) == lines::run(&session, None),
            "seed {seed}"
        );
        assert!(
            answers(&jobs, Program::Jobs) == lines::run_of_jobs(&jobs, None),
            "seed {seed} of jobs"
        );
    }
}

/// A name that is missing would leave nothing, or a doubled sign, where it should stand.
fn is_said(words: &str) -> bool {
    let without = words.replace("position unknown", "");
    !(words.is_empty()
        || without.contains("unknown")
        || words.contains("  ")
        || words.contains(", ,")
        || words.contains(" ,")
        || words.contains(": ;")
        || words.contains("; ;")
        || words.ends_with([' ', ',', ':', ';']))
}

#[test]
fn every_line_is_said_in_words() {
    for (path, program) in stored() {
        let text = fs::read(&path).expect("a session");
        for (at, words) in words_of(&text, program).iter().enumerate() {
            assert!(is_said(words), "{}:{}: {words}", path.display(), at + 1);
        }
    }
    for seed in 1..=100 {
        for (text, program) in random(seed) {
            for (at, words) in words_of(&text, program).iter().enumerate() {
                assert!(is_said(words), "seed {seed}:{}: {words}", at + 1);
            }
        }
    }
}

#[test]
fn stored_sessions_come_back() {
    for (path, _) in stored() {
        let text = fs::read(&path).expect("a session");
        let back = made(&statements(&text), Path::new(""));
        assert!(
            back.as_ref() == Ok(&ended(&text)),
            "{}: {:?}",
            path.display(),
            back.err()
        );
    }
}

#[test]
fn random_sessions_come_back() {
    for seed in 1..=150 {
        for (text, program) in random(seed) {
            let told = statements(&text);
            let back = made(&told, Path::new(""));
            assert!(
                back.as_ref() == Ok(&ended(&text)),
                "seed {seed}, {program:?}: {:?}",
                back.err()
            );
            // and the words themselves are what they are read as
            for line in split(&told).filter(|line| !line.is_empty()) {
                let said = read(line).expect("a statement");
                if !matches!(said.statement, Statement::Comment(_) | Statement::Line(_)) {
                    assert_eq!(written(&said).as_bytes(), line);
                }
            }
        }
    }
}

/// Statements one after the other, from a fresh controller, each in the words in which it is told.
fn comes_back(words: &str) {
    let lines =
        made(words.as_bytes(), Path::new("")).unwrap_or_else(|error| panic!("{words}\n{error}"));
    let told = String::from_utf8(statements(&lines)).expect("text");
    assert_eq!(told, words, "{}", String::from_utf8_lossy(&lines));
}

/// Every operation, with every drive and with and without an interrupt, from the link and from a job, with its result.
#[test]
fn every_operation_comes_back() {
    let mut stores = Vec::new();
    for control in names().all(Kind::Control) {
        stores.push(control.words.to_string());
    }
    stores.extend(
        [
            "read",
            "check bytes",
            "read supplied count 600",
            "write count 5",
            "erase",
            "reset store",
        ]
        .map(String::from),
    );
    stores.extend(
        [
            "write count 65535 discard 255",
            "read supplied count 0",
            "write count 0",
        ]
        .map(String::from),
    );
    assert_eq!(stores.len(), names().all(Kind::Control).count() + 9);
    let mut tried = 0;
    for words in &stores {
        let (name, count) = words
            .split_once(" count")
            .map_or((words.as_str(), String::new()), |(name, rest)| {
                (name, format!(" count{rest}"))
            });
        for density in ["MFM", "GCR"] {
            for drive in ["", " drive 0", " drive 3", " drive 7"] {
                for interrupt in ["", " interrupt"] {
                    let store = format!("{name}{drive}{interrupt}{count}");
                    let bench = format!(
                        "report drive 0 installed selectable\nreport drive 3 installed selectable\n\
                         density {density} drive 3\n"
                    );
                    comes_back(&format!("{bench}{store}\n"));
                    // what follows is told too: the calls that are due, whichever they are
                    let lines =
                        made(format!("{bench}{store}\n").as_bytes(), Path::new("")).expect("lines");
                    assert_eq!(
                        lines.iter().filter(|&&byte| byte == b'\n').count(),
                        2 + 9 + 9
                    );
                    if !drive.is_empty() && name != "reset store" {
                        comes_back(&format!("{bench}queue job 2 {store}\nhand\n"));
                    }
                    tried += 1;
                }
            }
        }
    }
    assert_eq!(tried, stores.len() * 16);
    for load in names().all(Kind::Load) {
        comes_back(&format!("load {}\naccept\n", load.words));
    }
}

/// Whole courses: the order of calls, records in both densities, bad blockettes, refusals.
#[test]
fn courses_come_back() {
    let bench = "report drive 1 installed selectable\ndensity GCR drive 1\n";
    for course in [
        "read drive 1 interrupt\nresult good record bytes 48454C4C4F\naccept\n",
        "read drive 1 interrupt\nresult good record bytes 48\naccept one\nreport drive 0 nothing\n\
         accept one\nrefuse\naccept\n",
        "read drive 1\nresult good record bytes 48454C4C4F spoiled 0 check 1 mark 9\naccept\n",
        "read drive 1\nresult good record bytes 48454C4C4F marked 0 mark 4 check 0\naccept\nload primary\naccept\n",
        "read drive 1\nresult good record bytes 48454C4C4F space 3\nrefuse\n",
        "read drive 1\nresult good mark\naccept\n",
        "read drive 1\nresult code 0C late both\naccept\n",
        "read drive 1\nresult good record bytes\naccept\n",
        "read drive 1\nrefused result code 0B\nrefused result good late 7\n\
         refused result good image bytes 800200 marks bytes 0F0F\n",
        "read drive 1\nrefused result good record bytes 48454C4C4F marked 0 mark 12\n\
         refused data bytes 48\nrefused tick\n",
        "read supplied drive 1 count 5\nresult good record bytes 0102030405\naccept\n",
        "refused result good\nrefused data bytes\nrefused taken\n",
        "skip reverse drive 1 interrupt\nresult good late write count 600\naccept\n",
        "skip forward drive 1\nresult code 12 record bytes 00\n",
        "search forward drive 1\nresult good mark\n",
        "write drive 1 interrupt count 5 discard 2\naccept\ndata bytes 202048454C4C4F\nresult good\naccept\n",
        "write drive 1 count 5\nrefuse\naccept\n",
        "write drive 1 count 5\nbroken\naccept\n",
        "write mark drive 1 interrupt\nresult code 0B late read\naccept\n",
        "check bytes drive 1\nresult good space 512\naccept\n",
        "byte 64 49\nbroken\nbyte 41\nbyte 15\ntick\nreset\n",
        "byte 62 10\nreport drive 0 nothing\nbyte 00\nbyte 72\ntaken\naccept\n",
        "load address 65\nload address FF\n",
        "store address 72 operand 12345678\nstore address C9 operand 00000001\nrefused broken\n",
        "refused report drive 4 EOT EOT warning installed BOT warning protected position unknown selectable BOT\n",
        "report drive 0 nothing\n# a comment\nline S,01,22\nline B,6\nline\n",
        "refused queue job 4 read drive 1\nrefused queue job 0 reset store drive 1\nrefused queue job 0 read\n",
    ] {
        comes_back(&format!("{bench}{course}"));
    }
}

/// Shorter words for the same lines.
#[test]
fn short_words_make_the_same() {
    for (short, whole) in [
        (
            "report drive 1 installed, selectable, BOT\nwrite drive 1 from text \"HELLO\"\nresult good\nload primary\n",
            "report drive 1 installed selectable BOT\nwrite drive 1 count 5\naccept\n\
             data bytes 48454C4C4F\nresult good\naccept\nload primary\n",
        ),
        ("load primary\nload secondary\ntick\n", "load primary\naccept\nload secondary\naccept\ntick\n"),
        (
            "report drive 1 installed selectable\nread drive 1\nresult sync zone late\nread drive 1\n",
            "report drive 1 installed selectable\nread drive 1\nresult code 09\naccept\nread drive 1\n",
        ),
        ("interrupt-less\n", ""),
    ] {
        let short = made(short.as_bytes(), Path::new(""));
        match whole {
            "" => assert!(short.is_err()),
            _ => assert_eq!(short, made(whole.as_bytes(), Path::new(""))),
        }
    }
}

/// What cannot be meant is said with its place.
#[test]
fn what_cannot_be_meant_is_said() {
    for (words, place, said) in [
        ("reed drive 1", "1:1", "'reed' begins no statement"),
        ("read drive 9", "1:12", "drive '9' is not 0 to 7"),
        ("read drive", "1:11", "drive is missing"),
        (
            "read drive 1 twice",
            "1:14",
            "'twice' cannot stand here: behind read stand drive N or interrupt",
        ),
        (
            "read drive 1 # once",
            "1:14",
            "a comment is a line of its own",
        ),
        ("write drive 1", "1:14", "write needs a count"),
        ("load nothing", "1:6", "a load is identity"),
        (
            "report drive 1",
            "1:15",
            "a report is nothing, or some of EOT",
        ),
        (
            "report 1 installed",
            "1:8",
            "the word 'drive' is missing here",
        ),
        (
            "result good",
            "1:1",
            "refused, 3: data or a result that is not awaited; now: idle",
        ),
        (
            "read drive 1\nresult good",
            "2:1",
            "the last store ended with code 04 illegal tape motion",
        ),
        (
            "write drive 1 from text \"HELLO\"",
            "1:20",
            "no GO is offered for these bytes: the write ends with code 04",
        ),
        (
            "accept",
            "1:1",
            "nothing is offered or sent that could be accepted: idle",
        ),
        (
            "byte 64\nload primary",
            "2:1",
            "the controller is not idle, 1 of 8 bytes of a store",
        ),
        ("refused tick", "1:1", "this is not refused"),
        (
            "refused load primary",
            "1:1",
            "'refused' stands before a statement of one line",
        ),
        ("data no-such-file", "1:6", "no-such-file is not there"),
        ("result", "1:7", "behind 'result' stands good"),
        (
            "result good spoiled 1",
            "1:13",
            "'spoiled' stands behind a record",
        ),
        (
            "result good record bytes 00 spoiled 0",
            "1:20",
            "there is no data blockette 0",
        ),
        (
            "tick\r",
            "1:5",
            "the line ends with CR: save the file with LF ends",
        ),
        (
            "data text \"open",
            "1:11",
            "the text has no closing quotation mark",
        ),
        ("byte 6", "1:6", "byte '6' is not 2 hexadecimal digits"),
        (
            "queue job 0 write drive 1 from text \"A\"",
            "1:40",
            "a store that is queued has its bytes when",
        ),
    ] {
        let error = made(words.as_bytes(), Path::new("")).expect_err(words);
        assert!(
            error.starts_with(place) && error.contains(said),
            "{words}: {error}"
        );
    }
}

/// A wrong second word is told at its place with what may stand there, whether something stands there or nothing.
#[test]
fn second_words_are_told() {
    for (first, may) in [
        ("density", "a density is MFM or GCR"),
        ("skip", "skip forward or skip reverse"),
        ("search", "search forward or search reverse"),
        ("fast", "fast forward"),
        ("check", "check bytes"),
        ("track", "a track is 0 to 7"),
        ("set", "set enable or set guard"),
        ("clear", "clear enable or clear guard"),
        (
            "load",
            "a load is identity, primary, secondary, tertiary, reports, quintary or address HH",
        ),
        (
            "result",
            "behind 'result' stands good, code HH or the name of a code",
        ),
        ("result good late", "the late flags are write, read or both"),
        (
            "report drive 0",
            "a report is nothing, or some of EOT, EOT warning, installed, BOT warning, protected, \
             position unknown, selectable, BOT",
        ),
        (
            "queue job 0",
            "a store begins with read, check bytes, read supplied, write, erase, rewind, fast forward, \
             skip, search, write mark, track, density, set, clear, reset store or store",
        ),
        ("queue job 0 density", "a density is MFM or GCR"),
        ("refused queue job 0 skip", "skip forward or skip reverse"),
    ] {
        for (words, what) in [
            (first.to_string(), "the line ends too soon".to_string()),
            (format!("{first} wrong"), "'wrong' cannot stand here".to_string()),
            (format!("{first} \"quoted\""), "'quoted' cannot stand here".to_string()),
        ] {
            let column = first.len() + if words.len() > first.len() { 2 } else { 1 };
            let error = made(words.as_bytes(), Path::new("")).expect_err(&words);
            assert_eq!(error, format!("1:{column}: {what}: {may}"), "{words}");
        }
    }
    // what may stand alone, with what may stand behind it
    for (words, column, may) in [
        (
            "write marks drive 0",
            7,
            "write mark; or behind write stand drive N, interrupt, count N",
        ),
        (
            "write drive 0 marks",
            15,
            "behind write stand drive N, interrupt, count N, discard N or from SOURCE",
        ),
        (
            "read supply count 4",
            6,
            "read supplied; or behind read stand drive N or interrupt",
        ),
        (
            "read supplied 4",
            15,
            "behind read supplied stand drive N, interrupt or count N",
        ),
        ("rewind all", 8, "behind rewind stand drive N or interrupt"),
        ("accept two", 8, "accept, or accept one"),
        ("reset stor", 7, "reset, or reset store"),
        (
            "report drive 0 installed bot",
            26,
            "a report is nothing, or some of EOT, EOT warning",
        ),
        (
            "report drive 2 0x22",
            16,
            "a report is nothing, or some of EOT, EOT warning",
        ),
        (
            "queue job 0 tick",
            13,
            "a store begins with read, check bytes",
        ),
        (
            "result good lat write",
            13,
            "behind the code stand mark, late, record, spoiled, marked, count, image or space",
        ),
    ] {
        let error = made(words.as_bytes(), Path::new("")).expect_err(words);
        assert!(
            error.starts_with(&format!("1:{column}: '"))
                && error.contains(&format!("cannot stand here: {may}")),
            "{words}: {error}"
        );
    }
}

/// A wrong byte of a store or of a string to the host is found, and the check byte that would be right is said.
#[test]
fn single_words_are_told() {
    for (word, said) in [
        (
            "64B80000002100FD",
            "store: skip reverse, drive 0, asks an interrupt",
        ),
        ("680000000068", "update of secondary: count 0"),
    ] {
        for given in [word.to_string(), format!("0x{word}")] {
            assert_eq!(told_word(None, &given).as_deref(), Ok(said), "{given}");
        }
        let bytes: Vec<u8> = (0..word.len())
            .step_by(2)
            .map(|at| u8::from_str_radix(&word[at..at + 2], 16).unwrap())
            .collect();
        // the first byte says what it is
        for turned in 1..bytes.len() {
            let mut bytes = bytes.clone();
            bytes[turned] ^= 0x5A;
            let (_, rest) = bytes.split_last().unwrap();
            let right = rest.iter().fold(0, |sum, byte| sum ^ byte);
            let why = told_word(None, &hex(&bytes)).expect_err(word);
            let wanted = format!("with a wrong check byte, {right:02X} would be right");
            assert!(why.ends_with(&wanted), "{bytes:02X?}: {why}");
        }
    }
    for load in names().words(Kind::Load) {
        let told = told_word(Some(load), "0x00000001").expect(load);
        assert!(told.starts_with(&format!("{load}: ")), "{told}");
        let why = told_word(Some("none"), "00000001").expect_err("a load that is none");
        assert!(why.contains(load), "{why}");
    }
}

/// A line is readable where the independent reader reads it; else the reason names a field of its form.
#[test]
fn unreadable_lines_have_a_reason() {
    let mut buffers = Buffers::default();
    let mut seed = 1u64;
    let mut next = |most: usize| {
        seed = seed
            .wrapping_mul(6364136223846793005)
            .wrapping_add(1442695040888963407);
        (seed >> 33) as usize % most
    };
    let long = |count: usize| "0F".repeat(count);
    let mut texts: Vec<Vec<u8>> = [
        format!("D,{}", long(16_384)),
        format!("D,{}", long(16_385)),
        format!("R,00,0,0,{},,0", long(16_898)),
        format!("R,00,0,0,{},,0", long(16_899)),
        format!("R,00,0,0,,{},0", long(66)),
        format!("R,00,0,0,,{},0", long(67)),
        format!("D,{}0", long(40)),
        format!("D,{}g{}", long(40), "0".repeat(80)),
        format!("S,{}1,22", "0".repeat(300)),
        format!("S,{},22", "9".repeat(300)),
    ]
    .into_iter()
    .map(String::into_bytes)
    .collect();
    let whole = [
        "B,62",
        "T",
        "X",
        "S,1,22",
        "D,4F4B",
        "R,00,0,0,8002,0F0F,16384",
        "K",
        "Z",
        "Q,0,48,00000000",
        "H",
    ];
    for _ in 0..20_000 {
        let mut text = whole[next(whole.len())].as_bytes().to_vec();
        for _ in 0..1 + next(3) {
            let at = next(text.len() + 1);
            let byte = b"0123456789ABCDEFabf,,BTXSDRKZQH \r\t#\xFF"[next(36)];
            match next(3) {
                0 => text.insert(at, byte),
                1 if at < text.len() => {
                    text.remove(at);
                }
                _ if at < text.len() => text[at] = byte,
                _ => {}
            }
        }
        texts.push(text);
    }
    let mut unreadable = 0;
    for text in &texts {
        for (program, wanted) in [
            (Program::Session, lines::read(text).is_some()),
            (Program::Jobs, lines::read_of_jobs(text).is_some()),
        ] {
            let shown = String::from_utf8_lossy(&text[..text.len().min(60)]).into_owned();
            match buffers.read(text, program) {
                Ok(line) => {
                    assert!(wanted, "{shown} is read");
                    let mut out = Vec::new();
                    put_line(&line, &mut out);
                    assert_eq!(lines::read_of_jobs(&out), lines::read_of_jobs(text));
                }
                Err(error) => {
                    assert!(!wanted, "{shown} is not read: {}", error.why);
                    assert!(
                        error.why.to_string().len() > 8 && error.column <= text.len() + 1,
                        "{shown}: {error:?}"
                    );
                    unreadable += 1;
                }
            }
        }
    }
    assert!(unreadable > 5_000, "{unreadable} unreadable lines");
    for (text, column, why) in [
        (
            "B,6",
            3,
            "byte '6' is not two hexadecimal digits, letters capital",
        ),
        (
            "B,6f",
            3,
            "byte '6f' is not two hexadecimal digits, letters capital",
        ),
        ("S,256,22", 3, "drive is above 255"),
        (
            "S,x,22",
            3,
            "drive 'x' is no decimal number: it may be 0 to 255",
        ),
        ("S,1", 4, "byte is missing: the form is S,drive,byte"),
        ("R,00,2,0,,,0", 6, "mark is above 1"),
        (
            "R,00,0,0,8,,0",
            10,
            "image has 1 digits: two hexadecimal digits make a byte",
        ),
        (
            "R,00,0,0,,",
            11,
            "space is missing: the form is R,code,mark,late,image,marks,space",
        ),
        (
            "Q,0,48,0000000",
            8,
            "operand '0000000' is not eight hexadecimal digits, letters capital",
        ),
        (
            "T\r",
            2,
            "the line ends with CR: save the file with LF ends",
        ),
        ("t", 1, "letters are capital: T"),
        ("T,", 2, "T stands alone on its line"),
        ("help", 1, "letters are capital: H"),
        ("", 1, "an empty line says nothing; a comment begins with #"),
        ("B", 2, "fields are missing: the form is B,byte"),
    ] {
        let error = buffers
            .read(text.as_bytes(), Program::Jobs)
            .expect_err(text);
        assert_eq!(
            (error.column, error.why.to_string().as_str()),
            (column, why),
            "{text}"
        );
    }
    let error = buffers.read(b"H", Program::Session).expect_err("H");
    assert_eq!(error.why.to_string(), "only ctc jobs takes it");
}

/// Status words, both ways: every bit of primary alone and with others, and random words.
#[test]
fn status_words_come_back() {
    let mut random = 0x1234_5678u32;
    let mut all: Vec<u32> = (0..32).map(|bit| 1 << bit).collect();
    for _ in 0..20_000 {
        random = random.wrapping_mul(1_664_525).wrapping_add(1_013_904_223);
        all.push(random ^ random >> 13);
    }
    for &word in &all {
        // codes 19 to 1F have no name, and come back all the same
        let told = words(1, word);
        assert_eq!(word_of(1, &told), Some(word), "{told}");
        let count = word & 0xFFFF;
        assert_eq!(word_of(2, &words(2, count)), Some(count));
        assert_eq!(word_of(4, &words(4, word)), Some(word));
        // marks and kinds that there are
        let error =
            |digits: u32| (digits >> 12 & 9) << 12 | (1 + (digits & 1)) << 8 | digits >> 4 & 0xFF;
        let tertiary = error(word) << 16 | error(word >> 16);
        assert_eq!(word_of(3, &words(3, tertiary)), Some(tertiary));
        assert_eq!(word_of(5, &words(5, error(word))), Some(error(word)));
    }
    assert_eq!(
        words(1, 0x8120_0222),
        "changed; drive 1, track 0; code 00 no error; moved forward; count valid, MFM; installed, \
         selectable"
    );
    assert_eq!(
        words(3, 0x9101_3200),
        "odd: data blockette 1, mark 9; even: check blockette 0, mark 3"
    );
    assert_eq!(words(3, 0), "no blockette bad");
    for text in [
        "",
        "changed",
        "drive 4, track 0; code 00 no error",
        "code 00 no errors",
    ] {
        assert_eq!(word_of(1, text), None);
    }
}

/// The document's own cases, in the words that a calibrator reads.
#[test]
fn lines_are_told() {
    let text =
        b"S,1,22\nB,64\nB,C9\nB,00\nB,00\nB,00\nB,00\nB,00\nB,AD\nT\nK\nB,2C\nQ,0,49,00000000\n";
    let wanted = [
        "report: drive 1 installed, selectable",
        "byte 1 of 8 of a store",
        "byte 2 of 8 of a store",
        "byte 3 of 8 of a store",
        "byte 4 of 8 of a store",
        "byte 5 of 8 of a store",
        "byte 6 of 8 of a store",
        "byte 7 of 8 of a store",
        "store: read, drive 1, asks an interrupt -> ACK offered",
        "ACK taken -> order: read drive 1, track 0, MFM",
        "tick refused, 4: a tick or a hand when not idle; now: the result of read is awaited",
        "byte refused, 2: byte, taken or broken while data or a result is awaited, or taken with no ACK offered; \
         now: the result of read is awaited",
        "job 0 queues: read, drive 1",
    ];
    assert_eq!(words_of(text, Program::Jobs), wanted);
    let store = Store {
        address: 0x49,
        operand: [0; 4],
    };
    assert_eq!(
        (store.operation(), store.drive(), store.asks_interrupt()),
        (4, Some(1), false)
    );
    let mut line = Vec::new();
    put_line(&Line::Queue { job: 3, store }, &mut line);
    assert_eq!(
        (line, hex(&[0xAB])),
        (b"Q,3,49,00000000".to_vec(), "AB".to_string())
    );
}

/// The two files of words, what they make and how it is told; and what of them the page quotes.
#[test]
fn the_stored_words() {
    let folder = root().join("sessions/words");
    let page = fs::read_to_string(root().join("docs/WORDS.md")).expect("docs/WORDS.md");
    let mut quoted = 0;
    for name in ["spoiled-letter", "two-jobs"] {
        let file =
            |end: &str| fs::read(folder.join(format!("{name}.{end}"))).expect("a stored file");
        let lines = made(&file("words"), &folder).unwrap_or_else(|error| panic!("{name}: {error}"));
        assert!(lines == file("session"), "{name}.session");
        assert_eq!(
            String::from_utf8_lossy(&told(&lines, Program::Jobs, false)),
            String::from_utf8_lossy(&file("explained"))
        );
        for end in ["words", "explained"] {
            let text = String::from_utf8(file(end)).expect("text");
            let start = format!("```{end} {name}\n");
            for block in page.split(&start).skip(1) {
                let block = block.split("```").next().expect("a block");
                assert!(
                    block.len() > 20 && text.contains(block),
                    "docs/WORDS.md does not quote {name}.{end}:\n{block}"
                );
                quoted += 1;
            }
        }
    }
    assert!(quoted >= 4, "docs/WORDS.md quotes {quoted} blocks");
}
