//! The table of answers as text, worked out from the papers' sentences: document 02's ninth wish.
//!
//! Nothing here is taken from the machine, which has its own lists; a test compares the two.

/// The operations by the papers' names, in the order of document 02's ninth wish: "Operations run: read, check bytes,
/// supplied count, write, erase, rewind, fast forward, skip forward, skip reverse, search forward, search reverse,
/// write mark."
pub const ROWS: [&str; 12] = [
    "read",
    "check bytes",
    "supplied count",
    "write",
    "erase",
    "rewind",
    "fast forward",
    "skip forward",
    "skip reverse",
    "search forward",
    "search reverse",
    "write mark",
];

/// "Codes rise from 0 to 31."
pub const CODES: usize = 32;

/// Which operations a sentence speaks of, and the codes that it gives, hexadecimal as in the papers.
type Sentence = (&'static [&'static str], &'static str);

/// The sentences that list reported codes.
const REPORTED: [Sentence; 9] = [
    // Document 01: "Reported codes, with 0 always:"
    (&ROWS, "0"),
    // "read, skip and search forward 7 8 9 A C D E F 10 11 12 13 17;"
    (
        &["read", "skip forward", "search forward"],
        "7 8 9 A C D E F 10 11 12 13 17",
    ),
    // "write 7 8 9 B C D E F 10 11 12 13 14 17;"
    (&["write"], "7 8 9 B C D E F 10 11 12 13 14 17"),
    // "write mark 7 8 9 B C D 17;"
    (&["write mark"], "7 8 9 B C D 17"),
    // "reverse moves 7 9 C D E 18;" where "reverse moves are skip reverse and search reverse"
    (&["skip reverse", "search reverse"], "7 9 C D E 18"),
    // "erase 6 7 8 17;"
    (&["erase"], "6 7 8 17"),
    // "rewind, fast forward 6 7;"
    (&["rewind", "fast forward"], "6 7"),
    // "check bytes none."
    (&["check bytes"], ""),
    // Document 02, first wish: "reported codes are 0, 7, 8, 9, A, 13, 14 and 17."
    (&["supplied count"], "0 7 8 9 A 13 14 17"),
];

/// The sentences that name reported codes which ask no retry.
const NO_RETRY: [Sentence; 3] = [
    // Document 01: "Code 0 is 1; others in the list are 2."
    (&ROWS, "0"),
    // Document 02, second wish: "Codes 10, 11 and 12 on a read, forward skip or forward search leave bit 2 clear."
    (&["read", "skip forward", "search forward"], "10 11 12"),
    // "So do C, D and F on a forward skip, and code 15 where only check blockettes are bad." 15 is never reported. "The
    // table's entries follow, and it stays the single place for reported codes."
    (&["skip forward"], "C D F"),
];

fn says(sentences: &[Sentence], operation: &str, code: usize) -> bool {
    sentences.iter().any(|(operations, codes)| {
        operations.contains(&operation)
            && codes
                .split_whitespace()
                .any(|listed| usize::from_str_radix(listed, 16) == Ok(code))
    })
}

/// Document 01: "0 never, 1 reported and no retry, 2 reported with retry."
pub fn entry(operation: &str, code: usize) -> u8 {
    if !says(&REPORTED, operation, code) {
        0
    } else if says(&NO_RETRY, operation, code) {
        1
    } else {
        2
    }
}

/// One thing made wrong, to show that the comparison notices it.
#[derive(Clone, Copy, Debug, PartialEq, Eq)]
pub enum Mutant {
    /// This entry has another digit than its own.
    Entry {
        row: usize,
        code: usize,
        digit: u8,
    },
    /// These two lines have changed places.
    Rows(usize, usize),
    SuppliedLast,
    CodesFall,
    Turned,
    CommaAtEnd,
    CommaAtStart,
    NoCommas,
    BlankBehindComma,
    BlankAtEnd,
    CarriageReturn,
    NoLastEnd,
    EmptyLineAtEnd,
    LineMissing,
    LineMore,
    CodeMissing,
    CodeMore,
    Nothing,
}

/// Every entry with each wrong digit, each two neighbours in the wrong order, and the forms.
pub fn mutants() -> Vec<Mutant> {
    let mut mutants = Vec::new();
    for (row, operation) in ROWS.iter().enumerate() {
        for code in 0..CODES {
            for digit in (0..3).filter(|&digit| digit != entry(operation, code)) {
                mutants.push(Mutant::Entry { row, code, digit });
            }
        }
    }
    // Lines that are alike cannot be told apart: rewind and fast forward, and the reverse moves.
    let line = |row: usize| (0..CODES).map(move |code| entry(ROWS[row], code));
    for first in 0..ROWS.len() {
        for second in first + 1..ROWS.len() {
            if !line(first).eq(line(second)) {
                mutants.push(Mutant::Rows(first, second));
            }
        }
    }
    mutants.extend([
        Mutant::SuppliedLast,
        Mutant::CodesFall,
        Mutant::Turned,
        Mutant::CommaAtEnd,
        Mutant::CommaAtStart,
        Mutant::NoCommas,
        Mutant::BlankBehindComma,
        Mutant::BlankAtEnd,
        Mutant::CarriageReturn,
        Mutant::NoLastEnd,
        Mutant::EmptyLineAtEnd,
        Mutant::LineMissing,
        Mutant::LineMore,
        Mutant::CodeMissing,
        Mutant::CodeMore,
        Mutant::Nothing,
    ]);
    mutants
}

/// "twelve lines of 32 digits parted by commas, none at a line's end"; each line is ended by a line feed.
pub fn text(mutant: Option<Mutant>) -> Vec<u8> {
    let mut lines: Vec<Vec<u8>> = ROWS
        .iter()
        .map(|operation| (0..CODES).map(|code| entry(operation, code)).collect())
        .collect();
    match mutant {
        Some(Mutant::Entry { row, code, digit }) => lines[row][code] = digit,
        Some(Mutant::Rows(first, second)) => lines.swap(first, second),
        Some(Mutant::SuppliedLast) => {
            let supplied = lines.remove(2);
            lines.push(supplied);
        }
        Some(Mutant::CodesFall) => lines.iter_mut().for_each(|line| line.reverse()),
        Some(Mutant::Turned) => {
            lines = (0..CODES)
                .map(|code| lines.iter().map(|line| line[code]).collect())
                .collect();
        }
        Some(Mutant::LineMissing) => lines.truncate(11),
        Some(Mutant::LineMore) => lines.push(vec![0; CODES]),
        Some(Mutant::CodeMissing) => lines.iter_mut().for_each(|line| line.truncate(31)),
        Some(Mutant::CodeMore) => lines.iter_mut().for_each(|line| line.push(0)),
        Some(Mutant::Nothing) => lines.clear(),
        _ => {}
    }
    let comma = match mutant {
        Some(Mutant::NoCommas) => "",
        Some(Mutant::BlankBehindComma) => ", ",
        _ => ",",
    };
    let start = match mutant {
        Some(Mutant::CommaAtStart) => ",",
        _ => "",
    };
    let end = match mutant {
        Some(Mutant::CommaAtEnd) => ",\n",
        Some(Mutant::BlankAtEnd) => " \n",
        Some(Mutant::CarriageReturn) => "\r\n",
        _ => "\n",
    };
    let mut text = String::new();
    for line in lines {
        let digits: Vec<String> = line.iter().map(u8::to_string).collect();
        text += &format!("{start}{}{end}", digits.join(comma));
    }
    match mutant {
        Some(Mutant::NoLastEnd) => {
            text.pop();
        }
        Some(Mutant::EmptyLineAtEnd) => text.push('\n'),
        _ => {}
    }
    text.into_bytes()
}
