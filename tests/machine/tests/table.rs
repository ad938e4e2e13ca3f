//! The code table from its rules: document 02's ninth wish.

use machine::machine::{Operation, OPERATIONS};
use machine::table::{self, entry, CODES, ROWS};
use std::process::Command;

/// The text that the program must print, as it is stored beside the program.
const STORED: &[u8] = include_bytes!("../../../crates/table_main/stdout");

#[test]
fn the_stored_table_is_that_of_the_lists() {
    assert_eq!(
        String::from_utf8_lossy(STORED),
        String::from_utf8_lossy(&table::text(None))
    );
}

/// Twelve lines of 32 digits parted by commas, none at a line's end: 63 bytes and a line feed each.
#[test]
fn the_form_of_the_text() {
    assert_eq!(STORED.len(), 12 * 64);
    for line in STORED.chunks_exact(64) {
        for (place, &byte) in line.iter().enumerate() {
            match place {
                63 => assert_eq!(byte, b'\n'),
                _ if place % 2 == 1 => assert_eq!(byte, b','),
                _ => assert!(matches!(byte, b'0' | b'1' | b'2')),
            }
        }
    }
}

/// The order of the lines, by the machine's operations.
const IN_ORDER: [Operation; 12] = [
    Operation::Read,
    Operation::CheckBytes,
    Operation::SuppliedCount,
    Operation::Write,
    Operation::Erase,
    Operation::Rewind,
    Operation::FastForward,
    Operation::SkipForward,
    Operation::SkipReverse,
    Operation::SearchForward,
    Operation::SearchReverse,
    Operation::WriteMark,
];

/// The machine's own lists were written at another time for another purpose.
#[test]
fn the_machine_has_the_same_table() {
    for (name, operation) in ROWS.iter().zip(IN_ORDER) {
        for code in 0..CODES {
            let own = operation.entry(code as u8) as u8;
            assert_eq!(entry(name, code), own, "{name} {code:02X}");
        }
    }
    assert!(OPERATIONS
        .iter()
        .all(|operation| IN_ORDER.contains(operation)));
}

/// Counted in the sentences.
#[test]
fn how_many_of_each_digit() {
    let count = |digit: u8| {
        ROWS.iter()
            .flat_map(|row| (0..CODES).map(move |code| entry(row, code)))
            .filter(|&entry| entry == digit)
            .count()
    };
    // Lists of 13 (three), 14, 7, 6 (two), 4, 2 (two), none, and 7 of the supplied count.
    let listed = 3 * 13 + 14 + 7 + 2 * 6 + 4 + 2 * 2 + 7;
    // Codes 10, 11, 12 of three operations, and C, D, F of one.
    let no_retry = 3 * 3 + 3;
    assert_eq!(count(1), 12 + no_retry);
    assert_eq!(count(2), listed - no_retry);
    assert_eq!(count(0) + count(1) + count(2), 384);
}

/// Worked by hand from the sentences.
#[test]
fn single_entries() {
    for (operation, code, digit) in [
        ("read", 0x00, 1),
        ("read", 0x06, 0),
        ("read", 0x0A, 2),
        ("read", 0x0B, 0),
        ("read", 0x0C, 2),
        ("read", 0x10, 1),
        ("read", 0x13, 2),
        ("read", 0x14, 0),
        ("read", 0x15, 0),
        ("read", 0x16, 0),
        ("check bytes", 0x00, 1),
        ("check bytes", 0x07, 0),
        ("supplied count", 0x10, 0),
        ("supplied count", 0x13, 2),
        ("supplied count", 0x14, 2),
        ("write", 0x0A, 0),
        ("write", 0x0B, 2),
        ("write", 0x10, 2),
        ("write", 0x14, 2),
        ("erase", 0x06, 2),
        ("erase", 0x09, 0),
        ("rewind", 0x08, 0),
        ("fast forward", 0x17, 0),
        ("skip forward", 0x0C, 1),
        ("skip forward", 0x0D, 1),
        ("skip forward", 0x0E, 2),
        ("skip forward", 0x0F, 1),
        ("skip forward", 0x12, 1),
        ("skip reverse", 0x0C, 2),
        ("skip reverse", 0x18, 2),
        ("skip reverse", 0x17, 0),
        ("search forward", 0x0C, 2),
        ("search forward", 0x11, 1),
        ("search reverse", 0x08, 0),
        ("write mark", 0x0E, 0),
        ("write mark", 0x17, 2),
        ("write mark", 0x1F, 0),
    ] {
        assert_eq!(entry(operation, code), digit, "{operation} {code:02X}");
    }
}

/// What the comparison says of the machine in the program's place.
fn compare(arguments: &[&str]) -> (Option<i32>, String) {
    let output = Command::new(env!("CARGO_BIN_EXE_compare"))
        .args(["--table", env!("CARGO_BIN_EXE_machine"), "--sessions", "1"])
        .args(["--", "--table"])
        .args(arguments)
        .output()
        .unwrap();
    let text = String::from_utf8_lossy(&output.stdout).into_owned();
    (output.status.code(), text)
}

#[test]
fn the_right_table_is_no_difference() {
    let (status, text) = compare(&[]);
    assert_eq!(status, Some(0), "{text}");
    assert!(text.ends_with("no difference\n"), "{text}");
}

#[test]
fn each_wrong_table_is_found() {
    let mutants = table::mutants();
    assert_eq!(mutants.len(), 384 * 2 + (12 * 11 / 2 - 3) + 16);
    for (index, mutant) in mutants.iter().enumerate() {
        assert_ne!(table::text(Some(*mutant)), STORED, "{mutant:?}");
        let (status, text) = compare(&["--mutant", &(index + 1).to_string()]);
        assert_eq!(status, Some(1), "{mutant:?}: {text}");
        assert!(text.starts_with("seed 1, line "), "{mutant:?}: {text}");
    }
}
