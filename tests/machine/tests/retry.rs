//! A retry bit that hosts can trust: document 02's second wish, by the points of READING-02.md.

mod common;

use common::{gcr_image, record, Bench};
use machine::machine::{primary, Operation, OPERATIONS};

/// Drive 0 ready and GCR.
fn gcr() -> Bench {
    let mut bench = Bench::ready();
    assert_eq!(bench.store(0x30, 0x0D), "0,-,,");
    bench
}

/// Starts the operation on the selected drive; a supplied count is 5, a write is of no bytes.
#[track_caller]
fn start(bench: &mut Bench, operation: Operation) {
    let (address, operand) = match operation {
        Operation::Read => (0x40, 0),
        Operation::CheckBytes => (0x40, 0x4000_0000),
        Operation::SuppliedCount => (0x40, 0x8000_0005),
        Operation::Write => (0x50, 0),
        Operation::Erase => (0x60, 0),
        _ => (0x30, operation.order() as u32),
    };
    let mut answer = bench.store(address, operand);
    if operation == Operation::Write {
        assert_eq!(answer, "0,A,47,");
        bench.says("B,06", "0,-,,");
        answer = bench.line("D,");
    }
    assert!(
        answer.starts_with("0,M,") || operation == Operation::CheckBytes,
        "{operation:?} {answer}"
    );
}

/// The result, which is taken, and its EOR.
#[track_caller]
fn end(bench: &mut Bench, operation: Operation, result: &str) {
    let answer = bench.line(result);
    if operation.offers_eor() {
        assert!(answer.starts_with("0,A,45,"), "{operation:?} {answer}");
        bench.says("B,06", "0,-,,");
    } else {
        assert_eq!(answer, "0,-,,", "{operation:?}");
    }
}

/// A result without errors in its image, where one is to come.
fn plain(operation: Operation, is_gcr: bool, code: u8, late: u8) -> String {
    let data = record(5);
    let mark = operation.is_search() && code == 0;
    let whole = operation.reads_record() && matches!(code, 0 | 0x10 | 0x11 | 0x12)
        || operation == Operation::SuppliedCount && code == 0;
    let (image, marks) = match operation {
        _ if whole && is_gcr => (gcr_image(&data), "0F0F0F"),
        _ if whole => ("8002".to_string() + &common::hex(&data), ""),
        Operation::SkipReverse if is_gcr && code == 0 => ("8002".to_string(), ""),
        _ => (String::new(), ""),
    };
    format!("R,{code:02X},{},{late},{image},{marks},16384", mark as u8)
}

/// Bits 2 and 11-20 of primary: whether a retry is asked, the code, the number in bits 16-20.
#[track_caller]
fn outcome(bench: &mut Bench) -> (bool, u32, u32) {
    let primary = u32::from_str_radix(&bench.primary(), 16).unwrap();
    (
        primary & 0x2000_0000 != 0,
        primary >> 16 & 0x1F,
        primary >> 11 & 0x1F,
    )
}

/// Point 2.6, by final code, before bits 16-20 are looked at.
fn asked(operation: Operation, code: u8, checks_alone: bool) -> bool {
    use Operation::{Read, SearchForward, SkipForward};
    match (operation, code) {
        (_, 0) => false,
        (Read | SearchForward | SkipForward, 0x10..=0x12) => false,
        (SkipForward, 0x0C | 0x0D | 0x0F) => false,
        (Read | SkipForward, 0x15) => !checks_alone,
        _ => true,
    }
}

/// Document 01's table with document 02's row and entries, codes 0 to 31.
#[test]
fn the_384_answers() {
    let reads = "10000002222022221112000200000000";
    let reverse = "10000002020022200000000020000000";
    let winds = "10000022000000000000000000000000";
    for (operation, row) in [
        (Operation::Read, reads),
        (Operation::CheckBytes, "10000000000000000000000000000000"),
        (Operation::SuppliedCount, "10000002222000000002200200000000"),
        (Operation::Write, "10000002220222222222200200000000"),
        (Operation::Erase, "10000022200000000000000200000000"),
        (Operation::Rewind, winds),
        (Operation::FastForward, winds),
        (Operation::SkipForward, "10000002222011211112000200000000"),
        (Operation::SkipReverse, reverse),
        (Operation::SearchForward, reads),
        (Operation::SearchReverse, reverse),
        (Operation::WriteMark, "10000002220222000000000200000000"),
    ] {
        let entries: String = (0..32)
            .map(|code| char::from(b'0' + operation.entry(code) as u8))
            .collect();
        assert_eq!(entries, row, "{operation:?}");
    }
}

#[test]
fn point_2_1_to_2_6_every_entry_with_every_late_flag() {
    for operation in OPERATIONS {
        for &code in operation.listed() {
            for late in 0..4 {
                for is_gcr in [false, true] {
                    if operation == Operation::SuppliedCount && !is_gcr {
                        continue;
                    }
                    let mut bench = if is_gcr { gcr() } else { Bench::ready() };
                    start(&mut bench, operation);
                    end(&mut bench, operation, &plain(operation, is_gcr, code, late));
                    // The first blockette of a record whose count is supplied is bad.
                    let last = match operation {
                        Operation::SuppliedCount if code == 0 => 0x15,
                        _ => code,
                    };
                    let skips =
                        matches!(operation, Operation::SkipForward | Operation::SkipReverse);
                    let counts = late & 2 != 0 || late & 1 != 0 && !skips;
                    // Bits 19 and 20 themselves come with every operation.
                    let bits = (late & 1) << 1 | late >> 1;
                    assert_eq!(
                        outcome(&mut bench),
                        (
                            asked(operation, last, false) || counts,
                            last as u32,
                            bits as u32
                        ),
                        "{operation:?} {code:02X}, late {late}, GCR {is_gcr}"
                    );
                }
            }
        }
    }
}

/// Every set of bad blockettes in records of one to four, with every code that brings an image.
#[test]
fn point_2_1_and_2_2_the_scan_decides() {
    for n in 1..=4usize {
        let data = record(256 * n - 7);
        let image = gcr_image(&data);
        for bad in 0..1usize << (n + 2) {
            let is_bad = |place: usize| bad >> place & 1 == 1;
            let marks: String = (0..n + 2)
                .map(|place| if is_bad(place) { "04" } else { "0F" })
                .collect();
            for (operation, code) in [
                (Operation::Read, 0x00),
                (Operation::Read, 0x10),
                (Operation::Read, 0x11),
                (Operation::Read, 0x12),
                (Operation::SkipForward, 0x00),
                (Operation::SkipForward, 0x10),
                (Operation::SkipForward, 0x11),
                (Operation::SkipForward, 0x12),
                (Operation::SuppliedCount, 0x00),
            ] {
                let supplied = operation == Operation::SuppliedCount;
                // Places 0 to n - 1 have numbers n - 1 to 0; n and n + 1 are checks 1 and 0.
                let errors = |odd: bool| {
                    (0..n + 2)
                        .filter(|&place| is_bad(place) || supplied && place == 0)
                        .filter(|&place| {
                            let number = if place < n {
                                n - 1 - place
                            } else {
                                n + 1 - place
                            };
                            (number % 2 == 1) == odd
                        })
                        .count()
                };
                let last = match (errors(true), errors(false)) {
                    (0, 0) => code,
                    (0 | 1, 0 | 1) => 0x15,
                    _ => 0x16,
                };
                let checks_alone = !supplied && !(0..n).any(is_bad);
                let mut bench = gcr();
                if supplied {
                    let count = 0x8000_0000 | data.len() as u32;
                    assert!(bench.store(0x40, count).starts_with("0,M,80"));
                } else {
                    start(&mut bench, operation);
                }
                let result = format!("R,{code:02X},0,0,{image},{marks},16384");
                end(&mut bench, operation, &result);
                assert_eq!(
                    outcome(&mut bench),
                    (asked(operation, last, checks_alone), last as u32, 0),
                    "{operation:?} {code:02X} {marks}"
                );
            }
        }
    }
}

#[test]
fn point_2_1_seven_in_place_of_another() {
    for operation in OPERATIONS.into_iter().filter(|one| one.moves_tape()) {
        for &code in operation.listed() {
            let mut bench = gcr();
            start(&mut bench, operation);
            bench.says("S,0,02", "0,-,,");
            end(&mut bench, operation, &plain(operation, true, code, 0));
            let seen = outcome(&mut bench);
            assert_eq!(seen, (true, 0x07, 0), "{operation:?} {code:02X}");
        }
    }
}

#[test]
fn point_2_1_thirteen_of_a_supplied_zero() {
    let mut bench = gcr();
    assert_eq!(bench.store(0x40, 0x8000_0000), "0,M,800000010000,");
    end(&mut bench, Operation::SuppliedCount, "R,00,0,0,,,0");
    assert_eq!(outcome(&mut bench), (true, 0x13, 0));
}

#[test]
fn point_2_1_codes_before_a_result() {
    for (address, operand, code) in [
        (0x4F, 0, 0x01),
        (0x70, 0, 0x02),
        (0x40, 0x8000_4001, 0x02),
        (0x30, 0x05, 0x03),
        (0x60, 0, 0x04),
        // Not even a skip is excused.
        (0x30, 0x20, 0x04),
        (0x30, 0x21, 0x04),
    ] {
        let mut bench = Bench::new();
        assert_eq!(bench.store(address, operand), "0,-,,");
        assert_eq!(outcome(&mut bench), (true, code, 0), "{operand:02X}");
    }
    for no in ["B,15", "X"] {
        let mut bench = Bench::ready();
        assert_eq!(bench.store(0x50, 1), "0,A,47,");
        bench.says(no, "0,A,45,");
        bench.says("B,06", "0,-,,");
        assert_eq!(outcome(&mut bench), (true, 0x05, 0));
    }
}

/// Overflow and underflow set bit 2 beside a code that leaves it clear.
#[test]
fn point_2_3_bits_17_and_18_beside_a_clear_code() {
    let image = gcr_image(&record(5));
    for (code, marks, last) in [
        (0x00, "0F0F0F", 0x00),
        (0x10, "0F0F0F", 0x10),
        (0x11, "0F0F0F", 0x11),
        (0x12, "0F0F0F", 0x12),
        (0x00, "0F040F", 0x15),
        (0x12, "0F0404", 0x15),
    ] {
        for (space, overflow) in [(5, 0), (4, 0b01000)] {
            let mut bench = gcr();
            start(&mut bench, Operation::Read);
            let result = format!("R,{code:02X},0,0,{image},{marks},{space}");
            end(&mut bench, Operation::Read, &result);
            let seen = outcome(&mut bench);
            assert_eq!(seen, (space < 5, last, overflow), "{code:02X} {marks}");
        }
        // A skip delivers nothing, so that no space is too short.
        let mut bench = gcr();
        start(&mut bench, Operation::SkipForward);
        let result = format!("R,{code:02X},0,0,{image},{marks},0");
        end(&mut bench, Operation::SkipForward, &result);
        assert_eq!(outcome(&mut bench), (false, last, 0), "{code:02X} {marks}");
    }
    for (host, underflow) in [("AA", 0b00100), ("AABB", 0)] {
        let mut bench = Bench::ready();
        assert_eq!(bench.store(0x50, 2), "0,A,47,");
        bench.says("B,06", "0,-,,");
        assert!(bench.line(&format!("D,{host}")).starts_with("0,M,50"));
        end(&mut bench, Operation::Write, "R,00,0,0,,,0");
        assert_eq!(outcome(&mut bench), (underflow != 0, 0, underflow));
    }
}

/// A mark found by a skip, late or not.
#[test]
fn point_2_3_a_mark_in_a_skip() {
    for operation in [Operation::SkipForward, Operation::SkipReverse] {
        for (late, retry, bits) in [
            (0, false, 0b00),
            (1, false, 0b10),
            (2, true, 0b01),
            (3, true, 0b11),
        ] {
            let mut bench = gcr();
            start(&mut bench, operation);
            end(&mut bench, operation, &format!("R,00,1,{late},,,0"));
            assert_eq!(
                outcome(&mut bench),
                (retry, 0, bits),
                "{operation:?} {late}"
            );
        }
    }
}

/// No list of calls leads there: of bits that a state already holds, 19 alone is excused in a skip.
#[test]
fn point_2_3_bits_that_are_held() {
    for operation in OPERATIONS {
        for number in 16..=20 {
            let mut bench = gcr();
            start(&mut bench, operation);
            bench.0.machine.outcome |= primary::bit(number);
            end(&mut bench, operation, &plain(operation, true, 0, 0));
            let (retry, _, bits) = outcome(&mut bench);
            let skips = matches!(operation, Operation::SkipForward | Operation::SkipReverse);
            assert_eq!(bits, 1 << (20 - number));
            assert_eq!(retry, !(skips && number == 19), "{operation:?} {number}");
        }
    }
}

/// The bit belongs to the last store: the next one starts without it.
#[test]
fn the_next_store_clears_it() {
    let mut bench = Bench::ready();
    start(&mut bench, Operation::SkipForward);
    end(&mut bench, Operation::SkipForward, "R,0E,0,0,,,0");
    assert_eq!(outcome(&mut bench), (true, 0x0E, 0));
    start(&mut bench, Operation::SkipForward);
    end(&mut bench, Operation::SkipForward, "R,0F,0,1,,,0");
    assert_eq!(outcome(&mut bench), (false, 0x0F, 0b10));
}
