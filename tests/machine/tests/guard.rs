//! A write guard for each drive: document 02's seventh wish, by the points of READING-02.md.

mod common;

use common::{gcr_image, record, Bench};
use machine::machine::{Drive, Gap, Machine, Operation, Phase, OPERATIONS};
use machine::records::Density;

const GAPS: [Gap; 4] = [Gap::Proper, Gap::Improper, Gap::UnfinishedWrite, Gap::Lost];
const RECORDING: [Operation; 3] = [Operation::Write, Operation::WriteMark, Operation::Erase];
const CLEAR: u32 = 0x0A;
const SET: u32 = 0x0B;

/// A drive in GCR, so that every operation may start there.
fn drive(report: u8, gap: Gap, guard: bool) -> Drive {
    Drive {
        report,
        reviewed: report,
        track: 0,
        density: Density::Gcr,
        gap,
        guard,
    }
}

/// A bench whose drive 0 is like this.
fn with_drive(report: u8, gap: Gap, guard: bool) -> Bench {
    let mut bench = Bench::new();
    bench.0.machine.drives[0] = drive(report, gap, guard);
    bench
}

/// Stores of the operation to the selected drive; a supplied count is 5, a write is of one byte.
fn store(bench: &mut Bench, operation: Operation) -> String {
    let (address, operand) = match operation {
        Operation::Read => (0x40, 0),
        Operation::CheckBytes => (0x40, 0x4000_0000),
        Operation::SuppliedCount => (0x40, 0x8000_0005),
        Operation::Write => (0x50, 1),
        Operation::Erase => (0x60, 0),
        _ => (0x30, operation.order() as u32),
    };
    bench.store(address, operand)
}

/// Whether the operation starts on the selected drive.
fn starts(bench: &mut Bench, operation: Operation) -> bool {
    store(bench, operation);
    let awaits = matches!(
        bench.0.machine.phase,
        Phase::GoOffered(_) | Phase::ResultAwaited(_)
    );
    assert_eq!(bench.0.machine.code(), if awaits { 0 } else { 4 });
    awaits
}

fn guards(bench: &Bench) -> [bool; 4] {
    bench.0.machine.drives.map(|drive| drive.guard)
}

#[test]
fn values_0a_and_0b_clear_and_set() {
    let mut bench = Bench::ready();
    for (value, guard) in [
        (SET, true),
        (SET, true),
        (CLEAR, false),
        (CLEAR, false),
        // the other operand bytes are not looked at
        (0xFFFF_FF0B, true),
        (0x1234_560A, false),
    ] {
        assert_eq!(bench.store(0x38, value), "0,-,,");
        assert_eq!(guards(&bench), [guard, false, false, false], "{value:X}");
    }
    // their neighbours are as they were
    for value in [0x0E, 0x0F] {
        bench.store(0x38, value);
        assert_eq!(bench.code(), 2, "{value:X}");
    }
}

#[test]
fn on_the_selected_drive() {
    let mut bench = Bench::ready();
    // a store that names a drive selects it first
    bench.store(0x3A, SET);
    assert_eq!(guards(&bench), [false, false, true, false]);
    bench.store(0x39, SET);
    assert_eq!(guards(&bench), [false, true, true, false]);
    // none named: drive 1, whatever the low bits are
    bench.store(0x32, CLEAR);
    assert_eq!(guards(&bench), [false, false, true, false]);
    bench.store(0x30, SET);
    assert_eq!(guards(&bench), [false, true, true, false]);
    // a drive above 3 is code 01, and no guard changes
    for number in 4..8 {
        bench.store(0x38 | number, CLEAR);
        assert_eq!(bench.code(), 1);
        assert_eq!(guards(&bench), [false, true, true, false]);
    }
}

#[test]
fn the_guard_of_another_drive_is_not_looked_at() {
    for operation in RECORDING {
        let mut bench = Bench::new();
        for number in 0..4 {
            bench.says(&format!("S,{number},22"), "0,-,,");
            bench.store(0x38 | number, SET);
        }
        bench.store(0x3A, CLEAR);
        assert!(starts(&mut bench, operation), "{operation:?}");
    }
}

#[test]
fn it_starts_clear() {
    assert_eq!(Machine::fresh().drives.map(|drive| drive.guard), [false; 4]);
    for operation in RECORDING {
        // a fresh gap is lost, and nothing is refused
        let mut bench = Bench::ready();
        assert_eq!(bench.0.machine.drives[0].gap, Gap::Lost);
        assert!(starts(&mut bench, operation), "{operation:?}");
    }
}

#[test]
fn a_reset_clears_it() {
    for by_store in [false, true] {
        let mut bench = Bench::new();
        for number in 0..4 {
            bench.says(&format!("S,{number},22"), "0,-,,");
            bench.store(0x38 | number, SET);
        }
        assert_eq!(guards(&bench), [true; 4]);
        if by_store {
            assert_eq!(bench.store(0x09, 0), "0,-,,");
        } else {
            bench.says("Z", "0,-,,");
        }
        assert_eq!(guards(&bench), [false; 4]);
        assert!(starts(&mut bench, Operation::Erase));
    }
}

#[test]
fn code_04_unless_the_gap_is_0_or_bot_warning_is_reported() {
    for operation in RECORDING {
        for (gap, without, bot_warning) in [
            (Gap::Proper, true, true),
            (Gap::Improper, false, true),
            (Gap::UnfinishedWrite, false, true),
            (Gap::Lost, false, true),
        ] {
            let named = format!("{operation:?} {gap:?}");
            assert_eq!(
                starts(&mut with_drive(0x22, gap, true), operation),
                without,
                "{named}"
            );
            assert_eq!(
                starts(&mut with_drive(0x32, gap, true), operation),
                bot_warning,
                "{named}"
            );
            // BOT and EOT warning are other bits
            assert_eq!(
                starts(&mut with_drive(0x23, gap, true), operation),
                without,
                "{named}"
            );
            assert_eq!(
                starts(&mut with_drive(0x62, gap, true), operation),
                without,
                "{named}"
            );
            // clear, it lets everything through
            assert!(
                starts(&mut with_drive(0x22, gap, false), operation),
                "{named}"
            );
        }
    }
}

#[test]
fn the_refused_store_is_one_with_code_04() {
    let mut bench = with_drive(0x22, Gap::Improper, true);
    bench.clear_changed();
    // an interrupt asked: primary with code 04 and retry, no GO, no order and no EOR
    assert_eq!(bench.store(0xD8, 1), "0,P,69200401226E,");
    bench.says("B,06", "0,-,,");
    for operation in RECORDING {
        assert_eq!(store(&mut bench, operation), "0,-,,");
        assert_eq!(bench.primary(), "20040122", "{operation:?}");
    }
    // secondary is set to 0 past the test only
    bench.0.machine.secondary = 600;
    store(&mut bench, Operation::Write);
    assert_eq!(bench.load(2), "00000258");
}

/// Document 01's conditions with those of the guard beside them, one sentence after the other.
fn passes(operation: Operation, drive: &Drive) -> bool {
    use Operation::*;
    let reported = |bit| drive.report & bit != 0;
    let recording = RECORDING.contains(&operation);
    let forward = matches!(
        operation,
        Read | SuppliedCount | SkipForward | SearchForward
    );
    // "check bytes have no test"
    if operation == CheckBytes {
        return true;
    }
    // "all that move tape need installed and selectable"
    if !reported(32) || !reported(2) {
        return false;
    }
    // "these, but for rewind and fast forward, need position known"
    if !matches!(operation, Rewind | FastForward) && reported(4) {
        return false;
    }
    // "forward moves, write, write mark and erase need no EOT"
    if (forward || recording) && reported(128) {
        return false;
    }
    // "reverse moves need no BOT"
    if matches!(operation, SkipReverse | SearchReverse) && reported(1) {
        return false;
    }
    // "write, write mark and erase need not protected"
    if recording && reported(8) {
        return false;
    }
    // "04 for write, write mark and erase where the gap is not 0 and report bit 16 is clear"
    !(drive.guard && recording && drive.gap as u8 != 0 && !reported(16))
}

#[test]
fn point_7_1_beside_the_other_conditions() {
    for operation in OPERATIONS {
        for gap in GAPS {
            for guard in [false, true] {
                for report in 0..=255 {
                    let state = drive(report, gap, guard);
                    assert_eq!(
                        starts(&mut with_drive(report, gap, guard), operation),
                        passes(operation, &state),
                        "{operation:?} {state:?}"
                    );
                }
            }
        }
    }
}

#[test]
fn point_7_1_tested_when_the_store_is_carried_out() {
    // The warning goes, or the tape and with it the gap, before GO is answered or before the data.
    for lost in ["S,0,22", "S,0,02"] {
        for after_go in [false, true] {
            let mut bench = with_drive(0x32, Gap::Improper, true);
            assert_eq!(store(&mut bench, Operation::Write), "0,A,47,");
            if !after_go {
                bench.says(lost, "0,-,,");
            }
            bench.says("B,06", "0,-,,");
            if after_go {
                bench.says(lost, "0,-,,");
            }
            assert!(bench.0.machine.drives[0].is_guarded());
            assert!(bench.line("D,5A").starts_with("0,M,500000010001,80005A"));
            assert!(matches!(bench.0.machine.phase, Phase::ResultAwaited(_)));
        }
    }
    // While the string is collected and ACK is offered, the test has not come yet.
    let mut bench = with_drive(0x22, Gap::Improper, true);
    bench.string(&[0x64, 0x60, 0, 0, 0, 0, 0]);
    bench.says("S,0,32", "0,-,,");
    bench.says("T", "0,M,600000010000,");
}

#[test]
fn point_7_2_a_report_without_32_loses_the_gap_and_leaves_the_guard() {
    for operation in RECORDING {
        let mut bench = with_drive(0x22, Gap::Proper, true);
        bench.says("S,0,02", "0,-,,");
        bench.says("S,0,22", "0,-,,");
        assert_eq!(bench.0.machine.drives[0], drive(0x22, Gap::Lost, true));
        assert!(!starts(&mut bench, operation), "{operation:?}");
    }
}

#[test]
fn point_7_2_a_store_like_track() {
    for value in [CLEAR, SET] {
        // with no tape in any drive, and position unknown
        let mut bench = Bench::new();
        bench.0.machine.secondary = 600;
        bench.0.machine.outcome = 0x2035_FE00;
        let before = bench.0.machine.clone();
        assert_eq!(bench.store(0x3B, value), "0,-,,");
        let mut after = before.clone();
        after.selected = 3;
        after.outcome = 0;
        after.drives[3].guard = value == SET;
        // code 0, nothing but the guard, the selection and the last store's bits
        assert_eq!(bench.0.machine, after);
        assert_eq!(bench.primary(), "83000004");
    }
}

#[test]
fn point_7_2_completion_and_interrupt() {
    for value in [CLEAR, SET] {
        let mut bench = Bench::ready();
        bench.clear_changed();
        assert_eq!(bench.store(0x30, 0x09), "0,-,,");
        assert!(bench.0.machine.enable);
        // a review, then enable cleared, and primary alone: bit 22 is clear
        bench.says("S,1,22", "0,-,,");
        assert_eq!(bench.store(0xB9, value), "0,P,6981000022CA,");
        assert!(!bench.0.machine.enable);
        bench.says("B,15", "0,P,6981000022CA,");
        bench.says("B,06", "0,-,,");
        assert_eq!(bench.primary(), "01000022");
        assert_eq!(bench.0.machine.drives[1].guard, value == SET);
        // none asked: the review alone
        bench.says("S,1,32", "0,-,,");
        assert_eq!(bench.store(0x39, value), "0,-,,");
        assert_eq!(bench.primary(), "81000032");
    }
}

#[test]
fn a_dropped_guard_store_sets_nothing() {
    let mut bench = Bench::ready();
    bench.string(&[0x64, 0x30, 0, 0, 0, SET as u8, 0]);
    bench.says("X", "0,-,,");
    assert_eq!(guards(&bench), [false; 4]);
}

#[test]
fn nothing_else_changes_it() {
    let whole = format!("{},0F0F0F", gcr_image(&record(5)));
    for guard in [false, true] {
        for operation in OPERATIONS {
            for &code in operation.listed() {
                let mut bench = with_drive(0x32, Gap::Proper, guard);
                store(&mut bench, operation);
                if operation == Operation::Write {
                    bench.says("B,06", "0,-,,");
                    bench.line("D,5A");
                }
                let mark = (operation.is_search() && code == 0) as u8;
                let image_and_marks = match (operation, code) {
                    (Operation::Read | Operation::SkipForward, 0 | 0x10..=0x12) => "0000,",
                    (Operation::SkipReverse, 0) => "8002,",
                    (Operation::SuppliedCount, 0) => &whole,
                    _ => ",",
                };
                let line = format!("R,{code:02X},{mark},0,{image_and_marks},0");
                assert!(bench.line(&line).starts_with("0,"), "{operation:?} {line}");
                assert_eq!(
                    guards(&bench),
                    [guard, false, false, false],
                    "{operation:?} {line}"
                );
            }
        }
        // every other control value, a no to GO, ticks, and reports of all kinds
        for value in (0..=255).filter(|&value| value != CLEAR && value != SET) {
            let mut bench = with_drive(0x32, Gap::Proper, guard);
            bench.store(0x38, value);
            assert_eq!(guards(&bench)[0], guard, "{value:X}");
        }
        let mut bench = with_drive(0x32, Gap::Proper, guard);
        store(&mut bench, Operation::Write);
        bench.says("B,15", "0,A,45,");
        bench.says("B,06", "0,-,,");
        for report in 0..=255 {
            bench.says(&format!("S,0,{report:02X}"), "0,-,,");
            bench.line("K");
            assert_eq!(guards(&bench)[0], guard, "{report:X}");
        }
    }
}

#[test]
fn the_gap_that_counts_is_the_one_now() {
    // From a bad gap a skip reverse, a rewind or a good read leads to a proper one.
    for (operation, result, starts_after) in [
        (Operation::SkipReverse, "R,00,0,0,8002,,0", true),
        (Operation::SkipReverse, "R,0C,0,0,,,0", true),
        (Operation::SkipReverse, "R,09,0,0,,,0", false),
        (Operation::SearchReverse, "R,00,1,0,,,0", true),
        (Operation::Rewind, "R,00,0,0,,,0", true),
        (Operation::Rewind, "R,06,0,0,,,0", false),
        (Operation::FastForward, "R,00,0,0,,,0", false),
        (Operation::Read, "R,00,0,0,0000,,0", true),
        (Operation::Read, "R,0A,0,0,,,0", false),
        (Operation::SkipForward, "R,00,1,0,,,0", true),
        (Operation::SkipForward, "R,10,0,0,0000,,0", false),
    ] {
        let mut bench = with_drive(0x22, Gap::UnfinishedWrite, true);
        store(&mut bench, operation);
        if bench.line(result).starts_with("0,A,45") {
            bench.says("B,06", "0,-,,");
        }
        assert_eq!(
            starts(&mut bench, Operation::Write),
            starts_after,
            "{operation:?} {result}"
        );
    }
    // A write that went wrong leaves a gap that the next one may not start from.
    let mut bench = with_drive(0x22, Gap::Proper, true);
    assert!(starts(&mut bench, Operation::WriteMark));
    bench.says("R,0B,0,0,,,0", "0,-,,");
    assert!(!starts(&mut bench, Operation::WriteMark));
    // An erase keeps its gap.
    let mut bench = with_drive(0x32, Gap::Improper, true);
    assert!(starts(&mut bench, Operation::Erase));
    bench.says("R,00,0,0,,,0", "0,-,,");
    bench.says("S,0,22", "0,-,,");
    assert!(!starts(&mut bench, Operation::Erase));
    // A new track has a proper gap at BOT, else a lost one; the same track keeps its gap.
    for (report, track, gap, starts_after) in [
        (0x23, 1, Gap::Improper, true),
        (0x22, 1, Gap::Proper, false),
        (0x23, 0, Gap::Improper, false),
        (0x22, 0, Gap::Proper, true),
    ] {
        let mut bench = with_drive(report, gap, true);
        bench.store(0x30, track);
        assert_eq!(
            starts(&mut bench, Operation::Write),
            starts_after,
            "{report:X} {track}"
        );
    }
    // A density and an enable keep it.
    for value in [0x08, 0x09, 0x0C, 0x0D] {
        let mut bench = with_drive(0x22, Gap::Proper, true);
        bench.store(0x30, value);
        assert!(starts(&mut bench, Operation::Write), "{value:X}");
    }
}
