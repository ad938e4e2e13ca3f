//! READING.md's points, by number, as far as a few lines can show them.

mod common;

use common::{gcr_image, hex, record, Bench};
use machine::lines;
use machine::machine::{Gap, Phase};

/// Drive 0 ready and GCR.
fn gcr() -> Bench {
    let mut bench = Bench::ready();
    assert_eq!(bench.store(0x30, 0x0D), "0,-,,");
    bench
}

/// A GCR read of the record with these marks, its EOR accepted.
#[track_caller]
fn gcr_read(bench: &mut Bench, data: &[u8], marks: &str, delivered: usize) {
    assert_eq!(bench.store(0x40, 0), "0,M,400000010000,");
    let line = format!("R,00,0,0,{},{marks},16384", gcr_image(data));
    bench.says(&line, &format!("0,A,45,{}", hex(&data[..delivered])));
    bench.says("B,06", "0,-,,");
}

#[track_caller]
fn check_bytes(bench: &mut Bench, expected: &[u8]) {
    assert_eq!(bench.store(0x40, 0x4000_0000), "0,-,,");
    bench.says("R,00,0,0,,,512", &format!("0,A,45,{}", hex(expected)));
    bench.says("B,06", "0,-,,");
}

#[test]
fn point_1_and_2_calls_out_of_phase() {
    let mut bench = Bench::ready();
    bench.talk("T > 2,-,,\nD, > 3,-,,\nR,00,0,0,,,0 > 3,-,,\nB,62 > 0,-,,\nK > 4,-,,\nX > 0,-,,");
    assert_eq!(bench.store(0x50, 1), "0,A,47,");
    bench.talk("D,AA > 3,-,,\nT > 2,-,,\nK > 4,-,,\nB,06 > 0,-,,");
    bench.talk(
        "B,06 > 2,-,,\nT > 2,-,,\nX > 2,-,,\nK > 4,-,,\nR,00,0,0,,,0 > 3,-,,\nS,3,22 > 0,-,,",
    );
    bench.says("D,AA", "0,M,500000000001,8000AA");
    bench.talk("B,06 > 2,-,,\nT > 2,-,,\nX > 2,-,,\nK > 4,-,,\nD,AA > 3,-,,\nS,0,22 > 0,-,,");
    bench.talk("S,4,22 > 5,-,,\nS,255,22 > 5,-,,\nZ > 0,-,,\nK > 0,-,,");
}

#[test]
fn point_3_lowest_refusal_first() {
    let mut bench = gcr();
    assert_eq!(bench.store(0x40, 0), "0,M,400000010000,");
    bench.says("R,06,1,4,AA,00,0", "7,-,,");
    bench.says("R,07,1,4,AA,00,0", "8,-,,");
    bench.says("R,07,0,4,AA,00,0", "8,-,,");
    bench.says("R,07,0,3,AA,00,0", "9,-,,");
    bench.says("R,07,0,3,,00,0", "9,-,,");
    let image = gcr_image(&[1]);
    bench.says(&format!("R,00,0,3,{image},0F0F,0"), "9,-,,");
    bench.says(&format!("R,00,0,3,{image},0F0F00,0"), "10,-,,");
    bench.says(&format!("R,00,0,3,{image},0A0F0F,0"), "10,-,,");
    bench.says(&format!("R,00,0,3,{image},0F100F,0"), "10,-,,");
    // A000 is 16,385 rotated, FFFF 65,535: two bytes are not their images.
    bench.says("R,00,0,0,A000,,0", "9,-,,");
    bench.says("R,00,0,0,FFFF,,0", "9,-,,");
    bench.says("R,20,0,0,,,0", "7,-,,");
    bench.says("R,00,0,0,,,0", "9,-,,");
    bench.says("R,00,1,0,,,0", "0,A,45,");
}

#[test]
fn point_6_and_7_bytes_that_count_for_nothing() {
    let mut bench = Bench::new();
    bench.clear_changed();
    bench.says("S,0,22", "0,-,,");
    bench.says("B,15", "0,-,,");
    assert!(!bench.0.machine.changed);
    bench.says("B,00", "0,A,15,");
    assert!(bench.0.machine.changed);
    // Inside a string it is a byte like others.
    bench.string(&[0x62, 0x15, 0x15]);
    for byte in [0x06, 0x62, 0x64, 0x15] {
        bench.says(&format!("B,{byte:02X}"), "0,-,,");
        assert_eq!(
            bench.0.machine.phase,
            machine::machine::Machine::fresh().phase
        );
        bench.string(&[0x62, 0, 0]);
    }
    bench.says("X", "0,-,,");
    bench.says("T", "2,-,,");
}

#[test]
fn point_8_five_sends_of_the_same_bytes() {
    let mut bench = Bench::new();
    bench.string(&[0x62, 0x10, 0]);
    bench.says("T", "0,P,6680000004E2,");
    bench.says("S,0,22", "0,-,,");
    for _ in 0..4 {
        bench.says("B,15", "0,P,6680000004E2,");
    }
    bench.says("B,15", "0,-,,");
    assert_eq!(bench.primary(), "80000022");
}

#[test]
fn point_9_broken_at_go_and_eor() {
    let mut bench = Bench::ready();
    assert_eq!(bench.store(0xD0, 1), "0,A,47,");
    bench.says("X", "0,A,45,");
    bench.says("X", "0,P,69A0050022EE,");
    bench.says("B,06", "0,-,,");
    assert_eq!(bench.code(), 5);
}

#[test]
fn point_10_and_11_reports_and_unnamed_drives() {
    let mut bench = Bench::ready();
    bench.says("S,2,40", "0,-,,");
    assert_eq!(bench.load(4), "22044004");
    assert_eq!(bench.store(0x38 | 2, 0x02), "0,-,,");
    assert_eq!(bench.primary(), "8A000040");
    // Bits 5-7 name nothing without bit 4.
    assert_eq!(bench.store(0x30 | 7, 0x0D), "0,-,,");
    assert_eq!(bench.primary(), "8A000140");
    bench.string(&[0x62, 0x19, 0]);
    bench.says("T", "0,P,668A000140AD,");
}

#[test]
fn point_12_and_13_resets() {
    let mut bench = gcr();
    assert_eq!(bench.store(0x38 | 3, 0x09), "0,-,,");
    assert_eq!(
        bench.store(0x8C, 0),
        format!("0,P,{},", sent(0x69, 0xA301_0004))
    );
    bench.says("B,06", "0,-,,");
    assert_eq!(bench.store(0x8A, 0), "0,-,,");
    assert_eq!(bench.primary(), "80000022");
    assert!(bench
        .0
        .machine
        .drives
        .iter()
        .all(|drive| drive.gap == Gap::Lost));
    assert_eq!(bench.load(4), "22040404");
}

fn sent(lead: u8, word: u32) -> String {
    hex(&machine::machine::sent_string(lead, word))
}

#[test]
fn point_14_decode_before_test() {
    let mut bench = Bench::new();
    for (address, operand, code) in [
        (0x40, 0x8000_0000, 2),
        (0x30, 0x07, 3),
        (0x30, 0x0E, 2),
        (0x30, 0x25, 2),
        (0x10, 0, 2),
        (0x20, 0, 2),
        (0x70, 0, 2),
        (0x60, 0, 4),
        // A count of any size is a write.
        (0x50, 16_384, 4),
        (0x50, 65_535, 4),
    ] {
        assert_eq!(bench.store(address, operand), "0,-,,");
        assert_eq!(bench.code(), code, "{address:02X} {operand:08X}");
    }
}

#[test]
fn tests_of_the_drive() {
    // Operation, its report bits that must be clear beside installed and selectable.
    let cases = [
        (0x40, 0, 0x84),
        (0x50, 0, 0x8C),
        (0x60, 0, 0x8C),
        (0x30, 0x10, 0),
        (0x30, 0x11, 0),
        (0x30, 0x20, 0x84),
        (0x30, 0x21, 0x05),
        (0x30, 0x22, 0x84),
        (0x30, 0x23, 0x05),
        (0x30, 0x24, 0x8C),
    ];
    for (address, operand, clear) in cases {
        for report in 0..=255u8 {
            let mut bench = Bench::new();
            bench.says(&format!("S,0,{report:02X}"), "0,-,,");
            let starts = report & 0x22 == 0x22 && report & clear == 0;
            let answer = bench.store(address, operand);
            assert_eq!(
                answer != "0,-,,",
                starts,
                "{address:02X} {operand:02X} {report:02X}"
            );
            if !starts {
                assert_eq!(bench.code(), 4);
            }
        }
    }
}

#[test]
fn point_15_orders_end_as_the_operand() {
    let mut bench = Bench::ready();
    assert_eq!(bench.store(0x30, 0xAABB_CC20), "0,M,20000000CC20,");
    bench.says("R,0C,0,0,,,0", "0,-,,");
    assert_eq!(bench.store(0x60, 0xAABB_CCDD), "0,M,60000000CCDD,");
    bench.says("R,00,0,0,,,0", "0,-,,");
    assert_eq!(bench.store(0x40, 0x00BB_CCDD), "0,M,40000000CCDD,");
}

#[test]
fn point_16_a_new_track_and_the_gap() {
    let mut bench = Bench::new();
    bench.says("S,0,01", "0,-,,");
    assert_eq!(bench.store(0x30, 0), "0,-,,");
    assert_eq!(bench.0.machine.drives[0].gap, Gap::Lost);
    assert_eq!(bench.store(0x30, 1), "0,-,,");
    assert_eq!(bench.0.machine.drives[0].gap, Gap::Proper);
    bench.says("S,0,02", "0,-,,");
    assert_eq!(bench.0.machine.drives[0].gap, Gap::Lost);
    bench.says("S,0,20", "0,-,,");
    assert_eq!(bench.store(0x30, 2), "0,-,,");
    assert_eq!(bench.0.machine.drives[0].gap, Gap::Lost);
}

#[test]
fn gaps_after_results() {
    let cases = [
        (0x60, 0x00, "00", Gap::Lost),
        (0x30, 0x10, "00", Gap::Proper),
        (0x30, 0x10, "06", Gap::Lost),
        (0x30, 0x11, "00", Gap::Lost),
        (0x30, 0x20, "0C", Gap::Improper),
        (0x30, 0x20, "17", Gap::Lost),
        (0x30, 0x21, "0C", Gap::Proper),
        (0x30, 0x21, "18", Gap::Lost),
        (0x30, 0x24, "00", Gap::Proper),
        (0x30, 0x24, "0B", Gap::UnfinishedWrite),
        (0x30, 0x24, "08", Gap::Lost),
    ];
    for (address, operand, code, gap) in cases {
        let mut bench = Bench::ready();
        assert!(bench.store(address, operand).starts_with("0,M,"));
        bench.says(&format!("R,{code},0,0,,,0"), "0,-,,");
        assert_eq!(bench.0.machine.drives[0].gap, gap, "{operand:02X} {code}");
    }
}

#[test]
fn point_17_and_25_secondary() {
    let mut bench = gcr();
    gcr_read(&mut bench, &record(300), "0F0F0F0F", 300);
    assert_eq!(bench.load(2), "0000012C");
    // Turned back before it starts: the count stays, its bit goes.
    assert_eq!(bench.store(0x4F, 0), "0,-,,");
    assert_eq!(bench.load(2), "0000012C");
    assert_eq!(bench.primary(), "A0010122");
    assert_eq!(bench.store(0x30, 0x21), "0,M,210000010021,");
    bench.says("R,0E,0,0,,,0", "0,-,,");
    assert_eq!(bench.load(2), "00000000");
    assert_eq!(bench.primary(), "A04E0122");
    // A write counts only with code 0.
    for (code, secondary) in [("00", "00000002"), ("14", "00000000")] {
        assert_eq!(bench.store(0x50, 2), "0,A,47,");
        bench.says("B,06", "0,-,,");
        assert!(bench.line("D,AABB").starts_with("0,M,500000010002,"));
        bench.says(&format!("R,{code},0,0,,,0"), "0,A,45,");
        bench.says("B,06", "0,-,,");
        assert_eq!(bench.load(2), secondary);
    }
}

#[test]
fn point_18_and_19_reviews_of_a_completion() {
    let mut bench = Bench::ready();
    bench.clear_changed();
    bench.says("S,1,22", "0,-,,");
    // Without EOR the review comes before the interrupt.
    assert_eq!(
        bench.store(0xF0, 0),
        format!("0,P,{},", sent(0x69, 0xA002_0022))
    );
    bench.says("B,06", "0,-,,");
    // With EOR it comes after its answer: a report taken back before is not seen.
    assert_eq!(bench.store(0x40, 0), "0,M,400000000000,");
    bench.says("S,1,62", "0,-,,");
    bench.says("R,00,0,0,0000,,0", "0,A,45,");
    bench.says("S,1,22", "0,-,,");
    bench.says("B,15", "0,-,,");
    assert!(!bench.0.machine.changed);
}

#[test]
fn point_20_and_21_secondary_then_primary() {
    let mut bench = Bench::ready();
    bench.clear_changed();
    assert_eq!(bench.store(0x30, 0x09), "0,-,,");
    assert_eq!(bench.store(0xC0, 0), "0,M,400000000000,");
    bench.says("R,00,0,0,8000AA,,1", "0,A,45,AA");
    bench.says("B,06", &format!("0,P,{},", sent(0x68, 1)));
    assert!(!bench.0.machine.enable);
    bench.says("S,0,62", "0,-,,");
    // The new report, but not yet the changed bit.
    let primary = sent(0x69, 0x0020_0262);
    bench.says("B,06", &format!("0,P,{primary},"));
    bench.says("S,0,22", "0,-,,");
    bench.says("B,15", &format!("0,P,{primary},"));
    bench.says("S,0,A2", "0,-,,");
    // Acceptance clears changed, then the review sets it again.
    bench.says("B,06", "0,-,,");
    assert!(bench.0.machine.changed);

    // A secondary that is given up: no primary, changed as it was.
    bench.says("S,0,22", "0,-,,");
    assert_eq!(bench.store(0xC0, 0), "0,M,400000000000,");
    bench.says("R,00,0,0,8000AA,,1", "0,A,45,AA");
    bench.says("B,06", &format!("0,P,{},", sent(0x68, 1)));
    bench.says("X", "0,-,,");
    bench.says("K", "0,-,,");
    assert!(bench.0.machine.changed);
}

#[test]
fn point_22_ticks() {
    let mut bench = Bench::ready();
    bench.clear_changed();
    assert_eq!(bench.store(0x30, 0x09), "0,-,,");
    bench.says("K", "0,-,,");
    bench.says("S,3,22", "0,-,,");
    bench.says("K", &format!("0,P,{},", sent(0x69, 0xC000_0022)));
    bench.says("X", "0,-,,");
    // Enable is gone, changed is not.
    bench.says("K", "0,-,,");
    assert_eq!(bench.primary(), "80000022");
    assert_eq!(bench.store(0x30, 0x09), "0,-,,");
    bench.says("K", &format!("0,P,{},", sent(0x69, 0xC000_0022)));
    bench.says("B,06", "0,-,,");
    assert_eq!(bench.primary(), "00000022");
}

#[test]
fn point_23_loads() {
    let mut bench = Bench::ready();
    bench.clear_changed();
    bench.says("S,1,22", "0,-,,");
    assert_eq!(bench.primary(), "00000022");
    assert_eq!(bench.primary(), "80000022");
    bench.clear_changed();
    bench.says("S,1,62", "0,-,,");
    bench.string(&[0x62, 0x60, 0]);
    bench.says("T", "0,-,,");
    assert_eq!(bench.primary(), "80000022");
    assert_eq!(bench.load(0), "0A200000");
    bench.string(&[0x62, 0xF7, 0]);
    bench.says("T", "0,-,,");
    bench.says("K", "0,-,,");
}

#[test]
fn point_24_tape_gone() {
    let mut bench = Bench::ready();
    assert_eq!(bench.store(0x40, 0), "0,M,400000000000,");
    bench.says("S,0,04", "0,-,,");
    bench.says("R,00,0,0,,,0", "9,-,,");
    bench.says("R,00,0,2,8000AA,,0", "0,A,45,");
    bench.says("B,06", "0,-,,");
    // Motion 11, code 7, bit 20, retry; nothing delivered and no bit 17.
    assert_eq!(bench.primary(), "A0670804");
    assert_eq!(bench.load(2), "00000000");
    // A mark goes unused; bit 18 of the data call stays.
    bench.says("S,0,22", "0,-,,");
    assert_eq!(bench.store(0x30, 0x22), "0,M,220000000022,");
    bench.says("S,0,04", "0,-,,");
    bench.says("R,00,1,0,,,0", "0,-,,");
    assert_eq!(bench.primary(), "A0670004");
    bench.says("S,0,22", "0,-,,");
    assert_eq!(bench.store(0x50, 2), "0,A,47,");
    bench.says("B,06", "0,-,,");
    bench.says("D,AA", "0,M,500000000002,0001AA00");
    bench.says("S,0,04", "0,-,,");
    bench.says("R,00,0,0,,,0", "0,A,45,");
    bench.says("B,06", "0,-,,");
    assert_eq!(bench.primary(), "A0672004");
    // Check bytes move no tape.
    check_bytes(&mut bench, &[0; 512]);
    assert_eq!(bench.code(), 0);
}

#[test]
fn point_26_and_27_correction_is_cleared_and_kept() {
    let mut bench = gcr();
    let data = record(600);
    let image = gcr_image(&data);
    let checks: Vec<u8> = (0..512)
        .map(|at| u8::from_str_radix(&image[image.len() - 1024 + 2 * at..][..2], 16).unwrap())
        .collect();
    gcr_read(&mut bench, &data, "06070405030F".get(..10).unwrap(), 512);
    assert_eq!(bench.load(3), "71016102");
    assert_eq!(bench.load(5), "00004100");
    check_bytes(&mut bench, &checks);
    // MFM touches nothing.
    assert_eq!(bench.store(0x30, 0x0C), "0,-,,");
    assert_eq!(bench.store(0x40, 0), "0,M,400000000000,");
    bench.says("R,00,0,0,8000AA,,1", "0,A,45,AA");
    bench.says("B,06", "0,-,,");
    check_bytes(&mut bench, &checks);
    assert_eq!(bench.load(3), "71016102");
    // Z keeps the check store (43); tertiary is the machine's.
    bench.says("Z", "0,-,,");
    check_bytes(&mut bench, &checks);
    assert_eq!(bench.load(3), "00000000");
    // A mark clears all three in GCR.
    assert_eq!(bench.store(0x30, 0x0D), "0,-,,");
    assert_eq!(bench.store(0x30, 0x20), "0,M,200000010020,");
    bench.says("R,00,1,0,,,0", "0,-,,");
    check_bytes(&mut bench, &[0; 512]);
}

#[test]
fn point_28_and_29_the_stop() {
    // 2 and 0 are bad: the scan stops at 0, and check 1 is never looked at.
    let mut bench = gcr();
    gcr_read(&mut bench, &record(600), "010F020304", 512);
    assert_eq!(bench.load(3), "00001102");
    assert_eq!(bench.load(5), "00002100");
    // The stop is on a check blockette: all is delivered.
    gcr_read(&mut bench, &record(600), "0F0F020F04", 600);
    assert_eq!(bench.load(3), "00002100");
    assert_eq!(bench.load(5), "00004200");
    assert_eq!(bench.code(), 0x16);
}

#[test]
fn point_30_an_empty_record() {
    let mut bench = gcr();
    gcr_read(&mut bench, &record(3), "0F0F0F", 3);
    gcr_read(&mut bench, &[], "", 0);
    assert_eq!(bench.primary(), "80200322");
    assert_eq!(bench.load(2), "00000000");
    check_bytes(&mut bench, &[0; 512]);
    assert_eq!(bench.store(0x50, 0), "0,A,47,");
    bench.says("B,06", "0,-,,");
    bench.says("D,", "0,M,500000010000,0000");
    bench.says("R,00,0,0,,,0", "0,A,45,");
}

#[test]
fn point_32_and_33_flags() {
    let mut bench = Bench::ready();
    assert_eq!(bench.store(0x30, 0x10), "0,M,100000000010,");
    bench.says("R,00,0,3,,,0", "0,-,,");
    assert_eq!(bench.primary(), "A0401822");
    assert_eq!(bench.store(0x30, 0x20), "0,M,200000000020,");
    bench.says("R,00,0,0,8000AA,,0", "0,-,,");
    assert_eq!(bench.primary(), "80200222");
    assert_eq!(bench.store(0x40, 0), "0,M,400000000000,");
    bench.says("R,11,0,0,0001AABB,,1", "0,A,45,AA");
    bench.says("B,06", "0,-,,");
    assert_eq!(bench.primary(), "A0314222");
    assert_eq!(bench.store(0x40, 0x4000_0000), "0,-,,");
    bench.says("R,00,0,0,,,3", "0,A,45,000000");
    bench.says("B,06", "0,-,,");
    assert_eq!(bench.primary(), "A0004022");
}

#[test]
fn point_34_underflow() {
    let mut bench = Bench::ready();
    for (thrown_away, host, image, underflow) in [
        (0, "", "0000", false),
        (2, "AA", "0000", true),
        (2, "AABB", "0000", false),
    ] {
        assert_eq!(bench.store(0x50, thrown_away << 16), "0,A,47,");
        bench.says("B,06", "0,-,,");
        bench.says(&format!("D,{host}"), &format!("0,M,500000000000,{image}"));
        bench.says("R,00,0,0,,,0", "0,A,45,");
        bench.says("B,06", "0,-,,");
        let primary = if underflow { "A0202222" } else { "80200222" };
        assert_eq!(bench.primary(), primary);
    }
    // More than needed is not looked at; less is filled with zeros.
    assert_eq!(bench.store(0x50, 0x0001_0002), "0,A,47,");
    bench.says("B,06", "0,-,,");
    bench.says("D,AABBCCDD", "0,M,500000000002,0001BBCC");
}

#[test]
fn point_35_reverse_skips() {
    let mut bench = gcr();
    assert_eq!(bench.store(0x30, 0x21), "0,M,210000010021,");
    bench.says("R,00,0,0,,,0", "9,-,,");
    bench.says("R,00,0,0,800200,,0", "9,-,,");
    bench.says("R,00,0,0,8002,0F,0", "9,-,,");
    bench.says("R,00,0,0,2000,,0", "0,-,,");
    assert_eq!(bench.load(2), "00004000");
    assert_eq!(bench.primary(), "80400322");
    assert_eq!(bench.store(0x30, 0x0C), "0,-,,");
    assert_eq!(bench.store(0x30, 0x21), "0,M,210000000021,");
    bench.says("R,00,0,0,8002,,0", "9,-,,");
    bench.says("R,00,0,0,,,0", "0,-,,");
    assert_eq!(bench.primary(), "80400022");
}

#[test]
fn point_38_to_42_lines() {
    let run = |text: &[u8]| String::from_utf8(lines::run(text, None)).unwrap();
    assert_eq!(run(b""), "");
    assert_eq!(run(b"\n"), "?,-,,\n");
    assert_eq!(run(b"K"), "0,-,,\n");
    assert_eq!(run(b"K\n"), "0,-,,\n");
    assert_eq!(run(b"K\n\nK"), "0,-,,\n?,-,,\n0,-,,\n");
    assert_eq!(run(b"K\r\n"), "?,-,,\n");
    let unreadable = [
        "T,",
        "D",
        "k",
        " K",
        "K ",
        "B,6a",
        "B,6",
        "B,",
        "S,256,22",
        "S,,22",
        "S,-1,22",
        "S,0,2",
        "D,A",
        "R,00,0,0,,,16385",
        "R,00,2,0,,,0",
        "R,00,0,256,,,0",
        "R,00,,0,,,0",
        "R,00,0,0,,0f,0",
        "R,,0,0,,,0",
        "R,00,0,0,,,",
        "R,00,0,0,,,0,",
    ];
    for line in unreadable {
        assert_eq!(lines::read(line.as_bytes()), None, "{line}");
    }
    let readable = [
        "D,",
        "S,0255,00",
        "S,00000000000000000000000,FF",
        "R,FF,01,0255,,,016384",
    ];
    for line in readable {
        assert!(lines::read(line.as_bytes()).is_some(), "{line}");
    }
    let long = |bytes: usize| "00".repeat(bytes);
    let reads = |line: String| lines::read(line.as_bytes()).is_some();
    assert!(reads(format!("D,{}", long(16_384))) && !reads(format!("D,{}", long(16_385))));
    let image = |bytes| format!("R,00,0,0,{},,0", long(bytes));
    assert!(reads(image(16_898)) && !reads(image(16_899)));
    let marks = |bytes| format!("R,00,0,0,,{},0", long(bytes));
    assert!(reads(marks(66)) && !reads(marks(67)));
    let longest = format!("R,10,0,255,{},{},16384", long(16_898), long(66));
    assert_eq!(longest.len(), 33_946);
    assert!(reads(longest));
}

/// The longest that a line brings in GCR.
#[test]
fn a_record_of_16384_bytes() {
    let mut bench = gcr();
    let data = record(16_384);
    let marks = "0F".repeat(66);
    gcr_read(&mut bench, &data, &marks, 16_384);
    assert_eq!(bench.store(0x50, 16_384), "0,A,47,");
    bench.says("B,06", "0,-,,");
    bench.says(
        &format!("D,{}", hex(&data)),
        &format!("0,M,500000014000,{}", gcr_image(&data)),
    );
    assert!(matches!(bench.0.machine.phase, Phase::ResultAwaited(_)));
}
