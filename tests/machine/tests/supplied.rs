//! Reading with a supplied count: document 02's first wish, by the points of READING-02.md.

mod common;

use common::{gcr_image, hex, record, Bench};
use machine::machine::{primary, Gap, Machine, Operation, Phase, Refusal, Reported, OPERATIONS};
use machine::records::Density;

/// Drive 0 ready and GCR.
fn gcr() -> Bench {
    let mut bench = Bench::ready();
    assert_eq!(bench.store(0x30, 0x0D), "0,-,,");
    bench
}

/// The store, to drive 0, and its order.
#[track_caller]
fn supply(bench: &mut Bench, count: u32) {
    let answer = bench.store(0x48, 0x8000_0000 | count);
    assert_eq!(answer, format!("0,M,80000001{count:04X},"));
}

/// The store and a result that is taken, its EOR accepted; gives the bytes delivered.
#[track_caller]
fn read(bench: &mut Bench, count: u32, result: &str) -> String {
    supply(bench, count);
    let answer = bench.line(result);
    bench.says("B,06", "0,-,,");
    answer.strip_prefix("0,A,45,").unwrap().to_string()
}

/// A result with code 0 and much space. The image tells another count than any that is supplied.
fn whole(data: &[u8], marks: &str) -> String {
    format!("R,00,0,0,DEAD{},{marks},16384", &gcr_image(data)[4..])
}

/// What is delivered of a record: zeros for its first blockette, the rest as it is.
fn torn(data: &[u8], delivered: usize) -> String {
    let mut bytes = data[..delivered].to_vec();
    bytes.iter_mut().take(256).for_each(|byte| *byte = 0);
    hex(&bytes)
}

#[track_caller]
fn check_bytes(bench: &mut Bench, expected: &str) {
    assert_eq!(bench.store(0x40, 0x4000_0000), "0,-,,");
    bench.says("R,00,0,0,,,512", &format!("0,A,45,{expected}"));
    bench.says("B,06", "0,-,,");
}

fn zeros(bytes: usize) -> String {
    "00".repeat(bytes)
}

/// The last 512 bytes of the record's image.
fn checks(data: &[u8]) -> String {
    let image = gcr_image(data);
    image[image.len() - 1024..].to_string()
}

#[test]
fn twelve_operations() {
    assert_eq!(OPERATIONS.len(), 12);
    assert_eq!(Operation::SuppliedCount.order(), 0x80);
}

#[test]
fn point_1_1_gcr_of_the_selected_drive() {
    let mut bench = Bench::new();
    bench.talk("S,0,22 > 0,-,,\nS,1,22 > 0,-,,\nS,2,22 > 0,-,,");
    assert_eq!(bench.store(0x39, 0x0D), "0,-,,");
    // Drive 2 is MFM, though drive 1, selected before, is not; it is selected now.
    assert_eq!(bench.store(0x4A, 0x8000_0005), "0,-,,");
    assert_eq!(bench.primary(), "A2020022");
    // Drive 1 is GCR, though drive 2 is not.
    assert_eq!(bench.store(0x49, 0x8000_0005), "0,M,800100010005,");
    bench.says("R,08,0,0,,,0", "0,A,45,");
    bench.says("B,06", "0,-,,");
    // Not named: drive 1 again, whatever the low bits are.
    assert_eq!(bench.store(0x42, 0x8000_0005), "0,M,800100010005,");
    bench.says("Z", "0,-,,");
    assert_eq!(bench.store(0x49, 0x8000_0005), "0,-,,");
    assert_eq!(bench.primary(), "A1020022");
}

#[test]
fn point_1_1_codes_before_the_order() {
    for (report, density, address, count, code) in [
        ("22", 0x0C, 0x40, 5, 0x02),
        ("22", 0x0C, 0x40, 0, 0x02),
        ("22", 0x0C, 0x40, 65_535, 0x02),
        // 02 before 04.
        ("04", 0x0C, 0x40, 5, 0x02),
        ("A2", 0x0C, 0x40, 16_385, 0x02),
        ("04", 0x0D, 0x40, 16_384, 0x04),
        ("A2", 0x0D, 0x40, 65_535, 0x04),
        ("04", 0x0D, 0x40, 0, 0x04),
        // 01 before 02.
        ("22", 0x0D, 0x4C, 5, 0x01),
        ("22", 0x0C, 0x4F, 16_385, 0x01),
    ] {
        let mut bench = Bench::new();
        bench.says(&format!("S,0,{report}"), "0,-,,");
        assert_eq!(bench.store(0x30, density), "0,-,,");
        // No order, no EOR.
        assert_eq!(bench.store(address, 0x8000_0000 | count), "0,-,,");
        let primary = u32::from_str_radix(&bench.primary(), 16).unwrap();
        let shown = format!("{report} {density:02X} {address:02X} {count} {primary:08X}");
        // Retry and the code, and nothing else of bits 2 and 8-22.
        assert_eq!(primary & 0x20FF_FE00, 0x2000_0000 | code << 16, "{shown}");
        bench.says("K", "0,-,,");
    }
    // No count is too large.
    for count in [16_384, 16_385, 32_768, 65_535] {
        supply(&mut gcr(), count);
    }
}

#[test]
fn point_1_2_listed_codes() {
    for code in 0..=255u8 {
        let listed = matches!(code, 0 | 7 | 8 | 9 | 0x0A | 0x13 | 0x14 | 0x17);
        let mut bench = gcr();
        supply(&mut bench, 5);
        let image = gcr_image(&record(5));
        let line = match code {
            0 => format!("R,00,0,0,{image},0F0F0F,5"),
            _ => format!("R,{code:02X},0,0,,,5"),
        };
        let answer = bench.line(&line);
        if !listed {
            assert_eq!(answer, "7,-,,", "{code:02X}");
            // Nor with an image, as a read has it.
            bench.says(&format!("R,{code:02X},0,0,{image},0F0F0F,5"), "7,-,,");
            continue;
        }
        assert!(answer.starts_with("0,A,45,"), "{code:02X} {answer}");
        bench.says("B,06", "0,-,,");
        let primary = u32::from_str_radix(&bench.primary(), 16).unwrap();
        let last = if code == 0 { 0x15 } else { code as u32 };
        let motion = if matches!(code, 7 | 8 | 9 | 0x17) {
            3
        } else {
            1
        };
        // Retry with each; bits 21 and 22 with each.
        let expected = 0xA000_0722 | motion << 21 | last << 16;
        assert_eq!(primary, expected, "{code:02X} {primary:08X}");
        let gap = if motion == 3 {
            Gap::Lost
        } else {
            Gap::Improper
        };
        assert_eq!(bench.0.machine.drives[0].gap, gap, "{code:02X}");
    }
}

#[test]
fn point_1_2a_first_and_second_operand_byte() {
    for byte in 0..=255u8 {
        let mut bench = gcr();
        let answer = bench.store(0x40, (byte as u32) << 24 | 5);
        let expected = match byte {
            0x00 => "0,M,400000010005,",
            0x80 => "0,M,800000010005,",
            // Check bytes, or code 02.
            _ => "0,-,,",
        };
        assert_eq!(answer, expected, "{byte:02X}");
        let awaited = matches!(bench.0.machine.phase, Phase::ResultAwaited(_));
        assert_eq!(awaited, matches!(byte, 0 | 0x40 | 0x80), "{byte:02X}");
        let mut bench = gcr();
        let answer = bench.store(0x40, 0x8000_0005 | (byte as u32) << 16);
        assert_eq!(answer, "0,M,800000010005,", "{byte:02X}");
    }
    // The order goes out for count 0 too, and bears track and drive.
    let mut bench = Bench::new();
    bench.says("S,3,22", "0,-,,");
    assert_eq!(bench.store(0x3B, 0x0D), "0,-,,");
    assert_eq!(bench.store(0x3B, 0x02), "0,-,,");
    assert_eq!(bench.store(0x4B, 0x8000_0000), "0,M,800302010000,");
}

#[test]
fn conditions_of_a_read() {
    for report in 0..=255u8 {
        let mut bench = Bench::new();
        bench.says(&format!("S,0,{report:02X}"), "0,-,,");
        assert_eq!(bench.store(0x30, 0x0D), "0,-,,");
        let starts = report & 0x22 == 0x22 && report & 0x84 == 0;
        let read = bench.store(0x40, 0);
        assert_eq!(read.starts_with("0,M,"), starts, "{report:02X}");
        if starts {
            bench.says("R,07,0,0,,,0", "0,A,45,");
            bench.says("B,06", "0,-,,");
        }
        let supplied = bench.store(0x40, 0x8000_0001);
        assert_eq!(supplied.starts_with("0,M,"), starts, "{report:02X}");
        if !starts {
            assert_eq!(bench.code(), 4, "{report:02X}");
        }
    }
}

#[test]
fn calls_while_its_result_is_awaited() {
    let mut bench = gcr();
    supply(&mut bench, 1);
    bench.talk("B,06 > 2,-,,\nT > 2,-,,\nX > 2,-,,\nK > 4,-,,\nD,AA > 3,-,,\nS,3,22 > 0,-,,");
    bench.talk("S,4,22 > 5,-,,\nZ > 0,-,,\nR,08,0,0,,,0 > 3,-,,\nK > 0,-,,");
}

#[test]
fn point_1_3_lengths_by_the_supplied_count() {
    for (count, blockettes) in [(1, 1), (255, 1), (256, 1), (257, 2), (600, 3), (16_384, 64)] {
        let mut bench = gcr();
        supply(&mut bench, count);
        let right = 2 + 256 * (blockettes + 2);
        let line = |image: usize, marks: usize| {
            format!("R,00,0,0,{},{},0", zeros(image), "0F".repeat(marks))
        };
        for image in [0, 2, right - 256, right - 1, right + 1, right + 256] {
            // Longer than the longest, a line is unreadable.
            let answer = if image > 16_898 { "?,-,," } else { "9,-,," };
            bench.says(&line(image, blockettes + 2), answer);
        }
        for marks in [0, 1, blockettes + 1, blockettes + 3] {
            let answer = if marks > 66 { "?,-,," } else { "9,-,," };
            bench.says(&line(right, marks), answer);
        }
        // A code that brings no image.
        bench.says(&format!("R,13,0,0,{},,0", zeros(right)), "9,-,,");
        bench.says("R,14,0,0,,0F,0", "9,-,,");
        bench.says("R,08,0,0,0000,,0", "9,-,,");
        bench.says(&line(right, blockettes + 2), "0,A,45,");
    }
}

#[test]
fn point_1_3_its_own_count_is_not_looked_at() {
    let data = record(600);
    let image = gcr_image(&data);
    // 600, 0, 600 not rotated, 16,385, 65,535, 599, 856.
    for own_count in ["012C", "0000", "0258", "A000", "FFFF", "812B", "01AC"] {
        let mut bench = gcr();
        let line = format!("R,00,0,0,{own_count}{},0F0F0F0F0F,600", &image[4..]);
        assert_eq!(read(&mut bench, 600, &line), torn(&data, 600));
        assert_eq!(bench.load(2), "00000258", "{own_count}");
        assert_eq!(bench.primary(), "A0350722", "{own_count}");
        // It does not help a record of other lengths.
        supply(&mut bench, 601);
        assert_eq!(bench.line(&line), "0,A,45,".to_string() + &torn(&data, 600));
        bench.says("B,06", "0,-,,");
        // 601 bytes have three blockettes too; the space of 600 was too short.
        assert_eq!(bench.primary(), "A0354722");
        supply(&mut bench, 512);
        bench.says(&line, "9,-,,");
    }
}

#[test]
fn point_1_3_all_marks_are_legal() {
    let data = record(600);
    for place in 0..5 {
        for mark in 0..=255u8 {
            let mut bench = gcr();
            supply(&mut bench, 600);
            let mut marks = [0x0F; 5];
            marks[place] = mark;
            let answer = bench.line(&whole(&data, &hex(&marks)));
            let legal = matches!(mark, 1..=9 | 15);
            assert_eq!(answer.starts_with("0,A,45,"), legal, "{place} {mark}");
            if !legal {
                assert_eq!(answer, "10,-,,", "{place} {mark}");
            }
        }
    }
}

#[test]
fn point_1_3_and_1_8_lowest_refusal_first() {
    let mut bench = gcr();
    supply(&mut bench, 1);
    let image = gcr_image(&[1]);
    bench.says(&format!("R,10,1,4,{image},00,0"), "7,-,,");
    bench.says(&format!("R,00,1,0,{image},00,0"), "8,-,,");
    bench.says(&format!("R,00,0,4,{image},00,0"), "8,-,,");
    bench.says(&format!("R,00,0,3,{image},00,0"), "9,-,,");
    bench.says(&format!("R,00,0,3,{image},0F0F,0"), "9,-,,");
    bench.says(&format!("R,00,0,3,{image},000F0F,0"), "10,-,,");
    // The mark flag with each code, with and without an image.
    for code in ["00", "07", "08", "09", "0A", "13", "14", "17"] {
        bench.says(&format!("R,{code},1,0,,,0"), "8,-,,");
        bench.says(&format!("R,{code},1,0,{image},0F0F0F,0"), "8,-,,");
    }
    bench.says(&format!("R,00,0,3,{image},0F0F0F,0"), "0,A,45,");
    // Tape or no tape.
    bench.says("B,06", "0,-,,");
    supply(&mut bench, 1);
    bench.says("S,0,04", "0,-,,");
    bench.says("R,10,0,0,,,0", "7,-,,");
    bench.says("R,00,1,0,,,0", "8,-,,");
    bench.says("R,00,0,0,,,0", "9,-,,");
    bench.says(&format!("R,00,0,0,{image},0F0F0A,0"), "10,-,,");
    bench.says(&format!("R,00,0,0,{image},0F0F09,0"), "0,A,45,");
}

#[test]
fn point_1_4_the_first_blockette_is_torn() {
    // Its number is n - 1: tertiary has 01 and that number in the half of its parity.
    for (count, tertiary) in [
        (1, "00000100"),
        (100, "00000100"),
        (256, "00000100"),
        (257, "01010000"),
        (512, "01010000"),
        (600, "00000102"),
        (16_384, "013F0000"),
    ] {
        let data = record(count);
        let others = "0F".repeat(count.div_ceil(256) + 1);
        // Whichever legal mark came for it.
        for mark in (1..=9).chain([15]) {
            let mut bench = gcr();
            let line = whole(&data, &format!("{mark:02X}{others}"));
            let delivered = read(&mut bench, count as u32, &line);
            assert_eq!(delivered, torn(&data, count), "{count} {mark}");
            assert_eq!(bench.load(3), tertiary, "{count} {mark}");
            assert_eq!(bench.load(5), "00000000");
            assert_eq!(bench.primary(), "A0350722", "{count} {mark}");
        }
    }
}

#[test]
fn point_1_4_errors_beside_it() {
    // Count, marks in tape order, code, tertiary, quintary, bytes delivered.
    let cases = [
        // 2 1 0, check 1, check 0: one odd one beside it.
        (600, "0F070F0F0F", 0x15, "71010102", "00000000", 600),
        (600, "0F0F0F070F", 0x15, "72010102", "00000000", 600),
        // The second even one: data, check.
        (600, "0F0F040F0F", 0x16, "00000102", "00004100", 512),
        (600, "060F040F0F", 0x16, "00000102", "00004100", 512),
        (600, "0F0F0F0F03", 0x16, "00000102", "00003200", 600),
        // An odd one before the stop is told, one after it is not.
        (600, "0F09040F0F", 0x16, "91010102", "00004100", 512),
        (600, "0F0F04090F", 0x16, "00000102", "00004100", 512),
        // Two odd ones: the scan stops at the second, after one even.
        (600, "0F090F080F", 0x16, "91010102", "00008201", 600),
        // 4 3 2 1 0: the stop is at 1, and at 2, which comes first.
        (1030, "0F030F020F0F0F", 0x16, "31030104", "00002101", 768),
        (1030, "0F0305020F0F0F", 0x16, "31030104", "00005102", 512),
        // 1 0: the torn one is odd.
        (300, "0F060F0F", 0x15, "01016100", "00000000", 300),
        (300, "0F0F060F", 0x16, "01010000", "00006201", 300),
        (300, "0F0F0F06", 0x15, "01016200", "00000000", 300),
        // 0 alone.
        (5, "0F020F", 0x15, "22010100", "00000000", 5),
        (5, "0F0F02", 0x16, "00000100", "00002200", 5),
        (5, "090902", 0x16, "92010100", "00002200", 5),
    ];
    for (count, marks, code, tertiary, quintary, delivered) in cases {
        let mut bench = gcr();
        let data = record(count);
        let bytes = read(&mut bench, count as u32, &whole(&data, marks));
        assert_eq!(bytes, torn(&data, delivered), "{count} {marks}");
        assert_eq!(bench.load(3), tertiary, "{count} {marks}");
        assert_eq!(bench.load(5), quintary, "{count} {marks}");
        assert_eq!(bench.primary(), format!("A0{:02X}0722", 0x20 | code));
        assert_eq!(bench.load(2), format!("{count:08X}"), "{count} {marks}");
        check_bytes(&mut bench, &checks(&data));
    }
}

#[test]
fn point_1_5_correction_is_cleared_and_kept() {
    let data = record(600);
    let fill = |bench: &mut Bench| {
        read(bench, 600, &whole(&data, "0F09040F0F"));
        assert_eq!(bench.load(3), "91010102");
        assert_eq!(bench.load(5), "00004100");
        check_bytes(bench, &checks(&data));
    };
    // Each code but 0 clears all three, and so does a supplied 0.
    for code in ["07", "08", "09", "0A", "13", "14", "17"] {
        for count in [0, 600] {
            let mut bench = gcr();
            fill(&mut bench);
            read(&mut bench, count, &format!("R,{code},0,0,,,0"));
            assert_eq!(bench.load(3), "00000000", "{code} {count}");
            assert_eq!(bench.load(5), "00000000", "{code} {count}");
            check_bytes(&mut bench, &zeros(512));
        }
    }
    let mut bench = gcr();
    fill(&mut bench);
    read(&mut bench, 0, "R,00,0,0,,,0");
    assert_eq!(bench.load(3), "00000000");
    check_bytes(&mut bench, &zeros(512));
    // A tape that is gone too.
    fill(&mut bench);
    supply(&mut bench, 600);
    bench.says("S,0,04", "0,-,,");
    bench.says(&whole(&data, "0F09040F0F"), "0,A,45,");
    bench.says("B,06", "0,-,,");
    assert_eq!(bench.load(3), "00000000");
    assert_eq!(bench.load(5), "00000000");
    check_bytes(&mut bench, &zeros(512));
    // What ends before the order, and what is refused, clears nothing.
    bench.says("S,0,22", "0,-,,");
    fill(&mut bench);
    assert_eq!(bench.store(0x40, 0x8100_0005), "0,-,,");
    assert_eq!(bench.load(3), "91010102");
    check_bytes(&mut bench, &checks(&data));
    supply(&mut bench, 600);
    bench.says("R,00,1,0,,,0", "8,-,,");
    bench.says("Z", "0,-,,");
    check_bytes(&mut bench, &checks(&data));
    // The check blockettes are taken as they are, right or wrong, good or bad.
    let mut bench = gcr();
    let any = hex(&record(2 + 256 + 512)[..]);
    read(&mut bench, 7, &format!("R,00,0,0,{any},0F0305,7"));
    check_bytes(&mut bench, &any[2 * 258..]);
}

#[test]
fn point_1_6_zero_supplied() {
    let mut bench = gcr();
    supply(&mut bench, 0);
    for line in [
        "R,00,0,0,0000,,0",
        "R,00,0,0,00,,0",
        "R,00,0,0,,0F,0",
        "R,00,0,0,,0F0F,0",
        "R,13,0,0,0000,,0",
    ] {
        bench.says(line, "9,-,,");
    }
    bench.says(&whole(&record(1), "0F0F0F"), "9,-,,");
    bench.says("R,00,1,0,,,0", "8,-,,");
    // Motion 01, gap 1, retry, and neither bit 21 nor 22; no space is too short for no bytes.
    bench.says("R,00,0,0,,,0", "0,A,45,");
    bench.says("B,06", "0,-,,");
    assert_eq!(bench.primary(), "A0330122");
    assert_eq!(bench.0.machine.drives[0].gap, Gap::Improper);
    // Late flags count as ever.
    assert_eq!(read(&mut bench, 0, "R,00,0,3,,,512"), "");
    assert_eq!(bench.primary(), "A0331922");
    // Other codes stay as they are.
    for (code, primary) in [
        ("07", "A0670122"),
        ("0A", "A02A0122"),
        ("13", "A0330122"),
        ("14", "A0340122"),
        ("17", "A0770122"),
    ] {
        assert_eq!(read(&mut bench, 0, &format!("R,{code},0,0,,,9")), "");
        assert_eq!(bench.primary(), primary);
        assert_eq!(bench.load(2), "00000000");
    }
    // No tape: 7.
    supply(&mut bench, 0);
    bench.says("S,0,02", "0,-,,");
    bench.says("R,00,0,0,,,0", "0,A,45,");
    bench.says("B,06", "0,-,,");
    assert_eq!(bench.primary(), "A0670102");
    assert_eq!(bench.0.machine.drives[0].gap, Gap::Lost);
}

#[test]
fn point_1_7_the_count_is_told_whatever_the_code() {
    let mut bench = gcr();
    for code in ["07", "08", "09", "0A", "13", "14", "17"] {
        assert_eq!(read(&mut bench, 0x1234, &format!("R,{code},0,0,,,0")), "");
        let primary = u32::from_str_radix(&bench.primary(), 16).unwrap();
        assert_eq!(primary & 0xFF00, 0x0700, "{code} {primary:08X}");
        assert_eq!(bench.load(2), "00001234", "{code}");
        // With 0 supplied the old count goes, past the test.
        read(&mut bench, 0, &format!("R,{code},0,0,,,0"));
        let primary = u32::from_str_radix(&bench.primary(), 16).unwrap();
        assert_eq!(primary & 0xFF00, 0x0100, "{code} {primary:08X}");
        assert_eq!(bench.load(2), "00000000", "{code}");
    }
    // Where 7 replaced the code.
    supply(&mut bench, 0x1234);
    bench.says("S,0,04", "0,-,,");
    bench.says("R,14,0,0,,,0", "0,A,45,");
    bench.says("B,06", "0,-,,");
    assert_eq!(bench.primary(), "A0670704");
    assert_eq!(bench.load(2), "00001234");
    // 04, 02 and 01 leave it, without its bits.
    for (address, operand, primary) in [
        (0x40, 0x8000_0007, "A0040104"),
        (0x40, 0x8100_0007, "A0020104"),
        (0x4F, 0x8000_0007, "A0010104"),
    ] {
        assert_eq!(bench.store(address, operand), "0,-,,");
        assert_eq!(bench.primary(), primary);
        assert_eq!(bench.load(2), "00001234");
    }
    // From the test on it is 0, until the result.
    bench.says("S,0,22", "0,-,,");
    supply(&mut bench, 5);
    assert_eq!(bench.0.machine.secondary, 0);
    bench.says("R,0A,0,0,,,0", "0,A,45,");
    assert_eq!(bench.0.machine.secondary, 5);
    // Bits 21 and 22 go with the next store; a read sets 22 alone.
    bench.says("B,06", "0,-,,");
    assert_eq!(bench.store(0x40, 0), "0,M,400000010000,");
    let line = format!("R,00,0,0,{},0F0F0F,9", gcr_image(&record(9)));
    bench.says(&line, &format!("0,A,45,{}", hex(&record(9))));
    bench.says("B,06", "0,-,,");
    assert_eq!(bench.primary(), "80200322");
}

/// No list of calls leads there: with 0 supplied, what a state holds of the count is left alone.
#[test]
fn point_1_7_zero_supplied_takes_nothing_back() {
    let mut bench = gcr();
    supply(&mut bench, 0);
    bench.0.machine.outcome |= primary::COUNT_SUPPLIED | primary::COUNT_VALID;
    bench.0.machine.secondary = 77;
    bench.says("R,00,0,0,,,0", "0,A,45,");
    bench.says("B,06", "0,-,,");
    assert_eq!(bench.primary(), "A0330722");
    assert_eq!(bench.load(2), "0000004D");
}

#[test]
fn point_1_7_a_tape_that_is_gone() {
    let mut bench = gcr();
    let data = record(600);
    supply(&mut bench, 600);
    bench.says("S,0,04", "0,-,,");
    // The result is tested as handed in, and then goes unused: nothing delivered, no bit 17.
    bench.says("R,00,0,2,,,0", "9,-,,");
    let line = whole(&data, "0F09040F0F").replace("R,00,0,0,", "R,00,0,2,");
    let line = line.strip_suffix("16384").unwrap().to_string() + "0";
    bench.says(&line, "0,A,45,");
    bench.says("B,06", "0,-,,");
    assert_eq!(bench.primary(), "A0670F04");
    assert_eq!(bench.load(2), "00000258");
    assert_eq!(bench.0.machine.drives[0].gap, Gap::Lost);
}

#[test]
fn point_1_8_space_and_late_flags() {
    let data = record(600);
    let image = gcr_image(&data);
    for (space, marks, delivered, primary) in [
        (600, "0F0F0F0F0F", 600, "A0350722"),
        (599, "0F0F0F0F0F", 599, "A0354722"),
        (257, "0F0F0F0F0F", 257, "A0354722"),
        (256, "0F0F0F0F0F", 256, "A0354722"),
        (100, "0F0F0F0F0F", 100, "A0354722"),
        (0, "0F0F0F0F0F", 0, "A0354722"),
        (601, "0F0F0F0F0F", 600, "A0350722"),
        // The space is compared with what is to be delivered.
        (512, "0F0F040F0F", 512, "A0360722"),
        (511, "0F0F040F0F", 511, "A0364722"),
    ] {
        let mut bench = gcr();
        let line = format!("R,00,0,0,{image},{marks},{space}");
        assert_eq!(read(&mut bench, 600, &line), torn(&data, delivered));
        assert_eq!(bench.primary(), primary, "{space} {marks}");
    }
    for (late, primary) in [(1, "A0351722"), (2, "A0350F22"), (3, "A0351F22")] {
        let mut bench = gcr();
        let line = format!("R,00,0,{late},{image},0F0F0F0F0F,600");
        read(&mut bench, 600, &line);
        assert_eq!(bench.primary(), primary);
    }
}

#[test]
fn point_1_8_only_the_lent_bytes_that_are_delivered_are_written() {
    let mut machine = Machine::fresh();
    machine.report(0, 0x22).unwrap();
    machine.drives[0].density = Density::Gcr;
    for byte in [0x64, 0x40, 0x80, 0, 0, 5, 0, 0xA1] {
        machine.byte(byte).unwrap();
    }
    machine.taken().unwrap();
    let image = record(2 + 256 + 512);
    let reported = Reported {
        code: 0,
        mark: false,
        late: 0,
        image: &image,
        marks: &[15; 3],
    };
    let mut host_space = [0xAA; 9];
    let mut check_store = [0xBB; 512];
    let before = machine.clone();
    assert_eq!(
        machine.result(reported, &mut host_space, &mut [0; 511]),
        Err(Refusal::CheckStore)
    );
    assert_eq!((&machine, host_space), (&before, [0xAA; 9]));
    let (_, delivered) = machine
        .result(reported, &mut host_space, &mut check_store)
        .unwrap();
    assert_eq!(delivered, 5);
    assert_eq!(host_space, [0, 0, 0, 0, 0, 0xAA, 0xAA, 0xAA, 0xAA]);
    assert_eq!(check_store[..], image[258..]);
}

#[test]
fn point_1_8_completion_as_for_a_read() {
    // EOR, review after its answer, secondary, then primary.
    let mut bench = gcr();
    bench.clear_changed();
    assert_eq!(bench.store(0x30, 0x09), "0,-,,");
    assert_eq!(bench.store(0xC8, 0x8000_0005), "0,M,800000010005,");
    bench.says("S,1,22", "0,-,,");
    bench.says("R,14,0,0,,,0", "0,A,45,");
    assert!(!bench.0.machine.changed);
    let secondary = hex(&machine::machine::sent_string(0x68, 5));
    bench.says("B,15", &format!("0,P,{secondary},"));
    assert!(bench.0.machine.changed && !bench.0.machine.enable);
    let primary = hex(&machine::machine::sent_string(0x69, 0xA034_0722));
    bench.says("B,06", &format!("0,P,{primary},"));
    bench.says("B,06", "0,-,,");
    assert!(!bench.0.machine.changed);
    // 0 supplied: no bit 22, so primary alone. Broken at EOR is a no.
    assert_eq!(bench.store(0xC8, 0x8000_0000), "0,M,800000010000,");
    bench.says("R,00,0,0,,,0", "0,A,45,");
    let primary = hex(&machine::machine::sent_string(0x69, 0x2033_0122));
    bench.says("X", &format!("0,P,{primary},"));
    bench.says("X", "0,-,,");
    // A code before the order: no EOR, primary alone.
    let primary = hex(&machine::machine::sent_string(0x69, 0x2002_0122));
    assert_eq!(bench.store(0xC8, 0x8100_0005), format!("0,P,{primary},"));
}

#[test]
fn point_1_9_held_in_mfm_it_counts_as_gcr() {
    let data = record(600);
    let mut bench = gcr();
    supply(&mut bench, 600);
    bench.0.machine.drives[0].density = Density::Mfm;
    bench.says(&whole(&data, "").replace("16384", "600"), "9,-,,");
    let line = whole(&data, "0F09040F0F");
    bench.says(&line, &format!("0,A,45,{}", torn(&data, 512)));
    bench.says("B,06", "0,-,,");
    assert_eq!(bench.load(3), "91010102");
    assert_eq!(bench.load(5), "00004100");
    assert_eq!(bench.primary(), "A0360622");
    check_bytes(&mut bench, &checks(&data));
}
