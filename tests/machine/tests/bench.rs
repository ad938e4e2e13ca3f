//! Document 01's example and bench cases.

mod common;

use common::{gcr_image, hex, record, Bench};
use machine::lines;
use machine::records;

#[test]
fn example() {
    let session = b"B,62\nB,10\nB,00\nB,72\nT\nB,06\n";
    let answers = b"0,-,,\n0,-,,\n0,-,,\n0,A,06,\n0,P,6680000004E2,\n0,-,,\n";
    assert_eq!(lines::run(session, None), answers);
}

#[test]
fn counts_rotate() {
    assert_eq!(records::count_bytes(5), [0x80, 0x02]);
    assert_eq!(records::count_bytes(3), [0x80, 0x01]);
    assert_eq!(records::count_bytes(256), [0x00, 0x80]);
}

#[test]
fn check_byte_of_a_store() {
    for (last, answer) in [("B,2D", "0,A,06,"), ("B,2C", "0,A,15,")] {
        let mut bench = Bench::new();
        for byte in ["64", "49", "00", "00", "00", "00", "00"] {
            bench.says(&format!("B,{byte}"), "0,-,,");
        }
        bench.says(last, answer);
    }
}

#[test]
fn read_of_five_bytes_and_a_mark() {
    let mut bench = Bench::new();
    bench.says("S,1,22", "0,-,,");
    assert_eq!(bench.store(0x49, 0), "0,M,400100000000,");
    bench.says("R,00,0,0,8002AABBCCDDEE,,5", "0,A,45,AABBCCDDEE");
    bench.says("B,06", "0,-,,");
    assert_eq!(bench.primary(), "81200222");
    assert_eq!(bench.load(2), "00000005");

    let mut bench = Bench::new();
    bench.says("S,1,22", "0,-,,");
    assert_eq!(bench.store(0x49, 0), "0,M,400100000000,");
    bench.says("R,00,1,0,,,5", "0,A,45,");
    bench.says("B,06", "0,-,,");
    assert_eq!(bench.primary(), "81A00022");
    assert_eq!(bench.load(2), "00000000");
}

/// Drive 0 ready and GCR.
fn gcr() -> Bench {
    let mut bench = Bench::ready();
    assert_eq!(bench.store(0x30, 0x0D), "0,-,,");
    bench
}

#[test]
fn one_bad_of_each_parity() {
    let mut bench = gcr();
    let data = record(600);
    assert_eq!(bench.store(0x40, 0), "0,M,400000010000,");
    let line = format!("R,00,0,0,{},0F090F0F03,600", gcr_image(&data));
    bench.says(&line, &format!("0,A,45,{}", hex(&data)));
    bench.says("B,06", "0,-,,");
    assert_eq!(bench.load(3), "91013200");
    assert_eq!(bench.load(5), "00000000");
    assert_eq!(bench.code(), 0x15);
}

#[test]
fn two_bad_of_one_parity() {
    let mut bench = gcr();
    let data = record(600);
    assert_eq!(bench.store(0x40, 0), "0,M,400000010000,");
    let line = format!("R,00,0,0,{},060F040F0F,600", gcr_image(&data));
    bench.says(&line, &format!("0,A,45,{}", hex(&data[..512])));
    bench.says("B,06", "0,-,,");
    assert_eq!(bench.load(3), "00006102");
    assert_eq!(bench.load(5), "00004100");
    assert_eq!(bench.code(), 0x16);
    assert_eq!(bench.load(2), "00000258");
}

#[test]
fn check_bytes_of_one_byte() {
    let mut bench = gcr();
    assert_eq!(bench.store(0x50, 1), "0,A,47,");
    bench.says("B,06", "0,-,,");
    let image = gcr_image(&[0x5A]);
    bench.says("D,5A", &format!("0,M,500000010001,{image}"));
    bench.says("R,00,0,0,,,0", "0,A,45,");
    bench.says("B,06", "0,-,,");
    let mut checks = [0; 512];
    checks[256] = 0x5A;
    assert_eq!(bench.store(0x40, 0x4000_0000), "0,-,,");
    bench.says("R,00,0,0,,,512", &format!("0,A,45,{}", hex(&checks)));
    bench.says("B,06", "0,-,,");

    // The same bytes after a read.
    bench.says("Z", "0,-,,");
    assert_eq!(bench.store(0x30, 0x0D), "0,-,,");
    assert_eq!(bench.store(0x40, 0), "0,M,400000010000,");
    bench.says(&format!("R,00,0,0,{image},0F0F0F,1"), "0,A,45,5A");
    bench.says("B,06", "0,-,,");
    assert_eq!(bench.store(0x40, 0x4000_0000), "0,-,,");
    bench.says("R,00,0,0,,,512", &format!("0,A,45,{}", hex(&checks)));
}

#[test]
fn tracks() {
    let mut bench = Bench::ready();
    assert_eq!(bench.store(0x30, 3), "0,-,,");
    assert_eq!(bench.primary(), "8C000022");
    assert_eq!(bench.store(0x30, 4), "0,-,,");
    assert_eq!(bench.code(), 0x03);
    assert_eq!(bench.primary(), "AC030022");
}

#[test]
fn longest_write() {
    let mut bench = Bench::ready();
    for count in [16_384, 16_385, 65_535] {
        assert_eq!(bench.store(0x50, count), "0,A,47,", "{count}");
        bench.says("X", "0,A,45,");
        bench.says("B,06", "0,-,,");
        assert_eq!(bench.code(), 0x05, "{count}");
    }
}

#[test]
fn drive_seven_and_a_report_of_the_end() {
    let mut bench = Bench::ready();
    assert_eq!(bench.store(0x4F, 0), "0,-,,");
    assert_eq!(bench.code(), 0x01);
    bench.says("S,0,A2", "0,-,,");
    assert_eq!(bench.store(0x40, 0), "0,-,,");
    assert_eq!(bench.code(), 0x04);
}
