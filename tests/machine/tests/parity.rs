//! Host parity errors: what a bad byte of a write brings at its result. What it brings at the data
//! call, and at a result with code 0, is compared with the controller itself, in tests/firmware.

use machine::machine::{link, primary, Action, Machine, Operation, Reported};
use machine::mutants::Mutant;
use machine::records::{Density, NO_PLACE};

/// Primary after a write of four bytes behind two thrown away, whose result has this code.
fn primary_after(place: usize, host: &[u8], code: u8, mutant: Option<Mutant>) -> u32 {
    let mut machine = Machine {
        mutant,
        ..Machine::fresh()
    };
    machine.report(0, 0x22).unwrap();
    machine.drives[0].density = Density::Gcr;
    for byte in [0x64, 0x50, 0, 2, 0, 4, 0, 0x32] {
        machine.byte(byte).unwrap();
    }
    assert_eq!(machine.taken(), Ok(Action::Byte(link::GO)));
    machine.byte(link::ACK).unwrap();
    let mut check_store = [0; 512];
    machine
        .data(host, place, &mut [0; 770], &mut check_store)
        .unwrap();
    let reported = Reported {
        code,
        mark: false,
        late: 0,
        image: &[],
        marks: &[],
    };
    machine.result(reported, &mut [], &mut check_store).unwrap();
    machine.primary()
}

const HOST: [u8; 7] = [1, 2, 3, 4, 5, 6, 7];

#[test]
fn point_6_5_bit_16_sets_bit_2() {
    // changed, motion 01, bit 22, GCR, report 22; a bad byte adds bits 2 and 16
    for (place, host, word) in [
        (NO_PLACE, 7, 0x8020_0322),
        (6, 7, 0x8020_0322),
        (5, 7, 0xA020_8322),
        (2, 7, 0xA020_8322),
        (1, 7, 0xA020_8322),
        (0, 7, 0xA020_8322),
        // the host ran out: before any bad byte, and after one
        (NO_PLACE, 5, 0xA020_2322),
        (4, 5, 0xA020_8322),
        (0, 1, 0xA020_8322),
    ] {
        let given = primary_after(place, &HOST[..host], 0, None);
        assert_eq!(given, word, "place {place} of {host}: {given:08X}");
    }
}

#[test]
fn bit_16_stands_beside_any_code() {
    for &code in Operation::Write.listed() {
        let without = primary_after(NO_PLACE, &HOST, code, None);
        let with = primary_after(3, &HOST, code, None);
        assert_eq!(with, without | primary::PARITY | primary::RETRY, "{code:X}");
    }
}

#[test]
fn a_retry_without_bit_16_is_found() {
    let mutant = Some(Mutant::RetryBit(Operation::Write, 16));
    assert_eq!(primary_after(3, &HOST, 0, mutant), 0x8020_8322);
}
