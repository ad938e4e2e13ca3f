//! What a state holds in each phase, byte by byte, as the header's table has it: every operation, every kind of string,
//! strings that are half there, and noes.

use firmware_tests::lists::{both, Step};
use firmware_tests::{CONTROL, READ, SET_GCR, TAPE, WRITE};
use machine::machine::link;

const PHASE: usize = 49;
const HELD: usize = 50;
/// Of an address: an interrupt at the end.
const INTERRUPT: u8 = 0x80;
const ERASE: u8 = 0x68;

/// The phase and what it holds first, after each step; a tape in GCR stands before them.
#[track_caller]
fn phases(steps: &[Step]) -> Vec<(u8, u8)> {
    let before = [
        Step::Report(0, TAPE),
        Step::Store(CONTROL, [0, 0, 0, SET_GCR]),
    ];
    let seen = both(&[&before[..], steps].concat());
    assert!(seen.iter().all(|seen| seen.refusal == 0), "refused");
    let held = |state: &[u8]| (state[PHASE], state[HELD]);
    seen[before.len()..]
        .iter()
        .map(|seen| held(&seen.state))
        .collect()
}

fn data() -> Step {
    Step::Data {
        host: vec![1, 2, 3],
        place: 1,
        space: 1000,
    }
}

fn done() -> Step {
    Step::Result {
        code: 0,
        mark: false,
        late: 0,
        image: vec![],
        marks: vec![],
        space: 0,
    }
}

#[test]
fn operations() {
    let stores = [
        (READ, [0, 0, 0, 0], 0),
        (READ, [0x40, 0, 0, 0], 1),
        (READ, [0x80, 0, 0, 5], 2),
        (ERASE, [0, 0, 0, 0], 4),
        (CONTROL, [0, 0, 0, 0x10], 5),
        (CONTROL, [0, 0, 0, 0x11], 6),
        (CONTROL, [0, 0, 0, 0x20], 7),
        (CONTROL, [0, 0, 0, 0x21], 8),
        (CONTROL, [0, 0, 0, 0x22], 9),
        (CONTROL, [0, 0, 0, 0x23], 10),
        (CONTROL, [0, 0, 0, 0x24], 11),
    ];
    for (address, operand, number) in stores {
        for address in [address, address | INTERRUPT] {
            assert_eq!(phases(&[Step::Store(address, operand)]), [(5, number)]);
        }
    }
    let write = [
        Step::Store(WRITE, [7, 1, 0, 2]),
        Step::Byte(link::ACK),
        data(),
    ];
    assert_eq!(phases(&write), [(3, WRITE), (4, WRITE), (5, 3)]);
}

#[test]
fn kinds_of_strings() {
    let [no, yes] = [0x15, link::ACK].map(Step::Byte);
    let mut steps = vec![
        Step::Store(WRITE | INTERRUPT, [0, 0, 0, 3]),
        yes.clone(),
        data(),
        done(),
        // EOR, then the update of secondary with two noes, then the interrupt
        yes.clone(),
        no.clone(),
        no.clone(),
        yes.clone(),
        no,
        yes.clone(),
    ];
    let mut expected = vec![(3, 0xD8), (4, 0xD8), (5, 3), (6, 1)];
    expected.extend([(2, 1), (2, 1), (2, 1), (2, 2), (2, 2), (0, 0)]);
    // enabled, a new report interrupts at a tick
    steps.extend([
        Step::Store(CONTROL, [0, 0, 0, 0x09]),
        Step::Report(3, TAPE),
        Step::Tick,
        yes.clone(),
    ]);
    expected.extend([(0, 0), (0, 0), (2, 3), (0, 0)]);
    // a load
    steps.extend([0x62, 0x10, 0x00, 0x72].map(Step::Byte));
    steps.extend([Step::Taken, yes]);
    expected.extend([(0, 1), (0, 2), (0, 3), (1, 4), (2, 0), (0, 0)]);
    assert_eq!(phases(&steps), expected);
}

#[test]
fn half_a_string() {
    // a store, a lead that is none, and a string whose check byte is wrong
    let store = [0x64, 0x38, 0, 0, 0, 2, 0, 0x5E].map(Step::Byte);
    let mut expected: Vec<_> = (1..8).map(|length| (0, length)).collect();
    expected.push((1, 8));
    assert_eq!(phases(&store), expected);
    assert_eq!(phases(&[Step::Byte(0x63)]), [(0, 0)]);
    let wrong = [0x62, 0x10, 0x00, 0x73].map(Step::Byte);
    assert_eq!(phases(&wrong), [(0, 1), (0, 2), (0, 3), (0, 0)]);
}
