//! The arrows of docs/pictures/phases.svg, against the functions for C: random calls, until nothing new has come for
//! long. What is carried out in a phase, and where it leads, is what the picture shows, no more and no less.

use firmware_tests::controller::Controller;
use firmware_tests::{CONTROL, READ, SET_GCR, TAPE, WRITE};
use machine::generator::Random;
use machine::machine::Reported;
use machine::records::{CHECK_BYTES, NO_PLACE};
use pictures::tree::Tree;
use pictures::{code, compared, transitions, Transition};
use std::collections::BTreeSet;

const PHASE: usize = 49;
/// Of an address: an interrupt at the end.
const INTERRUPT: u8 = 0x80;
const PICTURE: &str = "docs/pictures/phases.svg";
/// So many calls with nothing new are enough.
const QUIET: usize = 200_000;

/// Stores of every course: operations with and without GO and EOR, codes 01 and 02, settings, and a reset.
const STORES: [(u8, [u8; 4]); 12] = [
    (READ, [0, 0, 0, 0]),
    (READ, [0x40, 0, 0, 0]),
    (READ, [0x11, 0, 0, 0]),
    (WRITE, [0, 1, 0, 2]),
    (CONTROL, [0, 0, 0, 0x10]),
    (CONTROL, [0, 0, 0, 0x02]),
    (CONTROL, [0, 0, 0, 0x09]),
    (CONTROL, [0, 0, 0, 0x0B]),
    (CONTROL, [0, 0, 0, 0x0A]),
    (CONTROL, [0, 0, 0, SET_GCR]),
    (CONTROL | 0x05, [0, 0, 0, 0]),
    (0x08, [0, 0, 0, 0]),
];

fn with_check(bytes: &[u8]) -> Vec<u8> {
    let check = bytes.iter().fold(0, |check, byte| check ^ byte);
    [bytes, &[check]].concat()
}

/// A load's or a store's whole string.
fn string(random: &mut Random) -> Vec<u8> {
    if random.below(4) == 0 {
        return with_check(&[0x62, (random.below(8) as u8) << 4, 0]);
    }
    let (address, [first, second, third, fourth]) = random.pick(&STORES);
    let address = address | random.pick(&[0, INTERRUPT]);
    with_check(&[0x64, address, first, second, third, fourth, 0])
}

/// One call by its name, with what fits or not; its refusal.
fn call(controller: &mut Controller, name: &str, byte: u8, random: &mut Random) -> u32 {
    let (mut space, mut check) = (vec![0; 1000], vec![0; CHECK_BYTES]);
    let ended = |code| Reported {
        code,
        mark: false,
        late: 0,
        image: &[],
        marks: &[],
    };
    match name {
        "byte" => controller.byte(byte),
        "taken" => controller.taken(),
        "broken" => controller.broken(),
        "report" => controller.report(0, random.pick(&[TAPE, TAPE, 0, TAPE | 1])),
        "data" => controller.data(&[1, 2, 3], NO_PLACE, &mut space, &mut check),
        "result" => {
            let code = random.pick(&[0, 7]);
            controller.result(&ended(code), &mut space, &mut check)
        }
        "tick" => controller.tick(),
        "reset" => controller.reset(),
        "hand" => controller.hand(),
        "queue" => {
            let (address, operand) = random.pick(&STORES);
            controller.queue(address | random.pick(&[0, INTERRUPT]), operand)
        }
        other => panic!("the picture has a call {other}, and this test has not"),
    }
}

/// All transitions that come.
fn played(phases: &[String], calls: &[String]) -> BTreeSet<Transition> {
    let (mut random, mut controller) = (Random::new(7), Controller::fresh());
    let (mut seen, mut quiet, mut coming) = (BTreeSet::new(), 0, vec![]);
    while quiet < QUIET {
        quiet += 1;
        // a string that has begun goes on, unless something comes between
        let goes_on = !coming.is_empty() && random.below(12) != 0;
        let byte = match coming.is_empty() {
            true => random.pick(&[0x06, 0x06, 0x15, 0x00]),
            false => coming.remove(0),
        };
        let name = match goes_on {
            true => "byte",
            false => calls[random.below(calls.len())].as_str(),
        };
        // resets and breaks would keep it from going far
        if matches!(name, "reset" | "broken") && random.below(8) != 0 {
            continue;
        }
        if coming.is_empty() && random.below(4) == 0 {
            coming = string(&mut random);
        }
        let before = controller.state[PHASE] as usize;
        if call(&mut controller, name, byte, &mut random) == 0 {
            let after = controller.state[PHASE] as usize;
            let [from, to] = [before, after].map(|phase| phases[phase].clone());
            if seen.insert((from, name.to_string(), to)) {
                quiet = 0;
            }
        }
    }
    seen
}

fn faults(tree: &Tree) -> Vec<String> {
    // the phases are numbered in the order of the enum, as the header has them
    let phases = code::phases(&Tree::here()).unwrap();
    let calls: Vec<_> = code::calls(&Tree::here()).unwrap().into_iter().collect();
    compared(
        "phases.svg",
        &transitions(tree).unwrap(),
        &played(&phases, &calls),
    )
}

#[test]
fn arrows_are_the_functions() {
    let faults = faults(&Tree::here());
    assert!(faults.is_empty(), "\n{}", faults.join("\n"));
}

/// A picture with this replaced is told, by this fault.
#[track_caller]
fn told(old: &str, new: &str, fault: &str) {
    let faults = faults(&Tree::here().with(PICTURE, old, new));
    assert!(
        faults.iter().any(|found| found.contains(fault)),
        "{faults:?}"
    );
}

#[test]
fn wrong_arrows_are_told() {
    // the data call leads to EOR
    let (from, to) = ("ResultAwaited\") is missing", "EndOffered\") is not so");
    told("M1010 500 H851", "M1010 520 H930 V690 H851", from);
    told("M1010 500 H851", "M1010 520 H930 V690 H851", to);
    // the yes to GO orders at once
    told(
        "M1100 360 V459",
        "M1010 345 H930 V480 H851",
        "\"DataAwaited\") is missing",
    );
    // a broken link ends no send
    told(
        "fifth; <tspan class=\"call\">broken</tspan>: given up,",
        "fifth: given up,",
        "(\"Sending\", \"broken\", \"Collecting\") is missing",
    );
    // a store that ends without a move asks no interrupt
    told(
        "M680 350 V380 H495 V669",
        "M680 350 V380 H240 V211",
        "(\"Collecting\", \"hand\", \"Sending\") is missing",
    );
    // a tick never sends
    told(
        "<tspan class=\"call\">tick</tspan>, idle, where",
        "<tspan class=\"call\">hand</tspan>, idle, where",
        "(\"Collecting\", \"tick\", \"Sending\") is missing",
    );
}
