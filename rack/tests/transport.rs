//! The transports held to document 01: only listed codes, images and marks of their lengths, and where the tape stands.

use ctc_rack::cartridge::{blockettes, image_count, Cartridge, FIRST, GCR, LEAD, LENGTH, LOAD_POINT, MFM};
use ctc_rack::faults::{Chance, Chances, Fault, Place};
use ctc_rack::transport::{report, Answer, Order, Transport};

/// The codes that document 01 and the first wish of document 02 list, with 0 always.
fn listed(operation: u8) -> &'static [u8] {
    match operation {
        0x40 | 0x20 | 0x22 => &[0, 7, 8, 9, 0xA, 0xC, 0xD, 0xE, 0xF, 0x10, 0x11, 0x12, 0x13, 0x17],
        0x50 => &[0, 7, 8, 9, 0xB, 0xC, 0xD, 0xE, 0xF, 0x10, 0x11, 0x12, 0x13, 0x14, 0x17],
        0x24 => &[0, 7, 8, 9, 0xB, 0xC, 0xD, 0x17],
        0x21 | 0x23 => &[0, 7, 9, 0xC, 0xD, 0xE, 0x18],
        0x60 => &[0, 6, 7, 8, 0x17],
        0x10 | 0x11 => &[0, 6, 7],
        0x80 => &[0, 7, 8, 9, 0xA, 0x13, 0x14, 0x17],
        _ => panic!("{operation:02X}"),
    }
}

const OPERATIONS: [u8; 11] = [0x10, 0x11, 0x20, 0x21, 0x22, 0x23, 0x24, 0x40, 0x50, 0x60, 0x80];

fn order(operation: u8, density: u8) -> Order {
    Order { operation, track: 0, density, operand: 0 }
}

fn image(count: usize, density: u8, fill: u8) -> Vec<u8> {
    let mut made = (count as u16).rotate_right(1).to_be_bytes().to_vec();
    let length = if density == MFM { count } else { 256 * blockettes(count) };
    made.resize(2 + length, fill);
    made
}

fn drive(cartridge: Cartridge) -> Transport {
    let mut transport = Transport::new(3);
    transport.insert(cartridge);
    assert_eq!(transport.report(), report::INSTALLED | report::SELECTABLE | report::POSITION_UNKNOWN);
    assert_eq!(transport.carry_out(order(0x10, MFM), &[]).code, 0);
    assert_eq!(transport.report(), report::INSTALLED | report::SELECTABLE | report::BOT | report::BOT_WARNING);
    transport
}

/// Whether the controller lets an order go out: the tests of document 01.
fn may_start(operation: u8, bits: u8) -> bool {
    let forward = [0x40, 0x80, 0x20, 0x22, 0x50, 0x24, 0x60].contains(&operation);
    let writes = [0x50, 0x24, 0x60].contains(&operation);
    let wind = [0x10, 0x11].contains(&operation);
    bits & report::INSTALLED != 0
        && bits & report::SELECTABLE != 0
        && (wind || bits & report::POSITION_UNKNOWN == 0)
        && !(forward && bits & report::EOT != 0)
        && !([0x21, 0x23].contains(&operation) && bits & report::BOT != 0)
        && !(writes && bits & report::PROTECTED != 0)
}

fn fits(order: Order, answer: &Answer) -> Result<(), String> {
    let Answer { code, mark, late, image, marks, .. } = answer;
    if !listed(order.operation).contains(code) {
        return Err(format!("code {code:02X} is not listed"));
    }
    let may_find = [0x40, 0x20, 0x21, 0x22, 0x23].contains(&order.operation);
    if *mark && !(may_find && *code == 0) || [0x22, 0x23].contains(&order.operation) && *code == 0 && !mark || *late > 3
    {
        return Err("the mark or the late flags".to_string());
    }
    let whole = [0x40, 0x20].contains(&order.operation) && [0, 0x10, 0x11, 0x12].contains(code) && !mark;
    let wanted = match image_count(image) {
        Some(count) if whole && order.density == GCR => (2 + 256 * blockettes(count), blockettes(count)),
        Some(count) if whole => (2 + count, 0),
        _ if whole => (2, 0),
        _ if order.operation == 0x21 && order.density == GCR && *code == 0 && !mark => (2, 0),
        _ if order.operation == 0x80 && *code == 0 && order.operand > 0 => {
            let many = blockettes(usize::from(order.operand));
            (2 + 256 * many, many)
        }
        _ => (0, 0),
    };
    if (image.len(), marks.len()) != wanted {
        return Err(format!("an image of {} and {} marks, and not {wanted:?}", image.len(), marks.len()));
    }
    match marks.iter().find(|mark| !matches!(mark, 1..=9 | 15)) {
        Some(mark) => Err(format!("mark {mark}")),
        None => Ok(()),
    }
}

fn random_fault(chance: &mut Chance) -> Fault {
    let (track, object) = (chance.below(4) as u8, chance.below(10) as usize);
    let at = chance.below(3000) as Place;
    let times = Some(1 + chance.below(3) as u32);
    match chance.below(12) {
        0 => Fault::Stretched { track, from: at, to: at + 500, chance: 1 + chance.below(99) as u32 },
        1 => Fault::Bad { track, object, blockette: chance.below(5) as usize, mark: 1 + chance.below(9) as u8 },
        2 => Fault::Torn { track, object, code: 0x0C + chance.below(3) as u8 },
        3 => Fault::Trailing { track, object, code: 0x10 + chance.below(3) as u8 },
        4 => Fault::Silent { track, object, byte: 2 + chance.below(900) as usize, times },
        5 => Fault::DropOut { track, at, times },
        6 => Fault::EarlyEnd { at, times },
        7 => Fault::Gone { track, at },
        8 => Fault::Late { order: 1 + chance.below(40) as usize, flags: 1 + chance.below(3) as u8 },
        9 => Fault::LoadPointLate { times },
        10 => Fault::Gap { track, object, times },
        _ => Fault::EndLate { times },
    }
}

/// Random orders on random tapes with random faults. Every listed code of a transport's own comes at least once.
#[test]
fn answers_are_those_that_document_01_lists() {
    let mut seen = std::collections::BTreeSet::new();
    for seed in 0..3000 {
        let mut chance = Chance::new(seed);
        let mut cartridge =
            Cartridge { length: 1000 + chance.below(3000) as Place, protected: seed % 50 == 0, ..Cartridge::default() };
        cartridge.faults = (0..chance.below(5)).map(|_| random_fault(&mut chance)).collect();
        let mut transport = Transport::new(seed);
        if seed % 3 == 0 {
            transport.set_chances(Chances { drop_out: 50, torn: 50, bad: 50, late: 50, silent: 20, gap: 50 });
        }
        transport.insert(cartridge);
        let mut bits = transport.report();
        for _ in 0..80 {
            let operation = OPERATIONS[chance.below(11) as usize];
            let density = if operation == 0x80 { GCR } else { chance.below(3) as u8 % 2 };
            let count = chance.below(1200) as usize;
            let operand = match operation {
                0x80 => count as u16,
                0x60 if chance.below(20) == 0 => 0x8000,
                0x60 => chance.below(20) as u16,
                _ => 0,
            };
            let order = Order { operation, track: chance.below(2) as u8, density, operand };
            if !may_start(operation, bits) {
                continue;
            }
            let written = if operation == 0x50 { image(count, density, 0) } else { Vec::new() };
            let answer = transport.carry_out(order, &written);
            if let Err(why) = fits(order, &answer) {
                panic!("seed {seed}: {order:?}: {why}");
            }
            // each report differs from the one before, and the last is what holds
            for report in &answer.reports {
                assert_ne!(*report, bits, "seed {seed}: {order:?}");
                bits = *report;
            }
            assert_eq!(bits, transport.report(), "seed {seed}: {order:?}");
            assert_eq!(answer.code == 7, bits & report::INSTALLED == 0, "seed {seed}: {order:?}");
            seen.insert((operation, answer.code));
        }
    }
    for operation in [0x20, 0x22, 0x40, 0x80] {
        assert!(seen.contains(&(operation, 0xA)), "{operation:02X}: no gap was found in a record");
    }
    for operation in OPERATIONS {
        let codes: Vec<u8> = seen.iter().filter(|(of, _)| *of == operation).map(|(_, code)| *code).collect();
        assert!(codes.len() > 2, "{operation:02X}: {codes:02X?}");
    }
}

#[test]
fn a_tape_is_written_read_and_wound() {
    for density in [MFM, GCR] {
        let mut transport = drive(Cartridge::default());
        for count in [600, 0, 5] {
            assert_eq!(transport.carry_out(order(0x50, density), &image(count, density, count as u8)).code, 0);
        }
        assert_eq!(transport.carry_out(order(0x24, density), &[]).code, 0);
        assert_eq!(transport.report(), report::INSTALLED | report::SELECTABLE);
        let answer = transport.carry_out(order(0x10, density), &[]);
        assert_eq!(*answer.reports.last().unwrap(), transport.report());
        for count in [600, 0, 5] {
            let answer = transport.carry_out(order(0x40, density), &[]);
            assert_eq!((answer.code, answer.image.to_vec()), (0, image(count, density, count as u8)));
        }
        assert!(transport.carry_out(order(0x40, density), &[]).mark);
        // nothing more within 25 inches
        assert_eq!(transport.carry_out(order(0x40, density), &[]).code, 9);
        assert_eq!(transport.carry_out(order(0x10, density), &[]).code, 0);
        assert!(transport.carry_out(order(0x22, density), &[]).mark);
        assert!(transport.carry_out(order(0x21, density), &[]).mark);
        let answer = transport.carry_out(order(0x21, density), &[]);
        assert_eq!(answer.image.to_vec(), if density == GCR { vec![0x80, 0x02] } else { vec![] });
        // with the other density selected a record is not recognized
        assert_eq!(transport.carry_out(order(0x40, 1 - density), &[]).code, 0xD);
        assert_eq!(transport.carry_out(order(0x11, density), &[]).code, 0);
        assert_eq!(transport.place(), LENGTH);
        assert_ne!(transport.report() & report::EOT, 0);
    }
}

#[test]
fn the_ends_of_a_tape_are_found() {
    let mut transport = drive(Cartridge { length: 1200, ..Cartridge::default() });
    let write = |transport: &mut Transport| transport.carry_out(order(0x50, GCR), &image(20_000, GCR, 1));
    assert_eq!(write(&mut transport).code, 0);
    assert_eq!(transport.report() & report::EOT_WARNING, 0);
    assert_eq!(write(&mut transport).code, 0);
    assert_ne!(transport.report() & report::EOT_WARNING, 0);
    assert_eq!(write(&mut transport).code, 0);
    let answer = write(&mut transport);
    assert_eq!(answer.code, 0x17);
    assert_ne!(transport.report() & report::EOT, 0);
    // the scrap that is left is passed, and then the records; from before the first BOT is further than a record may be
    for code in [0xD, 0, 0, 0, 9] {
        assert_eq!(transport.carry_out(order(0x21, GCR), &[]).code, code);
    }
    assert_eq!(transport.carry_out(order(0x21, GCR), &[]).code, 0x18);
    assert_eq!(transport.place(), 0);
}

#[test]
fn a_record_goes_where_the_last_one_was_skipped_back_over() {
    let mut transport = drive(Cartridge::default());
    let first = |transport: &Transport| transport.cartridge().unwrap().tracks[0].segments.clone();
    transport.carry_out(order(0x50, GCR), &image(3000, GCR, 1));
    transport.carry_out(order(0x50, GCR), &image(3000, GCR, 2));
    let before = first(&transport);
    transport.carry_out(order(0x21, GCR), &[]);
    assert_eq!(transport.place(), before[1].start - LEAD);
    transport.carry_out(order(0x50, GCR), &image(1000, GCR, 3));
    let after = first(&transport);
    // the rest of the longer record stays behind it as a scrap
    assert_eq!((after.len(), after[1].start), (3, before[1].start));
    assert_eq!(after[0].start, FIRST);
    assert!(LOAD_POINT < FIRST);
    assert_eq!(transport.carry_out(order(0x40, GCR), &[]).code, 0xD);
}

#[test]
fn a_supplied_count_reads_a_torn_record_and_the_end_of_one() {
    let mut cartridge = Cartridge::default();
    cartridge.faults.push(Fault::Torn { track: 0, object: 0, code: 0xE });
    let mut transport = drive(cartridge);
    let mut written = image(1000, GCR, 0);
    for (place, byte) in written[2..].iter_mut().enumerate() {
        *byte = (place / 256) as u8;
    }
    transport.carry_out(order(0x50, GCR), &written);
    transport.carry_out(order(0x21, GCR), &[]);
    assert_eq!(transport.carry_out(order(0x40, GCR), &[]).code, 0xE);
    assert_eq!(transport.carry_out(order(0x21, GCR), &[]).image[..], [0x01, 0xF4]);
    for (count, first) in [(1000, 0), (1000 - 256, 1), (1000 - 768, 3)] {
        let answer = transport.carry_out(Order { operand: count, ..order(0x80, GCR) }, &[]);
        assert_eq!(answer.code, 0);
        assert_eq!(answer.marks.len(), 6 - first);
        // all but the first blockette of that count are those of the record, by their numbers
        assert_eq!(answer.image[258..], written[258 + 256 * first..]);
        transport.carry_out(order(0x21, GCR), &[]);
    }
    assert_eq!(transport.carry_out(Order { operand: 2000, ..order(0x80, GCR) }, &[]).code, 0x14);
}

/// The tape stands behind the record, so that a skip back and a read have it again.
#[test]
fn a_gap_in_a_record_is_passed_with_it() {
    let mut cartridge = Cartridge::default();
    cartridge.faults.push(Fault::Gap { track: 0, object: 0, times: Some(4) });
    let mut transport = drive(cartridge);
    for fill in [1, 2] {
        transport.carry_out(order(0x50, GCR), &image(1000, GCR, fill));
    }
    transport.carry_out(order(0x10, GCR), &[]);
    for operation in [0x40, 0x20, 0x80] {
        let answer = transport.carry_out(Order { operand: 1000, ..order(operation, GCR) }, &[]);
        assert_eq!((answer.code, answer.image.len(), answer.marks.len()), (0xA, 0, 0), "{operation:02X}");
        assert_eq!(transport.carry_out(order(0x21, GCR), &[]).image[..], [0x01, 0xF4]);
    }
    // a search stops at it too, and goes on from behind it; the fifth time it is not found any more
    assert_eq!(transport.carry_out(order(0x22, GCR), &[]).code, 0xA);
    assert_eq!(transport.carry_out(order(0x40, GCR), &[]).image[2], 2);
    transport.carry_out(order(0x10, GCR), &[]);
    assert_eq!(transport.carry_out(order(0x40, GCR), &[]).image[2], 1);
}

#[test]
fn a_stretched_tape_is_bad_in_other_places_each_time() {
    let mut cartridge = Cartridge::default();
    cartridge.faults.push(Fault::Stretched { track: 0, from: FIRST, to: LENGTH, chance: 20 });
    let mut transport = drive(cartridge);
    transport.carry_out(order(0x50, GCR), &image(20_000, GCR, 7));
    let mut passes = Vec::new();
    while passes.len() < 8 {
        transport.carry_out(order(0x21, GCR), &[]);
        let answer = transport.carry_out(order(0x40, GCR), &[]);
        if answer.code == 0 {
            for (place, mark) in answer.marks.iter().enumerate().filter(|(place, _)| *place < 78) {
                let good = answer.image[2 + 256 * place..258 + 256 * place].iter().all(|byte| *byte == 7);
                assert_eq!(good, *mark == 15);
            }
            passes.push(answer.marks);
        }
    }
    let bad = |marks: &Vec<u8>| marks.iter().map(|mark| *mark != 15).collect::<Vec<bool>>();
    assert!(passes.windows(2).all(|two| bad(&two[0]) != bad(&two[1])));
}
