//! Records of up to 65,535 bytes, written with a bad byte's place and read back, as no session can: written image,
//! bytes delivered, check store, status and every byte of the state are the independent machine's.

use firmware_tests::lists::{both, controller, machine, Step};
use firmware_tests::{CONTROL, READ, SET_GCR, TAPE, WRITE};
use machine::generator::Random;
use machine::machine::{code, link};
use machine::mutants::{Limited, Mutant};
use machine::records::{
    blockettes, image_length, marks_length, Density, BLOCKETTE, GOOD, NO_PLACE, RECORD_LIMIT,
};
use std::collections::BTreeMap;

const TRIPS: usize = 2_000;
/// The longest image.
const SPACE: usize = 66_050;
/// First operand bytes of operation 4, and the control value of a skip back.
const SUPPLIED: u8 = 0x80;
const CHECK_BYTES: u8 = 0x40;
const SKIP_REVERSE: u8 = 0x21;

/// A record that is written and read back twice, the second time with a supplied count where it is GCR.
struct Trip {
    density: Density,
    thrown: u8,
    count: u16,
    host: Vec<u8>,
    place: usize,
    /// Blockettes in tape order that are spoiled, with their marks.
    spoiled: BTreeMap<usize, u8>,
    /// The host's room.
    room: usize,
}

fn result(code: u8, image: Vec<u8>, marks: Vec<u8>, space: usize) -> Step {
    Step::Result {
        code,
        mark: false,
        late: 0,
        image,
        marks,
        space,
    }
}

impl Trip {
    /// Up to the write's EOR, which is accepted.
    fn written(&self) -> Vec<Step> {
        let [high, low] = self.count.to_be_bytes();
        let mut steps = vec![Step::Report(0, TAPE)];
        if self.density == Density::Gcr {
            steps.push(Step::Store(CONTROL, [0, 0, 0, SET_GCR]));
        }
        steps.extend([
            Step::Store(WRITE, [0, self.thrown, high, low]),
            Step::Byte(link::ACK),
            Step::Data {
                host: self.host.clone(),
                place: self.place,
                space: image_length(self.count as usize, self.density),
            },
            result(code::GOOD, vec![], vec![], 0),
            Step::Byte(link::ACK),
        ]);
        steps
    }

    /// The image that the controller wrote, read back with its errors: by a read, with the count supplied, then the
    /// check bytes and a skip back over it.
    fn read_back(&self) -> Vec<Step> {
        let mut steps = self.written();
        let seen = controller(&steps);
        let written = &seen[seen.len() - 3];
        assert_eq!(written.refusal, 0, "the write was refused");
        let count = self.count as usize;
        let mut image = written.given.clone();
        let mut marks = vec![GOOD; marks_length(count, self.density)];
        for (&blockette, &mark) in &self.spoiled {
            let bytes = &mut image[2 + blockette * BLOCKETTE..][..BLOCKETTE];
            bytes.iter_mut().for_each(|byte| *byte ^= mark);
            marks[blockette] = mark;
        }
        let [high, low] = self.count.to_be_bytes();
        steps.extend([
            Step::Store(READ, [0; 4]),
            result(code::GOOD, image.clone(), marks.clone(), self.room),
            Step::Byte(link::ACK),
            Step::Store(READ, [CHECK_BYTES, 0, 0, 0]),
            result(code::GOOD, vec![], vec![], 512),
            Step::Byte(link::ACK),
        ]);
        if self.density == Density::Gcr {
            let whole = if count == 0 {
                (vec![], vec![])
            } else {
                (image.clone(), marks)
            };
            steps.extend([
                Step::Store(READ, [SUPPLIED, 0, high, low]),
                result(code::GOOD, whole.0, whole.1, self.room),
                Step::Byte(link::ACK),
            ]);
        }
        let count_bytes = match self.density {
            Density::Gcr => image[..2].to_vec(),
            Density::Mfm => vec![],
        };
        steps.extend([
            Step::Store(CONTROL, [0, 0, 0, SKIP_REVERSE]),
            result(code::GOOD, count_bytes, vec![], 0),
        ]);
        steps
    }
}

fn trip(random: &mut Random) -> Trip {
    let density = random.pick(&[Density::Mfm, Density::Gcr, Density::Gcr]);
    let count = match random.below(4) {
        0 => random.below(RECORD_LIMIT + 1),
        1 => random.pick(&[16_384, 16_385, 32_767, 32_768, 65_279, 65_280, 65_281]),
        _ => RECORD_LIMIT - random.pick(&[0, 0, 0, 1, 2, 255, 256]),
    };
    let thrown = random.pick(&[0, 0, 1, 255]);
    let needed = thrown as usize + count;
    let host = match random.below(8) {
        0 => random.below(needed + 1),
        1 => needed + random.below(300),
        _ => needed,
    };
    let place = match random.below(4) {
        0 => NO_PLACE,
        _ if host == 0 => NO_PLACE,
        1 => host - 1 - random.below(host.min(300)),
        _ => random.below(host),
    };
    let mut spoiled = BTreeMap::new();
    if density == Density::Gcr && count > 0 {
        let all = blockettes(count) + 2;
        for _ in 0..random.pick(&[0, 1, 1, 2, 2, 3]) {
            let blockette = match random.below(4) {
                0 => all - 1 - random.below(all.min(4)),
                1 => random.below(all.min(4)),
                _ => random.below(all),
            };
            spoiled.insert(blockette, 1 + random.below(9) as u8);
        }
    }
    let room = match random.below(6) {
        0 => count.saturating_sub(1),
        1 => random.below(SPACE),
        2 => SPACE,
        _ => count,
    };
    Trip {
        density,
        thrown,
        count: count as u16,
        host: random.bytes(host),
        place,
        spoiled,
        room,
    }
}

/// Random records, most of them among the longest.
#[test]
fn written_and_read_back() {
    let mut random = Random::new(65_535);
    let mut kinds: BTreeMap<(bool, bool, u8), usize> = BTreeMap::new();
    for _ in 0..TRIPS {
        let trip = trip(&mut random);
        let steps = trip.read_back();
        let seen = both(&steps);
        let read = seen[trip.written().len() + 1].clone();
        let code = read.record.expect("the read was settled").code;
        let gcr = trip.density == Density::Gcr;
        *kinds
            .entry((gcr, trip.place != NO_PLACE, code))
            .or_default() += 1;
    }
    // in MFM there are no marks; in GCR none bad, at most one of each parity, or more
    let expected = [(false, 0x00), (true, 0x00), (true, 0x15), (true, 0x16)];
    for (gcr, code) in expected {
        for bad in [false, true] {
            let count = kinds.remove(&(gcr, bad, code)).unwrap_or(0);
            println!("{count:4} GCR {gcr}, bad byte {bad}, code {code:02X}");
            assert!(count > 0);
        }
    }
    assert!(kinds.is_empty(), "others: {kinds:?}");
}

/// 65,535 bytes, of which the one at place 40,000 is bad, with answers worked out by hand.
#[test]
fn the_longest_by_hand() {
    for density in [Density::Mfm, Density::Gcr] {
        let gcr = density == Density::Gcr;
        let mut trip = Trip {
            density,
            thrown: 0,
            count: 65_535,
            host: vec![0x5A; 65_535],
            place: 40_000,
            spoiled: BTreeMap::new(),
            room: 65_535,
        };
        if gcr {
            // blockettes 254 and 1, and the check blockette of number 1
            trip.spoiled = BTreeMap::from([(1, 3), (254, 4), (256, 5)]);
        }
        let steps = trip.read_back();
        let seen = both(&steps);
        let data = &seen[trip.written().len() - 3];
        assert_eq!(data.given.len(), if gcr { 66_050 } else { 65_537 });
        assert_eq!(data.given[..2], [0xFF, 0xFF]);
        assert!(data.given[2..40_003].iter().all(|&byte| byte == 0x5A));
        assert!(data.given[40_003..65_537].iter().all(|&byte| byte == 0));
        let read = &seen[trip.written().len() + 1];
        let record = read.record.unwrap();
        assert_eq!((record.motion, record.count), (1, 65_535));
        if gcr {
            // 156 blockettes are whole, and the next has 65 bytes: of each parity 78, whose sums cancel, but for it,
            // blockette 99, which is odd
            let mut checks = [0; 512];
            checks[..65].fill(0x5A);
            assert_eq!(data.check, checks);
            // the second odd one is the check blockette, behind all data: everything is delivered, as it came
            assert_eq!(record.code, 0x16);
            assert_eq!(read.given.len(), 65_535);
            assert_eq!(read.given[255..258], [0x5A, 0x59, 0x59]);
            // tertiary: odd 1, data, mark 4; even 254, data, mark 3; quintary: odd check 1, mark 5
            assert_eq!(
                read.state[41..49],
                [0x41, 0x01, 0x31, 0xFE, 0x00, 0x00, 0x52, 0x01]
            );
        } else {
            assert_eq!(record.code, 0);
            assert_eq!(read.given, data.given[2..]);
        }
    }
}

/// What the limits of a line kept a session from showing, made wrong one rule at a time.
const WRONG: [Mutant; 20] = [
    Mutant::LowLimit(Limited::Write, 65_534),
    Mutant::LowLimit(Limited::Image, 65_534),
    Mutant::LowLimit(Limited::Image, 32_767),
    Mutant::LowLimit(Limited::Supplied, 65_534),
    Mutant::LowLimit(Limited::ReverseSkip, 65_534),
    Mutant::LongSuppliedEmpty,
    Mutant::LongCountCut,
    Mutant::LongMfmAsGcr,
    Mutant::CountedUpward,
    Mutant::CheckBlocketteNotCounted,
    Mutant::ScanRunsOn,
    Mutant::OverflowAgainstCount,
    Mutant::RetryOddUnread,
    Mutant::RetryCheckExcuses,
    Mutant::SuppliedFirstGoodKept,
    Mutant::SuppliedFirstErrorKept,
    Mutant::SuppliedFirstDelivered,
    Mutant::SuppliedChecksUnread,
    Mutant::PlaceNotZeroed,
    Mutant::PlaceZeroed,
];

#[test]
fn each_wrong_rule_is_found() {
    let mut random = Random::new(65_535);
    let mut left = WRONG.to_vec();
    for turn in 0..TRIPS {
        let steps = trip(&mut random).read_back();
        let given = controller(&steps);
        left.retain(|&mutant| {
            let stays = machine(&steps, Some(mutant)) == given;
            if !stays {
                println!("{mutant:?}: record {turn}");
            }
            stays
        });
        if left.is_empty() {
            return;
        }
    }
    panic!("not found: {left:?}");
}
