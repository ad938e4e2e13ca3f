//! One drive: motion orders in, reports and a result out. It knows nothing of hosts or of the controller, but answers
//! only with codes and marks that document 01 lists for the operation.

mod motion;
mod passes;
mod write;

use crate::cartridge::{record_length, Cartridge, Image, Segment, Track, What, FIRST, LOAD_POINT, MARK_LENGTH, TRACKS};
use crate::faults::{Chance, Chances, Fault, Place};

/// The bits of a report.
pub mod report {
    pub const BOT: u8 = 1;
    pub const SELECTABLE: u8 = 2;
    pub const POSITION_UNKNOWN: u8 = 4;
    pub const PROTECTED: u8 = 8;
    pub const BOT_WARNING: u8 = 16;
    pub const INSTALLED: u8 = 32;
    pub const EOT_WARNING: u8 = 64;
    pub const EOT: u8 = 128;
}

/// The first byte of an order.
pub mod operation {
    pub const REWIND: u8 = 0x10;
    pub const FAST_FORWARD: u8 = 0x11;
    pub const SKIP_FORWARD: u8 = 0x20;
    pub const SKIP_REVERSE: u8 = 0x21;
    pub const SEARCH_FORWARD: u8 = 0x22;
    pub const SEARCH_REVERSE: u8 = 0x23;
    pub const WRITE_MARK: u8 = 0x24;
    pub const READ: u8 = 0x40;
    pub const WRITE: u8 = 0x50;
    pub const ERASE: u8 = 0x60;
    pub const READ_SUPPLIED: u8 = 0x80;
}

/// The codes that a transport reports.
pub mod code {
    pub const GOOD: u8 = 0x00;
    pub const END_LATE: u8 = 0x06;
    pub const TAPE_GONE: u8 = 0x07;
    pub const LOAD_POINT_LATE: u8 = 0x08;
    pub const SYNC_LATE: u8 = 0x09;
    pub const GAP_UNEXPECTED: u8 = 0x0A;
    pub const DROP_OUT: u8 = 0x0B;
    pub const IDENTIFICATION_LATE: u8 = 0x0C;
    pub const IDENTIFICATION_BAD: u8 = 0x0D;
    pub const COUNT_BAD: u8 = 0x0E;
    pub const CRC_BAD: u8 = 0x0F;
    pub const REVERSE_COUNT_BAD: u8 = 0x10;
    pub const BLOCKETTE_NUMBER: u8 = 0x13;
    pub const SUPPLIED_NOT_FOUND: u8 = 0x14;
    pub const EOT: u8 = 0x17;
    pub const BOT: u8 = 0x18;
}

/// The mark of a blockette that was read well.
pub const GOOD_MARK: u8 = 15;

/// A motion order, without the number of the drive.
#[derive(Clone, Copy, Debug, PartialEq, Eq)]
pub struct Order {
    pub operation: u8,
    pub track: u8,
    pub density: u8,
    /// The last two operand bytes: inches, or a supplied count.
    pub operand: u16,
}

/// What came of an order. The reports came before the result, in this order.
#[derive(Clone, Debug, Default, PartialEq, Eq)]
pub struct Answer {
    pub reports: Vec<u8>,
    pub code: u8,
    pub mark: bool,
    pub late: u8,
    pub image: Image,
    pub marks: Vec<u8>,
}

/// A fault with how often it was met.
#[derive(Clone, Debug, PartialEq, Eq)]
pub struct Met {
    pub fault: Fault,
    pub times: u32,
}

impl Met {
    fn is_on(&self) -> bool {
        self.fault.times().is_none_or(|most| self.times < most)
    }
}

/// A transport that is wrong in one way, so that tests have something to find.
#[derive(Clone, Copy, Debug, PartialEq, Eq)]
pub enum Wrong {
    /// A bad blockette is marked good.
    MarkLost,
    /// The marks stand in the other order.
    MarksReversed,
    /// A reverse move stops behind the record.
    ReverseStays,
    /// A skip forward passes two records.
    SkipsTwo,
    /// A write begins where the heads stand and wipes what stands before.
    WritesTooEarly,
    /// A drop-out is not told.
    DropOutUntold,
    /// A reverse skip tells the count unrotated.
    CountUnrotated,
    /// A record is written in the other density.
    OtherDensity,
    /// The tape is gone and no report says so.
    GoneUnreported,
    /// A supplied count reads the record from its own beginning.
    SuppliedFromStart,
    /// Every track is track 0.
    OneTrack,
    /// A rewind stops behind the load point.
    RewindShort,
    /// EOT is passed.
    EndPassed,
    /// The late flags are lost.
    LateLost,
    /// Where a gap is found in a record, the tape stays before it.
    GapStays,
}

/// A pass over a record, as only the tape knows it: what a judge of losses goes by.
#[derive(Clone, Debug, PartialEq, Eq)]
pub struct Seen {
    pub track: u8,
    pub object: usize,
    pub density: u8,
    /// The code that was reported, and whether bytes were lost behind it: late flags, or no space for them.
    pub code: u8,
    pub late: bool,
    /// The number of blockettes before the first that was read: not 0 for a supplied count.
    pub first: usize,
    pub supplied: bool,
    /// The marks of the blockettes that were read.
    pub marks: Vec<u8>,
    /// Whether a byte was changed that no mark tells of.
    pub silent: bool,
}

#[derive(Clone, Debug)]
pub struct Transport {
    cartridge: Option<Cartridge>,
    /// What was taken out or torn off, and lies beside.
    taken: Option<Cartridge>,
    present: bool,
    place: Place,
    known: bool,
    at_end: bool,
    orders: usize,
    faults: Vec<Met>,
    chances: Chances,
    chance: Chance,
    /// Faults by chance that came, in the order of `Chances`.
    pub by_chance: [u32; 6],
    last_report: u8,
    /// The passes over records, where they are kept.
    pub passes: Vec<Seen>,
    pub keeps: bool,
    pub wrong: Option<Wrong>,
}

/// A move that did not come to its end: the code, which is 7, 8, 17 or 18.
type Moved = Result<(), u8>;

impl Transport {
    /// A drive with no cartridge in it.
    pub fn new(seed: u64) -> Transport {
        let mut transport = Transport {
            cartridge: None,
            taken: None,
            present: true,
            place: 0,
            known: false,
            at_end: false,
            orders: 0,
            faults: Vec::new(),
            chances: Chances::default(),
            chance: Chance::new(seed),
            by_chance: [0; 6],
            last_report: 0,
            passes: Vec::new(),
            keeps: false,
            wrong: None,
        };
        transport.last_report = transport.report();
        transport
    }

    /// No drive at all.
    pub fn missing() -> Transport {
        let mut transport = Transport::new(0);
        transport.present = false;
        transport.last_report = transport.report();
        transport
    }

    /// Puts a cartridge in. Nobody knows where its tape stands, until it is rewound.
    pub fn insert(&mut self, cartridge: Cartridge) {
        self.place = FIRST.min(cartridge.length);
        self.known = false;
        self.at_end = false;
        self.faults.extend(cartridge.faults.iter().map(|fault| Met { fault: fault.clone(), times: 0 }));
        self.cartridge = Some(cartridge);
        self.last_report = self.report();
    }

    pub fn add_fault(&mut self, fault: Fault) {
        self.faults.push(Met { fault, times: 0 });
    }

    pub fn set_chances(&mut self, chances: Chances) {
        self.chances = chances;
    }

    pub fn faults(&self) -> &[Met] {
        &self.faults
    }

    /// The cartridge, also one that was taken out.
    pub fn cartridge(&self) -> Option<&Cartridge> {
        self.cartridge.as_ref().or(self.taken.as_ref())
    }

    pub fn is_installed(&self) -> bool {
        self.cartridge.is_some()
    }

    pub fn place(&self) -> Place {
        self.place
    }

    /// What the drive reports now.
    pub fn report(&self) -> u8 {
        let mut bits = if self.present { report::SELECTABLE } else { 0 };
        let Some(cartridge) = &self.cartridge else {
            return bits | report::POSITION_UNKNOWN;
        };
        bits |= report::INSTALLED;
        if cartridge.protected {
            bits |= report::PROTECTED;
        }
        if !self.known {
            return bits | report::POSITION_UNKNOWN;
        }
        if self.place == 0 {
            bits |= report::BOT;
        }
        if self.place < LOAD_POINT {
            bits |= report::BOT_WARNING;
        }
        if self.place >= cartridge.length - LOAD_POINT {
            bits |= report::EOT_WARNING;
        }
        if self.at_end {
            bits |= report::EOT;
        }
        bits
    }

    /// Carries out an order. A write brings the image of its record.
    pub fn carry_out(&mut self, order: Order, image: &[u8]) -> Answer {
        self.orders += 1;
        let mut answer = Answer::default();
        if self.cartridge.is_none() {
            answer.code = code::TAPE_GONE;
            return answer;
        }
        let track = if self.wrong == Some(Wrong::OneTrack) { 0 } else { usize::from(order.track) % TRACKS };
        match order.operation {
            operation::REWIND => self.wind(0, &mut answer),
            operation::FAST_FORWARD => self.wind(Place::MAX, &mut answer),
            operation::SKIP_FORWARD => {
                self.forward(track, order, &mut answer);
                if self.wrong == Some(Wrong::SkipsTwo) && answer.code == code::GOOD {
                    self.forward(track, order, &mut answer);
                }
            }
            operation::READ | operation::READ_SUPPLIED => self.forward(track, order, &mut answer),
            operation::SEARCH_FORWARD => loop {
                answer = Answer { reports: answer.reports, ..Answer::default() };
                self.forward(track, order, &mut answer);
                if answer.mark || answer.code != code::GOOD {
                    break;
                }
            },
            operation::SKIP_REVERSE => self.reverse(track, order, &mut answer),
            operation::SEARCH_REVERSE => loop {
                answer = Answer { reports: answer.reports, ..Answer::default() };
                self.reverse(track, order, &mut answer);
                answer.image = Image::default();
                if answer.mark || answer.code != code::GOOD {
                    break;
                }
            },
            operation::WRITE => {
                let other = u8::from(self.wrong == Some(Wrong::OtherDensity));
                let what = What::Record { image: image.to_vec().into(), density: order.density ^ other };
                self.write(track, record_length(image.len(), order.density), what, &mut answer);
            }
            operation::WRITE_MARK => self.write(track, MARK_LENGTH, What::Mark, &mut answer),
            operation::ERASE => self.erase(track, order.operand, &mut answer),
            _ => unreachable!("the controller orders nothing else"),
        }
        if !self.is_installed() {
            // what was read is not used once the tape is gone
            answer = Answer { reports: answer.reports, code: code::TAPE_GONE, ..Answer::default() };
        }
        let late = self.late();
        if late != 0 {
            self.lose_bytes(order, track, &mut answer);
        }
        answer.late = if self.wrong == Some(Wrong::LateLost) { 0 } else { late };
        self.tell(&mut answer);
        answer
    }

    fn late(&mut self) -> u8 {
        let orders = self.orders;
        let mut flags = 0;
        for met in self.faults.iter_mut().filter(|met| met.is_on()) {
            if let Fault::Late { order, flags: late } = met.fault {
                if order == orders {
                    met.times += 1;
                    flags |= late;
                }
            }
        }
        if self.chance.in_thousand(self.chances.late) {
            self.by_chance[3] += 1;
            flags |= 1 + self.chance.below(3) as u8;
        }
        flags
    }

    /// The host had no space for all of what was read last.
    pub fn cut_short(&mut self) {
        if let Some(last) = self.passes.last_mut() {
            last.late = true;
        }
    }

    /// Late flags mean that bytes were lost on their way, with nothing else to tell of it.
    fn lose_bytes(&mut self, order: Order, track: usize, answer: &mut Answer) {
        let byte = self.chance.next() as usize;
        let spoil = |image: &mut Image| {
            if image.len() > 2 {
                let place = 2 + byte % (image.len() - 2);
                image.own()[place] ^= 0x81;
            }
        };
        match order.operation {
            operation::READ | operation::READ_SUPPLIED => {
                spoil(&mut answer.image);
                self.cut_short();
            }
            operation::WRITE if answer.code == code::GOOD => {
                let place = self.place;
                if let Some(cartridge) = self.cartridge.as_mut() {
                    let track = &mut cartridge.tracks[track];
                    let index = track.behind(place);
                    if let Some(Segment { what: What::Record { image, .. }, .. }) =
                        index.and_then(|index| track.segments.get_mut(index))
                    {
                        spoil(image);
                    }
                }
            }
            _ => {}
        }
    }

    /// Counts the faults that a test picks and that are still met, and says whether there was one.
    fn meets(&mut self, picks: impl Fn(&Fault) -> bool) -> bool {
        let mut found = false;
        for met in self.faults.iter_mut() {
            if met.is_on() && picks(&met.fault) {
                met.times += 1;
                found = true;
            }
        }
        found
    }

    fn track(&self, track: usize) -> &Track {
        const NONE: &Track = &Track { segments: Vec::new() };
        self.cartridge.as_ref().map_or(NONE, |cartridge| &cartridge.tracks[track])
    }
}
