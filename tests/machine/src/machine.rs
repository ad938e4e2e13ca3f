//! The controller: its state and the eight calls, as document 01 has them, with document 02's first
//! four wishes and its sixth to eighth: the read whose count the host supplies, the retry bit that
//! hosts can trust, records of 65,535 bytes, code, motion and count of each finished store, host bytes
//! with bad parity, a write guard for each drive, and two calls for the stores that four jobs queue.
//!
//! Refusal 1, a damaged state, is not here: the state's types and the calls keep it whole.

use crate::jobs::{Queues, Store};
use crate::mutants::{Limited, Mutant, Way};
use crate::records::{self, Density, Verdict, BLOCKETTE};

// ---------------------------------------------------------------------------------------------
// Registers, bits and bytes, with document 01's numbers
// ---------------------------------------------------------------------------------------------

/// Bytes on the link.
pub mod link {
    pub const LOAD: u8 = 0x62;
    pub const STORE: u8 = 0x64;
    pub const ACK: u8 = 0x06;
    pub const NACK: u8 = 0x15;
    pub const GO: u8 = 0x47;
    pub const EOR: u8 = 0x45;
    pub const LOAD_REPLY: u8 = 0x66;
    pub const SECONDARY_UPDATE: u8 = 0x68;
    pub const INTERRUPT: u8 = 0x69;
    /// Lead, address, unused, check.
    pub const LOAD_LENGTH: usize = 4;
    /// Lead, address, four operand bytes, unused, check.
    pub const STORE_LENGTH: usize = 8;
    /// A sent string is given up at this no.
    pub const LAST_NO: u8 = 5;
}

/// The address byte of a load or store.
pub mod address {
    pub const INTERRUPT: u8 = 0x80;
    pub const NAMES_DRIVE: u8 = 0x08;
    pub const DRIVE: u8 = 0x07;

    /// Bits 1-3.
    pub fn operation(address: u8) -> u8 {
        address >> 4 & 7
    }
}

/// Bits of a drive's report.
pub mod report {
    pub const EOT: u8 = 128;
    pub const EOT_WARNING: u8 = 64;
    pub const INSTALLED: u8 = 32;
    pub const BOT_WARNING: u8 = 16;
    pub const PROTECTED: u8 = 8;
    pub const POSITION_UNKNOWN: u8 = 4;
    pub const SELECTABLE: u8 = 2;
    pub const BOT: u8 = 1;
}

/// Bits of the primary status word, 0 the most significant, and its fields by their last bit.
pub mod primary {
    pub const fn bit(number: u32) -> u32 {
        1 << (31 - number)
    }
    pub const CHANGED: u32 = bit(0);
    pub const ENABLE: u32 = bit(1);
    pub const RETRY: u32 = bit(2);
    pub const TRACK: u32 = bit(5);
    pub const DRIVE: u32 = bit(7);
    pub const MARK: u32 = bit(8);
    pub const MOTION: u32 = bit(10);
    pub const CODE: u32 = bit(15);
    pub const PARITY: u32 = bit(16);
    pub const OVERFLOW: u32 = bit(17);
    pub const UNDERFLOW: u32 = bit(18);
    pub const LATE_1: u32 = bit(19);
    pub const LATE_2: u32 = bit(20);
    pub const COUNT_SUPPLIED: u32 = bit(21);
    pub const COUNT_VALID: u32 = bit(22);
    pub const DENSITY: u32 = bit(23);
    /// Bits 16-20: each of them asks a retry, but for late flag 1 in a skip.
    pub const TROUBLE: u32 = 0x0000_F800;
}

/// The two bits of the motion field.
pub mod motion {
    pub const NONE: u8 = 0b00;
    pub const FORWARD: u8 = 0b01;
    pub const REVERSE: u8 = 0b10;
    pub const LOST: u8 = 0b11;
}

/// Result codes that the controller itself gives.
pub mod code {
    pub const GOOD: u8 = 0x00;
    pub const NO_SUCH_DRIVE: u8 = 0x01;
    pub const NO_SUCH_OPERATION: u8 = 0x02;
    pub const NO_SUCH_TRACK: u8 = 0x03;
    pub const NOT_READY: u8 = 0x04;
    pub const NO_GO: u8 = 0x05;
    pub const TAPE_GONE: u8 = 0x07;
    pub const BLOCKETTE_NUMBER: u8 = 0x13;
    pub const RECOVERABLE: u8 = 0x15;
    pub const UNRECOVERABLE: u8 = 0x16;
}

/// What load 0 answers.
pub const IDENTITY: u32 = 0x0A20_0000;

// ---------------------------------------------------------------------------------------------
// Operations and the state
// ---------------------------------------------------------------------------------------------

/// The gap under the head.
#[derive(Clone, Copy, Debug, PartialEq, Eq, Hash, PartialOrd, Ord)]
pub enum Gap {
    Proper = 0,
    Improper = 1,
    UnfinishedWrite = 2,
    Lost = 3,
}

/// What the table of answers says of a code that an operation's result reports.
#[derive(Clone, Copy, Debug, PartialEq, Eq)]
pub enum Entry {
    Never = 0,
    NoRetry = 1,
    Retry = 2,
}

/// The twelve operations that await a result.
#[derive(Clone, Copy, Debug, PartialEq, Eq, Hash, PartialOrd, Ord)]
pub enum Operation {
    Read,
    CheckBytes,
    Write,
    Erase,
    Rewind,
    FastForward,
    SkipForward,
    SkipReverse,
    SearchForward,
    SearchReverse,
    WriteMark,
    /// A read of a GCR record whose count the host supplies.
    SuppliedCount,
}

/// Document 01's eleven, then that of document 02.
pub const OPERATIONS: [Operation; 12] = [
    Operation::Read,
    Operation::CheckBytes,
    Operation::Write,
    Operation::Erase,
    Operation::Rewind,
    Operation::FastForward,
    Operation::SkipForward,
    Operation::SkipReverse,
    Operation::SearchForward,
    Operation::SearchReverse,
    Operation::WriteMark,
    Operation::SuppliedCount,
];

impl Operation {
    /// First byte of the motion order. Check bytes give no order.
    pub fn order(self) -> u8 {
        match self {
            Operation::Read | Operation::CheckBytes => 0x40,
            Operation::Write => 0x50,
            Operation::Erase => 0x60,
            Operation::Rewind => 0x10,
            Operation::FastForward => 0x11,
            Operation::SkipForward => 0x20,
            Operation::SkipReverse => 0x21,
            Operation::SearchForward => 0x22,
            Operation::SearchReverse => 0x23,
            Operation::WriteMark => 0x24,
            Operation::SuppliedCount => 0x80,
        }
    }

    /// Codes that the drive's side may report.
    pub fn listed(self) -> &'static [u8] {
        match self {
            Operation::Read | Operation::SkipForward | Operation::SearchForward => &[
                0x00, 0x07, 0x08, 0x09, 0x0A, 0x0C, 0x0D, 0x0E, 0x0F, 0x10, 0x11, 0x12, 0x13, 0x17,
            ],
            Operation::Write => &[
                0x00, 0x07, 0x08, 0x09, 0x0B, 0x0C, 0x0D, 0x0E, 0x0F, 0x10, 0x11, 0x12, 0x13, 0x14,
                0x17,
            ],
            Operation::WriteMark => &[0x00, 0x07, 0x08, 0x09, 0x0B, 0x0C, 0x0D, 0x17],
            Operation::SkipReverse | Operation::SearchReverse => {
                &[0x00, 0x07, 0x09, 0x0C, 0x0D, 0x0E, 0x18]
            }
            Operation::Erase => &[0x00, 0x06, 0x07, 0x08, 0x17],
            Operation::Rewind | Operation::FastForward => &[0x00, 0x06, 0x07],
            Operation::CheckBytes => &[0x00],
            Operation::SuppliedCount => &[0x00, 0x07, 0x08, 0x09, 0x0A, 0x13, 0x14, 0x17],
        }
    }

    /// The entry of a code, listed or not. 15 and 16 have none, since no result reports them.
    pub fn entry(self, code: u8) -> Entry {
        match (self, code) {
            _ if !self.listed().contains(&code) => Entry::Never,
            (_, code::GOOD) => Entry::NoRetry,
            // What is bad stands behind the record.
            (Operation::Read | Operation::SkipForward | Operation::SearchForward, 0x10..=0x12) => {
                Entry::NoRetry
            }
            // A record that is skipped need not be readable.
            (Operation::SkipForward, 0x0C | 0x0D | 0x0F) => Entry::NoRetry,
            _ => Entry::Retry,
        }
    }

    pub fn moves_tape(self) -> bool {
        self != Operation::CheckBytes
    }

    pub fn is_forward_move(self) -> bool {
        matches!(
            self,
            Operation::Read
                | Operation::SuppliedCount
                | Operation::SkipForward
                | Operation::SearchForward
        )
    }

    pub fn is_reverse_move(self) -> bool {
        matches!(self, Operation::SkipReverse | Operation::SearchReverse)
    }

    pub fn is_search(self) -> bool {
        matches!(self, Operation::SearchForward | Operation::SearchReverse)
    }

    pub fn is_skip(self) -> bool {
        matches!(self, Operation::SkipForward | Operation::SkipReverse)
    }

    /// Whether it changes what is on the tape.
    pub fn is_recording(self) -> bool {
        matches!(
            self,
            Operation::Write | Operation::WriteMark | Operation::Erase
        )
    }

    /// Whether it reads a whole record, which tells its count itself.
    pub fn reads_record(self) -> bool {
        matches!(self, Operation::Read | Operation::SkipForward)
    }

    pub fn offers_eor(self) -> bool {
        matches!(
            self,
            Operation::Read | Operation::SuppliedCount | Operation::Write | Operation::CheckBytes
        )
    }

    /// Whether the operation may start: by the drive's report, and by its guard.
    pub fn may_start(self, drive: &Drive) -> bool {
        self.passes_report(drive) && !(self.is_recording() && drive.is_guarded())
    }

    /// What a drive must report before the operation may start.
    pub fn passes_report(self, drive: &Drive) -> bool {
        let wind = matches!(self, Operation::Rewind | Operation::FastForward);
        let toward_end = self.is_forward_move() || self.is_recording();
        !self.moves_tape()
            || drive.reports(report::INSTALLED)
                && drive.reports(report::SELECTABLE)
                && (wind || !drive.reports(report::POSITION_UNKNOWN))
                && !(toward_end && drive.reports(report::EOT))
                && !(self.is_reverse_move() && drive.reports(report::BOT))
                && !(self.is_recording() && drive.reports(report::PROTECTED))
    }

    /// The motion field after a result with this final code.
    pub fn motion(self, code: u8) -> u8 {
        match (code, self) {
            (0x06..=0x09 | 0x17 | 0x18, _) => motion::LOST,
            (_, Operation::Erase | Operation::CheckBytes) => motion::NONE,
            (_, Operation::SkipReverse | Operation::SearchReverse | Operation::Rewind) => {
                motion::REVERSE
            }
            _ => motion::FORWARD,
        }
    }

    /// The gap after a result, or none where the old one stays.
    pub fn gap(self, code: u8) -> Option<Gap> {
        match (self.motion(code), self) {
            (motion::NONE, _) => None,
            (motion::LOST, _) => Some(Gap::Lost),
            (motion::REVERSE, _) => Some(Gap::Proper),
            (_, Operation::FastForward) => Some(Gap::Lost),
            _ if code == code::GOOD => Some(Gap::Proper),
            (_, Operation::Write | Operation::WriteMark) => Some(Gap::UnfinishedWrite),
            _ => Some(Gap::Improper),
        }
    }
}

/// Why a call was turned back.
#[derive(Clone, Copy, Debug, PartialEq, Eq, Hash, PartialOrd, Ord)]
pub enum Refusal {
    LinkCall = 2,
    NotAwaited = 3,
    NotIdle = 4,
    DriveNumber = 5,
    CheckStore = 6,
    CodeNotListed = 7,
    Flags = 8,
    Length = 9,
    MarkValue = 10,
    ImageSpace = 11,
    Place = 15,
    Store = 16,
    QueueFull = 17,
}

/// What a call has the controller do.
#[derive(Clone, Copy, Debug, PartialEq, Eq)]
pub enum Action {
    None,
    Byte(u8),
    String([u8; 6]),
    Order([u8; 6]),
}

/// What became of a finished store; the count is what secondary holds.
#[derive(Clone, Copy, Debug, PartialEq, Eq)]
pub struct Record {
    pub code: u8,
    pub motion: u8,
    pub count: u16,
}

pub type Answer = Result<Action, Refusal>;
/// With the number of bytes that were written to the lent image or host space.
pub type TransferAnswer = Result<(Action, usize), Refusal>;

#[derive(Clone, Copy, Debug, PartialEq, Eq)]
pub struct Drive {
    pub report: u8,
    /// The report as the last review saw it.
    pub reviewed: u8,
    pub track: u8,
    pub density: Density,
    pub gap: Gap,
    /// Whether a bad gap is to be kept from being written out of.
    pub guard: bool,
}

impl Drive {
    fn fresh(report: u8) -> Drive {
        Drive {
            report,
            reviewed: report,
            track: 0,
            density: Density::Mfm,
            gap: Gap::Lost,
            guard: false,
        }
    }

    pub fn reports(&self, bit: u8) -> bool {
        self.report & bit != 0
    }

    /// Whether the guard refuses what changes the tape; near its beginning any gap will do.
    pub fn is_guarded(&self) -> bool {
        self.guard && self.gap != Gap::Proper && !self.reports(report::BOT_WARNING)
    }
}

/// An operation under way.
#[derive(Clone, Copy, Debug, PartialEq, Eq)]
pub struct Job {
    pub operation: Operation,
    pub operand: [u8; 4],
    pub interrupt: bool,
}

impl Job {
    /// Data bytes of a write, or of a record read with a supplied count.
    pub fn count(&self) -> usize {
        count_of_operand(self.operand)
    }

    /// The supplied count of a read that has one.
    pub fn supplied(&self) -> Option<usize> {
        (self.operation == Operation::SuppliedCount).then(|| self.count())
    }

    /// Host bytes of a write that come first and are thrown away.
    pub fn thrown_away(&self) -> usize {
        self.operand[1] as usize
    }

    /// Host bytes that a write needs.
    pub fn needed(&self) -> usize {
        self.thrown_away() + self.count()
    }
}

/// The last two bytes of a store's operand.
fn count_of_operand(operand: [u8; 4]) -> usize {
    u16::from_be_bytes([operand[2], operand[3]]) as usize
}

/// What a sent string is for, which decides what its end brings.
#[derive(Clone, Copy, Debug, PartialEq, Eq)]
pub enum Send {
    LoadReply,
    /// The secondary update of a completion; primary follows.
    Secondary,
    /// The interrupt of a completion.
    Completion,
    /// The interrupt of an idle tick.
    DriveChange,
}

#[derive(Clone, Copy, Debug, PartialEq, Eq)]
pub enum Phase {
    Collecting {
        string: [u8; 8],
        length: usize,
    },
    AckOffered {
        string: [u8; 8],
    },
    /// The bytes are held: they go again as they were, whatever was reported meanwhile.
    Sending {
        send: Send,
        string: [u8; 6],
        noes: u8,
    },
    GoOffered(Job),
    DataAwaited(Job),
    ResultAwaited(Job),
    EorOffered {
        interrupt: bool,
    },
}

const IDLE: Phase = Phase::Collecting {
    string: [0; 8],
    length: 0,
};

/// A result as the drive's side hands it in.
#[derive(Clone, Copy, Debug)]
pub struct Reported<'a> {
    pub code: u8,
    pub mark: bool,
    pub late: u8,
    pub image: &'a [u8],
    pub marks: &'a [u8],
}

#[derive(Clone, Debug, PartialEq, Eq)]
pub struct Machine {
    pub drives: [Drive; 4],
    pub selected: usize,
    pub changed: bool,
    pub enable: bool,
    /// Bits 2 and 8-22 of primary: what became of the last store.
    pub outcome: u32,
    pub secondary: u16,
    pub tertiary: u32,
    pub quintary: u32,
    pub phase: Phase,
    pub queues: Queues,
    /// Left by the call that settles a code; whoever makes the call takes it.
    pub record: Option<Record>,
    pub mutant: Option<Mutant>,
}

// ---------------------------------------------------------------------------------------------
// Decode: what a store asks, and whether a result may be taken
// ---------------------------------------------------------------------------------------------

/// What a store asks, before any look at the drive's report.
enum Decoded {
    Reset,
    Code(u8),
    Track(u8),
    Enable(bool),
    Guard(bool),
    Density(Density),
    Operation(Operation),
}

/// The density is that of the drive which the store selected.
fn decode(operation: u8, operand: [u8; 4], density: Density, mutant: Option<Mutant>) -> Decoded {
    match operation {
        0 => Decoded::Reset,
        3 => match operand[3] {
            track @ 0x00..=0x03 => Decoded::Track(track),
            0x04..=0x07 => Decoded::Code(code::NO_SUCH_TRACK),
            0x08 => Decoded::Enable(false),
            0x09 => Decoded::Enable(true),
            0x0A | 0x0B if mutant == Some(Mutant::GuardNotKnown) => {
                Decoded::Code(code::NO_SUCH_OPERATION)
            }
            value @ (0x0A | 0x0B) => {
                Decoded::Guard((value == 0x0B) != (mutant == Some(Mutant::GuardExchanged)))
            }
            0x0C => Decoded::Density(Density::Mfm),
            0x0D => Decoded::Density(Density::Gcr),
            0x10 => Decoded::Operation(Operation::Rewind),
            0x11 => Decoded::Operation(Operation::FastForward),
            0x20 => Decoded::Operation(Operation::SkipForward),
            0x21 => Decoded::Operation(Operation::SkipReverse),
            0x22 => Decoded::Operation(Operation::SearchForward),
            0x23 => Decoded::Operation(Operation::SearchReverse),
            0x24 => Decoded::Operation(Operation::WriteMark),
            _ => Decoded::Code(code::NO_SUCH_OPERATION),
        },
        4 => match operand[0] {
            0x00 => Decoded::Operation(Operation::Read),
            0x40 => Decoded::Operation(Operation::CheckBytes),
            _ if asks_supplied_count(operand, density, mutant) => {
                Decoded::Operation(Operation::SuppliedCount)
            }
            _ => Decoded::Code(code::NO_SUCH_OPERATION),
        },
        5 if count_of_operand(operand) <= limit(Limited::Write, mutant) => {
            Decoded::Operation(Operation::Write)
        }
        6 => Decoded::Operation(Operation::Erase),
        _ => Decoded::Code(code::NO_SUCH_OPERATION),
    }
}

/// The most that a count may be. No 16 bits say more, unless a mutant lowers it.
fn limit(place: Limited, mutant: Option<Mutant>) -> usize {
    match mutant {
        Some(Mutant::LowLimit(lowered, limit)) if lowered == place => limit,
        _ => records::RECORD_LIMIT,
    }
}

/// First operand byte 80, in GCR, with a count that a record may have.
fn asks_supplied_count(operand: [u8; 4], density: Density, mutant: Option<Mutant>) -> bool {
    let wrong = |rule| mutant == Some(rule);
    let named = match operand[0] {
        0x80 => !wrong(Mutant::SuppliedNotKnown),
        0x81.. => wrong(Mutant::SuppliedByOneBit),
        _ => false,
    };
    let gcr = density == Density::Gcr || wrong(Mutant::SuppliedInMfm);
    named && gcr && count_of_operand(operand) <= limit(Limited::Supplied, mutant)
}

/// Refusals 7 to 10, which look at the result as it was handed in, tape or no tape.
fn check_reported(
    job: Job,
    density: Density,
    reported: &Reported,
    mutant: Option<Mutant>,
) -> Result<(), Refusal> {
    let wrong = |rule| job.supplied().is_some() && mutant == Some(rule);
    let operation = job.operation;
    let Reported {
        code,
        mark,
        late,
        image,
        marks,
    } = *reported;
    let row = if wrong(Mutant::SuppliedCodesOfRead) {
        Operation::Read
    } else {
        operation
    };
    if row.entry(code) == Entry::Never {
        return Err(Refusal::CodeNotListed);
    }
    let good = code == code::GOOD;
    let may_find_mark = operation == Operation::Read
        || operation.is_skip()
        || operation.is_search()
        || wrong(Mutant::SuppliedMarkFlag);
    if mark && !(good && may_find_mark) || operation.is_search() && good && !mark || late > 3 {
        return Err(Refusal::Flags);
    }
    if wanted_lengths(job, density, reported, mutant) != Some((image.len(), marks.len())) {
        return Err(Refusal::Length);
    }
    let unread = wrong(Mutant::SuppliedFirstMarkUnread) as usize;
    if !marks
        .iter()
        .skip(unread)
        .all(|&mark| records::is_mark(mark))
    {
        return Err(Refusal::MarkValue);
    }
    Ok(())
}

/// The lengths of image and marks that a result has to bring. None if they hang on the image's
/// own count, and that is missing.
fn wanted_lengths(
    job: Job,
    density: Density,
    reported: &Reported,
    mutant: Option<Mutant>,
) -> Option<(usize, usize)> {
    let Reported {
        code, mark, image, ..
    } = *reported;
    let good = code == code::GOOD && !mark;
    let own_count = |place| records::count_of(image).filter(|&count| count <= limit(place, mutant));
    let of_record = |count| {
        (
            records::image_length(count, density),
            records::marks_length(count, density),
        )
    };
    if let Some(count) = job.supplied() {
        // The image's own count is not looked at; a record of no bytes brings not even that.
        return match count {
            _ if !good => Some((0, 0)),
            _ if mutant == Some(Mutant::SuppliedOwnCount) => {
                own_count(Limited::Image).map(of_record)
            }
            0 if mutant != Some(Mutant::SuppliedNoneAsRecord) => Some((0, 0)),
            16_385.. if mutant == Some(Mutant::LongSuppliedEmpty) => Some((0, 0)),
            _ => Some(of_record(count)),
        };
    }
    if job.operation.reads_record() && matches!(code, 0x00 | 0x10 | 0x11 | 0x12) && !mark {
        own_count(Limited::Image).map(of_record)
    } else if job.operation == Operation::SkipReverse && density == Density::Gcr && good {
        own_count(Limited::ReverseSkip).map(|_| (2, 0))
    } else {
        Some((0, 0))
    }
}

// ---------------------------------------------------------------------------------------------
// Execute: the calls, loads and stores
// ---------------------------------------------------------------------------------------------

impl Default for Machine {
    fn default() -> Machine {
        Machine::fresh()
    }
}

impl Machine {
    pub fn fresh() -> Machine {
        Machine {
            drives: [Drive::fresh(report::POSITION_UNKNOWN); 4],
            selected: 0,
            changed: true,
            enable: false,
            outcome: 0,
            secondary: 0,
            tertiary: 0,
            quintary: 0,
            phase: IDLE,
            queues: Queues::fresh(),
            record: None,
            mutant: None,
        }
    }

    // -----------------------------------------------------------------------------------------
    // The eight calls
    // -----------------------------------------------------------------------------------------

    /// A byte came over the link.
    pub fn byte(&mut self, byte: u8) -> Answer {
        match self.phase {
            Phase::Collecting { string, length } => Ok(self.collect(string, length, byte)),
            // The string is dropped and the byte swallowed, whichever it is.
            Phase::AckOffered { .. } => Ok(self.rest()),
            Phase::Sending { send, string, noes } => {
                if byte == link::ACK {
                    Ok(self.accepted(send))
                } else {
                    Ok(self.said_no(send, string, noes + 1))
                }
            }
            Phase::GoOffered(job) => {
                if byte == link::ACK {
                    self.phase = Phase::DataAwaited(job);
                    Ok(Action::None)
                } else {
                    Ok(self.no_go(job))
                }
            }
            // Yes or no, the completion goes on.
            Phase::EorOffered { interrupt } => Ok(self.complete(interrupt)),
            Phase::DataAwaited(_) | Phase::ResultAwaited(_) => Err(Refusal::LinkCall),
        }
    }

    /// The offered ACK was taken: the string is carried out.
    pub fn taken(&mut self) -> Answer {
        let Phase::AckOffered { string } = self.phase else {
            return Err(Refusal::LinkCall);
        };
        if string[0] == link::LOAD {
            Ok(self.load(string[1]))
        } else {
            let action = self.store(Store {
                address: string[1],
                operand: [string[2], string[3], string[4], string[5]],
            });
            Ok(self.unrecorded(Way::Taken, action))
        }
    }

    /// The exchange was broken off.
    pub fn broken(&mut self) -> Answer {
        match self.phase {
            Phase::Collecting { .. } | Phase::AckOffered { .. } => Ok(self.rest()),
            Phase::Sending { send, .. } => Ok(self.given_up(send)),
            Phase::GoOffered(job) => Ok(self.no_go(job)),
            Phase::EorOffered { interrupt } => Ok(self.complete(interrupt)),
            Phase::DataAwaited(_) | Phase::ResultAwaited(_) => Err(Refusal::LinkCall),
        }
    }

    /// A drive reports. Accepted in every phase: tape may go while a result is awaited.
    pub fn report(&mut self, drive: u8, report: u8) -> Answer {
        let Some(drive) = self.drives.get_mut(drive as usize) else {
            return Err(Refusal::DriveNumber);
        };
        drive.report = report;
        if !drive.reports(report::INSTALLED) {
            drive.gap = Gap::Lost;
            drive.guard &= self.mutant != Some(Mutant::GuardClearedByReport);
        }
        Ok(Action::None)
    }

    /// The host's bytes for a write: the image is built and the move ordered. The place is that of
    /// a byte that came with bad parity, counted over all of them.
    pub fn data(
        &mut self,
        host: &[u8],
        place: usize,
        image: &mut [u8],
        check_store: &mut [u8],
    ) -> TransferAnswer {
        let Phase::DataAwaited(job) = self.phase else {
            return Err(Refusal::NotAwaited);
        };
        if check_store.len() != records::CHECK_BYTES {
            return Err(Refusal::CheckStore);
        }
        let place_refused = self.refuses_place(place, job, host.len());
        if place_refused && self.wrong(Mutant::PlaceBeforeSpace) {
            return Err(Refusal::Place);
        }
        let density = self.drive().density;
        let needs = match self.mutant {
            Some(Mutant::LongMfmAsGcr) => records::image_length(job.count(), Density::Gcr),
            _ => records::image_length(job.count(), density),
        };
        if image.len() < needs {
            return Err(self.short_of_space(density, check_store));
        }
        if place_refused {
            return Err(Refusal::Place);
        }
        let guard_tested = self.wrong(Mutant::GuardAtData) || self.wrong(Mutant::GuardAtDataToo);
        if guard_tested && self.drive().is_guarded() {
            self.settle(code::NOT_READY, motion::NONE, true);
            return Ok((self.end(job), 0));
        }

        // Nothing behind a bad byte is taken, as if the host had ended with it.
        let bad = self.bad_byte(place, job);
        let taken = match bad {
            Some(place) => self.taken_before_bad(place, job, host.len()),
            None => host.len(),
        };
        let needed = job.needed();
        let meant = &host[job.thrown_away().min(taken)..needed.min(taken)];
        let ran_out = match self.mutant {
            Some(Mutant::ThrownAwayNotMissed) => bad.is_none() && meant.len() < job.count(),
            Some(Mutant::PlaceUnderflow) => host.len() < needed,
            Some(Mutant::PlaceUnderflowByBad) => taken < needed,
            _ => bad.is_none() && host.len() < needed,
        };
        if ran_out {
            self.outcome |= primary::UNDERFLOW;
        }
        if bad.is_some() && !self.wrong(Mutant::PlaceUntold) {
            self.outcome |= primary::PARITY;
        }
        let mut record = meant.to_vec();
        record.resize(job.count(), 0);
        let length = records::build(&record, density, image);
        if density == Density::Gcr {
            self.clear_correction(check_store);
            keep_check_blockettes(&image[..length], check_store);
        }
        self.phase = Phase::ResultAwaited(job);
        Ok((Action::Order(self.order(job)), length))
    }

    /// A place that is neither in the host bytes nor the value for none.
    fn refuses_place(&self, place: usize, job: Job, host: usize) -> bool {
        match self.mutant {
            Some(Mutant::PlaceAtEnd) if place == host => false,
            Some(Mutant::PlaceAtLimit) if place == records::RECORD_LIMIT => false,
            Some(Mutant::PlaceNoneOutside) => place >= host,
            Some(Mutant::PlaceBehindRefused) if place >= job.needed() => place != records::NO_PLACE,
            _ => place >= host && place != records::NO_PLACE,
        }
    }

    /// The place of a bad byte among those that the store needs; one past them counts as none. No
    /// store needs so many that the value for none would be among them.
    fn bad_byte(&self, place: usize, job: Job) -> Option<usize> {
        let counts = match self.mutant {
            _ if place == records::NO_PLACE => false,
            Some(Mutant::PlaceBehind) => true,
            Some(Mutant::PlaceRightBehind) => place <= job.needed(),
            Some(Mutant::PlaceAgainstCount | Mutant::PlaceOfRecord) => place < job.count(),
            Some(Mutant::PlaceThrownAwayIgnored) if place < job.thrown_away() => false,
            Some(Mutant::PlaceOfNoRecord) if job.count() == 0 => false,
            Some(Mutant::PlaceAtLimit) if place == records::RECORD_LIMIT => false,
            _ => place < job.needed(),
        };
        counts.then_some(place)
    }

    /// Host bytes up to a bad one, which is the last that is written as it came.
    fn taken_before_bad(&self, place: usize, job: Job, host: usize) -> usize {
        let taken = match self.mutant {
            Some(Mutant::PlaceZeroed) => place,
            Some(Mutant::PlaceNotZeroed) => host,
            Some(Mutant::PlaceThrownAwayKept) if place < job.thrown_away() => host,
            Some(Mutant::PlaceOfRecord) => job.thrown_away() + place + 1,
            _ => place + 1,
        };
        taken.min(host)
    }

    /// The refusal of a data call whose image does not fit: nothing changes, and the data are still
    /// awaited.
    fn short_of_space(&mut self, density: Density, check_store: &mut [u8]) -> Refusal {
        match self.mutant {
            Some(Mutant::LongWriteDropped) => self.phase = IDLE,
            Some(Mutant::LongWriteClears) if density == Density::Gcr => check_store.fill(0),
            Some(Mutant::LongWriteIsLength) => return Refusal::Length,
            _ => {}
        }
        Refusal::ImageSpace
    }

    /// What became of the operation under way.
    pub fn result(
        &mut self,
        reported: Reported,
        host_space: &mut [u8],
        check_store: &mut [u8],
    ) -> TransferAnswer {
        let Phase::ResultAwaited(job) = self.phase else {
            return Err(Refusal::NotAwaited);
        };
        if check_store.len() != records::CHECK_BYTES {
            return Err(Refusal::CheckStore);
        }
        // Held with a supplied count, a record is GCR whatever the drive has become.
        let supplied = job.supplied();
        let density = match supplied {
            Some(_) => Density::Gcr,
            None => self.drive().density,
        };
        check_reported(job, density, &reported, self.mutant)?;
        let secondary_before = self.secondary;

        // The tape may have gone meanwhile: then nothing that was reported is used.
        let tape_gone = job.operation.moves_tape()
            && !self.drive().reports(report::INSTALLED)
            && !self.wrong(Mutant::TapeGoneUnnoticed);
        // A record of no bytes has no first blockette that could have been found.
        let none_found = supplied == Some(0)
            && reported.code == code::GOOD
            && !self.wrong(Mutant::SuppliedNoneIsGood);
        let mut code = if tape_gone && !(none_found && self.wrong(Mutant::SuppliedNoneFirst)) {
            code::TAPE_GONE
        } else if none_found {
            code::BLOCKETTE_NUMBER
        } else {
            reported.code
        };
        let mark = reported.mark && !tape_gone;
        // The count of an image, where one came and is used.
        let used = match (records::count_of(reported.image), supplied) {
            _ if tape_gone => None,
            (Some(_), Some(count)) if !self.wrong(Mutant::SuppliedOwnCount) => Some(count),
            (own_count, _) => own_count,
        };

        // Errors of a GCR record replace the code.
        let mut verdict = Verdict::Clean;
        let mut data_bad = false;
        let reads_record = job.operation.reads_record() || supplied.is_some();
        if reads_record && density == Density::Gcr {
            let keep = self.wrong(Mutant::CheckStoreKeptByMark) && mark
                || self.wrong(Mutant::SuppliedCorrectionKept)
                    && supplied.is_some()
                    && used.is_none();
            if !keep {
                self.clear_correction(check_store);
            }
            if used.is_some() {
                if supplied.is_none() || !self.wrong(Mutant::SuppliedChecksUnread) {
                    keep_check_blockettes(reported.image, check_store);
                }
                let mut marks = reported.marks.to_vec();
                if supplied.is_some() {
                    self.tear_first(&mut marks);
                }
                let scan = records::scan(&marks, self.mutant);
                self.tertiary = scan.tertiary;
                self.quintary = scan.quintary;
                verdict = scan.verdict;
                data_bad = scan.data_bad;
            }
        }
        match verdict {
            Verdict::Clean => {}
            Verdict::Recoverable => code = code::RECOVERABLE,
            Verdict::StoppedAt(_) => code = code::UNRECOVERABLE,
        }

        // Delivery, as far as the host has space.
        let mut flags = 0;
        let delivered = {
            let bytes: &[u8] = match (job.operation, used) {
                (Operation::Read, Some(count)) => {
                    &reported.image[2..2 + records::readable(count, verdict)]
                }
                (Operation::SuppliedCount, Some(count)) => {
                    let mut readable = records::readable(count, verdict);
                    if self.wrong(Mutant::SuppliedWholeFirst) {
                        readable = readable.max(BLOCKETTE);
                    }
                    &reported.image[2..2 + readable]
                }
                (Operation::CheckBytes, _) => check_store,
                _ => &[],
            };
            let fitting = bytes.len().min(host_space.len());
            host_space[..fitting].copy_from_slice(&bytes[..fitting]);
            if supplied.is_some() && !self.wrong(Mutant::SuppliedFirstDelivered) {
                host_space[..fitting.min(BLOCKETTE)].fill(0);
            }
            let wanted = match used {
                Some(count) if self.wrong(Mutant::OverflowAgainstCount) => count,
                _ => bytes.len(),
            };
            if host_space.len() < wanted {
                flags |= primary::OVERFLOW;
            }
            fitting
        };

        // The rest of the outcome, and the gap.
        let untold = job.operation.is_skip() && self.wrong(Mutant::RetryLateOneUntold);
        if reported.late & 1 != 0 && !untold {
            flags |= primary::LATE_1;
        }
        if reported.late & 2 != 0 {
            flags |= primary::LATE_2;
        }
        let written = job.operation == Operation::Write && code == code::GOOD;
        // A supplied count is told whatever became of the read, one that is 0 never.
        let told = match supplied {
            Some(0) if !self.wrong(Mutant::SuppliedNoneTold) => None,
            Some(_) if self.wrong(Mutant::SuppliedToldIfUsed) => used,
            Some(count) => Some(count),
            None => used.or(written.then(|| job.count())),
        };
        if let Some(count) = told {
            flags |= primary::COUNT_VALID;
            self.secondary = match self.mutant {
                Some(Mutant::LongCountCut) => count as u16 & 0x7FFF,
                _ => count as u16,
            };
            if supplied.is_some() && !self.wrong(Mutant::SuppliedBitMissing) {
                flags |= primary::COUNT_SUPPLIED;
            }
        }
        if mark {
            flags |= primary::MARK;
        }
        self.outcome |= flags;
        let retry = self.asks_retry(job.operation, reported.code, code, data_bad);
        self.settle(code, job.operation.motion(code), retry);
        if let Some(gap) = job.operation.gap(code) {
            self.drive_mut().gap = gap;
        }
        if self.wrong(Mutant::GuardClearedByResult) {
            self.drive_mut().guard = false;
        }
        if self.wrong(Mutant::RecordCountBefore) {
            self.record = self.record.map(|record| Record {
                count: secondary_before,
                ..record
            });
        }
        let action = self.end(job);
        Ok((self.unrecorded(Way::Result, action), delivered))
    }

    /// Time passes while nothing is collected.
    pub fn tick(&mut self) -> Answer {
        if self.phase != IDLE {
            return Err(Refusal::NotIdle);
        }
        self.review();
        if self.changed && self.enable {
            let word = self.primary();
            Ok(self.send(Send::DriveChange, link::INTERRUPT, word))
        } else {
            Ok(Action::None)
        }
    }

    /// The reset by call.
    pub fn reset(&mut self) -> Answer {
        self.start_anew(Way::Call);
        Ok(Action::None)
    }

    /// A job queues a store. Accepted in every phase: it waits for its turn.
    pub fn queue(&mut self, job: u8, store: Store) -> Answer {
        if self.phase != IDLE && self.wrong(Mutant::JobsQueuedWhenIdle) {
            return Err(Refusal::NotIdle);
        }
        self.queues.put(job, store, self.mutant)?;
        Ok(Action::None)
    }

    /// The next store that a job has queued is handed over, and carried out as if its ACK had just
    /// been taken.
    pub fn hand(&mut self) -> Answer {
        let refused = match self.mutant {
            Some(Mutant::JobsHandedWhenBusy) => false,
            Some(Mutant::JobsHandedWhenCollecting) => {
                !matches!(self.phase, Phase::Collecting { .. })
            }
            Some(Mutant::JobsNothingWhenBusy) if self.queues.is_empty() => false,
            _ => self.phase != IDLE,
        };
        if refused {
            let next = self.queues.next_job(None);
            if let (Some(Mutant::JobsServedByRefused), Some(job)) = (self.mutant, next) {
                self.queues.last_served = job;
            }
            return Err(Refusal::NotIdle);
        }
        match self.queues.take(self.mutant) {
            Some(store) => {
                if self.wrong(Mutant::JobsReviewedFirst) {
                    self.review();
                }
                let action = self.store(store);
                Ok(self.unrecorded(Way::Hand, action))
            }
            None => {
                match self.mutant {
                    Some(Mutant::JobsNothingReviewed) => self.review(),
                    Some(Mutant::JobsServedByNothing) => {
                        self.queues.last_served = (self.queues.last_served + 1) % 4
                    }
                    _ => {}
                }
                Ok(Action::None)
            }
        }
    }

    /// Drops the record of a store that ended this way, where the rule that hands it back is broken.
    fn unrecorded(&mut self, way: Way, action: Action) -> Action {
        if self.wrong(Mutant::RecordMissing(way)) {
            self.record = None;
        }
        action
    }

    /// Fresh, but for the reports, which count as reviewed, and for what the jobs have queued.
    fn start_anew(&mut self, way: Way) {
        let kept = self.wrong(Mutant::GuardKept(way));
        let drives = self.drives.map(|drive| Drive {
            guard: drive.guard && kept || self.wrong(Mutant::GuardSetByReset),
            ..Drive::fresh(drive.report)
        });
        let mut queues = self.queues.clone();
        match self.mutant {
            Some(Mutant::JobsEmptied(by)) if by == way => queues.of_job = Default::default(),
            Some(Mutant::JobsServedAnew(by)) if by == way => {
                queues.last_served = Queues::fresh().last_served
            }
            _ => {}
        }
        *self = Machine {
            drives,
            queues,
            mutant: self.mutant,
            ..Machine::fresh()
        };
    }

    // -----------------------------------------------------------------------------------------
    // Strings from the link
    // -----------------------------------------------------------------------------------------

    fn collect(&mut self, mut string: [u8; 8], length: usize, byte: u8) -> Action {
        if length == 0 && byte == link::NACK {
            return Action::None;
        }
        if length == 0 && byte != link::LOAD && byte != link::STORE {
            return self.nack();
        }
        string[length] = byte;
        let length = length + 1;
        let whole = if string[0] == link::LOAD {
            link::LOAD_LENGTH
        } else {
            link::STORE_LENGTH
        };
        if length < whole {
            self.phase = Phase::Collecting { string, length };
            Action::None
        } else if string[..whole].iter().fold(0, |sum, byte| sum ^ byte) == 0 {
            self.phase = Phase::AckOffered { string };
            Action::Byte(link::ACK)
        } else {
            self.nack()
        }
    }

    fn nack(&mut self) -> Action {
        if self.wrong(Mutant::NoReviewAfterNack) {
            self.phase = IDLE;
        } else {
            self.rest();
        }
        Action::Byte(link::NACK)
    }

    // -----------------------------------------------------------------------------------------
    // Loads
    // -----------------------------------------------------------------------------------------

    fn load(&mut self, address: u8) -> Action {
        let word = match address::operation(address) {
            0 => IDENTITY,
            1 => self.primary(),
            2 => self.secondary as u32,
            3 => self.tertiary,
            4 => u32::from_be_bytes(self.drives.map(|drive| drive.report)),
            5 => self.quintary,
            _ => return self.rest(),
        };
        self.send(Send::LoadReply, link::LOAD_REPLY, word)
    }

    /// The primary status word, made from what holds now.
    pub fn primary(&self) -> u32 {
        let drive = self.drive();
        let mut word = self.outcome;
        if self.changed {
            word |= primary::CHANGED;
        }
        if self.enable {
            word |= primary::ENABLE;
        }
        if drive.density == Density::Gcr {
            word |= primary::DENSITY;
        }
        word |= drive.track as u32 * primary::TRACK;
        word |= self.selected as u32 * primary::DRIVE;
        word | drive.report as u32
    }

    /// The code field of primary.
    pub fn code(&self) -> u8 {
        ((self.outcome / primary::CODE) & 0x1F) as u8
    }

    // -----------------------------------------------------------------------------------------
    // Stores
    // -----------------------------------------------------------------------------------------

    fn store(&mut self, store: Store) -> Action {
        let Store { address, operand } = store;
        let interrupt = address & address::INTERRUPT != 0;
        let number = (address & address::DRIVE) as usize;

        if self.wrong(Mutant::CountValidLeft) {
            self.outcome &= primary::COUNT_VALID;
        } else {
            self.outcome = 0;
        }
        let last_drive = self.selected;
        let last_density = self.drive().density;
        if store.names_drive() {
            if number > 3 {
                return self.end_with(code::NO_SUCH_DRIVE, interrupt);
            }
            if self.wrong(Mutant::DensityOfLastDrive) {
                self.drives[number].density = self.drive().density;
            }
            if self.wrong(Mutant::GuardOfLastDrive) {
                self.drives[number].guard = self.drive().guard;
            }
            self.selected = number;
        }
        let density = if self.wrong(Mutant::SuppliedDensityOfLastDrive) {
            last_density
        } else {
            self.drive().density
        };
        let decoded = decode(address::operation(address), operand, density, self.mutant);
        let tested_first = address::operation(address) == 4
            && operand[0] == 0x80
            && self.wrong(Mutant::SuppliedTestBeforeDecode);
        if tested_first && !Operation::SuppliedCount.may_start(self.drive()) {
            return self.end_with(code::NOT_READY, interrupt);
        }
        match decoded {
            Decoded::Code(code) => self.end_with(code, interrupt),
            Decoded::Reset => {
                self.start_anew(Way::Taken);
                Action::None
            }
            Decoded::Track(track) => {
                let track_clears = self.wrong(Mutant::GuardClearedByTrack);
                let drive = self.drive_mut();
                if drive.track != track {
                    drive.track = track;
                    drive.gap = if drive.reports(report::BOT) {
                        Gap::Proper
                    } else {
                        Gap::Lost
                    };
                    drive.guard &= !track_clears;
                }
                self.finish(interrupt)
            }
            Decoded::Enable(enable) => {
                self.enable = enable;
                self.finish(interrupt)
            }
            Decoded::Guard(guard) => self.set_guard(guard, last_drive, interrupt),
            Decoded::Density(density) => {
                let clears = self.wrong(Mutant::GuardClearedByDensity);
                let drive = self.drive_mut();
                drive.density = density;
                drive.guard &= !clears;
                self.finish(interrupt)
            }
            Decoded::Operation(operation) => self.start(Job {
                operation,
                operand,
                interrupt,
            }),
        }
    }

    /// Clears or sets the guard of the selected drive, whatever that reports.
    fn set_guard(&mut self, guard: bool, last_drive: usize, interrupt: bool) -> Action {
        if self.wrong(Mutant::GuardTested) && !Operation::Rewind.passes_report(self.drive()) {
            return self.end_with(code::NOT_READY, interrupt);
        }
        let drive = match self.mutant {
            Some(Mutant::GuardStoreOfLastDrive) => last_drive,
            Some(Mutant::GuardOfDrive1OnDrive0) if self.selected == 1 => 0,
            _ => self.selected,
        };
        self.drives[drive].guard = guard;
        match self.mutant {
            Some(Mutant::GuardOfAllDrives) => {
                for drive in &mut self.drives {
                    drive.guard = guard;
                }
            }
            Some(Mutant::GuardLosesGap) => self.drive_mut().gap = Gap::Lost,
            _ => {}
        }
        self.finish(interrupt && !self.wrong(Mutant::GuardStoreSilent))
    }

    /// Whether the selected drive passes the test of an operation.
    fn passes_test(&self, operation: Operation) -> bool {
        match self.mutant {
            Some(mutant) => mutant.passes_test(operation, self.drive()),
            None => operation.may_start(self.drive()),
        }
    }

    fn start(&mut self, job: Job) -> Action {
        let operation = job.operation;
        let tested = match operation {
            Operation::SuppliedCount if self.wrong(Mutant::SuppliedTestOfWind) => Operation::Rewind,
            _ => operation,
        };
        if !self.passes_test(tested) {
            return self.end_with(code::NOT_READY, job.interrupt);
        }
        let keeps = match operation {
            Operation::SkipReverse => self.wrong(Mutant::SecondaryKeptByReverseSkip),
            Operation::SuppliedCount => self.wrong(Mutant::SuppliedSecondaryKept),
            _ => false,
        };
        // A count may be read or written, so the old one goes.
        let counts = matches!(
            operation,
            Operation::Read | Operation::SuppliedCount | Operation::Write
        );
        if (counts || operation.is_skip()) && !keeps {
            self.secondary = 0;
        }
        match operation {
            Operation::Write => {
                self.phase = Phase::GoOffered(job);
                Action::Byte(link::GO)
            }
            Operation::CheckBytes => {
                self.phase = Phase::ResultAwaited(job);
                Action::None
            }
            _ => {
                self.phase = Phase::ResultAwaited(job);
                Action::Order(self.order(job))
            }
        }
    }

    /// The motion order: operation, drive, track, density, last two operand bytes.
    fn order(&self, job: Job) -> [u8; 6] {
        let drive = self.drive();
        let operation = match job.operation {
            Operation::SuppliedCount if self.wrong(Mutant::SuppliedOrderOfRead) => Operation::Read,
            operation => operation,
        };
        [
            operation.order(),
            self.selected as u8,
            drive.track,
            (drive.density == Density::Gcr) as u8,
            job.operand[2],
            job.operand[3],
        ]
    }

    fn no_go(&mut self, job: Job) -> Action {
        let retry = !self.wrong(Mutant::RetryNotByNoGo);
        self.settle(code::NO_GO, motion::NONE, retry);
        let action = self.end(job);
        self.unrecorded(Way::NoGo, action)
    }

    /// Whether a result asks a retry: by its final code, or by a bit of 16-20 that counts.
    fn asks_retry(&self, operation: Operation, reported: u8, code: u8, data_bad: bool) -> bool {
        let decides = match self.mutant {
            Some(mutant) => mutant.deciding(reported, code),
            None => code,
        };
        let mut by_code = match decides {
            // Where check blockettes alone are bad, the record's own bytes are whole.
            code::RECOVERABLE => data_bad,
            code::UNRECOVERABLE => true,
            _ => operation.entry(decides) == Entry::Retry,
        };
        let mut counted = primary::TROUBLE;
        if operation.is_skip() {
            counted &= !primary::LATE_1;
        }
        if let Some(mutant) = self.mutant {
            by_code ^= mutant.turns_code(operation, code, data_bad);
            by_code &= !mutant.excuses(operation, self.outcome);
            counted = mutant.counted(operation, code, counted);
        }
        by_code || self.outcome & counted != 0
    }

    /// Puts code and motion in the outcome, and the retry bit; secondary is as it will stay.
    fn settle(&mut self, code: u8, motion: u8, retry: bool) {
        self.outcome |= code as u32 * primary::CODE;
        self.outcome |= motion as u32 * primary::MOTION;
        if retry {
            self.outcome |= primary::RETRY;
        }
        self.record = Some(self.settled());
    }

    /// Code, motion and count as primary and secondary have them.
    pub fn settled(&self) -> Record {
        Record {
            code: self.code(),
            motion: ((self.outcome / primary::MOTION) & 3) as u8,
            count: self.secondary,
        }
    }

    // -----------------------------------------------------------------------------------------
    // Complete: EOR, review, interrupt, sends
    // -----------------------------------------------------------------------------------------

    /// A store that sets something is done at once, with code 0.
    fn finish(&mut self, interrupt: bool) -> Action {
        self.settle(code::GOOD, motion::NONE, false);
        self.complete(interrupt)
    }

    /// A code found before anything started ends the store, without EOR.
    fn end_with(&mut self, code: u8, interrupt: bool) -> Action {
        let retry = !self.wrong(Mutant::RetryNotByStore);
        self.settle(code, motion::NONE, retry);
        self.complete(interrupt)
    }

    /// A result came or GO failed: EOR where the operation offers it.
    fn end(&mut self, job: Job) -> Action {
        let missed = job.supplied().is_some() && self.wrong(Mutant::SuppliedNoEor);
        if job.operation.offers_eor() && !missed {
            if self.wrong(Mutant::ReviewAtEorOffer) {
                self.review();
            }
            self.phase = Phase::EorOffered {
                interrupt: job.interrupt,
            };
            Action::Byte(link::EOR)
        } else {
            self.complete(job.interrupt)
        }
    }

    fn complete(&mut self, interrupt: bool) -> Action {
        self.rest();
        if !interrupt {
            return Action::None;
        }
        if !self.wrong(Mutant::EnableKeptAtCompletion) {
            self.enable = false;
        }
        if self.outcome & primary::COUNT_VALID != 0 {
            let word = self.secondary as u32;
            self.send(Send::Secondary, link::SECONDARY_UPDATE, word)
        } else {
            self.interrupt_completion()
        }
    }

    fn interrupt_completion(&mut self) -> Action {
        let word = self.primary();
        self.send(Send::Completion, link::INTERRUPT, word)
    }

    fn send(&mut self, send: Send, lead: u8, word: u32) -> Action {
        let string = sent_string(lead, word);
        self.phase = Phase::Sending {
            send,
            string,
            noes: 0,
        };
        Action::String(string)
    }

    fn accepted(&mut self, send: Send) -> Action {
        match send {
            Send::LoadReply => self.rest(),
            // No review between: primary shows the changed bit of the completion.
            Send::Secondary => {
                if self.wrong(Mutant::ReviewBeforePrimary) {
                    self.review();
                }
                self.interrupt_completion()
            }
            Send::Completion => {
                self.changed = false;
                self.rest()
            }
            Send::DriveChange => {
                self.enable = false;
                self.changed = false;
                self.rest()
            }
        }
    }

    fn said_no(&mut self, send: Send, mut string: [u8; 6], noes: u8) -> Action {
        let last = link::LAST_NO - (self.wrong(Mutant::FourthNoGivesUp)) as u8;
        if noes == last {
            return self.given_up(send);
        }
        if self.wrong(Mutant::SendMadeAnew) && string[0] == link::INTERRUPT {
            string = sent_string(link::INTERRUPT, self.primary());
        }
        self.phase = Phase::Sending { send, string, noes };
        Action::String(string)
    }

    fn given_up(&mut self, send: Send) -> Action {
        if send == Send::DriveChange {
            self.enable = false;
        }
        if self.wrong(Mutant::ChangedClearedUnaccepted)
            && matches!(send, Send::Completion | Send::DriveChange)
        {
            self.changed = false;
        }
        self.rest()
    }

    /// Review, then collecting.
    fn rest(&mut self) -> Action {
        self.review();
        self.phase = IDLE;
        Action::None
    }

    fn review(&mut self) {
        for drive in &mut self.drives {
            self.changed |= drive.report != drive.reviewed;
            drive.reviewed = drive.report;
        }
    }

    /// Whether this rule is to be broken, so that a comparison has something to find.
    fn wrong(&self, mutant: Mutant) -> bool {
        self.mutant == Some(mutant)
    }

    fn drive(&self) -> &Drive {
        &self.drives[self.selected]
    }

    fn drive_mut(&mut self) -> &mut Drive {
        &mut self.drives[self.selected]
    }

    /// The first blockette, whose count was not to be had, is an error whatever came for it.
    fn tear_first(&self, marks: &mut [u8]) {
        if let Some(mark) = marks.first_mut() {
            let kept = match *mark {
                records::GOOD => self.wrong(Mutant::SuppliedFirstGoodKept),
                _ => self.wrong(Mutant::SuppliedFirstErrorKept),
            };
            if !kept {
                *mark = records::TORN;
            }
        }
    }

    /// Zeroes what is known of a GCR record's errors before the next one.
    fn clear_correction(&mut self, check_store: &mut [u8]) {
        self.tertiary = 0;
        self.quintary = 0;
        check_store.fill(0);
    }
}

/// Check bytes of a record without bytes are zeros, which the store was cleared to.
fn keep_check_blockettes(image: &[u8], check_store: &mut [u8]) {
    if let Some(checks) = records::check_blockettes(image) {
        check_store.copy_from_slice(checks);
    }
}

/// Lead, four status bytes, and the check byte that makes the XOR zero.
pub fn sent_string(lead: u8, word: u32) -> [u8; 6] {
    let [a, b, c, d] = word.to_be_bytes();
    [lead, a, b, c, d, lead ^ a ^ b ^ c ^ d]
}
