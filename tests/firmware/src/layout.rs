//! The bytes of a state, by the table of ctc_controller.h: written of the machine's state, and primary read of them.

use machine::machine::{primary, Machine, Operation, Phase, Send};
use machine::records::Density;

pub const LENGTH: usize = 224;
const DRIVES: usize = 1;
const DRIVE: usize = 6;
/// Of drive 0.
pub const DENSITY: usize = DRIVES + 3;
const SELECTED: usize = 25;
const CHANGED: usize = 26;
const ENABLE: usize = 27;
const RETRY: usize = 28;
const MARK: usize = 29;
const CODE: usize = 30;
const MOTION: usize = 31;
const COUNT: usize = 32;
/// Primary's bits 16 to 22, a byte each.
const PARITY: usize = 34;
const TERTIARY: usize = 41;
const QUINTARY: usize = 45;
const PHASE: usize = 49;
const HELD: usize = 50;
const QUEUES: usize = 59;
const QUEUE: usize = 41;
const STORE: usize = 5;
const SERVED: usize = 223;

/// The number that a state has for an operation.
fn number(operation: Operation) -> u8 {
    match operation {
        Operation::Read => 0,
        Operation::CheckBytes => 1,
        Operation::SuppliedCount => 2,
        Operation::Write => 3,
        Operation::Erase => 4,
        Operation::Rewind => 5,
        Operation::FastForward => 6,
        Operation::SkipForward => 7,
        Operation::SkipReverse => 8,
        Operation::SearchForward => 9,
        Operation::SearchReverse => 10,
        Operation::WriteMark => 11,
    }
}

/// The address is that of the store under way, of which the machine keeps the interrupt alone.
pub fn bytes(machine: &Machine, address: u8) -> Vec<u8> {
    let mut bytes = vec![0; LENGTH];
    bytes[0] = 1;
    for (number, drive) in machine.drives.iter().enumerate() {
        bytes[DRIVES + DRIVE * number..][..DRIVE].copy_from_slice(&[
            drive.report,
            drive.reviewed,
            drive.track,
            (drive.density == Density::Gcr) as u8,
            drive.gap as u8,
            drive.guard as u8,
        ]);
    }
    let bit = |number| (machine.outcome & primary::bit(number) != 0) as u8;
    bytes[SELECTED] = machine.selected as u8;
    bytes[CHANGED] = machine.changed as u8;
    bytes[ENABLE] = machine.enable as u8;
    bytes[RETRY] = bit(2);
    bytes[MARK] = bit(8);
    bytes[CODE] = machine.settled().code;
    bytes[MOTION] = machine.settled().motion;
    bytes[COUNT..COUNT + 2].copy_from_slice(&machine.secondary.to_be_bytes());
    for number in 16..=22 {
        bytes[PARITY + number as usize - 16] = bit(number);
    }
    bytes[TERTIARY..TERTIARY + 4].copy_from_slice(&machine.tertiary.to_be_bytes());
    bytes[QUINTARY..QUINTARY + 4].copy_from_slice(&machine.quintary.to_be_bytes());
    let (phase, held) = phase(&machine.phase, address);
    bytes[PHASE] = phase;
    bytes[HELD..HELD + held.len()].copy_from_slice(&held);
    for (job, queue) in machine.queues.of_job.iter().enumerate() {
        let at = QUEUES + QUEUE * job;
        bytes[at] = queue.len() as u8;
        for (place, store) in queue.iter().enumerate() {
            let at = at + 1 + STORE * place;
            bytes[at] = store.address;
            bytes[at + 1..at + STORE].copy_from_slice(&store.operand);
        }
    }
    bytes[SERVED] = machine.queues.last_served as u8;
    bytes
}

fn phase(phase: &Phase, address: u8) -> (u8, Vec<u8>) {
    let store = |operand: [u8; 4]| [&[address][..], &operand].concat();
    match *phase {
        Phase::Collecting { string, length } => (0, [&[length as u8][..], &string].concat()),
        Phase::AckOffered { string } => {
            let length = if string[0] == 0x62 { 4 } else { 8 };
            (1, [&[length][..], &string].concat())
        }
        Phase::Sending { send, string, noes } => {
            let kind = match send {
                Send::LoadReply => 0,
                Send::Secondary => 1,
                Send::Completion => 2,
                Send::DriveChange => 3,
            };
            (2, [&[kind][..], &string, &[noes]].concat())
        }
        Phase::GoOffered(job) => (3, store(job.operand)),
        Phase::DataAwaited(job) => (4, store(job.operand)),
        Phase::ResultAwaited(job) => (
            5,
            [vec![number(job.operation)], store(job.operand)].concat(),
        ),
        Phase::EorOffered { interrupt } => (6, vec![interrupt as u8]),
    }
}

/// The primary status word that a state shows.
pub fn primary(state: &[u8]) -> u32 {
    let drive = &state[DRIVES + DRIVE * state[SELECTED] as usize..][..DRIVE];
    let field = |place: usize, last_bit: u32| (state[place] as u32) << (31 - last_bit);
    let mut word = field(CHANGED, 0) | field(ENABLE, 1) | field(RETRY, 2);
    word |= (drive[2] as u32) << 26 | field(SELECTED, 7) | field(MARK, 8);
    word |= field(MOTION, 10) | field(CODE, 15);
    for bit in 16..=22 {
        word |= field(PARITY + bit as usize - 16, bit);
    }
    word | (drive[3] as u32) << 8 | drive[0] as u32
}
