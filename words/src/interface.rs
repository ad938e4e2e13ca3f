//! The controller, called through include/ctc_controller.h, and the records beside it. What the proved functions
//! promise of a state, an answer and a lent space is what makes the calls below safe.

pub use crate::records::{
    build, image_count, image_length, mark_count, merge, restore, verify, Refusal, Unfit,
    COUNT_LIMIT, NO_PLACE,
};
use crate::records::{pointer, pointer_mut};

pub const STATE_LENGTH: usize = 224;
pub const ANSWER_LENGTH: usize = 16;
pub const CHECK_LENGTH: usize = 512;

mod c {
    #[link(name = "firmware", kind = "static")]
    extern "C" {
        pub fn ctc_fresh(state: *mut u8) -> u32;
        pub fn ctc_byte(state: *mut u8, byte: u8, answer: *mut u8) -> u32;
        pub fn ctc_taken(state: *mut u8, answer: *mut u8) -> u32;
        pub fn ctc_broken(state: *mut u8, answer: *mut u8) -> u32;
        pub fn ctc_report(state: *mut u8, drive: u8, report: u8, answer: *mut u8) -> u32;
        pub fn ctc_data(
            state: *mut u8,
            host: *const u8,
            host_len: u64,
            place: u64,
            space: *mut u8,
            space_len: u64,
            check: *mut u8,
            check_len: u64,
            answer: *mut u8,
        ) -> u32;
        pub fn ctc_result(
            state: *mut u8,
            code: u8,
            mark: u8,
            late: u8,
            image: *const u8,
            image_len: u64,
            marks: *const u8,
            marks_len: u64,
            space: *mut u8,
            space_len: u64,
            check: *mut u8,
            check_len: u64,
            answer: *mut u8,
        ) -> u32;
        pub fn ctc_tick(state: *mut u8, answer: *mut u8) -> u32;
        pub fn ctc_reset(state: *mut u8, answer: *mut u8) -> u32;
        pub fn ctc_queue(
            state: *mut u8,
            job: u8,
            address: u8,
            first: u8,
            second: u8,
            third: u8,
            fourth: u8,
            answer: *mut u8,
        ) -> u32;
        pub fn ctc_hand(state: *mut u8, answer: *mut u8) -> u32;
    }
}

/// A store: its address and its four operand bytes.
#[derive(Clone, Copy, Debug, PartialEq, Eq)]
pub struct Store {
    pub address: u8,
    pub operand: [u8; 4],
}

impl Store {
    pub fn asks_interrupt(&self) -> bool {
        self.address & 0x80 != 0
    }

    /// Address bits 1-3.
    pub fn operation(&self) -> u8 {
        self.address >> 4 & 7
    }

    pub fn drive(&self) -> Option<u8> {
        (self.address & 8 != 0).then_some(self.address & 7)
    }

    /// The count of a write, or the supplied one.
    pub fn count(&self) -> u16 {
        u16::from_be_bytes([self.operand[2], self.operand[3]])
    }

    fn of(bytes: &[u8]) -> Store {
        Store {
            address: bytes[0],
            operand: [bytes[1], bytes[2], bytes[3], bytes[4]],
        }
    }
}

/// What an answer has the board do.
#[derive(Clone, Copy, Debug, PartialEq, Eq)]
pub enum Action {
    Nothing,
    Offer(u8),
    Send([u8; 6]),
    Order([u8; 6]),
}

/// Code, motion and count of a store whose code a call settled.
#[derive(Clone, Copy, Debug, PartialEq, Eq)]
pub struct Settled {
    pub code: u8,
    pub motion: u8,
    pub count: u16,
}

#[derive(Clone, Copy, Debug, PartialEq, Eq)]
pub struct Answer {
    pub action: Action,
    pub settled: Option<Settled>,
    /// How many bytes of the lent space the call gives.
    pub given: usize,
}

impl Answer {
    fn of(bytes: &[u8; ANSWER_LENGTH]) -> Answer {
        let six = [bytes[1], bytes[2], bytes[3], bytes[4], bytes[5], bytes[6]];
        Answer {
            action: match bytes[0] {
                0 => Action::Nothing,
                1 => Action::Offer(bytes[1]),
                2 => Action::Send(six),
                _ => Action::Order(six),
            },
            settled: (bytes[7] != 0).then(|| Settled {
                code: bytes[8],
                motion: bytes[9],
                count: u16::from_be_bytes([bytes[10], bytes[11]]),
            }),
            given: u32::from_be_bytes([bytes[12], bytes[13], bytes[14], bytes[15]]) as usize,
        }
    }
}

pub type Answered = Result<Answer, Refusal>;

/// What the controller waits for, with what is in hand, as the bytes of the state have it.
#[derive(Clone, Copy, Debug, PartialEq, Eq)]
pub enum Phase {
    Collecting(usize),
    AckOffered,
    Sending(Sent),
    GoOffered(Store),
    DataAwaited(Store),
    /// The number of the operation, and its store.
    ResultAwaited(u8, Store),
    /// Whether the store asks an interrupt.
    EorOffered(bool),
}

impl Phase {
    /// Whether the host accepts with ACK here.
    pub fn is_accepted(&self) -> bool {
        matches!(
            self,
            Phase::Sending(_) | Phase::GoOffered(_) | Phase::EorOffered(_)
        )
    }
}

/// A string on its way to the host: for what, and how many noes it had.
#[derive(Clone, Copy, Debug, PartialEq, Eq)]
pub struct Sent {
    pub kind: u8,
    pub noes: u8,
}

#[derive(Clone, Copy, Debug, PartialEq, Eq)]
pub struct Drive {
    pub report: u8,
    pub reviewed: u8,
    pub track: u8,
    pub density: u8,
    pub gap: u8,
    pub guard: bool,
}

// Where the fields stand: the table of ctc_controller.h.
const DRIVES: usize = 1;
const DRIVE_LENGTH: usize = 6;
const SELECTED: usize = 25;
const COUNTED: usize = 40;
const PHASE: usize = 49;
const HELD: usize = 50;
const QUEUES: usize = 59;
const QUEUE_LENGTH: usize = 41;
const LAST_SERVED: usize = 223;

/// A controller with its check store.
#[derive(Clone, PartialEq, Eq)]
pub struct Controller {
    state: [u8; STATE_LENGTH],
    check: [u8; CHECK_LENGTH],
}

impl Default for Controller {
    fn default() -> Controller {
        Controller::fresh()
    }
}

impl Controller {
    /// As it starts, with a check store of zeros.
    pub fn fresh() -> Controller {
        let mut state = [0; STATE_LENGTH];
        // SAFETY: one state of its length
        unsafe { c::ctc_fresh(state.as_mut_ptr()) };
        Controller {
            state,
            check: [0; CHECK_LENGTH],
        }
    }

    /// The bytes of the state, which may be kept.
    pub fn state(&self) -> &[u8; STATE_LENGTH] {
        &self.state
    }

    /// A controller with these bytes as its state; every call refuses with 1 where they are none.
    pub fn with_state(state: [u8; STATE_LENGTH]) -> Controller {
        Controller {
            state,
            check: [0; CHECK_LENGTH],
        }
    }

    fn plain(&mut self, call: impl FnOnce(*mut u8, *mut u8) -> u32) -> Answered {
        let mut answer = [0; ANSWER_LENGTH];
        match call(self.state.as_mut_ptr(), answer.as_mut_ptr()) {
            0 => Ok(Answer::of(&answer)),
            refusal => Err(Refusal(refusal as u8)),
        }
    }

    // SAFETY of all calls below: state and answer point to one of each, every other pointer comes with its length, and
    // no two of them share a byte, as they are borrowed apart.

    pub fn byte(&mut self, byte: u8) -> Answered {
        self.plain(|state, answer| unsafe { c::ctc_byte(state, byte, answer) })
    }

    pub fn taken(&mut self) -> Answered {
        self.plain(|state, answer| unsafe { c::ctc_taken(state, answer) })
    }

    pub fn broken(&mut self) -> Answered {
        self.plain(|state, answer| unsafe { c::ctc_broken(state, answer) })
    }

    pub fn report(&mut self, drive: u8, report: u8) -> Answered {
        self.plain(|state, answer| unsafe { c::ctc_report(state, drive, report, answer) })
    }

    pub fn tick(&mut self) -> Answered {
        self.plain(|state, answer| unsafe { c::ctc_tick(state, answer) })
    }

    pub fn reset(&mut self) -> Answered {
        self.plain(|state, answer| unsafe { c::ctc_reset(state, answer) })
    }

    pub fn hand(&mut self) -> Answered {
        self.plain(|state, answer| unsafe { c::ctc_hand(state, answer) })
    }

    pub fn queue(&mut self, job: u8, store: Store) -> Answered {
        let [first, second, third, fourth] = store.operand;
        self.plain(|state, answer| unsafe {
            c::ctc_queue(
                state,
                job,
                store.address,
                first,
                second,
                third,
                fourth,
                answer,
            )
        })
    }

    /// The place is that of a byte with bad parity, or `NO_PLACE`.
    pub fn data(&mut self, host: &[u8], place: u64, space: &mut [u8]) -> Answered {
        let mut answer = [0; ANSWER_LENGTH];
        let refusal = unsafe {
            c::ctc_data(
                self.state.as_mut_ptr(),
                pointer(host),
                host.len() as u64,
                place,
                pointer_mut(space),
                space.len() as u64,
                self.check.as_mut_ptr(),
                CHECK_LENGTH as u64,
                answer.as_mut_ptr(),
            )
        };
        match refusal {
            0 => Ok(Answer::of(&answer)),
            refusal => Err(Refusal(refusal as u8)),
        }
    }

    pub fn result(&mut self, result: &Outcome, space: &mut [u8]) -> Answered {
        let mut answer = [0; ANSWER_LENGTH];
        let refusal = unsafe {
            c::ctc_result(
                self.state.as_mut_ptr(),
                result.code,
                u8::from(result.mark),
                result.late,
                pointer(result.image),
                result.image.len() as u64,
                pointer(result.marks),
                result.marks.len() as u64,
                pointer_mut(space),
                space.len() as u64,
                self.check.as_mut_ptr(),
                CHECK_LENGTH as u64,
                answer.as_mut_ptr(),
            )
        };
        match refusal {
            0 => Ok(Answer::of(&answer)),
            refusal => Err(Refusal(refusal as u8)),
        }
    }

    // ---- what the state shows

    pub fn phase(&self) -> Phase {
        let held = &self.state[HELD..HELD + 9];
        match self.state[PHASE] {
            0 => Phase::Collecting(held[0] as usize),
            1 => Phase::AckOffered,
            2 => Phase::Sending(Sent {
                kind: held[0],
                noes: held[7],
            }),
            3 => Phase::GoOffered(Store::of(held)),
            4 => Phase::DataAwaited(Store::of(held)),
            5 => Phase::ResultAwaited(held[0], Store::of(&held[1..])),
            _ => Phase::EorOffered(held[0] != 0),
        }
    }

    /// How many bytes of a string have come, while one is collected.
    pub fn collecting(&self) -> Option<usize> {
        (self.state[PHASE] == 0).then_some(self.state[HELD] as usize)
    }

    /// Nothing collected, offered, sent or awaited.
    pub fn is_idle(&self) -> bool {
        self.state[PHASE] == 0 && self.state[HELD] == 0
    }

    /// The string that is collected, or for which ACK is offered.
    pub fn collected(&self) -> &[u8] {
        let length = self.state[HELD] as usize;
        &self.state[HELD + 1..HELD + 1 + length.min(8)]
    }

    /// The eight bytes where a string is collected, which mean nothing in another phase.
    pub fn string(&self) -> [u8; 8] {
        self.state[HELD + 1..HELD + 9]
            .try_into()
            .expect("eight bytes")
    }

    /// Whether secondary has the count of the last store: bit 22 of primary.
    pub fn counts(&self) -> bool {
        self.state[COUNTED] != 0
    }

    pub fn selected(&self) -> u8 {
        self.state[SELECTED]
    }

    pub fn drive(&self, number: u8) -> Drive {
        let place = DRIVES + DRIVE_LENGTH * (number as usize & 3);
        let field = &self.state[place..place + DRIVE_LENGTH];
        Drive {
            report: field[0],
            reviewed: field[1],
            track: field[2],
            density: field[3],
            gap: field[4],
            guard: field[5] != 0,
        }
    }

    pub fn queued(&self, job: u8) -> usize {
        self.state[QUEUES + QUEUE_LENGTH * (job as usize & 3)] as usize
    }

    /// The job whose store is handed over next, and that store.
    pub fn next_queued(&self) -> Option<(u8, Store)> {
        let last = self.state[LAST_SERVED];
        (1..=4)
            .map(|step| (last + step) & 3)
            .find(|&job| self.queued(job) > 0)
            .map(|job| {
                let place = QUEUES + QUEUE_LENGTH * job as usize + 1;
                (job, Store::of(&self.state[place..place + 5]))
            })
    }
}

/// What came of an operation.
#[derive(Clone, Copy, Debug, PartialEq, Eq)]
pub struct Outcome<'a> {
    pub code: u8,
    pub mark: bool,
    pub late: u8,
    pub image: &'a [u8],
    pub marks: &'a [u8],
}
