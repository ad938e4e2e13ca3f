//! The functions of ctc_controller.h. All that a call is handed lies between guard bytes, and a refused call must
//! leave it as it was.

use crate::layout;
use machine::machine::{Action, Record, Reported};

#[link(name = "firmware", kind = "static")]
extern "C" {
    fn ctc_fresh(state: *mut u8) -> u32;
    fn ctc_byte(state: *mut u8, byte: u8, answer: *mut u8) -> u32;
    fn ctc_taken(state: *mut u8, answer: *mut u8) -> u32;
    fn ctc_broken(state: *mut u8, answer: *mut u8) -> u32;
    fn ctc_reset(state: *mut u8, answer: *mut u8) -> u32;
    fn ctc_tick(state: *mut u8, answer: *mut u8) -> u32;
    fn ctc_report(state: *mut u8, drive: u8, report: u8, answer: *mut u8) -> u32;
    fn ctc_data(
        state: *mut u8,
        host: *const u8,
        host_len: u64,
        place: u64,
        space: *mut u8,
        space_len: u64,
        check: *mut u8,
        check_len: u64,
        answer: *mut u8,
    ) -> u32;
    fn ctc_result(
        state: *mut u8,
        code: u8,
        mark: u8,
        late: u8,
        image: *const u8,
        image_len: u64,
        marks: *const u8,
        marks_len: u64,
        space: *mut u8,
        space_len: u64,
        check: *mut u8,
        check_len: u64,
        answer: *mut u8,
    ) -> u32;
    fn ctc_queue(
        state: *mut u8,
        job: u8,
        address: u8,
        first: u8,
        second: u8,
        third: u8,
        fourth: u8,
        answer: *mut u8,
    ) -> u32;
    fn ctc_hand(state: *mut u8, answer: *mut u8) -> u32;
}

const ANSWER: usize = 16;
const GUARD: usize = 64;

pub struct Controller {
    pub state: [u8; layout::LENGTH],
    answer: [u8; ANSWER],
}

/// Makes a call on a copy between guard bytes, and gives the copy as the call left it.
fn guarded<T>(bytes: &[u8], call: impl FnOnce(&mut [u8]) -> T) -> (T, Vec<u8>) {
    let mut memory = vec![0xA5; GUARD];
    memory.extend(bytes);
    memory.resize(bytes.len() + 2 * GUARD, 0xA5);
    let inside = GUARD..GUARD + bytes.len();
    let answer = call(&mut memory[inside.clone()]);
    let around = memory[..GUARD].iter().chain(&memory[inside.end..]);
    assert!(around.copied().all(|byte| byte == 0xA5), "wrote outside");
    (answer, memory[inside].to_vec())
}

impl Controller {
    pub fn fresh() -> Controller {
        let mut controller = Controller {
            state: [0xEE; layout::LENGTH],
            answer: [0xEE; ANSWER],
        };
        // SAFETY: as in `call`
        let (refusal, state) = guarded(&[0xEE; layout::LENGTH], |state| unsafe {
            ctc_fresh(state.as_mut_ptr())
        });
        assert_eq!(refusal, 0);
        controller.state.copy_from_slice(&state);
        controller
    }

    fn call(&mut self, call: impl FnOnce(*mut u8, *mut u8) -> u32) -> u32 {
        let ((refusal, answer), state) = guarded(&self.state, |state| {
            guarded(&self.answer, |answer| {
                call(state.as_mut_ptr(), answer.as_mut_ptr())
            })
        });
        if refusal != 0 {
            assert!(state == self.state, "refusal {refusal} wrote the state");
            assert!(answer == self.answer, "refusal {refusal} wrote the answer");
        }
        self.state.copy_from_slice(&state);
        self.answer.copy_from_slice(&answer);
        refusal
    }

    // SAFETY, of all calls: slices are valid for their lengths, and those to be written are borrowed alone

    pub fn byte(&mut self, byte: u8) -> u32 {
        self.call(|state, answer| unsafe { ctc_byte(state, byte, answer) })
    }

    pub fn taken(&mut self) -> u32 {
        self.call(|state, answer| unsafe { ctc_taken(state, answer) })
    }

    pub fn broken(&mut self) -> u32 {
        self.call(|state, answer| unsafe { ctc_broken(state, answer) })
    }

    pub fn reset(&mut self) -> u32 {
        self.call(|state, answer| unsafe { ctc_reset(state, answer) })
    }

    pub fn tick(&mut self) -> u32 {
        self.call(|state, answer| unsafe { ctc_tick(state, answer) })
    }

    pub fn report(&mut self, drive: u8, report: u8) -> u32 {
        self.call(|state, answer| unsafe { ctc_report(state, drive, report, answer) })
    }

    /// By job 0.
    pub fn queue(&mut self, address: u8, operand: [u8; 4]) -> u32 {
        let [first, second, third, fourth] = operand;
        self.call(|state, answer| unsafe {
            ctc_queue(state, 0, address, first, second, third, fourth, answer)
        })
    }

    pub fn hand(&mut self) -> u32 {
        self.call(|state, answer| unsafe { ctc_hand(state, answer) })
    }

    /// Queued by job 0 and handed over.
    pub fn store(&mut self, address: u8, operand: [u8; 4]) -> u32 {
        match self.queue(address, operand) {
            0 => self.hand(),
            queued => queued,
        }
    }

    pub fn data(
        &mut self,
        host: &[u8],
        place: usize,
        space: &mut Vec<u8>,
        check: &mut Vec<u8>,
    ) -> u32 {
        self.lent(space, check, |state, space, check, answer| {
            let (refusal, after) = guarded(host, |host| unsafe {
                ctc_data(
                    state,
                    host.as_ptr(),
                    host.len() as u64,
                    place as u64,
                    space.as_mut_ptr(),
                    space.len() as u64,
                    check.as_mut_ptr(),
                    check.len() as u64,
                    answer,
                )
            });
            assert!(after == host, "the host bytes were changed");
            refusal
        })
    }

    pub fn result(&mut self, reported: &Reported, space: &mut Vec<u8>, check: &mut Vec<u8>) -> u32 {
        let Reported {
            code,
            mark,
            late,
            image,
            marks,
        } = *reported;
        self.lent(space, check, |state, space, check, answer| {
            let ((refusal, marks_after), image_after) = guarded(image, |image| {
                guarded(marks, |marks| unsafe {
                    ctc_result(
                        state,
                        code,
                        mark as u8,
                        late,
                        image.as_ptr(),
                        image.len() as u64,
                        marks.as_ptr(),
                        marks.len() as u64,
                        space.as_mut_ptr(),
                        space.len() as u64,
                        check.as_mut_ptr(),
                        check.len() as u64,
                        answer,
                    )
                })
            });
            assert!(image_after == image, "the image was changed");
            assert!(marks_after == marks, "the marks were changed");
            refusal
        })
    }

    /// A call that is lent space and a check store.
    fn lent(
        &mut self,
        space: &mut Vec<u8>,
        check: &mut Vec<u8>,
        call: impl FnOnce(*mut u8, &mut [u8], &mut [u8], *mut u8) -> u32,
    ) -> u32 {
        let (mut space_after, mut check_after) = (vec![], vec![]);
        let refusal = self.call(|state, answer| {
            let ((refusal, check), space) = guarded(space, |space| {
                guarded(check, |check| call(state, space, check, answer))
            });
            (space_after, check_after) = (space, check);
            refusal
        });
        if refusal != 0 {
            assert!(*space == space_after, "refusal {refusal} wrote the space");
            assert!(*check == check_after, "refusal {refusal} wrote the checks");
        } else {
            let given = self.given();
            assert!(
                space[given..] == space_after[given..],
                "wrote space that is not given"
            );
        }
        (*space, *check) = (space_after, check_after);
        refusal
    }

    // The answer of the last call that was not refused, by the header's table.

    pub fn action(&self) -> Action {
        let six = self.answer[1..7].try_into().unwrap();
        match self.answer[0] {
            0 => Action::None,
            1 => Action::Byte(self.answer[1]),
            2 => Action::String(six),
            3 => Action::Order(six),
            other => panic!("action {other}"),
        }
    }

    pub fn record(&self) -> Option<Record> {
        match self.answer[7] {
            0 => None,
            1 => Some(Record {
                code: self.answer[8],
                motion: self.answer[9],
                count: u16::from_be_bytes([self.answer[10], self.answer[11]]),
            }),
            other => panic!("settled flag {other}"),
        }
    }

    pub fn given(&self) -> usize {
        u32::from_be_bytes(self.answer[12..].try_into().unwrap()) as usize
    }
}
