//! Writes and reads by the controller in libfirmware.a, called as from C, and by the independent machine: records of
//! any length, and the place of a byte with bad parity, which no line of a session can bring.

pub mod controller;
pub mod layout;
pub mod lists;
pub mod random;

use controller::Controller;
use machine::jobs::Store;
use machine::machine::{link, report, Machine, Refusal, Reported};
use machine::mutants::Mutant;
use machine::records::{Density, CHECK_BYTES};

/// "1 a field out of range", which the machine does not have.
pub const DAMAGED: u32 = 1;

/// The report of a drive with a tape.
pub const TAPE: u8 = report::INSTALLED | report::SELECTABLE;
/// The addresses of drive 0's stores.
pub const CONTROL: u8 = 0x38;
pub const READ: u8 = 0x48;
pub const WRITE: u8 = 0x58;
/// The control value that sets GCR.
pub const SET_GCR: u8 = 0x0D;

/// A fresh controller's drive 0, which has reported a tape and has this density, awaits the data of a
/// write; then its result, with code 0.
#[derive(Clone, Debug, PartialEq, Eq)]
pub struct Call {
    /// 0 MFM, 1 GCR; a state with another one is damaged.
    pub density: u8,
    pub thrown: u8,
    pub count: u16,
    pub host: Vec<u8>,
    pub place: usize,
    pub lent: Lent,
}

/// The spaces that a call may write, with what they hold.
#[derive(Clone, Debug, PartialEq, Eq)]
pub struct Lent {
    pub space: Vec<u8>,
    pub check: Vec<u8>,
}

/// What a write came to: all zeros and empty but for the first and the last where it is refused.
#[derive(Clone, Debug, PartialEq, Eq)]
pub struct Answer {
    pub refusal: u32,
    /// Primary after the data call and after the result.
    pub words: [u32; 2],
    /// The image's.
    pub length: usize,
    /// The state's bytes after the data call and after the result.
    pub states: [Vec<u8>; 2],
    pub lent: Lent,
}

impl Answer {
    fn refused(refusal: u32, lent: Lent) -> Answer {
        Answer {
            refusal,
            words: [0, 0],
            length: 0,
            states: [vec![], vec![]],
            lent,
        }
    }
}

const DONE: Reported = Reported {
    code: 0,
    mark: false,
    late: 0,
    image: &[],
    marks: &[],
};

fn write_operand(call: &Call) -> [u8; 4] {
    let [high, low] = call.count.to_be_bytes();
    [0, call.thrown, high, low]
}

/// The answer of the controller.
pub fn controller(call: &Call) -> Answer {
    let mut controller = Controller::fresh();
    assert_eq!(controller.report(0, TAPE), 0);
    if call.density == 1 {
        assert_eq!(controller.store(CONTROL, [0, 0, 0, SET_GCR]), 0);
    }
    assert_eq!(controller.store(WRITE, write_operand(call)), 0);
    assert_eq!(controller.byte(link::ACK), 0);
    if call.density > 1 {
        controller.state[layout::DENSITY] = call.density;
    }
    let mut lent = call.lent.clone();
    let Lent { space, check } = &mut lent;
    let refusal = controller.data(&call.host, call.place, space, check);
    if refusal != 0 {
        return Answer::refused(refusal, lent);
    }
    let length = controller.given();
    let after_data = controller.state.to_vec();
    let (mut none, mut other) = (vec![], vec![0; CHECK_BYTES]);
    assert_eq!(controller.result(&DONE, &mut none, &mut other), 0);
    let after_result = controller.state.to_vec();
    Answer {
        refusal,
        words: [&after_data, &after_result].map(|state| layout::primary(state)),
        length,
        states: [after_data, after_result],
        lent,
    }
}

/// The answer of the machine, with a rule made wrong or none.
pub fn machine(call: &Call, mutant: Option<Mutant>) -> Answer {
    let mut lent = call.lent.clone();
    if call.density > 1 {
        return Answer::refused(DAMAGED, lent);
    }
    match write(call, mutant, &mut lent) {
        Ok((words, length, states)) => Answer {
            refusal: 0,
            words,
            length,
            states,
            lent,
        },
        Err(refusal) => Answer::refused(refusal as u32, lent),
    }
}

type Written = ([u32; 2], usize, [Vec<u8>; 2]);

fn write(call: &Call, mutant: Option<Mutant>, lent: &mut Lent) -> Result<Written, Refusal> {
    let mut machine = Machine {
        mutant,
        ..Machine::fresh()
    };
    machine.report(0, TAPE)?;
    if call.density == 1 {
        machine.queue(
            0,
            Store {
                address: CONTROL,
                operand: [0, 0, 0, SET_GCR],
            },
        )?;
        machine.hand()?;
        assert_eq!(machine.drives[0].density, Density::Gcr);
    }
    machine.queue(
        0,
        Store {
            address: WRITE,
            operand: write_operand(call),
        },
    )?;
    machine.hand()?;
    machine.byte(link::ACK)?;
    let (_, length) = machine.data(&call.host, call.place, &mut lent.space, &mut lent.check)?;
    let after_data = (machine.primary(), layout::bytes(&machine, WRITE));
    machine.result(DONE, &mut [], &mut [0; CHECK_BYTES])?;
    let after_result = (machine.primary(), layout::bytes(&machine, WRITE));
    Ok((
        [after_data.0, after_result.0],
        length,
        [after_data.1, after_result.1],
    ))
}

/// The answer of both, which must be one.
#[track_caller]
pub fn both(call: &Call) -> Answer {
    let given = controller(call);
    let wanted = machine(call, None);
    if given != wanted {
        let Call {
            density,
            thrown,
            count,
            host,
            place,
            lent,
        } = call;
        panic!(
            "density {density}, thrown away {thrown}, count {count}, {} host bytes, place {place}, \
             space of {}, check store of {}: refusal {} and not {}, primary {:08X?} and not {:08X?}, \
             {} bytes and not {}, states alike: {}, space alike: {}, check store alike: {}",
            host.len(),
            lent.space.len(),
            lent.check.len(),
            given.refusal,
            wanted.refusal,
            given.words,
            wanted.words,
            given.length,
            wanted.length,
            given.states == wanted.states,
            given.lent.space == wanted.lent.space,
            given.lent.check == wanted.lent.check,
        );
    }
    given
}
