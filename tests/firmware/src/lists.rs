//! Lists of calls, played by the controller and by the machine.

use crate::controller::Controller;
use crate::layout;
use machine::jobs::Store;
use machine::machine::{Action, Machine, Record, Refusal, Reported};
use machine::mutants::Mutant;
use machine::records::CHECK_BYTES;

#[derive(Clone, Debug)]
pub enum Step {
    Report(u8, u8),
    /// Queued by job 0 and handed over: address and operand.
    Store(u8, [u8; 4]),
    Byte(u8),
    Taken,
    Tick,
    Data {
        host: Vec<u8>,
        place: usize,
        space: usize,
    },
    Result {
        code: u8,
        mark: bool,
        late: u8,
        image: Vec<u8>,
        marks: Vec<u8>,
        space: usize,
    },
}

/// What a call came to.
#[derive(Clone, Debug, PartialEq, Eq)]
pub struct Seen {
    pub refusal: u32,
    /// Nothing of these three where it is refused.
    pub action: Action,
    pub record: Option<Record>,
    pub given: Vec<u8>,
    pub check: Vec<u8>,
    pub state: Vec<u8>,
}

const CHECK_BEFORE: [u8; CHECK_BYTES] = [0xEE; CHECK_BYTES];
const SPACE_BEFORE: u8 = 0xEE;

/// By the controller.
pub fn controller(steps: &[Step]) -> Vec<Seen> {
    let mut controller = Controller::fresh();
    let mut check = CHECK_BEFORE.to_vec();
    let mut seen = vec![];
    for step in steps {
        let mut lent = vec![];
        let refusal = match step {
            &Step::Report(drive, report) => controller.report(drive, report),
            &Step::Store(address, operand) => controller.store(address, operand),
            &Step::Byte(byte) => controller.byte(byte),
            Step::Taken => controller.taken(),
            Step::Tick => controller.tick(),
            Step::Data { host, place, space } => {
                lent = vec![SPACE_BEFORE; *space];
                controller.data(host, *place, &mut lent, &mut check)
            }
            Step::Result { space, .. } => {
                lent = vec![SPACE_BEFORE; *space];
                controller.result(&reported(step), &mut lent, &mut check)
            }
        };
        let done = refusal == 0;
        lent.truncate(if done { controller.given() } else { 0 });
        seen.push(Seen {
            refusal,
            action: if done {
                controller.action()
            } else {
                Action::None
            },
            record: if done { controller.record() } else { None },
            given: lent,
            check: check.clone(),
            state: controller.state.to_vec(),
        });
    }
    seen
}

fn reported(step: &Step) -> Reported<'_> {
    match step {
        Step::Result {
            code,
            mark,
            late,
            image,
            marks,
            ..
        } => Reported {
            code: *code,
            mark: *mark,
            late: *late,
            image,
            marks,
        },
        _ => unreachable!("a result is reported"),
    }
}

/// By the machine, with a rule made wrong or none.
pub fn machine(steps: &[Step], mutant: Option<Mutant>) -> Vec<Seen> {
    let mut machine = Machine {
        mutant,
        ..Machine::fresh()
    };
    let mut check = CHECK_BEFORE.to_vec();
    let mut under_way = 0;
    let mut seen = vec![];
    for step in steps {
        let mut lent = vec![];
        let nothing = |answer: Result<Action, Refusal>| answer.map(|action| (action, 0));
        let answer = match step {
            &Step::Report(drive, report) => nothing(machine.report(drive, report)),
            &Step::Store(address, operand) => {
                under_way = address;
                nothing(
                    machine
                        .queue(0, Store { address, operand })
                        .and_then(|_| machine.hand()),
                )
            }
            &Step::Byte(byte) => nothing(machine.byte(byte)),
            Step::Taken => nothing(machine.taken()),
            Step::Tick => nothing(machine.tick()),
            Step::Data { host, place, space } => {
                lent = vec![SPACE_BEFORE; *space];
                machine.data(host, *place, &mut lent, &mut check)
            }
            Step::Result { space, .. } => {
                lent = vec![SPACE_BEFORE; *space];
                machine.result(reported(step), &mut lent, &mut check)
            }
        };
        let record = machine.record.take();
        let (refusal, action, given) = match answer {
            Ok((action, given)) => (0, action, given),
            Err(refusal) => (refusal as u32, Action::None, 0),
        };
        lent.truncate(given);
        seen.push(Seen {
            refusal,
            action,
            record: record.filter(|_| refusal == 0),
            given: lent,
            check: check.clone(),
            state: layout::bytes(&machine, under_way),
        });
    }
    seen
}

/// What both came to, which must be one.
#[track_caller]
pub fn both(steps: &[Step]) -> Vec<Seen> {
    let given = controller(steps);
    let wanted = machine(steps, None);
    for (at, (given, wanted)) in given.iter().zip(&wanted).enumerate() {
        if given != wanted {
            let state =
                (0..layout::LENGTH).find(|&place| given.state[place] != wanted.state[place]);
            panic!(
                "step {at}: refusal {} and not {}, {:?} and not {:?}, {:?} and not {:?}, {} bytes given \
                 and not {}, alike: {}, checks alike: {}, first place of the state that differs: {state:?}",
                given.refusal,
                wanted.refusal,
                given.action,
                wanted.action,
                given.record,
                wanted.record,
                given.given.len(),
                wanted.given.len(),
                given.given == wanted.given,
                given.check == wanted.check,
            );
        }
    }
    given
}
