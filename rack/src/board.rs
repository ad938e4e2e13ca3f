//! The board: calls the controller for what happened, carries out the action that the answer names, and hands motion
//! orders to the transports. What the host sees of it is the trait `Link`.

use crate::cartridge::{image_count, Image};
use crate::transport::{operation, report, Order, Transport};
use ctc_words::interface::{Action, Answer, Answered, Controller, Outcome, Phase, Refusal, Store, NO_PLACE};

use std::cell::Cell;

pub const DRIVES: usize = 4;
/// The longest image. A host that lends this much has space for whatever is read.
pub const IMAGE_MOST: usize = 66_050;
/// A call of a damaged state.
const DAMAGED: Refusal = Refusal(1);

thread_local! {
    /// The space of a board that has come to its end, for the next one. Nothing in a space outlives the call that it is
    /// lent to.
    static SPARE: Cell<Vec<u8>> = const { Cell::new(Vec::new()) };
}

/// What the host hears.
#[derive(Clone, Copy, Debug, PartialEq, Eq)]
pub enum Heard {
    Nothing,
    /// ACK, NACK, GO or EOR.
    Byte(u8),
    String([u8; 6]),
}

/// Why the host hears nothing more of what it began.
#[derive(Clone, Copy, Debug, PartialEq, Eq)]
pub enum Trouble {
    Refused(u8),
    /// The link was too bad to say or hear anything.
    Silent,
    /// The controller's memory was damaged, and it was started anew: queues and settings are gone.
    Restarted,
}

pub type Hearing = Result<Heard, Trouble>;

/// What a host has of a controller. Jobs' stores are queued and handed over; strings go byte by byte.
pub trait Link {
    fn byte(&mut self, byte: u8) -> Hearing;
    /// Takes the ACK that is offered.
    fn take(&mut self) -> Hearing;
    fn break_off(&mut self) -> Hearing;
    /// The bytes of a write, and which of them came with bad parity.
    fn data(&mut self, bytes: &[u8], bad: Option<usize>) -> Hearing;
    fn queue(&mut self, job: u8, store: Store) -> Result<(), Trouble>;
    /// Hands over the next store; tells whose it is, none where nothing is queued.
    fn hand(&mut self) -> Result<Option<(u8, Heard)>, Trouble>;
    fn tick(&mut self) -> Hearing;
    /// The store that is handed over next, and the job whose it is.
    fn next(&self) -> Option<(u8, Store)>;
    /// How much space the host has for what is read from now on.
    fn lend(&mut self, space: usize);
    /// The bytes that came since they were last taken.
    fn delivered(&mut self) -> Vec<u8>;
}

/// A call to the controller, as it was made.
#[derive(Clone, Debug, PartialEq, Eq)]
pub enum Call {
    Byte(u8),
    Taken,
    Broken,
    Report { drive: u8, report: u8 },
    Data { host: Vec<u8>, place: u64 },
    Result { code: u8, mark: bool, late: u8, image: Image, marks: Vec<u8>, space: usize },
    Tick,
    Queue { job: u8, store: Store },
    Hand,
}

#[derive(Clone, Debug, PartialEq, Eq)]
pub enum Event {
    /// A call with its answer and the bytes that it gave.
    Call { call: Call, answered: Answered, bytes: Vec<u8> },
    /// The controller was started anew.
    Restart,
    /// What the host says of what it does, with the drive that it is about.
    Note { drive: Option<u8>, text: String },
}

/// Damage to the controller's memory while an order is carried out.
#[derive(Clone, Copy, Debug, PartialEq, Eq)]
pub struct Damage {
    pub drive: u8,
    /// Which order of that drive, counted from 1.
    pub order: usize,
    pub byte: usize,
    pub value: u8,
}

/// A board that is wrong in one way, so that tests have something to find.
#[derive(Clone, Copy, Debug, PartialEq, Eq)]
pub enum Wrong {
    /// Orders go to the drive beside.
    OtherDrive,
    /// The image of a write goes without its last byte, filled with the last write's.
    OldImage,
    /// Reports are not handed on.
    ReportsLost,
    /// What is delivered goes with one byte less.
    ShortDelivery,
    /// What is delivered goes twice.
    DeliveredTwice,
    /// The place of a byte with bad parity is not told.
    ParityUntold,
    /// After a restart the drives do not report again.
    SilentRestart,
    /// The controller is told that the host has space, where it has not.
    SpaceUntold,
    /// The controller is reset before its Nth store is handed over, as by a string that was changed on its way and
    /// still checks; the host is not told.
    ResetBefore(usize),
}

pub struct Board {
    controller: Controller,
    pub transports: [Transport; DRIVES],
    /// Lent to data calls and results; empty until the first of them.
    space: Vec<u8>,
    /// How much of it the host has for what is read.
    lent: usize,
    delivered: Vec<u8>,
    orders: [usize; DRIVES],
    handings: usize,
    pub damages: Vec<Damage>,
    /// Damages that came, and those that nobody could tell.
    pub damaged: Vec<(Damage, bool)>,
    pub restarts: usize,
    /// Orders to write that a guard should have kept back.
    pub guards_passed: usize,
    events: Vec<Event>,
    /// Whether events are kept.
    pub keeps: bool,
    /// How many calls there were.
    pub calls: u64,
    /// Whether these two are kept: what each drive was ordered, with the image of a write, and what it delivered.
    pub keeps_orders: bool,
    pub orders_given: [Vec<([u8; 6], Vec<u8>)>; DRIVES],
    pub bytes_delivered: [Vec<Vec<u8>>; DRIVES],
    pub wrong: Option<Wrong>,
}

impl Board {
    pub fn new(transports: [Transport; DRIVES]) -> Board {
        Board {
            controller: Controller::fresh(),
            transports,
            space: Vec::new(),
            lent: IMAGE_MOST,
            delivered: Vec::new(),
            orders: [0; DRIVES],
            handings: 0,
            damages: Vec::new(),
            damaged: Vec::new(),
            restarts: 0,
            guards_passed: 0,
            events: Vec::new(),
            keeps: false,
            calls: 0,
            keeps_orders: false,
            orders_given: Default::default(),
            bytes_delivered: Default::default(),
            wrong: None,
        }
    }

    fn has_space(&mut self) {
        if self.space.is_empty() {
            self.space = SPARE.take();
            self.space.resize(IMAGE_MOST, 0);
        }
    }

    /// The board has come to its end: another one may have its space.
    pub fn rest(&mut self) {
        if !self.space.is_empty() {
            SPARE.set(std::mem::take(&mut self.space));
        }
    }

    /// The drives report: at the start, and after a restart.
    pub fn report_all(&mut self) {
        for drive in 0..DRIVES {
            let report = self.transports[drive].report();
            self.report(drive, report);
        }
    }

    pub fn controller(&self) -> &Controller {
        &self.controller
    }

    pub fn events(&self) -> &[Event] {
        &self.events
    }

    pub fn note(&mut self, drive: Option<u8>, text: impl FnOnce() -> String) {
        if self.keeps {
            self.events.push(Event::Note { drive, text: text() });
        }
    }

    /// Keeps a call, and turns the refusal of a damaged state into a restart.
    fn made(&mut self, call: impl FnOnce() -> Call, answered: Answered) -> Result<Answer, Trouble> {
        self.calls += 1;
        if self.keeps {
            let given = answered.as_ref().map_or(0, |answer| answer.given);
            let bytes = self.space[..given].to_vec();
            self.events.push(Event::Call { call: call(), answered, bytes });
        }
        match answered {
            Ok(answer) => Ok(answer),
            Err(DAMAGED) => {
                self.restart();
                Err(Trouble::Restarted)
            }
            Err(Refusal(number)) => Err(Trouble::Refused(number)),
        }
    }

    fn restart(&mut self) {
        self.restarts += 1;
        if self.keeps {
            self.events.push(Event::Restart);
        }
        self.controller = Controller::fresh();
        self.delivered.clear();
        if self.wrong != Some(Wrong::SilentRestart) {
            self.report_all();
        }
    }

    fn report(&mut self, drive: usize, report: u8) {
        if self.wrong == Some(Wrong::ReportsLost) && self.calls > 8 {
            return;
        }
        let answered = self.controller.report(drive as u8, report);
        // a report gives no action
        let _ = self.made(|| Call::Report { drive: drive as u8, report }, answered);
    }

    /// Carries out what an answer has the board do, until the host is to hear of something.
    fn act(&mut self, answer: Answer) -> Hearing {
        match answer.action {
            Action::Offer(byte) => Ok(Heard::Byte(byte)),
            Action::Send(string) => Ok(Heard::String(string)),
            Action::Order(order) => self.order(order, answer.given),
            // check bytes give no order, but their result is awaited
            Action::Nothing => match self.controller.phase() {
                Phase::ResultAwaited(..) => self.result(None, crate::transport::Answer::default()),
                _ => Ok(Heard::Nothing),
            },
        }
    }

    fn order(&mut self, six: [u8; 6], image: usize) -> Hearing {
        let drive = usize::from(six[1]) % DRIVES;
        self.orders[drive] += 1;
        let held = self.controller.drive(drive as u8);
        let writes = [operation::WRITE, operation::WRITE_MARK, operation::ERASE].contains(&six[0]);
        if writes && held.guard && held.gap != 0 && held.report & report::BOT_WARNING == 0 {
            self.guards_passed += 1;
        }
        if self.keeps_orders {
            self.orders_given[drive].push((six, self.space[..image].to_vec()));
        }
        let order =
            Order { operation: six[0], track: six[2], density: six[3], operand: u16::from_be_bytes([six[4], six[5]]) };
        let moved = if self.wrong == Some(Wrong::OtherDrive) { (drive + 1) % DRIVES } else { drive };
        if self.wrong == Some(Wrong::OldImage) && image > 4 {
            self.space[image - 1] ^= 1;
        }
        let (transports, space) = (&mut self.transports, &self.space);
        let answer = transports[moved].carry_out(order, &space[..image]);
        let damages = std::mem::take(&mut self.damages);
        for damage in damages {
            if (usize::from(damage.drive), damage.order) == (drive, self.orders[drive]) {
                self.damage(damage);
            } else {
                self.damages.push(damage);
            }
        }
        let restarts = self.restarts;
        for report in &answer.reports {
            self.report(drive, *report);
        }
        if self.restarts != restarts {
            return Err(Trouble::Restarted);
        }
        self.result(Some(drive), answer)
    }

    /// Damages the controller's memory, where that can be told from a state.
    fn damage(&mut self, damage: Damage) {
        let mut state = *self.controller.state();
        state[damage.byte % state.len()] = damage.value;
        let mut damaged = Controller::with_state(state);
        let told = damaged.clone().report(0, self.transports[0].report()) == Err(DAMAGED);
        if told {
            std::mem::swap(&mut self.controller, &mut damaged);
        }
        self.damaged.push((damage, told));
    }

    fn result(&mut self, drive: Option<usize>, answer: crate::transport::Answer) -> Hearing {
        let crate::transport::Answer { code, mark, late, image, marks, .. } = answer;
        let outcome = Outcome { code, mark, late, image: &image, marks: &marks };
        let space = if self.wrong == Some(Wrong::SpaceUntold) { IMAGE_MOST } else { self.lent };
        self.has_space();
        let answered = self.controller.result(&outcome, &mut self.space[..space]);
        if let (Some(drive), true) = (drive, image_count(&image).is_some_and(|count| space < count)) {
            self.transports[drive].cut_short();
        }
        let answer = self.made(|| Call::Result { code, mark, late, image, marks, space }, answered)?;
        let mut given = self.space[..answer.given].to_vec();
        match self.wrong {
            Some(Wrong::ShortDelivery) => {
                given.pop();
            }
            Some(Wrong::DeliveredTwice) => given.extend(given.clone()),
            Some(Wrong::SpaceUntold) if given.len() > self.lent => {
                let lent = self.lent;
                given[lent..].fill(0);
            }
            _ => {}
        }
        if let (Some(drive), true, false) = (drive, self.keeps_orders, given.is_empty()) {
            self.bytes_delivered[drive].push(given.clone());
        }
        match self.delivered.is_empty() {
            true => self.delivered = given,
            false => self.delivered.extend(given),
        }
        self.act(Answer { given: 0, ..answer })
    }
}

impl Link for Board {
    fn byte(&mut self, byte: u8) -> Hearing {
        let answered = self.controller.byte(byte);
        let answer = self.made(|| Call::Byte(byte), answered)?;
        self.act(answer)
    }

    fn take(&mut self) -> Hearing {
        let answered = self.controller.taken();
        let answer = self.made(|| Call::Taken, answered)?;
        self.act(answer)
    }

    fn break_off(&mut self) -> Hearing {
        let answered = self.controller.broken();
        let answer = self.made(|| Call::Broken, answered)?;
        self.act(answer)
    }

    fn data(&mut self, bytes: &[u8], bad: Option<usize>) -> Hearing {
        let bad = if self.wrong == Some(Wrong::ParityUntold) { None } else { bad };
        let place = bad.map_or(NO_PLACE, |place| place as u64);
        self.has_space();
        let answered = self.controller.data(bytes, place, &mut self.space);
        let answer = self.made(|| Call::Data { host: bytes.to_vec(), place }, answered)?;
        self.act(answer)
    }

    fn queue(&mut self, job: u8, store: Store) -> Result<(), Trouble> {
        let answered = self.controller.queue(job, store);
        self.made(|| Call::Queue { job, store }, answered).map(|_| ())
    }

    fn hand(&mut self) -> Result<Option<(u8, Heard)>, Trouble> {
        let next = self.next();
        self.handings += 1;
        if self.wrong == Some(Wrong::ResetBefore(self.handings)) {
            let _ = self.controller.reset();
        }
        let answered = self.controller.hand();
        let answer = self.made(|| Call::Hand, answered)?;
        match next {
            Some((job, _)) => Ok(Some((job, self.act(answer)?))),
            None => Ok(None),
        }
    }

    fn tick(&mut self) -> Hearing {
        let answered = self.controller.tick();
        let answer = self.made(|| Call::Tick, answered)?;
        self.act(answer)
    }

    fn next(&self) -> Option<(u8, Store)> {
        self.controller.next_queued()
    }

    fn lend(&mut self, space: usize) {
        self.lent = space.min(IMAGE_MOST);
    }

    fn delivered(&mut self) -> Vec<u8> {
        std::mem::take(&mut self.delivered)
    }
}
