//! The reference driver: one job's commands on one drive, and how it recovers. It never files a copy that is not byte
//! for byte the record; where it has none it says that the record is lost, and where.
//!
//! A reader begins here with what a job is told and what it leaves behind, and goes on with `commands`; `write`, `read`
//! and `places` are what these come to, `passes` how a record is put together from several reads. All of it goes by
//! status words alone, through four functions at the end of this file: `stores`, `store`, `load` and `check_bytes`.

mod commands;
mod desk;
mod passes;
mod places;
mod read;
mod write;

pub use desk::{Desk, Mail, Part, Reply, Request};
pub use places::Spot;

use crate::board::Trouble;
use crate::cartridge::{BLOCKETTE, GCR};
use crate::host::{Completion, Status, Wrong};
use ctc_words::interface::Store;
use desk::Waiting;
use std::cell::RefCell;
use std::rc::Rc;

/// How often the tape is brought back to a place, and how often a move is tried there.
const POSITION_TRIES: usize = 6;
/// The controller's own codes: for a store that its drive's report forbids, and for a write whose data did not come.
const ILLEGAL_MOTION: u8 = 0x04;
const NO_GO: u8 = 0x05;
/// Values of control stores that move the tape.
const REWIND: u8 = 0x10;
const SKIP_FORWARD: u8 = 0x20;
const SKIP_REVERSE: u8 = 0x21;
const SEARCH_FORWARD: u8 = 0x22;
const SEARCH_REVERSE: u8 = 0x23;

/// What a host tells its driver, as `mt` has it.
#[derive(Clone, Debug, PartialEq, Eq)]
pub enum Command {
    Status,
    Rewind,
    Density(u8),
    Track(u8),
    Guard(bool),
    SpaceFiles(usize),
    BackFiles(usize),
    SpaceRecords(usize),
    BackRecords(usize),
    WriteMarks(usize),
    Erase(Option<u16>),
    /// A file of the host under its name, in records of so many bytes.
    Write {
        name: String,
        bytes: Rc<Vec<u8>>,
        count: usize,
    },
    /// Files from tape, up to two marks in a row or to so many.
    Read {
        folder: String,
        files: Option<usize>,
    },
}

/// What became of a command.
#[derive(Clone, Debug, PartialEq, Eq)]
pub enum Outcome {
    Done(String),
    /// Something is lost or was not done; the job goes on.
    Lost(String),
    /// The job cannot go on.
    Stopped(String),
}

/// A file read from tape. Where a record is lost, the place of its bytes is not known.
#[derive(Clone, Debug, PartialEq, Eq)]
pub struct Filed {
    pub folder: String,
    pub track: u8,
    pub file: usize,
    /// The number of its first record that was asked for.
    pub first: usize,
    /// Each record, or why it is lost.
    pub records: Vec<Result<Vec<u8>, String>>,
}

/// What a driver leaves behind.
#[derive(Default)]
pub struct Ledger {
    pub outcomes: Vec<(Command, Outcome)>,
    pub filed: Vec<Filed>,
    /// What was written and found good, by track, in its order; a mark is none.
    pub written: Vec<(u8, Spot, Option<Part>)>,
    pub retries: u64,
    pub restored: u64,
    pub merged: u64,
    pub supplied: u64,
    pub repositioned: u64,
    pub unlike: u64,
}

/// Why a command ends early.
enum Stop {
    Gone,
    Full,
    Failed(String),
}

impl Stop {
    fn words(self) -> String {
        match self {
            Stop::Gone => "the tape is gone".to_string(),
            Stop::Full => "the tape has no more room".to_string(),
            Stop::Failed(why) => why,
        }
    }
}

pub struct Driver {
    desk: Desk,
    pub drive: u8,
    track: u8,
    density: u8,
    guard: bool,
    spot: Spot,
    /// Whether the tape stands where `spot` says, on the track and in the density that are meant.
    placed: bool,
    /// Whether track and density have been set for the drive, and nothing is known that took them away.
    settled: bool,
    /// A store that was carried out with other settings than were meant.
    astray: Option<Status>,
    /// Inches of erased tape between the spot and where the next write belongs: writes that failed may lie behind them.
    erased: u32,
    /// How many of them lie behind the heads.
    passed: u32,
    /// The image of the record that is held to its check bytes, in a space that is used again.
    image: Vec<u8>,
    pub ledger: Rc<RefCell<Ledger>>,
    pub wrong: Option<Wrong>,
}

fn settings(track: u8, density: u8) -> String {
    format!("track {track} in {}", if density == GCR { "GCR" } else { "MFM" })
}

impl Driver {
    pub fn new(desk: Desk, drive: u8, density: u8) -> Driver {
        Driver {
            desk,
            drive,
            track: 0,
            density,
            guard: true,
            spot: Spot::START,
            placed: false,
            settled: false,
            astray: None,
            erased: 0,
            passed: 0,
            image: Vec::new(),
            ledger: Rc::default(),
            wrong: None,
        }
    }

    /// Carries out the commands, one after the other.
    pub async fn run(mut self, commands: Vec<Command>) {
        let mut stopped = false;
        for command in commands {
            let outcome = if stopped {
                Outcome::Stopped("not tried: the job had ended".to_string())
            } else {
                match self.carry_out(&command).await {
                    Ok(outcome) => outcome,
                    Err(stop) => {
                        stopped = true;
                        Outcome::Stopped(stop.words())
                    }
                }
            };
            self.ledger.borrow_mut().outcomes.push((command, outcome));
        }
    }

    fn note(&self, text: impl Into<String>) {
        self.desk.borrow_mut().notes.push(text.into());
    }

    fn count(&self, what: impl FnOnce(&mut Ledger) -> &mut u64) {
        *what(&mut self.ledger.borrow_mut()) += 1;
    }

    // ---- what is asked of the host

    async fn ask(&self, request: Request) -> Result<Reply, Trouble> {
        self.desk.borrow_mut().request = Some(request);
        Waiting(self.desk.clone()).await
    }

    /// Address of a store of this drive that asks an interrupt.
    fn address(&self, operation: u8) -> u8 {
        0x88 | operation << 4 | self.drive
    }

    fn control(&self, value: u8) -> Store {
        Store { address: self.address(3), operand: [0, 0, 0, value] }
    }

    /// Queues stores and waits for all of them. None where the controller was started anew meanwhile.
    async fn stores(&mut self, stores: Vec<Store>, data: Part) -> Result<Option<Vec<Completion>>, Stop> {
        match self.ask(Request::Stores(stores, data)).await {
            Ok(Reply::Completions(completions)) => Ok(Some(completions)),
            Ok(_) => Err(Stop::Failed("another reply than was asked for".to_string())),
            Err(Trouble::Restarted) => {
                if self.wrong != Some(Wrong::RestartIgnored) {
                    self.placed = false;
                    self.settled = false;
                }
                self.note("the controller was started anew");
                Ok(None)
            }
            Err(Trouble::Silent) => Err(Stop::Failed("the link is silent".to_string())),
            Err(Trouble::Refused(number)) => Err(Stop::Failed(format!("refused with {number}"))),
        }
    }

    /// One store. None, too, where it was carried out on another track or in another density: what a string that was
    /// changed on its way, and still checks, did to the controller shows in primary alone.
    async fn store(&mut self, store: Store, data: Part) -> Result<Option<Completion>, Stop> {
        let completion = self.stores(vec![store], data).await?.and_then(|mut all| all.pop());
        Ok(completion.filter(|completion| self.is_own(completion.status)))
    }

    /// Whether a store was carried out with the settings of this job. Where not, they are made again before the next.
    fn is_own(&mut self, status: Status) -> bool {
        let own = (status.drive(), status.track(), status.density()) == (self.drive, self.track, self.density);
        if own || !self.settled || self.wrong == Some(Wrong::SettingsUnchecked) {
            return true;
        }
        self.note(format!("the controller has lost what was set: {}", settings(status.track(), status.density())));
        self.placed = false;
        self.settled = false;
        self.astray = Some(status);
        false
    }

    /// Ends the job where something was written or erased astray: what lay there is not this job's to mend.
    fn not_astray(&mut self, what: &str) -> Result<(), Stop> {
        match self.astray.take() {
            Some(status) if ![ILLEGAL_MOTION, NO_GO].contains(&status.code()) => Err(Stop::Failed(format!(
                "the controller had lost what was set, and {what} {} instead of {}: what lay there may be damaged",
                settings(status.track(), status.density()),
                settings(self.track, self.density)
            ))),
            _ => Ok(()),
        }
    }

    async fn move_by(&mut self, value: u8) -> Result<Option<Completion>, Stop> {
        self.store(self.control(value), Part::default()).await
    }

    async fn load(&mut self, number: u8) -> Result<Option<u32>, Stop> {
        match self.ask(Request::Load(number)).await {
            Ok(Reply::Word(word)) => Ok(Some(word)),
            Err(Trouble::Restarted) => {
                self.placed = false;
                self.settled = false;
                Ok(None)
            }
            _ => Err(Stop::Failed("the link is silent".to_string())),
        }
    }

    async fn check_bytes(&mut self) -> Result<Option<Vec<u8>>, Stop> {
        match self.ask(Request::CheckBytes(self.drive)).await {
            Ok(Reply::Bytes(mut bytes)) => {
                if self.wrong == Some(Wrong::ChecksSwapped) {
                    bytes.rotate_left(BLOCKETTE);
                }
                Ok(Some(bytes))
            }
            Err(Trouble::Restarted) => {
                self.placed = false;
                self.settled = false;
                Ok(None)
            }
            _ => Err(Stop::Failed("the link is silent".to_string())),
        }
    }
}
