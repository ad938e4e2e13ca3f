//! A run in words: each event with its lane, for the explanation and for the page.

use crate::board::{Call, Event};
use crate::cartridge::image_count;
use ctc_words::interface::{Action, Answer, Answered, Store, NO_PLACE};
use ctc_words::names::{name, Kind};
use ctc_words::status;
use std::collections::VecDeque;

/// The order byte of a read with a supplied count, which the order brings.
const READ_SUPPLIED: u8 = 0x80;

/// The lead bytes of two strings that the controller sends; a third answers a load.
const SECONDARY_UPDATE: u8 = 0x68;
const INTERRUPT: u8 = 0x69;

/// Where an entry stands.
#[derive(Clone, Copy, Debug, PartialEq, Eq)]
pub enum Lane {
    Host,
    Drive(u8),
}

#[derive(Clone, Copy, Debug, PartialEq, Eq)]
pub enum Sort {
    /// What the host says or hears.
    Link,
    Order,
    Result,
    Report,
    /// What became of a store.
    Ended,
    /// What the host does about it.
    Recovery,
    /// What it says is lost.
    Lost,
    /// A call that the controller turned back.
    Refused,
    Restart,
}

impl Sort {
    pub fn word(self) -> &'static str {
        match self {
            Sort::Link => "link",
            Sort::Order => "order",
            Sort::Result => "result",
            Sort::Report => "report",
            Sort::Ended => "ended",
            Sort::Recovery => "recovery",
            Sort::Lost => "lost",
            Sort::Refused => "refused",
            Sort::Restart => "restart",
        }
    }
}

#[derive(Clone, Debug, PartialEq, Eq)]
pub struct Entry {
    /// The number of the call, from 1.
    pub time: usize,
    /// The turn: what one store did, or what a job queued.
    pub turn: usize,
    pub lane: Lane,
    /// The drive that it is about; none where it is about all.
    pub about: Option<u8>,
    pub sort: Sort,
    pub words: String,
    /// What one reads where one points: status words in words.
    pub more: String,
}

impl Entry {
    /// Whether a result or the end of a store is not code 00, or something is lost or refused.
    pub fn is_bad(&self) -> bool {
        match self.sort {
            Sort::Result | Sort::Ended => !self.words.contains("code 00"),
            sort => matches!(sort, Sort::Lost | Sort::Refused),
        }
    }

    /// Whether it tells that not all was well.
    pub fn is_told(&self) -> bool {
        self.is_bad() || matches!(self.sort, Sort::Recovery | Sort::Restart)
    }

    /// Whether it stands in the story of a drive.
    pub fn is_of(&self, drive: u8) -> bool {
        match self.lane {
            Lane::Drive(other) => other == drive,
            Lane::Host => self.about.is_none_or(|other| other == drive),
        }
    }
}

fn text(put: impl FnOnce(&mut Vec<u8>)) -> String {
    let mut out = Vec::new();
    put(&mut out);
    String::from_utf8_lossy(&out).into_owned()
}

fn code_words(code: u8) -> String {
    text(|out| status::put_code(code, out))
}

pub fn hex(bytes: &[u8]) -> String {
    bytes.iter().map(|byte| format!("{byte:02X}")).collect()
}

/// A motion order in words.
pub fn order_words(six: [u8; 6]) -> String {
    format!("{}, track {}, {}", name(Kind::Order, six[0]), six[2], name(Kind::Density, six[3]))
}

fn store_words(store: &Store) -> String {
    // every store of a job asks an interrupt, and its drive is told by its lane or its job
    let drive = store.drive().map_or(String::new(), |drive| format!(", drive {drive}"));
    text(|out| ctc_words::explain::put_store(store, out)).replace(", asks an interrupt", "").replace(&drive, "")
}

/// All entries of a run.
pub fn tell(events: &[Event]) -> Vec<Entry> {
    let mut story = Story {
        entries: Vec::new(),
        time: 0,
        turn: 0,
        queueing: None,
        drive: None,
        heard: [0; 4],
        handed: None,
        queues: Default::default(),
        last: 3,
    };
    for event in events {
        match event {
            Event::Note { drive, text } => {
                let lane = drive.map_or(Lane::Host, Lane::Drive);
                let (sort, text) = match text.strip_prefix("lost: ") {
                    Some(rest) => (Sort::Lost, rest),
                    None => (Sort::Recovery, text.as_str()),
                };
                story.put(lane, sort, text.to_string(), String::new());
            }
            Event::Restart => {
                let words = "the controller's memory is damaged: it is started anew".to_string();
                let more =
                    "every call is refused with 1: the bytes are no state, or a field is out of range".to_string();
                story.turn += 1;
                story.handed = None;
                story.put(Lane::Host, Sort::Restart, words, more);
                story.queues = Default::default();
                story.last = 3;
            }
            Event::Call { call, answered, bytes } => story.call(call, answered, bytes),
        }
    }
    story.entries
}

struct Story {
    entries: Vec<Entry>,
    time: usize,
    turn: usize,
    /// The job that queues its stores in this turn.
    queueing: Option<u8>,
    /// The drive of the last order.
    drive: Option<u8>,
    /// The last four bytes that came: the string of a load, where it is answered.
    heard: [u8; 4],
    /// The store that was handed over, and the queues that it came from.
    handed: Option<Store>,
    queues: [VecDeque<Store>; 4],
    last: usize,
}

impl Story {
    fn put(&mut self, lane: Lane, sort: Sort, words: String, more: String) {
        let about = match lane {
            Lane::Drive(drive) => Some(drive),
            Lane::Host => self.about(),
        };
        self.entries.push(Entry { time: self.time, turn: self.turn, lane, about, sort, words, more });
    }

    /// The drive of what is on the link: a job has it until it has what it needs of the store that was handed over.
    fn about(&self) -> Option<u8> {
        self.handed.and_then(|store| store.drive())
    }

    /// A turn begins where a store is handed over, and where another job queues.
    fn begin(&mut self, call: &Call) {
        let queueing = match call {
            Call::Queue { job, .. } => Some(*job),
            _ => None,
        };
        if matches!(call, Call::Hand) || queueing.is_some() && queueing != self.queueing {
            self.turn += 1;
        }
        if !matches!(call, Call::Tick) {
            self.queueing = queueing;
        }
    }

    fn call(&mut self, call: &Call, answered: &Answered, bytes: &[u8]) {
        self.time += 1;
        self.begin(call);
        match call {
            Call::Queue { job, store } => {
                let words = format!("job {job} queues {}", store_words(store));
                let more = format!("store, address {:02X}, operand {}", store.address, hex(&store.operand));
                let handed = self.handed.replace(*store);
                self.put(Lane::Host, Sort::Link, words, more);
                self.handed = handed;
                self.queues[usize::from(*job) & 3].push_back(*store);
            }
            Call::Hand => {
                let next = (1..=4).map(|step| (self.last + step) % 4).find(|job| !self.queues[*job].is_empty());
                if let Some(job) = next {
                    self.last = job;
                    self.handed = self.queues[job].pop_front();
                }
            }
            Call::Broken => self.put(Lane::Host, Sort::Link, "the link breaks".to_string(), String::new()),
            Call::Data { host, place } if *place != NO_PLACE => {
                let words = format!("{} bytes, byte {place} with bad parity", host.len());
                self.put(Lane::Host, Sort::Link, words, String::new());
            }
            Call::Data { host, .. } => {
                self.put(Lane::Host, Sort::Link, format!("{} bytes for the write", host.len()), String::new());
            }
            Call::Report { drive, report } => {
                let words = text(|out| status::put_report(*report, out));
                self.put(Lane::Drive(*drive), Sort::Report, words, format!("report {report:02X}"));
            }
            Call::Result { code, mark, late, image, marks, .. } => {
                self.result(*code, *mark, *late, image, marks, bytes.len());
            }
            Call::Byte(byte) => {
                self.heard.rotate_left(1);
                self.heard[3] = *byte;
            }
            Call::Taken | Call::Tick => {}
        }
        match answered {
            Ok(answer) => self.answer(call, answer),
            Err(refusal) => {
                let words = format!("with {}: {}", refusal.0, name(Kind::Refusal, refusal.0));
                self.put(Lane::Host, Sort::Refused, words, String::new());
            }
        }
    }

    fn result(&mut self, code: u8, mark: bool, late: u8, image: &[u8], marks: &[u8], delivered: usize) {
        let Some(drive) = self.drive else {
            self.put(Lane::Host, Sort::Link, format!("check bytes: {delivered} delivered"), String::new());
            return;
        };
        let mut words = code_words(code);
        let mut more = Vec::new();
        if mark {
            words += "; a mark";
        }
        if late != 0 {
            words += &format!("; late flags {late}");
        }
        if let Some(count) = image_count(image) {
            words += &format!("; count {count}");
        }
        let bad: Vec<String> = marks.iter().enumerate().filter(|(_, mark)| **mark != 15).map(bad_words).collect();
        if !bad.is_empty() {
            words += &format!("; {} of {} blockettes bad", bad.len(), marks.len());
            more.push(format!("bad in tape order: {}", bad.join(", ")));
        }
        if delivered > 0 {
            more.push(format!("{delivered} bytes delivered"));
        }
        self.put(Lane::Drive(drive), Sort::Result, words, more.join("; "));
    }

    fn answer(&mut self, call: &Call, answer: &Answer) {
        if let Some(settled) = answer.settled {
            // a store that moves nothing has no order
            let (lane, before) = match (self.drive, call, self.handed) {
                (Some(drive), ..) => (Lane::Drive(drive), String::new()),
                (None, Call::Hand, Some(store)) => {
                    let drive = store.drive().filter(|drive| *drive < 4);
                    (drive.map_or(Lane::Host, Lane::Drive), format!("{}: ", store_words(&store)))
                }
                _ => (Lane::Host, String::new()),
            };
            let mut words = before + &code_words(settled.code);
            // a store that moves nothing has no motion and no count of its own
            if self.drive.is_some() {
                words += &text(|out| {
                    out.extend(b"; ");
                    status::put_motion(settled.motion, out);
                });
                words += &format!("; count {}", settled.count);
            }
            // a result that ends as it was reported is told by itself
            let again = matches!(call, Call::Result { code, .. } if *code == settled.code);
            if !again {
                self.put(lane, Sort::Ended, words, String::new());
            }
        }
        match answer.action {
            Action::Order(six) => {
                self.drive = Some(six[1]);
                let mut words = order_words(six);
                if six[0] == READ_SUPPLIED {
                    words += &format!(", count {}", u16::from_be_bytes([six[4], six[5]]));
                }
                self.put(Lane::Drive(six[1]), Sort::Order, words, format!("order {}", hex(&six)));
            }
            Action::Send(six) => {
                let word = u32::from_be_bytes([six[1], six[2], six[3], six[4]]);
                let (words, load) = match six[0] {
                    INTERRUPT => ("interrupt".to_string(), 1),
                    SECONDARY_UPDATE => ("count".to_string(), 2),
                    _ => {
                        let load = self.heard[1] >> 4;
                        (format!("load {}:", name(Kind::Load, load)), load)
                    }
                };
                self.put(Lane::Host, Sort::Link, format!("{words} {word:08X}"), status::words(load, word));
            }
            Action::Offer(0x47) => self.put(Lane::Host, Sort::Link, "GO".to_string(), String::new()),
            Action::Offer(0x15) => self.put(Lane::Host, Sort::Link, "NACK".to_string(), String::new()),
            Action::Offer(_) | Action::Nothing => {}
        }
        // what follows a result or the link belongs to no order
        if matches!(call, Call::Result { .. } | Call::Taken | Call::Hand) && !matches!(answer.action, Action::Order(_))
        {
            self.drive = None;
        }
    }
}

fn bad_words((place, mark): (usize, &u8)) -> String {
    format!("{place} (mark {mark})")
}

/// The explanation: a line for each entry.
pub fn explanation(entries: &[Entry]) -> String {
    let mut said = String::new();
    for entry in entries {
        let lane = match entry.lane {
            Lane::Host => "host   ".to_string(),
            Lane::Drive(drive) => format!("drive {drive}"),
        };
        said += &format!("{:6} {lane} {:8} {}", entry.time, entry.sort.word(), entry.words);
        if !entry.more.is_empty() {
            said += &format!(" ({})", entry.more);
        }
        said.push('\n');
    }
    said
}
