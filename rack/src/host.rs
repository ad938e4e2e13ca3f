//! The host's side of the link: strings, ACK, GO, EOR and interrupts. It says again what was not heard, and takes no
//! string whose bytes do not fit together.

use crate::board::{Heard, Link, Trouble};
use ctc_words::interface::Store;

pub const ACK: u8 = 0x06;
const NACK: u8 = 0x15;
const GO: u8 = 0x47;
const EOR: u8 = 0x45;
const LOAD: u8 = 0x62;
const STORE: u8 = 0x64;
const LOAD_REPLY: u8 = 0x66;
const SECONDARY: u8 = 0x68;
const INTERRUPT: u8 = 0x69;
/// How often something is said before the link counts as silent.
const TRIES: usize = 50;

/// What a load asks for.
pub mod load {
    pub const PRIMARY: u8 = 1;
    pub const SECONDARY: u8 = 2;
    pub const TERTIARY: u8 = 3;
    pub const REPORTS: u8 = 4;
    pub const QUINTARY: u8 = 5;
}

/// The primary status word of a finished store.
#[derive(Clone, Copy, Debug, PartialEq, Eq)]
pub struct Status(pub u32);

impl Status {
    fn field(self, last: u32, width: u32) -> u8 {
        (self.0 >> (31 - last) & ((1 << width) - 1)) as u8
    }

    pub fn bit(self, number: u32) -> bool {
        self.0 >> (31 - number) & 1 != 0
    }

    pub fn code(self) -> u8 {
        self.field(15, 5)
    }

    /// The selected drive and what it is set to: the last store's own, since every store names its drive.
    pub fn drive(self) -> u8 {
        self.field(7, 2)
    }

    pub fn track(self) -> u8 {
        self.field(5, 3)
    }

    pub fn density(self) -> u8 {
        self.field(23, 1)
    }

    pub fn is_mark(self) -> bool {
        self.bit(8)
    }

    pub fn is_forward(self) -> bool {
        self.field(10, 2) == 1
    }

    pub fn is_reverse(self) -> bool {
        self.field(10, 2) == 2
    }

    pub fn is_lost(self) -> bool {
        self.field(10, 2) == 3
    }

    /// Parity, overflow, underflow or a late flag: what was transferred is not what was meant.
    pub fn is_troubled(self) -> bool {
        self.0 & 0x0000_F800 != 0
    }

    /// The host's space was too short for what was read.
    pub fn is_overflown(self) -> bool {
        self.bit(17)
    }

    pub fn has_count(self) -> bool {
        self.bit(22)
    }

    pub fn report(self) -> u8 {
        self.0 as u8
    }
}

/// What a finished store came to.
#[derive(Clone, Debug, PartialEq, Eq)]
pub struct Completion {
    pub status: Status,
    /// Secondary, where bit 22 says that it has the count.
    pub count: Option<usize>,
    pub delivered: Vec<u8>,
}

/// A host that is wrong in one way, so that tests have something to find.
#[derive(Clone, Copy, Debug, PartialEq, Eq)]
pub enum Wrong {
    /// A string's check byte is not looked at.
    StringUnchecked,
    /// An interrupt that did not come is taken for code 00.
    InterruptForgotten,
    /// GO is answered with no data.
    NoData,
    /// Parity and underflow of a write are not looked at.
    TroubleIgnored,
    /// A bad record is filed as it was delivered.
    FiledAsDelivered,
    /// Check bytes are not compared with the record.
    Unverified,
    /// The two check blockettes are taken for each other.
    ChecksSwapped,
    /// No skip back before another try.
    NoSkipBack,
    /// Track and density of a completion are not looked at.
    SettingsUnchecked,
    /// Two skips back before another try.
    SkipsBackTwice,
    /// The supplied count is one blockette too long.
    SuppliedTooLong,
    /// Only the last pass is looked at.
    PassesForgotten,
    /// The even error of tertiary is not looked at.
    EvenErrorIgnored,
    /// A record that is lost is passed over in silence.
    LossUntold,
    /// After a restart the job goes on where it thinks that it is.
    RestartIgnored,
    /// A failed write is left on tape and the next record follows.
    FailedWriteKept,
    /// A write that failed is not looked for behind the tape that was erased for it, where the place was lost.
    ErasedForgotten,
    /// No supplied count is ever tried.
    NeverSupplied,
    /// The blockettes of a record are counted upward.
    CountedUpward,
    /// A gap in the middle of a record is taken for the end of what is recorded.
    GapIsEnd,
    /// What found no space in a read is taken for zeros.
    OverflowIgnored,
}

pub struct Host<L: Link> {
    pub link: L,
    pub wrong: Option<Wrong>,
    /// How often something was said again, and interrupts that had to be asked for.
    pub said_again: u64,
    pub asked_for: u64,
}

fn fits(string: &[u8]) -> bool {
    string.iter().fold(0, |sum, byte| sum ^ byte) == 0
}

fn word(string: &[u8; 6]) -> u32 {
    u32::from_be_bytes([string[1], string[2], string[3], string[4]])
}

impl<L: Link> Host<L> {
    pub fn new(link: L) -> Host<L> {
        Host { link, wrong: None, said_again: 0, asked_for: 0 }
    }

    fn trusts(&self, string: &[u8]) -> bool {
        fits(string) || self.wrong == Some(Wrong::StringUnchecked)
    }

    /// Sends a string, takes its ACK, and hears what follows. None where it did not come through.
    fn say(&mut self, string: &[u8]) -> Result<Option<Heard>, Trouble> {
        for (index, byte) in string.iter().enumerate() {
            let heard = self.link.byte(*byte)?;
            let last = index + 1 == string.len();
            if heard != if last { Heard::Byte(ACK) } else { Heard::Nothing } {
                // whatever was collected is dropped, so that the next string is read from its beginning
                self.settle()?;
                return Ok(None);
            }
        }
        Ok(Some(self.link.take()?))
    }

    /// Breaks off until nothing more is heard.
    fn settle(&mut self) -> Result<(), Trouble> {
        for _ in 0..TRIES {
            if self.link.break_off()? == Heard::Nothing {
                return Ok(());
            }
        }
        Err(Trouble::Silent)
    }

    /// Loads a status word.
    pub fn load(&mut self, number: u8) -> Result<u32, Trouble> {
        let address = number << 4;
        let string = [LOAD, address, 0, LOAD ^ address];
        for _ in 0..TRIES {
            let mut heard = self.say(&string)?.unwrap_or(Heard::Nothing);
            let mut found = None;
            while let Heard::String(reply) = heard {
                let good = self.trusts(&reply) && reply[0] == LOAD_REPLY;
                if good {
                    found = Some(word(&reply));
                }
                heard = self.link.byte(if good { ACK } else { NACK })?;
            }
            if let Some(word) = found {
                return Ok(word);
            }
            self.said_again += 1;
        }
        Err(Trouble::Silent)
    }

    /// Has the check bytes of the last GCR record sent, by a store over the link.
    pub fn check_bytes(&mut self, drive: u8) -> Result<Vec<u8>, Trouble> {
        let mut string = [STORE, 0x48 | drive, 0x40, 0, 0, 0, 0, 0];
        string[7] = string.iter().fold(0, |sum, byte| sum ^ byte);
        for _ in 0..TRIES {
            self.link.delivered();
            if let Some(Heard::Byte(EOR)) = self.say(&string)? {
                let bytes = self.link.delivered();
                // a string that two changed bytes made another one may ask an interrupt, which nobody waits for
                if self.link.byte(ACK)? != Heard::Nothing {
                    self.settle()?;
                }
                if bytes.len() == 512 {
                    return Ok(bytes);
                }
            }
            self.said_again += 1;
        }
        Err(Trouble::Silent)
    }

    /// Sees a store that was handed over to its end: GO and data, EOR, and the strings of its interrupt.
    pub fn follow(&mut self, mut heard: Heard, data: &[u8]) -> Result<Completion, Trouble> {
        let (mut primary, mut secondary) = (None, None);
        // what a read delivers comes with its EOR
        let delivered = self.link.delivered();
        loop {
            heard = match heard {
                Heard::Nothing => break,
                Heard::Byte(GO) => match self.link.byte(ACK)? {
                    Heard::Nothing => {
                        let data = if self.wrong == Some(Wrong::NoData) { &[] } else { data };
                        self.link.data(data, None)?
                    }
                    other => other,
                },
                Heard::Byte(EOR) => self.link.byte(ACK)?,
                Heard::Byte(_) => self.link.break_off()?,
                Heard::String(string) if !self.trusts(&string) => self.link.byte(NACK)?,
                Heard::String(string) => {
                    match string[0] {
                        SECONDARY => secondary = Some(word(&string)),
                        INTERRUPT => primary = Some(word(&string)),
                        _ => {}
                    }
                    self.link.byte(ACK)?
                }
            };
        }
        let status = match primary {
            Some(word) => Status(word),
            None if self.wrong == Some(Wrong::InterruptForgotten) => Status(0x0020_0000),
            None => {
                self.asked_for += 1;
                Status(self.load(load::PRIMARY)?)
            }
        };
        let count = match (status.has_count(), secondary) {
            (false, _) => None,
            (true, Some(word)) => Some(word as usize),
            (true, None) => Some(self.load(load::SECONDARY)? as usize),
        };
        Ok(Completion { status, count, delivered })
    }

    /// A job's store, which asks an interrupt.
    pub fn queue(&mut self, job: u8, store: Store) -> Result<(), Trouble> {
        self.link.queue(job, store)
    }
}
