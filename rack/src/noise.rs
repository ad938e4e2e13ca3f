//! A link with faults: it stands between a host and a board, breaks, changes bytes on their way, and loses data.

use crate::board::{Heard, Hearing, Link, Trouble, IMAGE_MOST};
use crate::faults::Chance;
use crate::host::ACK;
use ctc_words::interface::Store;
use ctc_words::statement::{listed, Words, Wrong};
use std::fmt;

/// The operation of a store that reads.
const READ: u8 = 4;
/// A host whose space is short by chance has less than this.
const SHORT_SPACE: u64 = 2000;

/// A fault of the link while a job is served. Writes are the job's data calls, reads its stores that read, exchanges
/// what it says on the link; each are counted from 1.
#[derive(Clone, Copy, Debug, PartialEq, Eq)]
pub enum LinkFault {
    /// A host byte comes with bad parity.
    Parity { write: usize, byte: usize },
    /// The host has so many bytes and no more.
    RunsOut { write: usize, after: usize },
    /// The host has space for so many bytes of a read and no more.
    ShortSpace { read: usize, bytes: usize },
    /// The link breaks.
    Breaks { exchange: usize },
    /// Another byte comes than was said.
    Changed { exchange: usize, byte: u8 },
}

impl fmt::Display for LinkFault {
    fn fmt(&self, to: &mut fmt::Formatter) -> fmt::Result {
        match self {
            LinkFault::Parity { write, byte } => write!(to, "parity write {write} place {byte}"),
            LinkFault::RunsOut { write, after } => write!(to, "runs-out write {write} after {after}"),
            LinkFault::ShortSpace { read, bytes } => write!(to, "short-space read {read} space {bytes}"),
            LinkFault::Breaks { exchange } => write!(to, "breaks exchange {exchange}"),
            LinkFault::Changed { exchange, byte } => write!(to, "changed exchange {exchange} byte {byte:02X}"),
        }
    }
}

impl LinkFault {
    pub fn parse(words: &mut Words) -> Result<LinkFault, Wrong> {
        const KINDS: [&str; 5] = ["parity", "runs-out", "short-space", "breaks", "changed"];
        let Some(kind) = words.peek().filter(|kind| KINDS.contains(kind)) else {
            return words.other(&format!("a fault of a job's link is {}", listed(&KINDS)));
        };
        words.need(kind)?;
        let most = 1_000_000_000;
        let fault = match kind {
            "parity" => {
                LinkFault::Parity { write: words.named("write", 1, most)?, byte: words.named("place", 0, 65_790)? }
            }
            "runs-out" => {
                LinkFault::RunsOut { write: words.named("write", 1, most)?, after: words.named("after", 0, 65_790)? }
            }
            "short-space" => {
                LinkFault::ShortSpace { read: words.named("read", 1, most)?, bytes: words.named("space", 0, 65_534)? }
            }
            "breaks" => LinkFault::Breaks { exchange: words.named("exchange", 1, most)? },
            _ => {
                let exchange = words.named("exchange", 1, most)?;
                words.need("byte")?;
                LinkFault::Changed { exchange, byte: words.hex("byte", Some(1))?[0] }
            }
        };
        words.end()?;
        Ok(fault)
    }
}

/// Faults by chance, each so many in a thousand exchanges, writes or reads.
#[derive(Clone, Copy, Debug, Default, PartialEq, Eq)]
pub struct LinkChances {
    pub breaks: u32,
    pub changed: u32,
    pub parity: u32,
    pub runs_out: u32,
    pub short_space: u32,
}

/// The link of one job.
#[derive(Clone, Debug)]
struct Line {
    chance: Chance,
    chances: LinkChances,
    faults: Vec<(LinkFault, u32)>,
    writes: usize,
    reads: usize,
    exchanges: usize,
    by_chance: u32,
}

/// What becomes of something that the host says.
enum Fate {
    Comes,
    Breaks,
    Changed(u8),
}

/// A link with the faults of four jobs.
pub struct Noisy<L: Link> {
    pub link: L,
    lines: [Line; 4],
    job: usize,
    /// How many bytes of the string that is said were changed.
    changed: u32,
    /// Strings that two changed bytes made others, which fit their check byte too: the controller did what nobody
    /// meant.
    pub mistaken: u32,
}

impl<L: Link> Noisy<L> {
    pub fn new(link: L, seed: u64) -> Noisy<L> {
        let line = |job: u64| Line {
            chance: Chance::new(seed ^ (0x11AB + job) << 32),
            chances: LinkChances::default(),
            faults: Vec::new(),
            writes: 0,
            reads: 0,
            exchanges: 0,
            by_chance: 0,
        };
        Noisy { link, lines: [line(0), line(1), line(2), line(3)], job: 0, changed: 0, mistaken: 0 }
    }

    pub fn set(&mut self, job: usize, faults: &[LinkFault], chances: LinkChances) {
        self.lines[job].faults = faults.iter().map(|&fault| (fault, 0)).collect();
        self.lines[job].chances = chances;
    }

    /// The job that is served now.
    pub fn serve(&mut self, job: u8) {
        self.job = usize::from(job) & 3;
    }

    /// Each fault of a job with how often it came, and how many came by chance.
    pub fn met(&self, job: usize) -> (&[(LinkFault, u32)], u32) {
        (&self.lines[job].faults, self.lines[job].by_chance)
    }

    fn fate(&mut self, byte: u8) -> Fate {
        let line = &mut self.lines[self.job];
        line.exchanges += 1;
        for (fault, met) in line.faults.iter_mut() {
            match *fault {
                LinkFault::Breaks { exchange } if exchange == line.exchanges => {
                    *met += 1;
                    return Fate::Breaks;
                }
                LinkFault::Changed { exchange, byte: other } if exchange == line.exchanges && other != byte => {
                    *met += 1;
                    return Fate::Changed(other);
                }
                _ => {}
            }
        }
        if line.chance.in_thousand(line.chances.breaks) {
            line.by_chance += 1;
            return Fate::Breaks;
        }
        if line.chance.in_thousand(line.chances.changed) {
            line.by_chance += 1;
            return Fate::Changed(byte ^ (1 + line.chance.below(255)) as u8);
        }
        Fate::Comes
    }

    /// How much space a job has for its next read.
    fn space(&mut self, job: u8) -> usize {
        let line = &mut self.lines[usize::from(job) & 3];
        line.reads += 1;
        for (fault, met) in line.faults.iter_mut() {
            if let LinkFault::ShortSpace { read, bytes } = *fault {
                if read == line.reads {
                    *met += 1;
                    return bytes;
                }
            }
        }
        if line.chance.in_thousand(line.chances.short_space) {
            line.by_chance += 1;
            return line.chance.below(SHORT_SPACE) as usize;
        }
        IMAGE_MOST
    }

    /// A string on its way to the host may be changed too.
    fn to_host(&mut self, hearing: Hearing) -> Hearing {
        let line = &mut self.lines[self.job];
        match hearing {
            Ok(Heard::String(mut string)) if line.chance.in_thousand(line.chances.changed) => {
                line.by_chance += 1;
                string[line.chance.below(6) as usize] ^= 1 + line.chance.below(255) as u8;
                Ok(Heard::String(string))
            }
            _ => hearing,
        }
    }
}

impl<L: Link> Link for Noisy<L> {
    fn byte(&mut self, byte: u8) -> Hearing {
        let hearing = match self.fate(byte) {
            Fate::Comes => self.link.byte(byte),
            Fate::Breaks => self.link.break_off(),
            Fate::Changed(other) => {
                self.changed += 1;
                self.link.byte(other)
            }
        };
        if hearing != Ok(Heard::Nothing) {
            self.mistaken += u32::from(self.changed >= 2 && hearing == Ok(Heard::Byte(ACK)));
            self.changed = 0;
        }
        self.to_host(hearing)
    }

    fn take(&mut self) -> Hearing {
        let hearing = match self.fate(0) {
            Fate::Comes => self.link.take(),
            Fate::Breaks => self.link.break_off(),
            Fate::Changed(other) => self.link.byte(other),
        };
        self.to_host(hearing)
    }

    fn break_off(&mut self) -> Hearing {
        self.changed = 0;
        self.link.break_off()
    }

    fn data(&mut self, bytes: &[u8], bad: Option<usize>) -> Hearing {
        let line = &mut self.lines[self.job];
        line.writes += 1;
        let (mut length, mut place) = (bytes.len(), bad);
        for (fault, met) in line.faults.iter_mut() {
            match *fault {
                LinkFault::Parity { write, byte } if write == line.writes && byte < bytes.len() => {
                    *met += 1;
                    place = Some(byte);
                }
                LinkFault::RunsOut { write, after } if write == line.writes && after < bytes.len() => {
                    *met += 1;
                    length = after;
                }
                _ => {}
            }
        }
        if length > 0 && line.chance.in_thousand(line.chances.parity) {
            line.by_chance += 1;
            place = Some(line.chance.below(length as u64) as usize);
        }
        if length > 0 && line.chance.in_thousand(line.chances.runs_out) {
            line.by_chance += 1;
            length = line.chance.below(length as u64) as usize;
        }
        let place = place.filter(|&place| place < length);
        let hearing = match place {
            // what comes behind its parity is wrong as well
            Some(place) => {
                let mut bytes = bytes[..length].to_vec();
                bytes[place] ^= 0x10;
                self.link.data(&bytes, Some(place))
            }
            None => self.link.data(&bytes[..length], None),
        };
        self.to_host(hearing)
    }

    fn queue(&mut self, job: u8, store: Store) -> Result<(), Trouble> {
        self.link.queue(job, store)
    }

    fn hand(&mut self) -> Result<Option<(u8, Heard)>, Trouble> {
        if let Some((job, _)) = self.link.next().filter(|(_, store)| store.operation() == READ) {
            let space = self.space(job);
            self.link.lend(space);
        }
        let handed = self.link.hand();
        self.link.lend(IMAGE_MOST);
        match handed? {
            Some((job, heard)) => {
                self.serve(job);
                Ok(Some((job, self.to_host(Ok(heard))?)))
            }
            None => Ok(None),
        }
    }

    fn tick(&mut self) -> Hearing {
        self.link.tick()
    }

    fn next(&self) -> Option<(u8, Store)> {
        self.link.next()
    }

    fn lend(&mut self, space: usize) {
        self.link.lend(space)
    }

    fn delivered(&mut self) -> Vec<u8> {
        self.link.delivered()
    }
}
