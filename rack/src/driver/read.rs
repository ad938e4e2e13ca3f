//! Reading: a record is read, in pieces where it must be, until all of it is known or no pass brings anything new.

use super::desk::Part;
use super::passes::{Pass, GOOD_MARK};
use super::{Driver, Stop, ILLEGAL_MOTION, SKIP_FORWARD};
use crate::cartridge::{blockettes, BLOCKETTE, GCR};
use crate::host::{load, Wrong};
use crate::transport::{code, report};
use ctc_words::interface::{verify, Store};

/// How often a record is read before the driver gives it up.
const READ_TRIES: usize = 12;
/// Bad blockettes that the check bytes restore, and more of them than that.
const RECOVERABLE: u8 = 0x15;
const UNRECOVERABLE: u8 = 0x16;

pub(super) enum Got {
    Record(Vec<u8>),
    Mark,
    Lost(String),
    /// Nothing more is recorded.
    End,
}

impl Driver {
    /// The next object. Where it is lost, the tape stands behind it all the same.
    pub(super) async fn read(&mut self) -> Result<Got, Stop> {
        let mut gathered: Option<Pass> = None;
        let mut supplied = None;
        let mut known_count = None;
        let mut ends = 0;
        let mut last = String::new();
        // a record whose beginning was not to be had
        let mut torn = false;
        // whether the tape stands behind the record, by a read that failed
        let mut behind = false;
        let (mut tries, mut first_try, mut known) = (0, true, 0);
        let mut not_recognized = 0;
        while tries < READ_TRIES {
            tries += 1;
            if !std::mem::take(&mut first_try) {
                self.count(|ledger| &mut ledger.retries);
            }
            if behind && self.placed {
                if let Some(count) = self.back().await? {
                    let too_long = usize::from(self.wrong == Some(Wrong::SuppliedTooLong));
                    known_count = Some(count + too_long);
                }
                // without its beginning only a supplied count reads it
                if torn && self.density == GCR && supplied.is_none() {
                    supplied = known_count;
                }
                torn = false;
            }
            self.place().await?;
            if self.wrong == Some(Wrong::NeverSupplied) {
                supplied = None;
            }
            let asked = supplied.take().filter(|&count| count > 0);
            let operand = match asked {
                Some(count) => {
                    self.count(|ledger| &mut ledger.supplied);
                    self.note(format!("read with the supplied count {count}"));
                    let [high, low] = (count as u16).to_be_bytes();
                    [0x80, 0, high, low]
                }
                None => [0; 4],
            };
            let store = Store { address: self.address(4), operand };
            let Some(completion) = self.store(store, Part::default()).await? else {
                behind = false;
                last = "the controller was started anew".to_string();
                continue;
            };
            let status = completion.status;
            behind = status.is_forward();
            match status.code() {
                code::GOOD if status.is_mark() => {
                    self.stands_at(self.spot.forward(true));
                    return Ok(Got::Mark);
                }
                ILLEGAL_MOTION if status.report() & report::EOT != 0 => return Ok(Got::End),
                ILLEGAL_MOTION => return Err(Driver::refused(status)),
                code::TAPE_GONE => return Err(Stop::Gone),
                code::SYNC_LATE | code::EOT => {
                    self.placed = false;
                    ends += 1;
                    // an end may be found early, and a drive may miss a record
                    if ends == 2 {
                        self.place().await?;
                        return Ok(Got::End);
                    }
                    last = format!("code {:02X}", status.code());
                    continue;
                }
                _ if status.is_lost() => {
                    self.placed = false;
                    last = format!("code {:02X}", status.code());
                    continue;
                }
                _ if status.is_overflown() && self.wrong != Some(Wrong::OverflowIgnored) => {
                    self.note("no space for all of it: back, and again");
                    last = "no space for all of it".to_string();
                    continue;
                }
                _ if status.is_troubled() && !status.is_overflown() => {
                    self.note("late: back, and again");
                    last = "late flags in every try".to_string();
                    continue;
                }
                code::GAP_UNEXPECTED if self.wrong == Some(Wrong::GapIsEnd) => return Ok(Got::End),
                code::GAP_UNEXPECTED => {
                    self.note("read: code 0A, a gap in the middle of the record; back, and again");
                    last = "code 0A: a gap in the middle of the record".to_string();
                    torn = asked.is_some();
                    continue;
                }
                code::IDENTIFICATION_LATE | code::IDENTIFICATION_BAD | code::COUNT_BAD => {
                    self.note(format!("read: code {:02X}; its count is asked for by a skip back", status.code()));
                    last = format!("torn: code {:02X}, and no count", status.code());
                    torn = true;
                    // a string that two changed bytes made another store may have set the density anew: the record is
                    // looked for once more from BOT, with all settings
                    not_recognized += 1;
                    if not_recognized == READ_TRIES / 2 && known_count.is_none() {
                        self.placed = false;
                    }
                    continue;
                }
                code::GOOD | 0x10 | 0x11 | 0x12 => {
                    let count = completion.count.unwrap_or(0);
                    match self.whole(count, completion.delivered).await? {
                        Some(record) => {
                            self.stands_at(self.spot.forward(false));
                            return Ok(Got::Record(record));
                        }
                        None => {
                            last = "the check bytes do not fit".to_string();
                            continue;
                        }
                    }
                }
                RECOVERABLE | UNRECOVERABLE => {}
                other => {
                    self.note(format!("read: code {other:02X}; back, and again"));
                    last = format!("code {other:02X}");
                    continue;
                }
            }
            // a GCR record with bad blockettes
            let Some(read_count) = completion.count else {
                continue;
            };
            let count = if asked.is_some() { known_count.unwrap_or(read_count) } else { read_count };
            known_count = Some(count);
            if self.wrong == Some(Wrong::FiledAsDelivered) {
                self.stands_at(self.spot.forward(false));
                return Ok(Got::Record(completion.delivered));
            }
            let Some(tertiary) = self.load(load::TERTIARY).await? else {
                continue;
            };
            let Some(quintary) = self.load(load::QUINTARY).await? else {
                continue;
            };
            let Some(checks) = self.check_bytes().await? else {
                continue;
            };
            let unrestorable = status.code() == UNRECOVERABLE;
            let pass = self.pass(count, read_count, &completion.delivered, tertiary, quintary, &checks, unrestorable);
            gathered = Some(self.merged(gathered.take(), pass));
            if let Some(record) = self.restored(&mut gathered) {
                self.stands_at(self.spot.forward(false));
                return Ok(Got::Record(record));
            }
            last = "two bad blockettes of one parity in every pass".to_string();
            // as long as passes bring something new, it is worth another
            let now = gathered.as_ref().map_or(0, |(_, marks)| marks.iter().filter(|&&mark| mark == GOOD_MARK).count());
            if now > known {
                known = now;
                tries = 0;
            }
            // what lies behind the stop is had by a supplied count that begins there
            let data = count.div_ceil(BLOCKETTE);
            let [_, _, digits, number] = quintary.to_be_bytes();
            if unrestorable && digits & 15 == 1 {
                let first = data - 1 - usize::from(number);
                supplied = count.checked_sub(BLOCKETTE * first).filter(|&count| count > 0);
            } else {
                // a torn record goes on being one
                torn = asked.is_some();
            }
        }
        if !behind || !self.placed {
            // past it, so that the next one can be read
            self.place().await?;
            match self.move_by(SKIP_FORWARD).await? {
                Some(completion) if completion.status.is_forward() => {}
                _ => self.placed = false,
            }
        }
        self.stands_at(self.spot.forward(false));
        Ok(Got::Lost(last))
    }

    /// A record that was read without an error. In GCR its check bytes must fit.
    async fn whole(&mut self, count: usize, mut delivered: Vec<u8>) -> Result<Option<Vec<u8>>, Stop> {
        if self.wrong == Some(Wrong::OverflowIgnored) {
            delivered.resize(count, 0);
        }
        if delivered.len() != count {
            return Ok(None);
        }
        if self.density != GCR || count == 0 || self.wrong == Some(Wrong::Unverified) {
            return Ok(Some(delivered));
        }
        let Some(checks) = self.check_bytes().await? else {
            return Ok(None);
        };
        let image = &mut self.image;
        image.clear();
        image.reserve(2 + BLOCKETTE * blockettes(count));
        image.extend((count as u16).rotate_right(1).to_be_bytes());
        image.extend(&delivered);
        image.resize(2 + BLOCKETTE * count.div_ceil(BLOCKETTE), 0);
        image.extend(&checks);
        let fits = verify(image).is_ok_and(|unfit| !unfit.even && !unfit.odd);
        if !fits {
            self.count(|ledger| &mut ledger.unlike);
            self.note("the check bytes do not fit what was read; back, and again");
        }
        Ok(fits.then_some(delivered))
    }
}
