//! Writing: a record or a mark is written until its status is good, and nothing of a try that failed is left.

use super::desk::Part;
use super::{Driver, Stop, ILLEGAL_MOTION, NO_GO, POSITION_TRIES, SKIP_FORWARD};
use crate::host::{Status, Wrong};
use crate::transport::{code, report};
use ctc_words::interface::Store;

/// How often a record is written before the driver gives it up.
const WRITE_TRIES: usize = 8;
/// What a store that failed before is given: inches of erased tape.
const ERASED_INCHES: u16 = 3;
const WRITE_MARK: u8 = 0x24;
/// An erase with this operand goes to the end of the tape; one of inches has at most this many less one.
const TO_THE_END: u16 = 0x8000;

impl Driver {
    /// Writes a record, or a mark where there is none. What tries that failed have begun is gone when this ends, or it
    /// is told that it is not.
    pub(super) async fn write(&mut self, record: Option<Part>) -> Result<(), Stop> {
        let mut begun = false;
        let Err(stop) = self.try_to_write(record, &mut begun).await else {
            return Ok(());
        };
        let gone = matches!(stop, Stop::Gone);
        if !begun || !gone && matches!(self.erase_to_the_end().await, Ok(true)) {
            return Err(stop);
        }
        Err(Stop::Failed(format!("{}; what was begun of {} is not erased", stop.words(), self.spot.words())))
    }

    /// `begun` tells whether a try may have put something on tape.
    async fn try_to_write(&mut self, record: Option<Part>, begun: &mut bool) -> Result<(), Stop> {
        let mut failed = 0;
        while failed < WRITE_TRIES {
            self.place().await?;
            // where the place was lost, a try that failed may lie behind the tape that was erased for it: the next one
            // begins there too, and not before, where it would leave that one behind itself
            let forgotten = self.wrong == Some(Wrong::ErasedForgotten);
            if self.passed < self.erased && !forgotten && !self.erase(0).await? {
                failed += 1;
                continue;
            }
            let (store, data) = match &record {
                Some(bytes) => {
                    let [high, low] = (bytes.len() as u16).to_be_bytes();
                    (Store { address: self.address(5), operand: [0, 0, high, low] }, bytes.clone())
                }
                None => (self.control(WRITE_MARK), Part::default()),
            };
            let Some(completion) = self.store(store, data).await? else {
                self.not_astray("wrote on")?;
                *begun = true;
                failed += 1;
                self.count(|ledger| &mut ledger.retries);
                continue;
            };
            let status = completion.status;
            let troubled = status.is_troubled() && self.wrong != Some(Wrong::TroubleIgnored);
            *begun |= !matches!(status.code(), ILLEGAL_MOTION | NO_GO);
            match status.code() {
                code::GOOD if !troubled => {
                    self.ledger.borrow_mut().written.push((self.track, self.spot, record.clone()));
                    self.stands_at(self.spot.forward(record.is_none()));
                    return Ok(());
                }
                ILLEGAL_MOTION if Driver::may_be_guarded(status) => self.make_proper().await?,
                ILLEGAL_MOTION => return Err(Driver::refused(status)),
                code::TAPE_GONE => return Err(Stop::Gone),
                code::EOT => {
                    self.note("EOT in a write: what was begun is erased");
                    self.placed = false;
                    return Err(Stop::Full);
                }
                NO_GO => self.note("no GO: the write is asked for again"),
                _ if status.is_lost() => self.placed = false,
                _ => {
                    let why = if status.code() == code::GOOD { " with parity, underflow or late flags" } else { "" };
                    self.note(format!("write: code {:02X}{why}; back, and again", status.code()));
                    if self.wrong == Some(Wrong::FailedWriteKept) {
                        self.stands_at(self.spot.forward(false));
                        continue;
                    }
                    self.back().await?;
                    if failed > 0 && status.code() != code::GOOD {
                        self.note(format!("{ERASED_INCHES} inches are erased"));
                        self.erase(ERASED_INCHES).await?;
                    }
                }
            }
            failed += 1;
            self.count(|ledger| &mut ledger.retries);
        }
        Err(Stop::Failed(format!("not written in {WRITE_TRIES} tries: {}", self.spot.words())))
    }

    /// Whether nothing but the guard can have refused a write.
    fn may_be_guarded(status: Status) -> bool {
        let others = report::EOT | report::POSITION_UNKNOWN | report::PROTECTED;
        status.report() & (report::INSTALLED | report::SELECTABLE | others) == report::INSTALLED | report::SELECTABLE
    }

    /// Out of the gap behind a record that was read badly nothing may be written: back, and over it once more.
    async fn make_proper(&mut self) -> Result<(), Stop> {
        self.note("the gap is not proper: back, and over the last record again");
        self.back().await?;
        self.passed = 0;
        if !self.placed {
            return Ok(());
        }
        match self.move_by(SKIP_FORWARD).await? {
            Some(completion) if completion.status.code() == code::TAPE_GONE => Err(Stop::Gone),
            Some(completion) if completion.status.is_forward() => Ok(()),
            _ => {
                self.placed = false;
                Ok(())
            }
        }
    }

    /// Erases so many inches more behind the spot. Where the place is lost meanwhile, all of them are erased again.
    /// False where that was not to be done.
    pub(super) async fn erase(&mut self, inches: u16) -> Result<bool, Stop> {
        self.erased += u32::from(inches);
        for _ in 0..POSITION_TRIES {
            self.place().await?;
            loop {
                let left = (self.erased - self.passed).min(u32::from(TO_THE_END - 1)) as u16;
                if left == 0 {
                    return Ok(true);
                }
                if !self.erase_now(left).await? {
                    break;
                }
                self.passed += u32::from(left);
            }
        }
        Ok(false)
    }

    /// Erases to the end of the tape, which stands there then.
    pub(super) async fn erase_to_the_end(&mut self) -> Result<bool, Stop> {
        for _ in 0..POSITION_TRIES {
            self.place().await?;
            if self.erase_now(TO_THE_END).await? {
                self.placed = false;
                return Ok(true);
            }
        }
        Ok(false)
    }

    /// One store that erases. Where it did not, the tape stands nobody knows where, or behind the last record.
    async fn erase_now(&mut self, operand: u16) -> Result<bool, Stop> {
        let [high, low] = operand.to_be_bytes();
        let store = Store { address: self.address(6), operand: [0, 0, high, low] };
        let Some(completion) = self.store(store, Part::default()).await? else {
            self.not_astray("erased")?;
            return Ok(false);
        };
        let status = completion.status;
        match status.code() {
            code::GOOD => return Ok(true),
            code::TAPE_GONE => return Err(Stop::Gone),
            ILLEGAL_MOTION if Driver::may_be_guarded(status) => self.make_proper().await?,
            ILLEGAL_MOTION => return Err(Driver::refused(status)),
            _ => self.placed = false,
        }
        Ok(false)
    }
}
