//! Where the tape stands, and how it is brought there. No order tells a place: a driver knows its own by the marks and
//! records that it passed, and where it lost count it rewinds and counts again.

use super::desk::Part;
use super::{Driver, Stop, ILLEGAL_MOTION, POSITION_TRIES};
use super::{REWIND, SEARCH_FORWARD, SKIP_FORWARD, SKIP_REVERSE};
use crate::host::{Status, Wrong};
use crate::transport::{code, report};

/// The most stores that a job queues at once.
const BATCH: usize = 8;

/// A place on a track by what was passed: so many marks from BOT, and so many records behind the last of them; or so
/// many records before a mark, where the tape came from behind it.
#[derive(Clone, Copy, Debug, PartialEq, Eq)]
pub enum Spot {
    Behind { marks: usize, records: usize },
    Before { mark: usize, records: usize },
}

impl Spot {
    pub const START: Spot = Spot::Behind { marks: 0, records: 0 };

    pub(super) fn forward(self, over_mark: bool) -> Spot {
        match (self, over_mark) {
            (Spot::Behind { marks, .. }, true) => Spot::Behind { marks: marks + 1, records: 0 },
            (Spot::Behind { marks, records }, false) => Spot::Behind { marks, records: records + 1 },
            (Spot::Before { mark, .. }, true) => Spot::Behind { marks: mark + 1, records: 0 },
            (Spot::Before { mark, records }, false) => Spot::Before { mark, records: records.saturating_sub(1) },
        }
    }

    pub(super) fn reverse(self, over_mark: bool) -> Spot {
        match (self, over_mark) {
            (Spot::Behind { marks, records: 0 }, _) => Spot::Before { mark: marks.saturating_sub(1), records: 0 },
            (Spot::Behind { marks, records }, _) => Spot::Behind { marks, records: records - 1 },
            (Spot::Before { mark, .. }, true) => Spot::Before { mark: mark.saturating_sub(1), records: 0 },
            (Spot::Before { mark, records }, false) => Spot::Before { mark, records: records + 1 },
        }
    }

    pub fn words(self) -> String {
        match self {
            Spot::Behind { marks, records } => format!("file {marks}, record {records}"),
            Spot::Before { mark, records } => format!("{records} records before mark {mark}"),
        }
    }
}

impl Driver {
    /// The tape stands at another spot than before, right behind what it passed.
    pub(super) fn stands_at(&mut self, spot: Spot) {
        self.spot = spot;
        self.erased = 0;
        self.passed = 0;
    }

    /// Why a store was not carried out, by the drive's report.
    pub(super) fn refused(status: Status) -> Stop {
        let report = status.report();
        if report & report::INSTALLED == 0 {
            Stop::Gone
        } else if report & report::EOT != 0 {
            Stop::Full
        } else if report & report::PROTECTED != 0 {
            Stop::Failed("the tape is protected".to_string())
        } else {
            Stop::Failed("the drive does not let the tape be moved".to_string())
        }
    }

    /// Brings the tape to the spot that it should stand at, from wherever it is.
    pub(super) async fn place(&mut self) -> Result<(), Stop> {
        let mut last = Status(0);
        for tries in 0..POSITION_TRIES {
            if self.placed {
                return Ok(());
            }
            if tries > 0 {
                self.note("the place is looked for once more");
            }
            self.count(|ledger| &mut ledger.repositioned);
            let guard = if self.guard { 0x0B } else { 0x0A };
            let settings = vec![
                self.control(REWIND),
                self.control(self.track),
                self.control(0x0C + self.density),
                self.control(guard),
            ];
            let Some(completions) = self.stores(settings, Part::default()).await? else {
                continue;
            };
            last = completions[0].status;
            match last.code() {
                code::GOOD => {}
                ILLEGAL_MOTION => return Err(Driver::refused(last)),
                code::TAPE_GONE => return Err(Stop::Gone),
                _ => continue,
            }
            self.settled = true;
            if !self.is_own(completions[completions.len() - 1].status) {
                continue;
            }
            self.passed = 0;
            self.placed = self.go_to(self.spot).await?;
            if !self.placed {
                continue;
            }
        }
        if self.placed {
            return Ok(());
        }
        Err(Stop::Failed(format!("{} is not found: code {:02X}", self.spot.words(), last.code())))
    }

    /// Goes from BOT to a spot. False where the tape was lost on the way.
    async fn go_to(&mut self, spot: Spot) -> Result<bool, Stop> {
        let (marks, skips, value) = match spot {
            Spot::Behind { marks, records } => (marks, records, SKIP_FORWARD),
            Spot::Before { mark, records } => (mark + 1, records + 1, SKIP_REVERSE),
        };
        for _ in 0..marks {
            if !self.search(SEARCH_FORWARD).await? {
                return Ok(false);
            }
        }
        let mut left = skips;
        while left > 0 {
            let now = left.min(BATCH);
            let stores = vec![self.control(value); now];
            let Some(completions) = self.stores(stores, Part::default()).await? else {
                return Ok(false);
            };
            for completion in &completions {
                let status = completion.status;
                if status.code() == code::TAPE_GONE {
                    return Err(Stop::Gone);
                }
                if !(status.is_forward() || status.is_reverse()) || !self.is_own(status) {
                    return Ok(false);
                }
            }
            left -= now;
        }
        Ok(true)
    }

    /// Searches one mark. Records that cannot be recognized are passed.
    pub(super) async fn search(&mut self, value: u8) -> Result<bool, Stop> {
        loop {
            let Some(completion) = self.move_by(value).await? else {
                return Ok(false);
            };
            let status = completion.status;
            match status.code() {
                code::GOOD => return Ok(status.is_mark()),
                code::TAPE_GONE => return Err(Stop::Gone),
                ILLEGAL_MOTION if status.report() & report::INSTALLED == 0 => return Err(Stop::Gone),
                _ if status.is_forward() || status.is_reverse() => {}
                _ => return Ok(false),
            }
        }
    }

    /// Back over the record that was just passed. Gives its count where GCR tells it. Where the tape is lost, the spot
    /// is looked for when it is needed next.
    pub(super) async fn back(&mut self) -> Result<Option<usize>, Stop> {
        if self.wrong == Some(Wrong::NoSkipBack) {
            return Ok(None);
        }
        if self.wrong == Some(Wrong::SkipsBackTwice) {
            self.move_by(SKIP_REVERSE).await?;
        }
        match self.move_by(SKIP_REVERSE).await? {
            Some(completion) if completion.status.is_reverse() => Ok(completion.count),
            Some(completion) if completion.status.code() == code::TAPE_GONE => Err(Stop::Gone),
            _ => {
                self.placed = false;
                Ok(None)
            }
        }
    }
}
