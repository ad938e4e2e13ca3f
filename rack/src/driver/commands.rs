//! The commands of a job, as `mt` has them.

use super::desk::Part;
use super::places::Spot;
use super::read::Got;
use super::{Command, Driver, Filed, Outcome, Stop, POSITION_TRIES};
use super::{SEARCH_FORWARD, SEARCH_REVERSE, SKIP_FORWARD, SKIP_REVERSE};
use crate::host::{load, Wrong};
use crate::transport::code;

/// So many records, in words.
fn counted(records: usize) -> String {
    format!("{records} record{}", if records == 1 { "" } else { "s" })
}

impl Driver {
    pub(super) async fn carry_out(&mut self, command: &Command) -> Result<Outcome, Stop> {
        match command {
            Command::Status => {
                let word = self.load(load::REPORTS).await?.unwrap_or(0);
                let report = word.to_be_bytes()[usize::from(self.drive)];
                let mut words = Vec::new();
                ctc_words::status::put_report(report, &mut words);
                Ok(Outcome::Done(String::from_utf8_lossy(&words).into_owned()))
            }
            Command::Rewind => {
                self.stands_at(Spot::START);
                self.placed = false;
                self.place().await?;
                Ok(Outcome::Done("at BOT".to_string()))
            }
            Command::Density(density) => {
                self.density = *density;
                self.set(0x0C + density).await
            }
            Command::Track(track) => {
                // a new track begins at BOT: in the middle of a tape nobody knows where its records stand
                self.track = *track;
                self.stands_at(Spot::START);
                self.placed = false;
                self.place().await?;
                Ok(Outcome::Done(format!("track {track}, at BOT")))
            }
            Command::Guard(guard) => {
                self.guard = *guard;
                self.set(if *guard { 0x0B } else { 0x0A }).await
            }
            Command::SpaceFiles(files) => {
                for _ in 0..*files {
                    self.place().await?;
                    let mut found = false;
                    for _ in 0..POSITION_TRIES {
                        if self.search(SEARCH_FORWARD).await? {
                            found = true;
                            break;
                        }
                        self.placed = false;
                        self.place().await?;
                    }
                    if !found {
                        return Ok(Outcome::Lost(format!("no mark behind {}", self.spot.words())));
                    }
                    self.stands_at(self.spot.forward(true));
                }
                Ok(Outcome::Done(self.spot.words()))
            }
            Command::BackFiles(files) => {
                for _ in 0..*files {
                    self.place().await?;
                    if matches!(self.spot, Spot::Behind { marks: 0, .. } | Spot::Before { mark: 0, .. }) {
                        return Ok(Outcome::Lost("no mark before".to_string()));
                    }
                    let found = self.search(SEARCH_REVERSE).await?;
                    self.stands_at(match self.spot {
                        Spot::Behind { marks, .. } => Spot::Before { mark: marks - 1, records: 0 },
                        Spot::Before { mark, .. } => Spot::Before { mark: mark - 1, records: 0 },
                    });
                    if !found {
                        self.placed = false;
                        self.place().await?;
                    }
                }
                Ok(Outcome::Done(self.spot.words()))
            }
            Command::SpaceRecords(records) => self.space(*records, SKIP_FORWARD).await,
            Command::BackRecords(records) => self.space(*records, SKIP_REVERSE).await,
            Command::WriteMarks(marks) => {
                for _ in 0..*marks {
                    self.write(None).await?;
                }
                Ok(Outcome::Done(self.spot.words()))
            }
            Command::Erase(inches) => {
                self.place().await?;
                let done = match inches {
                    Some(inches) => self.erase(*inches).await?,
                    None => self.erase_to_the_end().await?,
                };
                Ok(match done {
                    true => Outcome::Done(match inches {
                        Some(inches) => format!("{inches} inches"),
                        None => "to the end of the tape".to_string(),
                    }),
                    false => Outcome::Lost("not all was erased".to_string()),
                })
            }
            Command::Write { bytes, count, .. } => {
                let mut records = 0;
                let mut from = 0;
                // a file of no bytes is one record of none
                while from < bytes.len() || records == 0 {
                    let to = (from + (*count).max(1)).min(bytes.len());
                    self.write(Some(Part { file: bytes.clone(), from, to })).await?;
                    records += 1;
                    from = to;
                }
                Ok(Outcome::Done(format!("{} bytes in {}", bytes.len(), counted(records))))
            }
            Command::Read { folder, files } => self.read_files(folder, *files).await,
        }
    }

    async fn set(&mut self, value: u8) -> Result<Outcome, Stop> {
        for _ in 0..POSITION_TRIES {
            if let Some(completion) = self.move_by(value).await? {
                return Ok(match completion.status.code() {
                    code::GOOD => Outcome::Done("set".to_string()),
                    other => Outcome::Lost(format!("code {other:02X}")),
                });
            }
        }
        Err(Stop::Failed("the controller was started anew again and again".to_string()))
    }

    async fn space(&mut self, records: usize, value: u8) -> Result<Outcome, Stop> {
        for passed in 0..records {
            self.place().await?;
            if value == SKIP_REVERSE && self.spot == Spot::START {
                return Ok(Outcome::Lost(format!("BOT after {passed} records")));
            }
            let mut done = false;
            for _ in 0..POSITION_TRIES {
                if let Some(completion) = self.move_by(value).await? {
                    let status = completion.status;
                    if status.code() == code::TAPE_GONE {
                        return Err(Stop::Gone);
                    }
                    if status.is_forward() || status.is_reverse() {
                        let mark = status.is_mark();
                        let forward = value == SKIP_FORWARD;
                        self.stands_at(if forward { self.spot.forward(mark) } else { self.spot.reverse(mark) });
                        done = true;
                        break;
                    }
                }
                self.placed = false;
                self.place().await?;
            }
            if !done {
                return Ok(Outcome::Lost(format!("no record behind {}", self.spot.words())));
            }
        }
        Ok(Outcome::Done(self.spot.words()))
    }

    async fn read_files(&mut self, folder: &str, files: Option<usize>) -> Result<Outcome, Stop> {
        let mut lost = Vec::new();
        let mut records = 0;
        let mut done = 0;
        'files: while files.is_none_or(|most| done < most) {
            // a file of which only records before its mark are read has no first one
            let (file, first) = match self.spot {
                Spot::Behind { marks, records } => (marks, records),
                Spot::Before { mark, .. } => (mark, usize::MAX / 2),
            };
            let mut filed = Filed { folder: folder.to_string(), track: self.track, file, first, records: Vec::new() };
            loop {
                let spot = self.spot;
                let got = match self.read().await {
                    Ok(got) => got,
                    Err(stop) => {
                        self.keep(filed);
                        return Err(stop);
                    }
                };
                match got {
                    Got::Record(record) => {
                        records += 1;
                        filed.records.push(Ok(record));
                    }
                    Got::Lost(why) => {
                        self.note(format!("lost: {}: {why}", spot.words()));
                        if self.wrong != Some(Wrong::LossUntold) {
                            lost.push(format!("{}: {why}", spot.words()));
                            filed.records.push(Err(why));
                        }
                    }
                    Got::Mark => {
                        let empty = filed.records.is_empty();
                        self.keep(filed);
                        done += 1;
                        // two marks in a row end what is recorded
                        if empty {
                            break 'files;
                        }
                        break;
                    }
                    Got::End => {
                        self.keep(filed);
                        break 'files;
                    }
                }
            }
        }
        Ok(match lost.is_empty() {
            true => Outcome::Done(counted(records)),
            false => Outcome::Lost(format!("{records} records, and {} lost: {}", lost.len(), lost.join("; "))),
        })
    }

    fn keep(&self, filed: Filed) {
        if !filed.records.is_empty() {
            self.ledger.borrow_mut().filed.push(filed);
        }
    }
}
