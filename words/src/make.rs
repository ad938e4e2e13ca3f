//! Lines of words: each statement makes the calls that it needs, in their order, which a controller plays as they are
//! made.

use crate::explain::put_awaited;
use crate::interface::{build, image_length, mark_count, Answered, Outcome, Phase, Settled, Store};
use crate::line::{put_line, Buffers, Line, Player, Program, HOST_LIMIT, IMAGE_LIMIT, MARKS_LIMIT};
use crate::names::{name, Kind};
use crate::statement::{read, Brings, ResultWords, Said, Source, Spoiled, Statement, Wrong};
use crate::status::put_code;
use std::path::{Path, PathBuf};

const ACK: u8 = 0x06;
const NACK: u8 = 0x15;
const LOAD_LEAD: u8 = 0x62;
const STORE_LEAD: u8 = 0x64;
const GCR: u8 = 1;
const GOOD: u8 = 15;
const BLOCKETTE: usize = 256;
const READ_SUPPLIED: u8 = 2;

/// Makes lines, and plays them.
pub struct Made {
    pub player: Player,
    folder: PathBuf,
    /// Comments that wait for the lines that they stand before: acceptances that are due come first.
    comments: Vec<u8>,
    /// What the last store came to, for a message.
    settled: Option<Settled>,
}

/// The density that counts for a record now.
pub fn density_now(player: &Player) -> u8 {
    let controller = &player.controller;
    match controller.phase() {
        Phase::ResultAwaited(READ_SUPPLIED, _) => GCR,
        _ => controller.drive(controller.selected()).density,
    }
}

/// The space that a result is lent where none is named: what a program has, for what delivers bytes.
pub fn usual_space(player: &Player) -> usize {
    match player.controller.phase() {
        Phase::ResultAwaited(0..=READ_SUPPLIED, _) => HOST_LIMIT,
        _ => 0,
    }
}

/// The two count bytes of an image.
pub fn count_bytes(count: u16) -> Option<Vec<u8>> {
    let mut image = build(&vec![0; count as usize], 0)?;
    image.truncate(2);
    Some(image)
}

/// Turns every bit of a blockette of an image.
pub fn spoil(image: &mut [u8], at: usize) {
    for byte in &mut image[2 + BLOCKETTE * at..2 + BLOCKETTE * (at + 1)] {
        *byte = !*byte;
    }
}

impl Made {
    /// Files are looked for in this folder.
    pub fn new(folder: &Path) -> Made {
        Made::of(Player::default(), folder)
    }

    pub fn of(player: Player, folder: &Path) -> Made {
        Made {
            player,
            folder: folder.to_path_buf(),
            comments: Vec::new(),
            settled: None,
        }
    }

    /// Makes the lines of a statement, given without its #0A.
    pub fn statement(&mut self, text: &[u8], out: &mut Vec<u8>) -> Result<(), Wrong> {
        let said = read(text)?;
        match &said.statement {
            Statement::Comment(text) => {
                self.comments.extend_from_slice(text);
                self.comments.push(b'\n');
                return Ok(());
            }
            Statement::Store(..) | Statement::Load(_) => {}
            Statement::Tick | Statement::Hand if !said.refused => {}
            _ => self.end(out),
        }
        self.said(&said, out)
    }

    /// Writes the comments that wait.
    pub fn end(&mut self, out: &mut Vec<u8>) {
        out.append(&mut self.comments);
    }

    fn said(&mut self, said: &Said, out: &mut Vec<u8>) -> Result<(), Wrong> {
        let wrong = |what: String| Wrong {
            column: said.column,
            what,
        };
        match &said.statement {
            Statement::Nothing | Statement::Comment(_) => Ok(()),
            Statement::Line(text) => {
                out.extend_from_slice(text);
                out.push(b'\n');
                if let Ok(line) = Buffers::default().read(text, Program::Jobs) {
                    let answered = self.player.call(&line);
                    self.keep(&answered);
                }
                Ok(())
            }
            Statement::Load(address) => {
                self.idle(said, out)?;
                self.string(&[LOAD_LEAD, *address, 0], out);
                Ok(())
            }
            Statement::Store(store, from) => self.store(said, store, from.as_ref(), out),
            Statement::Accept => {
                if !self.player.controller.phase().is_accepted() {
                    return Err(wrong(format!(
                        "nothing is offered or sent that could be accepted: {}",
                        self.now()
                    )));
                }
                while self.player.controller.phase().is_accepted() {
                    self.emit(&Line::Byte(ACK), out).ok();
                }
                Ok(())
            }
            Statement::AcceptOne | Statement::Refuse => {
                if !self.player.controller.phase().is_accepted() {
                    return Err(wrong(format!(
                        "nothing is offered or sent that has an answer: {}",
                        self.now()
                    )));
                }
                let byte = if said.statement == Statement::Refuse {
                    NACK
                } else {
                    ACK
                };
                self.emit(&Line::Byte(byte), out).ok();
                Ok(())
            }
            Statement::Bytes(bytes) => bytes
                .iter()
                .try_for_each(|byte| self.call(said, &Line::Byte(*byte), out)),
            Statement::Taken => self.call(said, &Line::Taken, out),
            Statement::Broken => self.call(said, &Line::Broken, out),
            Statement::Reset => self.call(said, &Line::Reset, out),
            Statement::Tick | Statement::Hand => {
                if !said.refused {
                    self.idle(said, out)?;
                }
                let line = if said.statement == Statement::Tick {
                    Line::Tick
                } else {
                    Line::Hand
                };
                self.call(said, &line, out)
            }
            Statement::Report(drive, report) => {
                let line = Line::Report {
                    drive: *drive,
                    report: *report,
                };
                self.call(said, &line, out)
            }
            Statement::Queue(job, store) => {
                let line = Line::Queue {
                    job: *job,
                    store: *store,
                };
                self.call(said, &line, out)
            }
            Statement::Data(source) => {
                let host = self.bytes(said, source, HOST_LIMIT)?;
                self.call(said, &Line::Data(&host), out)
            }
            Statement::Result(result) => self.result(said, result, out),
        }
    }

    /// Writes a line and makes its call.
    fn emit(&mut self, line: &Line, out: &mut Vec<u8>) -> Answered {
        put_line(line, out);
        out.push(b'\n');
        let answered = self.player.call(line);
        self.keep(&answered);
        answered
    }

    fn keep(&mut self, answered: &Answered) {
        if let Ok(answer) = answered {
            self.settled = answer.settled.or(self.settled);
        }
    }

    /// The same, where the statement says rightly whether it is refused.
    fn call(&mut self, said: &Said, line: &Line, out: &mut Vec<u8>) -> Result<(), Wrong> {
        let before = self.now();
        match (self.emit(line, out), said.refused) {
            (Ok(_), false) | (Err(_), true) => Ok(()),
            (Ok(_), true) => Err(Wrong {
                column: said.column,
                what: "this is not refused: leave the word 'refused' out".to_string(),
            }),
            (Err(refusal), false) => {
                let mut what = format!(
                    "refused, {}: {}; now: {before}",
                    refusal.0,
                    name(Kind::Refusal, refusal.0)
                );
                if let (3, Some(settled)) = (refusal.0, self.settled) {
                    let mut code = Vec::new();
                    put_code(settled.code, &mut code);
                    what += &format!(
                        "; the last store ended with {}",
                        String::from_utf8_lossy(&code)
                    );
                }
                Err(Wrong {
                    column: said.column,
                    what: what + "; say 'refused' before it where that is meant",
                })
            }
        }
    }

    /// What the controller waits for.
    fn now(&self) -> String {
        let mut words = Vec::new();
        put_awaited(&self.player, &mut words);
        String::from_utf8_lossy(&words).into_owned()
    }

    /// Makes the acceptances that are due before a statement that needs an idle controller.
    fn idle(&mut self, said: &Said, out: &mut Vec<u8>) -> Result<(), Wrong> {
        while matches!(
            self.player.controller.phase(),
            Phase::Sending(_) | Phase::EorOffered(_)
        ) {
            self.emit(&Line::Byte(ACK), out).ok();
        }
        self.end(out);
        if self.player.controller.is_idle() {
            return Ok(());
        }
        let first = match self.player.controller.phase() {
            Phase::GoOffered(_) => "say accept and data first, or refuse",
            Phase::DataAwaited(_) => "say data first",
            Phase::ResultAwaited(..) => "say result first",
            Phase::AckOffered => "say taken first, or broken",
            _ => "say its other bytes first, or broken",
        };
        Err(Wrong {
            column: said.column,
            what: format!("the controller is not idle, {}: {first}", self.now()),
        })
    }

    /// A string with its check byte, and its ACK taken.
    fn string(&mut self, bytes: &[u8], out: &mut Vec<u8>) {
        for byte in bytes {
            self.emit(&Line::Byte(*byte), out).ok();
        }
        let check = bytes.iter().fold(0, |sum, byte| sum ^ byte);
        self.emit(&Line::Byte(check), out).ok();
        self.emit(&Line::Taken, out).ok();
    }

    fn store(
        &mut self,
        said: &Said,
        store: &Store,
        from: Option<&Source>,
        out: &mut Vec<u8>,
    ) -> Result<(), Wrong> {
        let host = match from {
            Some(source) => Some(self.bytes(said, source, HOST_LIMIT)?),
            None => None,
        };
        self.idle(said, out)?;
        let [first, second, third, fourth] = store.operand;
        self.string(
            &[STORE_LEAD, store.address, first, second, third, fourth, 0],
            out,
        );
        let Some(host) = host else {
            return Ok(());
        };
        if !matches!(self.player.controller.phase(), Phase::GoOffered(_)) {
            let mut code = Vec::new();
            put_code(self.settled.map_or(0, |settled| settled.code), &mut code);
            return Err(Wrong {
                column: said.source_column,
                what: format!(
                    "no GO is offered for these bytes: the write ends with {}",
                    String::from_utf8_lossy(&code)
                ),
            });
        }
        self.emit(&Line::Byte(ACK), out).ok();
        self.call(said, &Line::Data(&host), out)
    }

    /// The bytes of a source.
    fn bytes(&self, said: &Said, source: &Source, most: usize) -> Result<Vec<u8>, Wrong> {
        let column = said.source_column;
        let wrong = |what| Wrong { column, what };
        let bytes = source.bytes(&self.folder).map_err(wrong)?;
        if bytes.len() > most {
            let of = match source {
                Source::Bytes(_) => "these are".to_string(),
                Source::File(file) => format!("{file} has"),
            };
            let what = format!("{of} {} bytes, and a line holds {most}", bytes.len());
            return Err(wrong(what));
        }
        Ok(bytes)
    }

    fn result(
        &mut self,
        said: &Said,
        result: &ResultWords,
        out: &mut Vec<u8>,
    ) -> Result<(), Wrong> {
        let (image, marks) = match &result.brings {
            Brings::Nothing => (Vec::new(), Vec::new()),
            Brings::Count(count) => (count_bytes(*count).unwrap_or_default(), Vec::new()),
            Brings::Image(image, marks) => (
                self.bytes(said, image, IMAGE_LIMIT)?,
                self.bytes(said, marks, MARKS_LIMIT)?,
            ),
            Brings::Record(source, spoiled) => {
                let record = self.bytes(said, source, IMAGE_LIMIT - 2)?;
                self.record(said, &record, spoiled)?
            }
        };
        let line = Line::Result {
            outcome: Outcome {
                code: result.code,
                mark: result.mark,
                late: result.late,
                image: &image,
                marks: &marks,
            },
            space: result.space.unwrap_or(usual_space(&self.player)),
        };
        self.call(said, &line, out)
    }

    /// Image and marks of a record, in the density that counts now.
    fn record(
        &self,
        said: &Said,
        record: &[u8],
        spoiled: &[Spoiled],
    ) -> Result<(Vec<u8>, Vec<u8>), Wrong> {
        let wrong = |what: String| Wrong {
            column: said.source_column,
            what,
        };
        let density = density_now(&self.player);
        let fits = image_length(record.len(), density).is_some_and(|length| length <= IMAGE_LIMIT);
        let image = build(record, density).filter(|_| fits);
        let Some(mut image) = image else {
            return Err(wrong(format!(
                "a record of {} bytes in {} has an image that no line holds",
                record.len(),
                name(Kind::Density, density)
            )));
        };
        let mut marks = vec![GOOD; mark_count(record.len(), density)];
        for bad in spoiled {
            let data = marks.len().saturating_sub(2);
            let at = match bad.check {
                true if bad.number < 2 && !marks.is_empty() => marks.len() - 1 - bad.number,
                false if bad.number < data => data - 1 - bad.number,
                _ => {
                    return Err(wrong(format!(
                        "there is no {} {}: a record of {} bytes in {} has {}",
                        name(Kind::Blockette, if bad.check { 2 } else { 1 }),
                        bad.number,
                        record.len(),
                        name(Kind::Density, density),
                        match data {
                            0 => "no blockettes".to_string(),
                            _ => format!("data blockettes {} to 0, check 1 and check 0", data - 1),
                        }
                    )))
                }
            };
            if marks[at] != GOOD || bad.mark == GOOD {
                return Err(wrong(format!(
                    "blockette {} is bad twice, or with the mark of a good one",
                    bad.number
                )));
            }
            marks[at] = bad.mark;
            if bad.turned {
                spoil(&mut image, at);
            }
        }
        Ok((image, marks))
    }
}
