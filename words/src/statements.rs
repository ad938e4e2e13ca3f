//! Lines told as the statements that make them: `make` of what this tells gives the same lines.

use crate::explain::store_of;
use crate::interface::{build, image_count, image_length, mark_count, Outcome, Phase};
use crate::line::{put_line, Buffers, Line, Player, Program};
use crate::make::{density_now, spoil, usual_space};
use crate::statement::{put_said, Brings, ResultWords, Said, Source, Spoiled, Statement};

const ACK: u8 = 0x06;
const NACK: u8 = 0x15;
const LOAD_LEAD: u8 = 0x62;
const GOOD: u8 = 15;
const SKIP_REVERSE: u8 = 8;

#[derive(Default)]
pub struct Statements {
    player: Player,
    buffers: Buffers,
    /// Bytes of a string that came one after the other, its first byte included.
    string: Vec<u8>,
    /// Acceptances that came one after the other, while more are due.
    accepted: usize,
}

fn put(statement: Statement, refused: bool, out: &mut Vec<u8>) {
    let said = Said {
        refused,
        statement,
        column: 1,
        source_column: 1,
    };
    put_said(&said, out);
    out.push(b'\n');
}

impl Statements {
    /// Tells a line, given without its #0A; a string is told when it has ended.
    pub fn tell(&mut self, text: &[u8], out: &mut Vec<u8>) {
        let mut buffers = std::mem::take(&mut self.buffers);
        let mut written = Vec::new();
        match buffers.read(text, Program::Jobs) {
            _ if text.first() == Some(&b'#') => {
                self.end(out);
                put(Statement::Comment(text.to_vec()), false, out);
            }
            Err(_) => {
                self.end(out);
                put(Statement::Line(text.to_vec()), false, out);
            }
            Ok(line) => {
                put_line(&line, &mut written);
                if written == text {
                    self.line(&line, out);
                } else {
                    // zeros before a number, which no statement has
                    self.end(out);
                    self.player.call(&line).ok();
                    put(Statement::Line(text.to_vec()), false, out);
                }
            }
        }
        self.buffers = buffers;
    }

    /// Tells what is held back: the bytes of a string that is not whole, acceptances while more are due.
    pub fn end(&mut self, out: &mut Vec<u8>) {
        if !self.string.is_empty() {
            put(
                Statement::Bytes(std::mem::take(&mut self.string)),
                false,
                out,
            );
        }
        for _ in 0..std::mem::take(&mut self.accepted) {
            put(Statement::AcceptOne, false, out);
        }
    }

    fn line(&mut self, line: &Line, out: &mut Vec<u8>) {
        let phase = self.player.controller.phase();
        match (line, phase) {
            (Line::Byte(ACK), phase) if phase.is_accepted() => {
                self.player.call(line).ok();
                self.accepted += 1;
                if !self.player.controller.phase().is_accepted() {
                    self.accepted = 0;
                    put(Statement::Accept, false, out);
                }
                return;
            }
            (Line::Byte(byte), Phase::Collecting(length)) if length == self.string.len() => {
                self.player.call(line).ok();
                self.string.push(*byte);
                let goes_on = match self.player.controller.phase() {
                    Phase::Collecting(now) => now == self.string.len(),
                    _ => true,
                };
                if !goes_on {
                    self.end(out);
                }
                return;
            }
            (Line::Taken, Phase::AckOffered) if self.is_whole() => {
                let string = std::mem::take(&mut self.string);
                self.player.call(line).ok();
                let statement = match string[0] {
                    LOAD_LEAD => Statement::Load(string[1]),
                    _ => Statement::Store(store_of(&string), None),
                };
                put(statement, false, out);
                return;
            }
            _ => self.end(out),
        }
        // what a result means hangs on what stood before it
        let statement = match *line {
            Line::Byte(NACK) if phase.is_accepted() => Statement::Refuse,
            Line::Byte(byte) => Statement::Bytes(vec![byte]),
            Line::Taken => Statement::Taken,
            Line::Broken => Statement::Broken,
            Line::Report { drive, report } => Statement::Report(drive, report),
            Line::Data(host) => Statement::Data(Source::Bytes(host.to_vec())),
            Line::Result { outcome, space } => Statement::Result(ResultWords {
                code: outcome.code,
                mark: outcome.mark,
                late: outcome.late,
                brings: self.brings(&outcome),
                space: (space != usual_space(&self.player)).then_some(space),
            }),
            Line::Tick => Statement::Tick,
            Line::Reset => Statement::Reset,
            Line::Queue { job, store } => Statement::Queue(job, store),
            Line::Hand => Statement::Hand,
        };
        let refused = self.player.call(line).is_err();
        // a tick or a hand makes the acceptances that are due, unless they are made before it
        put(statement, refused, out);
    }

    /// Whether the bytes held back are those of a whole string whose unused byte is 0.
    fn is_whole(&self) -> bool {
        let length = self.string.len();
        length >= 4
            && self.player.controller.collected() == self.string
            && self.string[length - 2] == 0
    }

    /// The record of an image and its marks, where they are those of one; else as they stand.
    fn brings(&self, outcome: &Outcome) -> Brings {
        let (image, marks) = (outcome.image, outcome.marks);
        if image.is_empty() && marks.is_empty() {
            return Brings::Nothing;
        }
        if let (Phase::ResultAwaited(SKIP_REVERSE, _), 2, true, Some(count)) = (
            self.player.controller.phase(),
            image.len(),
            marks.is_empty(),
            image_count(image),
        ) {
            return Brings::Count(count);
        }
        self.record(image, marks).unwrap_or_else(|| {
            Brings::Image(Source::Bytes(image.to_vec()), Source::Bytes(marks.to_vec()))
        })
    }

    /// Each bad blockette comes with its bits turned, or else each as it was.
    fn record(&self, image: &[u8], marks: &[u8]) -> Option<Brings> {
        let density = density_now(&self.player);
        let count = image_count(image)? as usize;
        if image_length(count, density) != Some(image.len())
            || mark_count(count, density) != marks.len()
        {
            return None;
        }
        let data = marks.len().saturating_sub(2);
        [true, false].into_iter().find_map(|turned| {
            let mut whole = image.to_vec();
            let mut spoiled = Vec::new();
            for (at, &mark) in marks.iter().enumerate().filter(|(_, &mark)| mark != GOOD) {
                if turned {
                    spoil(&mut whole, at);
                }
                let check = at >= data;
                spoiled.push(Spoiled {
                    check,
                    number: if check {
                        marks.len() - 1 - at
                    } else {
                        data - 1 - at
                    },
                    mark,
                    turned,
                });
            }
            let record = whole[2..2 + count].to_vec();
            (build(&record, density)? == whole)
                .then_some(Brings::Record(Source::Bytes(record), spoiled))
        })
    }
}
