//! Lines in words: each is played, and told with what the controller does.

use crate::interface::{image_count, Action, Answer, Answered, Outcome, Phase, Refusal, Store};
use crate::line::{put_answer, put_decimal, put_hex, Buffers, Line, Player, Program, Unreadable};
use crate::names::{name, names, Kind};
use crate::statement::listed;
use crate::status::{put_code, put_motion, put_report, put_secondary, put_word};

const ACK: u8 = 0x06;
const NACK: u8 = 0x15;
const LOAD_LEAD: u8 = 0x62;
const STORE_LEAD: u8 = 0x64;
const REPLY_LEAD: u8 = 0x66;
const UPDATE_LEAD: u8 = 0x68;
const INTERRUPT_LEAD: u8 = 0x69;
const PRIMARY: u8 = 1;
/// A sent string is given up at this no.
const LAST_NO: u8 = 5;
const CHECK_BYTES: u8 = 1;
const SKIP_REVERSE: u8 = 8;
/// Where the result of an operation is told: those that deliver bytes.
const DELIVERING: [u8; 3] = [0, 1, 2];
const GCR: u8 = 1;
const GOOD: u8 = 15;

/// Columns of a line before its words.
const WIDTH: usize = 16;
/// Columns of its number.
const NUMBER_WIDTH: usize = 5;

#[derive(Clone, Copy, Debug)]
pub struct Options {
    pub program: Program,
    /// The answer, a tab, the line and a tab before the words, and no comments kept apart.
    pub answers: bool,
    pub only_actions: bool,
    pub drive: Option<u8>,
}

fn put(words: &str, out: &mut Vec<u8>) {
    out.extend_from_slice(words.as_bytes());
}

fn put_count(number: usize, one: &str, many: &str, out: &mut Vec<u8>) {
    put_decimal(number, out);
    out.push(b' ');
    put(if number == 1 { one } else { many }, out);
}

/// What a store asks for: its name, its drive, its count, and whether it asks an interrupt.
pub fn put_store(store: &Store, out: &mut Vec<u8>) {
    let mut there_is = true;
    match store.operation() {
        3 => {
            let words = name(Kind::Control, store.operand[3]);
            if words.is_empty() {
                put("control value ", out);
                put_hex(&store.operand[3..], out);
                there_is = false;
            } else {
                put(words, out);
                there_is = !(4..8).contains(&store.operand[3]);
            }
        }
        4 => {
            let words = name(Kind::Reading, store.operand[0]);
            if words.is_empty() {
                put("operation 4 with first byte ", out);
                put_hex(&store.operand[..1], out);
                there_is = false;
            } else {
                put(words, out);
            }
        }
        operation => {
            let words = name(Kind::Store, operation);
            if words.is_empty() {
                put("operation ", out);
                out.push(b'0' + operation);
                there_is = false;
            } else {
                put(words, out);
            }
        }
    }
    if !there_is {
        put(" (there is none)", out);
    }
    match store.drive() {
        Some(drive) => {
            put(", drive ", out);
            out.push(b'0' + drive);
            if drive > 3 {
                put(" (there is none)", out);
            }
        }
        None => put(", selected drive", out),
    }
    let supplied = store.operation() == 4 && store.operand[0] == 0x80;
    if supplied || store.operation() == 5 {
        put(", count ", out);
        put_decimal(store.count() as usize, out);
    }
    if store.operation() == 5 && store.operand[1] != 0 {
        put(", ", out);
        put_count(store.operand[1] as usize, "byte", "bytes", out);
        put(" thrown away", out);
    }
    if store.asks_interrupt() {
        put(", asks an interrupt", out);
    }
}

/// A motion order.
pub fn put_order(order: &[u8; 6], out: &mut Vec<u8>) {
    let [operation, drive, track, density, high, low] = *order;
    put("order: ", out);
    put(name(Kind::Order, operation), out);
    put(" drive ", out);
    put_decimal(drive as usize, out);
    put(", track ", out);
    put_decimal(track as usize, out);
    put(", ", out);
    put(name(Kind::Density, density), out);
    if matches!(operation, 0x50 | 0x80) {
        put(", count ", out);
        put_decimal(u16::from_be_bytes([high, low]) as usize, out);
    } else if operation == 0x40 && (high, low) != (0, 0) {
        put(", operand ", out);
        put_hex(&[high, low], out);
    }
}

/// A string to the host; the load is that which a reply answers.
pub fn put_sent(string: &[u8; 6], load: u8, out: &mut Vec<u8>) {
    let word = u32::from_be_bytes([string[1], string[2], string[3], string[4]]);
    match string[0] {
        UPDATE_LEAD => {
            put("update of secondary: ", out);
            put_secondary(word, out);
        }
        INTERRUPT_LEAD => {
            put("interrupt: ", out);
            put_word(PRIMARY, word, out);
        }
        _ => {
            put("reply, ", out);
            put(name(Kind::Load, load), out);
            put(": ", out);
            put_word(load, word, out);
        }
    }
}

/// How many bytes of a string have come.
fn put_part(lead: u8, length: usize, out: &mut Vec<u8>) {
    let words: &[u8; 22] = match lead {
        LOAD_LEAD => b"byte 0 of 4 of a load ",
        _ => b"byte 0 of 8 of a store",
    };
    let start = out.len();
    out.extend_from_slice(words);
    out[start + 5] = b'0' + length as u8;
    if lead == LOAD_LEAD {
        out.pop();
    }
}

/// The bad blockettes of a record, by the numbers that they have.
fn put_bad(marks: &[u8], out: &mut Vec<u8>) {
    let mut first = true;
    for (at, &mark) in marks.iter().enumerate().filter(|(_, &mark)| mark != GOOD) {
        put(if first { ", bad: " } else { ", " }, out);
        first = false;
        put_blockette(marks.len(), at, out);
        put(" mark ", out);
        put_decimal(mark as usize, out);
    }
}

/// `2`, or `check 0`, of so many blockettes in tape order.
pub fn put_blockette(count: usize, at: usize, out: &mut Vec<u8>) {
    match count - at {
        left @ 1..=2 => {
            put("check ", out);
            put_decimal(left - 1, out);
        }
        left => put_decimal(left - 3, out),
    }
}

fn put_outcome(outcome: &Outcome, operation: Option<u8>, out: &mut Vec<u8>) {
    put_code(outcome.code, out);
    if outcome.mark {
        put(", mark found", out);
    }
    match outcome.late {
        0 => {}
        1 => put(", write data late", out),
        2 => put(", read data late", out),
        3 => put(", write data late, read data late", out),
        late => {
            put(", late flags ", out);
            put_decimal(late as usize, out);
        }
    }
    match image_count(outcome.image) {
        Some(count) if operation == Some(SKIP_REVERSE) => {
            put(", count ", out);
            put_decimal(count as usize, out);
        }
        Some(count) => {
            put(", record of ", out);
            put_count(count as usize, "byte", "bytes", out);
        }
        None if !outcome.image.is_empty() => put(", image of one byte", out),
        None => {}
    }
    put_bad(outcome.marks, out);
}

/// What the controller waits for, in words, with what came so far.
pub fn put_awaited(player: &Player, out: &mut Vec<u8>) {
    match player.controller.phase() {
        Phase::Collecting(0) => put("idle", out),
        Phase::Collecting(length) => {
            let lead = player.controller.collected()[0];
            put_decimal(length, out);
            put(
                if lead == LOAD_LEAD {
                    " of 4 bytes of a load"
                } else {
                    " of 8 bytes of a store"
                },
                out,
            );
        }
        Phase::AckOffered => put(name(Kind::Phase, 1), out),
        Phase::Sending(sent) => {
            put(name(Kind::Sent, sent.kind), out);
            put(" is sent", out);
        }
        Phase::GoOffered(_) => put(name(Kind::Phase, 3), out),
        Phase::DataAwaited(_) => put(name(Kind::Phase, 4), out),
        Phase::ResultAwaited(operation, _) => {
            put("the result of ", out);
            put(name(Kind::Operation, operation), out);
            put(" is awaited", out);
        }
        Phase::EorOffered(_) => put(name(Kind::Phase, 6), out),
    }
}

/// What was there before a call, as far as its words need it.
struct Before {
    phase: Phase,
    /// The string so far.
    string: [u8; 8],
    /// The store that a hand would hand over.
    next: Option<(u8, Store)>,
}

/// Plays lines and tells them.
pub struct Explainer {
    buffers: Buffers,
    teller: Teller,
}

/// What tells a line that was read.
struct Teller {
    player: Player,
    options: Options,
    /// Which load the last reply answered.
    load: u8,
    number: Number,
    /// How many lines were unreadable, and the number of the first.
    unread: (usize, usize),
}

/// The number of a line, and its digits, which count up as they stand: right in their columns, with two blanks behind.
struct Number {
    value: usize,
    digits: Vec<u8>,
}

impl Number {
    fn next(&mut self) {
        self.value += 1;
        for digit in self.digits[..].iter_mut().rev().skip(2) {
            match *digit {
                b'9' => *digit = b'0',
                b' ' => {
                    *digit = b'1';
                    return;
                }
                _ => {
                    *digit += 1;
                    return;
                }
            }
        }
        self.digits.insert(0, b'1');
    }
}

/// A byte of a string, as it is told in its columns: the byte, how many came, of how many.
const PART: &[u8; 41] = b"B,00              byte 0 of 8 of a store\n";
const _: () = assert!(PART.len() == WIDTH + 2 + 23);

impl Explainer {
    pub fn new(options: Options) -> Explainer {
        Explainer {
            buffers: Buffers::default(),
            teller: Teller {
                player: Player::default(),
                options,
                load: 0,
                number: Number {
                    value: 0,
                    digits: vec![b' '; NUMBER_WIDTH + 2],
                },
                unread: (0, 0),
            },
        }
    }

    /// The controller as it stands behind the last line.
    pub fn player(&self) -> &Player {
        &self.teller.player
    }

    /// How many lines were unreadable, comments apart, and the number of the first.
    pub fn unreadable(&self) -> Option<(usize, usize)> {
        (self.teller.unread.0 > 0).then_some(self.teller.unread)
    }

    /// Tells one line, given without its #0A.
    pub fn tell(&mut self, text: &[u8], out: &mut Vec<u8>) {
        let teller = &mut self.teller;
        teller.number.next();
        let read = self.buffers.read(text, teller.options.program);
        if let (Ok(Line::Byte(byte)), Some(length)) = (&read, teller.player.controller.collecting())
        {
            if teller.options.is_plain() && teller.tell_part(*byte, length, text, out) {
                return;
            }
        }
        if text.first() == Some(&b'#') && !teller.options.answers {
            if teller.options.is_plain() {
                out.extend_from_slice(text);
                out.push(b'\n');
            }
            return;
        }
        teller.tell(text, &read, out);
    }
}

impl Options {
    /// Every line is told, in its columns.
    fn is_plain(&self) -> bool {
        !self.answers && !self.only_actions && self.drive.is_none()
    }
}

impl Teller {
    /// Most lines of a session are bytes of a string that goes on. Where this is one it is played and told, and else
    /// left.
    fn tell_part(&mut self, byte: u8, length: usize, text: &[u8], out: &mut Vec<u8>) -> bool {
        let controller = &mut self.player.controller;
        let lead = match length {
            0 if byte == LOAD_LEAD || byte == STORE_LEAD => byte,
            0 => return false,
            _ => controller.string()[0],
        };
        let whole = if lead == LOAD_LEAD { 4 } else { 8 };
        if length + 1 == whole || controller.byte(byte).is_err() {
            return false;
        }
        out.extend_from_slice(&self.number.digits);
        let start = out.len();
        out.extend_from_slice(PART);
        let part = &mut out[start..];
        part[2..4].copy_from_slice(&text[2..4]);
        part[WIDTH + 7] = b'1' + length as u8;
        if lead == LOAD_LEAD {
            part[WIDTH + 12] = b'4';
            part[WIDTH + 19..].copy_from_slice(b"load\n\n");
            out.pop();
        }
        true
    }

    /// Plays a line and tells it; none is an unreadable one.
    fn tell(&mut self, text: &[u8], read: &Result<Line, Unreadable>, out: &mut Vec<u8>) {
        let start = out.len();
        let controller = &self.player.controller;
        let before = Before {
            phase: controller.phase(),
            string: controller.string(),
            next: match read {
                Ok(Line::Hand) => controller.next_queued(),
                _ => None,
            },
        };
        let answered = read.as_ref().ok().map(|line| self.player.call(line));
        if !self.options.answers {
            self.put_head(text, out);
        } else {
            put_answer(answered.as_ref(), &self.player, self.options.program, out);
            out.push(b'\t');
            out.extend_from_slice(text);
            out.push(b'\t');
        }
        let shown = match (read, &answered) {
            (Ok(line), Some(answered)) => {
                self.put_words(line, &before, answered, out);
                self.options.is_plain() || self.is_shown(line, &before, answered)
            }
            (Err(unreadable), _) if text.first() != Some(&b'#') => {
                if self.unread.0 == 0 {
                    self.unread.1 = self.number.value;
                }
                self.unread.0 += 1;
                put("unreadable, column ", out);
                put_decimal(unreadable.column, out);
                put(": ", out);
                put(&unreadable.why.to_string(), out);
                true
            }
            _ => {
                put("comment", out);
                true
            }
        };
        if shown {
            out.push(b'\n');
        } else {
            out.truncate(start);
        }
    }

    /// The number of the line and the line, cut where it is long.
    fn put_head(&self, text: &[u8], out: &mut Vec<u8>) {
        out.extend_from_slice(&self.number.digits);
        let mut columns = [b' '; WIDTH + 2];
        let shown = if text.len() > WIDTH {
            WIDTH - 2
        } else {
            text.len()
        };
        for (column, &byte) in columns.iter_mut().zip(&text[..shown]) {
            *column = if byte.is_ascii_control() { b'.' } else { byte };
        }
        if shown < text.len() {
            columns[WIDTH - 2..WIDTH].copy_from_slice(b"..");
        }
        out.extend_from_slice(&columns);
    }

    fn is_shown(&self, line: &Line, before: &Before, answered: &Answered) -> bool {
        let told = match answered {
            Ok(answer) => answer.action != Action::Nothing || answer.settled.is_some(),
            Err(_) => true,
        };
        if self.options.only_actions && !told {
            return false;
        }
        let Some(drive) = self.options.drive else {
            return true;
        };
        let of = |store: &Store| store.drive().unwrap_or(self.player.controller.selected());
        match (line, before.phase) {
            (Line::Report { drive: named, .. }, _) => *named == drive,
            (Line::Queue { store, .. }, _) => of(store) == drive,
            (Line::Reset, _) => true,
            // a string is told by its last byte
            (Line::Byte(_), Phase::Collecting(_)) => {
                let string = self.player.controller.collected();
                match self.player.controller.phase() {
                    Phase::AckOffered if string[0] == STORE_LEAD => of(&store_of(string)) == drive,
                    Phase::AckOffered => self.player.controller.selected() == drive,
                    _ => told,
                }
            }
            _ => self.player.controller.selected() == drive,
        }
    }

    fn put_words(&mut self, line: &Line, before: &Before, answered: &Answered, out: &mut Vec<u8>) {
        match answered {
            Ok(answer) => {
                let arrow = self.put_call(line, before, answer, out);
                let reported = match line {
                    Line::Result { outcome, .. } => Some(outcome.code),
                    _ => None,
                };
                self.put_answer_words(before, answer, reported, arrow, out);
            }
            Err(refusal) => self.put_refusal(line, *refusal, out),
        }
    }

    /// What a line says, where it is not refused; gives whether an arrow leads on to the answer.
    fn put_call(
        &mut self,
        line: &Line,
        before: &Before,
        answer: &Answer,
        out: &mut Vec<u8>,
    ) -> bool {
        match line {
            Line::Byte(byte) => return self.put_byte(*byte, before, answer, out),
            Line::Taken => {
                put("ACK taken", out);
                if before.string[0] == LOAD_LEAD {
                    self.load = before.string[1] >> 4 & 7;
                }
            }
            Line::Broken => match before.phase {
                Phase::Collecting(0) => put("broken off, nothing was under way", out),
                Phase::Collecting(_) | Phase::AckOffered => {
                    put("broken off: the string is dropped", out)
                }
                Phase::Sending(sent) => {
                    put("broken off: ", out);
                    put(name(Kind::Sent, sent.kind), out);
                    put(" given up", out);
                }
                Phase::GoOffered(_) => put("broken off: GO not accepted", out),
                _ => put("broken off: EOR not accepted", out),
            },
            Line::Report { drive, report } => {
                put("report: drive ", out);
                put_decimal(*drive as usize, out);
                out.push(b' ');
                put_report(*report, out);
            }
            Line::Data(host) => {
                put("data: ", out);
                put_count(host.len(), "byte", "bytes", out);
            }
            Line::Result { outcome, space } => {
                put("result: ", out);
                let operation = match before.phase {
                    Phase::ResultAwaited(operation, _) => Some(operation),
                    _ => None,
                };
                put_outcome(outcome, operation, out);
                let wanted = match operation {
                    Some(CHECK_BYTES) => 512,
                    _ => image_count(outcome.image).unwrap_or(0) as usize,
                };
                if *space < wanted
                    && operation.is_some_and(|operation| DELIVERING.contains(&operation))
                {
                    put(", room for ", out);
                    put_count(*space, "byte", "bytes", out);
                }
            }
            Line::Tick => put("tick", out),
            Line::Reset => put("reset", out),
            Line::Queue { job, store } => {
                put("job ", out);
                put_decimal(*job as usize, out);
                put(" queues: ", out);
                put_store(store, out);
            }
            Line::Hand => match &before.next {
                None => put("hand: nothing is queued", out),
                Some((job, store)) => {
                    put("hand, job ", out);
                    put_decimal(*job as usize, out);
                    put(": ", out);
                    put_store(store, out);
                }
            },
        }
        true
    }

    fn put_byte(&mut self, byte: u8, before: &Before, answer: &Answer, out: &mut Vec<u8>) -> bool {
        let accepts = byte == ACK;
        match before.phase {
            Phase::Collecting(length) => match answer.action {
                Action::Nothing if length == 0 && byte == NACK => {
                    put("NACK, ignored: nothing is offered", out)
                }
                Action::Nothing => {
                    put_part(
                        if length == 0 { byte } else { before.string[0] },
                        length + 1,
                        out,
                    );
                    return false;
                }
                Action::Offer(ACK) => {
                    let string = self.player.controller.collected();
                    if string[0] == LOAD_LEAD {
                        put("load: ", out);
                        let words = name(Kind::Load, string[1] >> 4 & 7);
                        put(
                            if words.is_empty() {
                                "none (no reply)"
                            } else {
                                words
                            },
                            out,
                        );
                    } else {
                        put("store: ", out);
                        put_store(&store_of(string), out);
                    }
                }
                _ if length == 0 => {
                    put("byte ", out);
                    put_hex(&[byte], out);
                    put(" begins no string", out);
                }
                _ => {
                    let load = before.string[0] == LOAD_LEAD;
                    put(if load { "load" } else { "store" }, out);
                    put(" with a wrong check byte, ", out);
                    put_hex(
                        &[before.string[..length]
                            .iter()
                            .fold(0, |sum, byte| sum ^ byte)],
                        out,
                    );
                    put(" would be right", out);
                }
            },
            Phase::AckOffered => put("a byte in place of taking ACK: the string is dropped", out),
            Phase::Sending(sent) => {
                put(name(Kind::Sent, sent.kind), out);
                if accepts {
                    put(" accepted", out);
                } else if sent.noes + 1 == LAST_NO {
                    put(" refused for the fifth time, given up", out);
                } else {
                    put(" refused", out);
                }
            }
            Phase::GoOffered(_) => put(if accepts { "GO accepted" } else { "GO refused" }, out),
            _ => put(
                if accepts {
                    "EOR accepted"
                } else {
                    "EOR refused, which is the same"
                },
                out,
            ),
        }
        true
    }

    /// What a call leads to: the code that it settled, bytes, and what is to be done.
    fn put_answer_words(
        &self,
        before: &Before,
        answer: &Answer,
        reported: Option<u8>,
        arrow: bool,
        out: &mut Vec<u8>,
    ) {
        let start = out.len();
        let controller = &self.player.controller;
        let join = |out: &mut Vec<u8>| put(if out.len() == start { " -> " } else { "; " }, out);
        if let Some(settled) = answer.settled {
            join(out);
            // a result that stands is not said twice
            if reported != Some(settled.code) {
                put_code(settled.code, out);
                put("; ", out);
            }
            put_motion(settled.motion, out);
            if controller.counts() {
                put("; count ", out);
                put_decimal(settled.count as usize, out);
            }
        }
        let moved = matches!(
            before.phase,
            Phase::DataAwaited(_) | Phase::ResultAwaited(..)
        );
        if answer.given > 0 && moved {
            join(out);
            match answer.action {
                Action::Order(_) => {
                    put("image of ", out);
                    put_count(answer.given, "byte", "bytes", out);
                }
                _ => {
                    put_count(answer.given, "byte", "bytes", out);
                    put(" delivered", out);
                }
            }
        }
        match &answer.action {
            Action::Offer(byte) => {
                join(out);
                put(name(Kind::Offer, *byte), out);
                put(" offered", out);
            }
            Action::Send(string) => {
                join(out);
                put_sent(string, self.load, out);
            }
            Action::Order(order) => {
                join(out);
                put_order(order, out);
            }
            Action::Nothing if !arrow => {}
            Action::Nothing => match (before.phase, controller.phase()) {
                (Phase::GoOffered(_), Phase::DataAwaited(_)) => {
                    join(out);
                    put("data is awaited", out);
                }
                (Phase::AckOffered, Phase::ResultAwaited(..)) => {
                    join(out);
                    put("a result is awaited", out);
                }
                (Phase::EorOffered(_) | Phase::Sending(_), Phase::Collecting(0)) => {
                    join(out);
                    put("idle", out);
                }
                _ => {}
            },
        }
    }

    fn put_refusal(&self, line: &Line, refusal: Refusal, out: &mut Vec<u8>) {
        put(
            match line {
                Line::Byte(_) => "byte",
                Line::Taken => "taken",
                Line::Broken => "broken",
                Line::Report { .. } => "report",
                Line::Data(_) => "data",
                Line::Result { .. } => "result",
                Line::Tick => "tick",
                Line::Reset => "reset",
                Line::Queue { .. } => "queue",
                Line::Hand => "hand",
            },
            out,
        );
        put(" refused, ", out);
        put_decimal(refusal.0 as usize, out);
        put(": ", out);
        put(name(Kind::Refusal, refusal.0), out);
        let controller = &self.player.controller;
        match (line, refusal.0, controller.phase()) {
            (_, 2..=4, _) => {
                put("; now: ", out);
                put_awaited(&self.player, out);
            }
            (Line::Result { outcome, .. }, 7, Phase::ResultAwaited(operation, _)) => {
                put("; ", out);
                put_code(outcome.code, out);
                put(" of ", out);
                put(name(Kind::Operation, operation), out);
            }
            (Line::Result { outcome, .. }, 8, Phase::ResultAwaited(operation, _)) => {
                put(
                    if outcome.mark {
                        "; mark found, "
                    } else {
                        "; no mark, "
                    },
                    out,
                );
                put("late flags ", out);
                put_decimal(outcome.late as usize, out);
                put(", ", out);
                put_code(outcome.code, out);
                put(" of ", out);
                put(name(Kind::Operation, operation), out);
            }
            (Line::Result { outcome, .. }, 9, Phase::ResultAwaited(operation, _)) => {
                put("; image of ", out);
                put_count(outcome.image.len(), "byte", "bytes", out);
                put(", ", out);
                put_count(outcome.marks.len(), "mark", "marks", out);
                put(", ", out);
                put(name(Kind::Operation, operation), out);
                let density = controller.drive(controller.selected()).density;
                put(" in ", out);
                put(
                    name(Kind::Density, if operation == 2 { GCR } else { density }),
                    out,
                );
            }
            (Line::Result { outcome, .. }, 10, _) => put_bad(outcome.marks, out),
            _ => {}
        }
    }
}

/// What a single word may be.
const WORDS: &str =
    "a status word has 8 hexadecimal digits, a string to the host or an order 12, a store 16, letters capital";

/// A single word, which may have 0x before it: 8 digits of the word of a load, primary where none is named; 12 of a
/// string to the host or of an order; 16 of a store. Else what is wrong with it.
pub fn told_word(load: Option<&str>, word: &str) -> Result<String, String> {
    let of = load.unwrap_or(name(Kind::Load, PRIMARY));
    let Some(number) = names().number(Kind::Load, of) else {
        let loads = listed(&names().words(Kind::Load));
        return Err(format!("the load is {loads}, and not '{of}'"));
    };
    let digits = word.strip_prefix("0x").unwrap_or(word);
    let mut bytes = Vec::new();
    if digits.len() % 2 != 0 || !crate::line::put_bytes(digits.as_bytes(), &mut bytes) {
        return Err(WORDS.to_string());
    }
    let mut out = Vec::new();
    let sum = bytes.iter().fold(0, |sum, byte| sum ^ byte);
    let checked = |what: &str, check: u8| match sum {
        0 => Ok(()),
        _ => Err(format!(
            "{what} with a wrong check byte, {:02X} would be right",
            check ^ sum
        )),
    };
    match (load, &bytes[..]) {
        (_, &[a, b, c, d]) => {
            put(of, &mut out);
            put(": ", &mut out);
            put_word(number as u8, u32::from_be_bytes([a, b, c, d]), &mut out);
        }
        (Some(_), _) => return Err(WORDS.to_string()),
        (None, &[lead, b, c, d, e, check])
            if matches!(lead, REPLY_LEAD | UPDATE_LEAD | INTERRUPT_LEAD) =>
        {
            checked("a string to the host", check)?;
            put_sent(&[lead, b, c, d, e, check], PRIMARY, &mut out);
        }
        (None, &[a, b, c, d, e, f]) if !name(Kind::Order, a).is_empty() => {
            put_order(&[a, b, c, d, e, f], &mut out);
        }
        (None, &[STORE_LEAD, .., check]) if bytes.len() == 8 => {
            checked("a store", check)?;
            put("store: ", &mut out);
            put_store(&store_of(&bytes), &mut out);
        }
        (None, &[lead, ..]) if bytes.len() == 8 => {
            return Err(format!("16 digits are a store, which begins with {STORE_LEAD:02X}, and not with {lead:02X}"));
        }
        (None, &[lead, ..]) if bytes.len() == 6 => {
            return Err(format!(
                "12 digits are a string to the host, which begins with {REPLY_LEAD:02X}, {UPDATE_LEAD:02X} or \
                 {INTERRUPT_LEAD:02X}, or an order, and none begins with {lead:02X}"
            ));
        }
        _ => return Err(WORDS.to_string()),
    }
    Ok(String::from_utf8(out).expect("the table of names is text"))
}

/// The store of a whole string.
pub fn store_of(string: &[u8]) -> Store {
    Store {
        address: string[1],
        operand: [string[2], string[3], string[4], string[5]],
    }
}
