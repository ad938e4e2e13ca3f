//! Lines of sessions and of sessions of jobs, both ways: what crates/lines and crates/joblines read, with the reason
//! where a line is unreadable, and the answers that they print.

use crate::interface::{Action, Answered, Controller, Outcome, Settled, Store, NO_PLACE};
use std::fmt;

// The limits of a line, which are also those of the programs' spaces: kind `limit` of the table of names.
/// Host bytes of a line, and space.
pub const HOST_LIMIT: usize = 16_384;
/// Image of a line, and image space.
pub const IMAGE_LIMIT: usize = 16_898;
/// Marks of a line.
pub const MARKS_LIMIT: usize = 66;

/// Which program reads the lines.
#[derive(Clone, Copy, Debug, PartialEq, Eq)]
pub enum Program {
    Session,
    Jobs,
}

/// A call; its bytes stand in the buffers that the line was read into.
#[derive(Clone, Copy, Debug, PartialEq, Eq)]
pub enum Line<'a> {
    Byte(u8),
    Taken,
    Broken,
    Report { drive: u8, report: u8 },
    Data(&'a [u8]),
    Result { outcome: Outcome<'a>, space: usize },
    Tick,
    Reset,
    Queue { job: u8, store: Store },
    Hand,
}

/// What is wrong with a line: in which field, and where that starts.
#[derive(Clone, Debug, PartialEq, Eq)]
pub struct Unreadable {
    /// Counted from 1.
    pub column: usize,
    pub why: Why,
}

#[derive(Clone, Debug, PartialEq, Eq)]
pub enum Why {
    Empty,
    CarriageReturn,
    /// A first letter that no line has.
    Letter(u8),
    /// The same of a letter that is capital in a line.
    Small(u8),
    /// Only the jobs program reads it.
    JobsAlone,
    /// A letter without the fields of its form.
    FieldsMissing(&'static str),
    /// A letter that stands alone, with something behind it.
    StandsAlone(u8),
    Missing(&'static str, &'static str),
    NotByte(&'static str, String),
    NotOperand(String),
    NotDecimal(&'static str, String, usize),
    Above(&'static str, usize),
    OddDigits(&'static str, usize),
    NotDigit(&'static str, u8),
    TooLong(&'static str, usize, usize),
}

/// A character as it can be shown.
fn shown(byte: u8) -> String {
    match byte {
        b' ' => "a blank".to_string(),
        b'\t' => "a tab".to_string(),
        0x21..=0x7E => format!("'{}'", byte as char),
        _ => format!("the byte {byte:02X}"),
    }
}

impl fmt::Display for Why {
    fn fmt(&self, f: &mut fmt::Formatter) -> fmt::Result {
        match self {
            Why::Empty => write!(f, "an empty line says nothing; a comment begins with #"),
            Why::CarriageReturn => write!(f, "the line ends with CR: save the file with LF ends"),
            Why::Letter(letter) => {
                write!(
                    f,
                    "no line begins with {}: the letters are B, T, X, S, D, R, K and Z, of jobs Q and H too",
                    shown(*letter)
                )
            }
            Why::Small(letter) => write!(
                f,
                "letters are capital: {}",
                letter.to_ascii_uppercase() as char
            ),
            Why::JobsAlone => write!(f, "only ctc jobs takes it"),
            Why::FieldsMissing(form) => write!(f, "fields are missing: the form is {form}"),
            Why::StandsAlone(letter) => write!(f, "{} stands alone on its line", *letter as char),
            Why::Missing(field, form) => write!(f, "{field} is missing: the form is {form}"),
            Why::NotByte(field, text) => {
                write!(
                    f,
                    "{field} '{text}' is not two hexadecimal digits, letters capital"
                )
            }
            Why::NotOperand(text) => {
                write!(
                    f,
                    "operand '{text}' is not eight hexadecimal digits, letters capital"
                )
            }
            Why::NotDecimal(field, text, most) => {
                write!(
                    f,
                    "{field} '{text}' is no decimal number: it may be 0 to {most}"
                )
            }
            Why::Above(field, most) => write!(f, "{field} is above {most}"),
            Why::OddDigits(field, digits) => {
                write!(
                    f,
                    "{field} has {digits} digits: two hexadecimal digits make a byte"
                )
            }
            Why::NotDigit(field, byte) => {
                write!(
                    f,
                    "{field} has {}, which is no hexadecimal digit, letters capital",
                    shown(*byte)
                )
            }
            Why::TooLong(field, bytes, most) => {
                write!(f, "{field} has {bytes} bytes, and a line holds {most}")
            }
        }
    }
}

/// The forms of the lines with fields.
pub const BYTE_FORM: &str = "B,byte";
pub const REPORT_FORM: &str = "S,drive,byte";
pub const DATA_FORM: &str = "D,host";
pub const RESULT_FORM: &str = "R,code,mark,late,image,marks,space";
pub const QUEUE_FORM: &str = "Q,job,address,operand";

const fn digits() -> [u8; 256] {
    let mut table = [0xFF; 256];
    let mut value = 0;
    while value < 16 {
        table[b"0123456789ABCDEF"[value] as usize] = value as u8;
        value += 1;
    }
    table
}

/// The value of a hexadecimal digit, or FF.
const DIGIT: [u8; 256] = digits();

/// The two digits of each byte.
const PAIRS: [[u8; 2]; 256] = {
    let mut table = [[0; 2]; 256];
    let mut byte = 0;
    while byte < 256 {
        table[byte] = [
            b"0123456789ABCDEF"[byte >> 4],
            b"0123456789ABCDEF"[byte & 15],
        ];
        byte += 1;
    }
    table
};

pub fn put_hex(bytes: &[u8], out: &mut Vec<u8>) {
    out.reserve(2 * bytes.len());
    for &byte in bytes {
        out.extend_from_slice(&PAIRS[byte as usize]);
    }
}

pub fn hex(bytes: &[u8]) -> String {
    let mut out = Vec::new();
    put_hex(bytes, &mut out);
    String::from_utf8(out).expect("digits")
}

/// Appends the bytes that pairs of digits spell, and says whether all are digits. A block is looked through without a
/// branch, so that the compiler takes many at a time.
pub fn put_bytes(field: &[u8], out: &mut Vec<u8>) -> bool {
    const BLOCK: usize = 32;
    let mut wrong = 0;
    let mut blocks = field.chunks_exact(2 * BLOCK);
    for block in &mut blocks {
        let mut values = [0; 2 * BLOCK];
        for (value, &digit) in values.iter_mut().zip(block) {
            // 0-9 are #30-#39, A-F are #41-#46
            let decimal = digit.wrapping_sub(b'0') < 10;
            let letter = digit.wrapping_sub(b'A') < 6;
            wrong |= u8::from(!(decimal | letter));
            *value = (digit & 15).wrapping_add(if letter { 9 } else { 0 });
        }
        let mut bytes = [0; BLOCK];
        for (byte, pair) in bytes.iter_mut().zip(values.chunks_exact(2)) {
            *byte = pair[0] << 4 | pair[1];
        }
        out.extend_from_slice(&bytes);
    }
    let rest = blocks.remainder();
    out.extend(rest.chunks_exact(2).map(|pair| {
        let (high, low) = (DIGIT[pair[0] as usize], DIGIT[pair[1] as usize]);
        wrong |= (high | low) & 0xF0;
        high << 4 | low & 15
    }));
    // an odd one at the end
    if let [.., last] = rest {
        wrong |= DIGIT[*last as usize] & 0xF0;
    }
    wrong == 0
}

/// A field of text, cut where it is long, for a message.
fn cut(field: &[u8]) -> String {
    let mut text: String = field
        .iter()
        .take(12)
        .flat_map(|byte| byte.escape_ascii())
        .map(char::from)
        .collect();
    if field.len() > 12 {
        text.push_str("..");
    }
    text
}

/// The fields of a line behind its letter; the last one goes to the end, whatever commas it has.
struct Fields<'a> {
    line: &'a [u8],
    /// Where the next field starts; past the end where there is none.
    at: usize,
    form: &'static str,
}

impl<'a> Fields<'a> {
    fn wrong(&self, start: usize, why: Why) -> Unreadable {
        Unreadable {
            column: start + 1,
            why,
        }
    }

    fn next(&mut self, last: bool) -> (usize, &'a [u8]) {
        let start = self.at.min(self.line.len());
        let rest = &self.line[start..];
        let comma = if last { None } else { position(b',', rest) };
        let length = comma.unwrap_or(rest.len());
        self.at = start + length + 1;
        (start, &rest[..length])
    }

    fn byte(&mut self, name: &'static str, last: bool) -> Result<u8, Unreadable> {
        let (start, field) = self.next(last);
        if let [high, low] = *field {
            let (high, low) = (DIGIT[high as usize], DIGIT[low as usize]);
            if high | low < 16 {
                return Ok(high << 4 | low);
            }
        }
        let why = match field {
            [] => Why::Missing(name, self.form),
            _ => Why::NotByte(name, cut(field)),
        };
        Err(self.wrong(start, why))
    }

    fn decimal(
        &mut self,
        name: &'static str,
        most: usize,
        last: bool,
    ) -> Result<usize, Unreadable> {
        let (start, field) = self.next(last);
        if field.is_empty() {
            return Err(self.wrong(start, Why::Missing(name, self.form)));
        }
        if !field.iter().all(u8::is_ascii_digit) {
            return Err(self.wrong(start, Why::NotDecimal(name, cut(field), most)));
        }
        let value = field.iter().fold(0usize, |value, digit| {
            value
                .saturating_mul(10)
                .saturating_add((digit - b'0') as usize)
        });
        if value > most {
            return Err(self.wrong(start, Why::Above(name, most)));
        }
        Ok(value)
    }

    fn bytes(
        &mut self,
        name: &'static str,
        most: usize,
        last: bool,
        out: &mut Vec<u8>,
    ) -> Result<(), Unreadable> {
        let (start, field) = self.next(last);
        out.clear();
        let digits = put_bytes(field, out);
        if digits && field.len() % 2 == 0 && out.len() <= most {
            return Ok(());
        }
        let why = match field.iter().find(|&&byte| DIGIT[byte as usize] > 15) {
            Some(&byte) => Why::NotDigit(name, byte),
            None if field.len() % 2 == 1 => Why::OddDigits(name, field.len()),
            None => Why::TooLong(name, out.len(), most),
        };
        Err(self.wrong(start, why))
    }
}

/// Where the bytes of a line are put.
#[derive(Default)]
pub struct Buffers {
    bytes: Vec<u8>,
    marks: Vec<u8>,
}

impl Buffers {
    /// Reads a line, given without its #0A.
    pub fn read(&mut self, line: &[u8], program: Program) -> Result<Line<'_>, Unreadable> {
        if let [b'B', b',', high, low] = *line {
            let (high, low) = (DIGIT[high as usize], DIGIT[low as usize]);
            if high | low < 16 {
                return Ok(Line::Byte(high << 4 | low));
            }
        }
        let at = |column: usize, why| Unreadable { column, why };
        // what no form has is said before what the form lacks
        let Some(&letter) = line.first() else {
            return Err(at(1, Why::Empty));
        };
        if line.ends_with(b"\r") {
            return Err(at(line.len(), Why::CarriageReturn));
        }
        let form = match letter {
            b'B' => BYTE_FORM,
            b'S' => REPORT_FORM,
            b'D' => DATA_FORM,
            b'R' => RESULT_FORM,
            b'Q' if program == Program::Jobs => QUEUE_FORM,
            b'Q' | b'H' if program == Program::Session => return Err(at(1, Why::JobsAlone)),
            b'T' | b'X' | b'K' | b'Z' | b'H' => {
                if line.len() > 1 {
                    return Err(at(2, Why::StandsAlone(letter)));
                }
                return Ok(match letter {
                    b'T' => Line::Taken,
                    b'X' => Line::Broken,
                    b'K' => Line::Tick,
                    b'Z' => Line::Reset,
                    _ => Line::Hand,
                });
            }
            b'b' | b't' | b'x' | b's' | b'd' | b'r' | b'k' | b'z' | b'q' | b'h' => {
                return Err(at(1, Why::Small(letter)))
            }
            _ => return Err(at(1, Why::Letter(letter))),
        };
        if line.get(1) != Some(&b',') {
            return Err(at(2, Why::FieldsMissing(form)));
        }
        let mut fields = Fields { line, at: 2, form };
        match letter {
            b'B' => Ok(Line::Byte(fields.byte("byte", true)?)),
            b'S' => Ok(Line::Report {
                drive: fields.decimal("drive", 255, false)? as u8,
                report: fields.byte("byte", true)?,
            }),
            b'D' => {
                fields.bytes("host", HOST_LIMIT, true, &mut self.bytes)?;
                Ok(Line::Data(&self.bytes))
            }
            b'R' => {
                let code = fields.byte("code", false)?;
                let mark = fields.decimal("mark", 1, false)? == 1;
                let late = fields.decimal("late", 255, false)? as u8;
                fields.bytes("image", IMAGE_LIMIT, false, &mut self.bytes)?;
                fields.bytes("marks", MARKS_LIMIT, false, &mut self.marks)?;
                let space = fields.decimal("space", HOST_LIMIT, true)?;
                let outcome = Outcome {
                    code,
                    mark,
                    late,
                    image: &self.bytes,
                    marks: &self.marks,
                };
                Ok(Line::Result { outcome, space })
            }
            _ => {
                let job = fields.decimal("job", 255, false)? as u8;
                let address = fields.byte("address", false)?;
                let (start, field) = fields.next(true);
                let mut operand = [0; 4];
                let whole = field.len() == 8 && field.iter().all(|&byte| DIGIT[byte as usize] < 16);
                if !whole {
                    let why = match field {
                        [] => Why::Missing("operand", QUEUE_FORM),
                        _ => Why::NotOperand(cut(field)),
                    };
                    return Err(at(start + 1, why));
                }
                for (byte, pair) in operand.iter_mut().zip(field.chunks_exact(2)) {
                    *byte = DIGIT[pair[0] as usize] << 4 | DIGIT[pair[1] as usize];
                }
                let store = Store { address, operand };
                Ok(Line::Queue { job, store })
            }
        }
    }
}

/// Writes a line as it is read, without #0A.
pub fn put_line(line: &Line, out: &mut Vec<u8>) {
    let decimal = |number: usize, out: &mut Vec<u8>| put_decimal(number, out);
    match line {
        Line::Byte(byte) => {
            out.extend_from_slice(b"B,");
            put_hex(&[*byte], out);
        }
        Line::Taken => out.push(b'T'),
        Line::Broken => out.push(b'X'),
        Line::Tick => out.push(b'K'),
        Line::Reset => out.push(b'Z'),
        Line::Hand => out.push(b'H'),
        Line::Report { drive, report } => {
            out.extend_from_slice(b"S,");
            decimal(*drive as usize, out);
            out.push(b',');
            put_hex(&[*report], out);
        }
        Line::Data(host) => {
            out.extend_from_slice(b"D,");
            put_hex(host, out);
        }
        Line::Result { outcome, space } => {
            out.extend_from_slice(b"R,");
            put_hex(&[outcome.code], out);
            out.extend_from_slice(if outcome.mark { b",1," } else { b",0," });
            decimal(outcome.late as usize, out);
            out.push(b',');
            put_hex(outcome.image, out);
            out.push(b',');
            put_hex(outcome.marks, out);
            out.push(b',');
            decimal(*space, out);
        }
        Line::Queue { job, store } => {
            out.extend_from_slice(b"Q,");
            decimal(*job as usize, out);
            out.push(b',');
            put_hex(&[store.address], out);
            out.push(b',');
            put_hex(&store.operand, out);
        }
    }
}

pub fn put_decimal(number: usize, out: &mut Vec<u8>) {
    let mut digits = [0; 20];
    let mut at = digits.len();
    let mut left = number;
    loop {
        at -= 1;
        digits[at] = b'0' + (left % 10) as u8;
        left /= 10;
        if left == 0 {
            break;
        }
    }
    out.extend_from_slice(&digits[at..]);
}

/// The lines of a text: each ends with #0A, and a last one without it counts.
pub fn split(text: &[u8]) -> impl Iterator<Item = &[u8]> {
    let mut rest = text;
    std::iter::from_fn(move || {
        if rest.is_empty() {
            return None;
        }
        let end = position(b'\n', rest).unwrap_or(rest.len());
        let line = &rest[..end];
        rest = &rest[(end + 1).min(rest.len())..];
        Some(line)
    })
}

/// Where a byte stands first; eight bytes are looked at at a time.
pub fn position(byte: u8, text: &[u8]) -> Option<usize> {
    const ONES: u64 = u64::from_ne_bytes([1; 8]);
    let wanted = ONES * u64::from(byte);
    let mut at = 0;
    while let Some(eight) = text.get(at..at + 8) {
        let differs = u64::from_le_bytes(eight.try_into().expect("eight bytes")) ^ wanted;
        let zero = differs.wrapping_sub(ONES) & !differs & (ONES << 7);
        if zero != 0 {
            return Some(at + zero.trailing_zeros() as usize / 8);
        }
        at += 8;
    }
    text[at..]
        .iter()
        .position(|&there| there == byte)
        .map(|found| at + found)
}

/// A controller with the spaces that the programs lend it.
#[derive(Clone)]
pub struct Player {
    pub controller: Controller,
    space: Vec<u8>,
}

impl Default for Player {
    fn default() -> Player {
        Player {
            controller: Controller::fresh(),
            space: vec![0; IMAGE_LIMIT],
        }
    }
}

impl Player {
    /// Makes the call of a line.
    pub fn call(&mut self, line: &Line) -> Answered {
        let controller = &mut self.controller;
        match line {
            Line::Byte(byte) => controller.byte(*byte),
            Line::Taken => controller.taken(),
            Line::Broken => controller.broken(),
            Line::Report { drive, report } => controller.report(*drive, *report),
            Line::Data(host) => controller.data(host, NO_PLACE, &mut self.space),
            Line::Result { outcome, space } => {
                controller.result(outcome, &mut self.space[..*space])
            }
            Line::Tick => controller.tick(),
            Line::Reset => controller.reset(),
            Line::Queue { job, store } => controller.queue(*job, *store),
            Line::Hand => controller.hand(),
        }
    }

    /// The bytes that an answer gives.
    pub fn given(&self, count: usize) -> &[u8] {
        &self.space[..count]
    }
}

/// Writes the answer to a line as the program prints it, without #0A; none is an unreadable line.
pub fn put_answer(
    answered: Option<&Answered>,
    player: &Player,
    program: Program,
    out: &mut Vec<u8>,
) {
    let mut settled: Option<Settled> = None;
    match answered {
        None => out.extend_from_slice(b"?,-,,"),
        Some(Err(refusal)) => {
            put_decimal(refusal.0 as usize, out);
            out.extend_from_slice(b",-,,");
        }
        Some(Ok(answer)) => {
            out.extend_from_slice(b"0,");
            match answer.action {
                Action::Nothing => out.extend_from_slice(b"-,"),
                Action::Offer(byte) => {
                    out.extend_from_slice(b"A,");
                    put_hex(&[byte], out);
                }
                Action::Send(six) => {
                    out.extend_from_slice(b"P,");
                    put_hex(&six, out);
                }
                Action::Order(six) => {
                    out.extend_from_slice(b"M,");
                    put_hex(&six, out);
                }
            }
            out.push(b',');
            put_hex(player.given(answer.given), out);
            settled = answer.settled;
        }
    }
    if program == Program::Jobs {
        match settled {
            None => out.extend_from_slice(b",-"),
            Some(settled) => {
                out.push(b',');
                put_hex(&[settled.code], out);
                out.push(b':');
                put_decimal(settled.motion as usize, out);
                out.push(b':');
                put_decimal(settled.count as usize, out);
            }
        }
    }
}
