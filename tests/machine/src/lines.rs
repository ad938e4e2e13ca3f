//! Lines of sessions and of sessions of jobs: reading a call, printing its answer.

use crate::jobs::{Queues, Store};
use crate::machine::{Action, Answer, Machine, Record, Reported};
use crate::mutants::Mutant;
use crate::records::{CHECK_BYTES, NO_PLACE};

// The program's own limits, which stayed as they were when records grew.
/// Host bytes of a data call, and host space of a result.
pub const HOST_LIMIT: usize = 16_384;
/// Bytes of an image in a line, and of the space for the image of a write.
pub const IMAGE_LIMIT: usize = 16_898;
/// Marks in a line.
pub const MARKS_LIMIT: usize = 66;

#[derive(Clone, Debug, PartialEq, Eq)]
pub enum Line {
    Byte(u8),
    Taken,
    Broken,
    Report {
        drive: u8,
        report: u8,
    },
    Data(Vec<u8>),
    Result {
        code: u8,
        mark: bool,
        late: u8,
        image: Vec<u8>,
        marks: Vec<u8>,
        space: usize,
    },
    Tick,
    Reset,
    Queue {
        job: u8,
        store: Store,
    },
    Hand,
}

/// Reads a line of a session of jobs: those of a session and two more.
pub fn read_of_jobs(line: &[u8]) -> Option<Line> {
    let mut fields = line.split(|&byte| byte == b',');
    let read = match fields.next()? {
        b"Q" => Line::Queue {
            job: decimal(fields.next()?, 255)? as u8,
            store: Store {
                address: hex_byte(fields.next()?)?,
                operand: hex_bytes(fields.next()?, 4)?.try_into().ok()?,
            },
        },
        b"H" => Line::Hand,
        _ => return read(line),
    };
    fields.next().is_none().then_some(read)
}

/// Reads a line, without its #0A; none if it is unreadable.
pub fn read(line: &[u8]) -> Option<Line> {
    let mut fields = line.split(|&byte| byte == b',');
    let read = match fields.next()? {
        b"B" => Line::Byte(hex_byte(fields.next()?)?),
        b"T" => Line::Taken,
        b"X" => Line::Broken,
        b"S" => Line::Report {
            drive: decimal(fields.next()?, 255)? as u8,
            report: hex_byte(fields.next()?)?,
        },
        b"D" => Line::Data(hex_bytes(fields.next()?, HOST_LIMIT)?),
        b"R" => Line::Result {
            code: hex_byte(fields.next()?)?,
            mark: decimal(fields.next()?, 1)? == 1,
            late: decimal(fields.next()?, 255)? as u8,
            image: hex_bytes(fields.next()?, IMAGE_LIMIT)?,
            marks: hex_bytes(fields.next()?, MARKS_LIMIT)?,
            space: decimal(fields.next()?, HOST_LIMIT)?,
        },
        b"K" => Line::Tick,
        b"Z" => Line::Reset,
        _ => return None,
    };
    fields.next().is_none().then_some(read)
}

/// One digit or more; leading zeros are readable and the value counts.
fn decimal(field: &[u8], limit: usize) -> Option<usize> {
    let mut value = 0usize;
    for byte in field {
        if !byte.is_ascii_digit() {
            return None;
        }
        value = value * 10 + (byte - b'0') as usize;
        if value > limit {
            return None;
        }
    }
    (!field.is_empty()).then_some(value)
}

fn hex_byte(field: &[u8]) -> Option<u8> {
    match hex_bytes(field, 1)?[..] {
        [byte] => Some(byte),
        _ => None,
    }
}

/// Two capital hexadecimal digits a byte.
fn hex_bytes(field: &[u8], limit: usize) -> Option<Vec<u8>> {
    if !field.len().is_multiple_of(2) || field.len() / 2 > limit {
        return None;
    }
    // Any byte that is no digit has high bits set in the table; they gather in `seen`.
    let mut seen = 0;
    let bytes = field
        .chunks_exact(2)
        .map(|pair| {
            let (high, low) = (DIGIT[pair[0] as usize], DIGIT[pair[1] as usize]);
            seen |= high | low;
            high << 4 | low & 15
        })
        .collect();
    (seen < 16).then_some(bytes)
}

/// The value of a digit, or 255.
const DIGIT: [u8; 256] = {
    let mut table = [255; 256];
    let mut value = 0;
    while value < 16 {
        table[DIGITS[value] as usize] = value as u8;
        value += 1;
    }
    table
};

const DIGITS: &[u8; 16] = b"0123456789ABCDEF";

pub fn write_hex(bytes: &[u8], out: &mut Vec<u8>) {
    out.extend(
        bytes
            .iter()
            .flat_map(|&byte| [DIGITS[(byte >> 4) as usize], DIGITS[(byte & 15) as usize]]),
    );
}

/// The machine with the spaces that the session program lends it.
#[derive(Clone)]
pub struct Session {
    pub machine: Machine,
    /// Whether jobs queue stores, and the record handed back is printed as a fifth field.
    jobs: bool,
    /// Z keeps it: it is the program's, not the machine's.
    pub check_store: [u8; CHECK_BYTES],
    image_space: Vec<u8>,
    host_space: Vec<u8>,
}

impl Session {
    pub fn new(mutant: Option<Mutant>) -> Session {
        Session {
            machine: Machine {
                queues: Queues::fresh_with(mutant),
                mutant,
                ..Machine::fresh()
            },
            jobs: false,
            check_store: [0; CHECK_BYTES],
            image_space: vec![0; IMAGE_LIMIT],
            host_space: vec![0; HOST_LIMIT],
        }
    }

    pub fn of_jobs(mutant: Option<Mutant>) -> Session {
        Session {
            jobs: true,
            ..Session::new(mutant)
        }
    }

    /// Answers one line, given without its #0A, and prints the answer with one.
    pub fn answer(&mut self, line: &[u8], out: &mut Vec<u8>) {
        let line = if self.jobs {
            read_of_jobs(line)
        } else {
            read(line)
        };
        let record = match line {
            Some(line) => self.call(&line, out),
            None => {
                out.extend_from_slice(b"?,-,,");
                None
            }
        };
        if self.jobs {
            print_record(record, out);
        }
        out.push(b'\n');
    }

    /// Makes the call, prints four fields and gives the record handed back.
    fn call(&mut self, line: &Line, out: &mut Vec<u8>) -> Option<Record> {
        let machine = &mut self.machine;
        let mut transferred: &[u8] = &[];
        let answer = match line {
            Line::Byte(byte) => machine.byte(*byte),
            Line::Taken => machine.taken(),
            Line::Broken => machine.broken(),
            Line::Report { drive, report } => machine.report(*drive, *report),
            Line::Tick => machine.tick(),
            Line::Reset => machine.reset(),
            Line::Queue { job, store } => machine.queue(*job, *store),
            Line::Hand => machine.hand(),
            Line::Data(host) => {
                let (space, check_store) = (&mut self.image_space, &mut self.check_store);
                let answer = machine.data(host, NO_PLACE, space, check_store);
                answer.map(|(action, length)| {
                    transferred = &self.image_space[..length];
                    action
                })
            }
            Line::Result {
                code,
                mark,
                late,
                image,
                marks,
                space,
            } => {
                let (code, mark, late) = (*code, *mark, *late);
                let reported = Reported {
                    code,
                    mark,
                    late,
                    image,
                    marks,
                };
                let host_space = &mut self.host_space[..*space];
                let answer = machine.result(reported, host_space, &mut self.check_store);
                answer.map(|(action, length)| {
                    transferred = &self.host_space[..length];
                    action
                })
            }
        };
        let record = match machine.mutant {
            Some(Mutant::RecordByRefused) if answer.is_err() => Some(machine.settled()),
            _ => machine.record.take(),
        };
        print(answer, transferred, out);
        record
    }
}

fn print(answer: Answer, transferred: &[u8], out: &mut Vec<u8>) {
    match answer {
        Err(refusal) => out.extend_from_slice(format!("{},-,", refusal as u8).as_bytes()),
        Ok(Action::None) => out.extend_from_slice(b"0,-,"),
        Ok(Action::Byte(byte)) => {
            out.extend_from_slice(b"0,A,");
            write_hex(&[byte], out);
        }
        Ok(Action::String(string)) => {
            out.extend_from_slice(b"0,P,");
            write_hex(&string, out);
        }
        Ok(Action::Order(order)) => {
            out.extend_from_slice(b"0,M,");
            write_hex(&order, out);
        }
    }
    out.push(b',');
    write_hex(transferred, out);
}

fn print_record(record: Option<Record>, out: &mut Vec<u8>) {
    let printed = match record {
        Some(record) => format!(",{:02X}:{}:{}", record.code, record.motion, record.count),
        None => ",-".to_string(),
    };
    out.extend_from_slice(printed.as_bytes());
}

/// The answers to a whole session.
pub fn run(session: &[u8], mutant: Option<Mutant>) -> Vec<u8> {
    run_in(Session::new(mutant), session)
}

/// The answers to a whole session of jobs.
pub fn run_of_jobs(session: &[u8], mutant: Option<Mutant>) -> Vec<u8> {
    run_in(Session::of_jobs(mutant), session)
}

fn run_in(mut machine: Session, session: &[u8]) -> Vec<u8> {
    let mut out = Vec::new();
    for line in split(session) {
        machine.answer(line, &mut out);
    }
    out
}

/// Lines end with #0A; a last one without it counts, and nothing stands after the last #0A.
pub fn split(text: &[u8]) -> impl Iterator<Item = &[u8]> {
    text.split_inclusive(|&byte| byte == b'\n')
        .map(|line| line.strip_suffix(b"\n").unwrap_or(line))
}
