//! A run as a session of jobs: each call to the controller as its line, with the answer that the controller gave.
//! `./ctc jobs` replays it to the same bytes.

use crate::board::{Call, Event};
use ctc_words::interface::{Action, Answered, Outcome, NO_PLACE};
use ctc_words::line::{put_decimal, put_hex, put_line, Line, HOST_LIMIT, IMAGE_LIMIT, MARKS_LIMIT};

/// A session and its answers, line by line.
#[derive(Debug, Default, PartialEq, Eq)]
pub struct Session {
    pub lines: Vec<u8>,
    pub answers: Vec<u8>,
}

/// The session of a run, or why no session says it.
pub fn session(events: &[Event]) -> Result<Session, String> {
    let mut session = Session::default();
    for event in events {
        match event {
            Event::Restart => return Err("the controller was started anew, and no line says that".to_string()),
            Event::Note { drive, text } => {
                let whose = drive.map_or(String::new(), |drive| format!("drive {drive}: "));
                session.lines.extend(format!("# {whose}{text}").bytes());
                session.answers.extend(b"?,-,,,-");
            }
            Event::Call { call, answered, bytes } => {
                put_call(call, bytes.len(), &mut session.lines)?;
                put_answer(answered, bytes, &mut session.answers);
            }
        }
        session.lines.push(b'\n');
        session.answers.push(b'\n');
    }
    Ok(session)
}

fn put_call(call: &Call, given: usize, out: &mut Vec<u8>) -> Result<(), String> {
    let line = match call {
        Call::Byte(byte) => Line::Byte(*byte),
        Call::Taken => Line::Taken,
        Call::Broken => Line::Broken,
        Call::Tick => Line::Tick,
        Call::Hand => Line::Hand,
        Call::Report { drive, report } => Line::Report { drive: *drive, report: *report },
        Call::Queue { job, store } => Line::Queue { job: *job, store: *store },
        Call::Data { host, place } => {
            if *place != NO_PLACE {
                return Err("a host byte came with bad parity, and no line says that".to_string());
            }
            if host.len() > HOST_LIMIT || given > IMAGE_LIMIT {
                return Err(format!("a write of {} bytes is too long for a line", host.len()));
            }
            Line::Data(host)
        }
        Call::Result { code, mark, late, image, marks, space } => {
            if image.len() > IMAGE_LIMIT || marks.len() > MARKS_LIMIT || given > HOST_LIMIT {
                return Err(format!("an image of {} bytes is too long for a line", image.len()));
            }
            let outcome = Outcome { code: *code, mark: *mark, late: *late, image, marks };
            Line::Result { outcome, space: HOST_LIMIT.min(*space) }
        }
    };
    put_line(&line, out);
    Ok(())
}

fn put_answer(answered: &Answered, bytes: &[u8], out: &mut Vec<u8>) {
    let answer = match answered {
        Ok(answer) => answer,
        Err(refusal) => {
            put_decimal(usize::from(refusal.0), out);
            out.extend(b",-,,,-");
            return;
        }
    };
    let (letter, said): (u8, &[u8]) = match &answer.action {
        Action::Nothing => (b'-', &[]),
        Action::Offer(byte) => (b'A', std::slice::from_ref(byte)),
        Action::Send(six) => (b'P', six),
        Action::Order(six) => (b'M', six),
    };
    out.extend([b'0', b',', letter, b',']);
    put_hex(said, out);
    out.push(b',');
    put_hex(bytes, out);
    out.push(b',');
    match answer.settled {
        None => out.push(b'-'),
        Some(settled) => {
            put_hex(&[settled.code], out);
            out.push(b':');
            put_decimal(usize::from(settled.motion), out);
            out.push(b':');
            put_decimal(usize::from(settled.count), out);
        }
    }
}
