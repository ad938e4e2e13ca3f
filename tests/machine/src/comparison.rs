//! Another program against the machine, session by session, with shrinking of a difference.

use crate::kinds::Kind;
use crate::lines;
use std::io::{Read, Write};
use std::process::{Command, Stdio};
use std::sync::mpsc;
use std::time::{Duration, Instant};

/// A program that has not ended by then hangs.
pub const TIME_LIMIT: Duration = Duration::from_secs(20);
/// As long as one may wait for a shrunk session.
pub const SHRINK_LIMIT: Duration = Duration::from_secs(60);
/// Chunks that are dropped at every place: they fit stores and loads with their answers.
const WINDOWS: [usize; 7] = [13, 10, 9, 6, 4, 2, 1];

/// The program under comparison and its arguments.
pub struct Program {
    pub path: String,
    pub arguments: Vec<String>,
    pub kind: Kind,
    pub time_limit: Duration,
    /// Shrinking stops here with what it has.
    pub shrink_limit: Duration,
}

/// What a program made of a session.
struct Run {
    output: Vec<u8>,
    /// Why it did not end as it should, if so.
    trouble: Option<String>,
    /// Whether that is for want of time.
    late: bool,
}

#[derive(Clone, Debug, PartialEq, Eq)]
pub struct Difference {
    /// The first line that was answered otherwise, from 0.
    pub line: usize,
    pub machine: String,
    pub program: String,
    /// Whether the program had not ended in time.
    pub late: bool,
}

impl Program {
    fn run(&self, session: &[u8], time_limit: Duration) -> std::io::Result<Run> {
        let mut child = Command::new(&self.path)
            .args(&self.arguments)
            .stdin(Stdio::piped())
            .stdout(Stdio::piped())
            .stderr(Stdio::null())
            .spawn()?;
        let end = Instant::now() + time_limit;
        let (mut input, mut output) = match (child.stdin.take(), child.stdout.take()) {
            (Some(input), Some(output)) => (input, output),
            _ => return Err(std::io::Error::other("no pipes to the program")),
        };
        let session = session.to_vec();
        // A program may stop reading or writing at any time, so each side has its thread.
        std::thread::spawn(move || {
            let _ = input.write_all(&session);
        });
        let (pieces, received) = mpsc::channel();
        std::thread::spawn(move || {
            let mut piece = vec![0; 1 << 16];
            while let Ok(length @ 1..) = output.read(&mut piece) {
                if pieces.send(piece[..length].to_vec()).is_err() {
                    return;
                }
            }
        });
        let mut run = Run {
            output: Vec::new(),
            trouble: None,
            late: false,
        };
        loop {
            match received.recv_timeout(end.saturating_duration_since(Instant::now())) {
                Ok(piece) => run.output.extend_from_slice(&piece),
                Err(mpsc::RecvTimeoutError::Disconnected) => break,
                Err(mpsc::RecvTimeoutError::Timeout) => {
                    run.late = true;
                    run.trouble = Some(format!("hangs ({} s)", time_limit.as_secs_f32()));
                    break;
                }
            }
        }
        // Its output has ended; it may still refuse to.
        while run.trouble.is_none() {
            match child.try_wait()? {
                Some(status) if status.success() => return Ok(run),
                Some(status) => run.trouble = Some(format!("ended with {status}")),
                None if Instant::now() >= end => {
                    run.late = true;
                    run.trouble = Some("does not end after its output".to_string());
                }
                None => std::thread::sleep(Duration::from_micros(200)),
            }
        }
        let _ = child.kill();
        let _ = child.wait();
        Ok(run)
    }

    /// The first difference on this session, if there is one.
    pub fn difference(&self, session: &[u8]) -> std::io::Result<Option<Difference>> {
        self.difference_within(session, self.time_limit)
    }

    fn difference_within(
        &self,
        session: &[u8],
        limit: Duration,
    ) -> std::io::Result<Option<Difference>> {
        let right = self.kind.right(session);
        let run = self.run(session, limit)?;
        if run.trouble.is_none() && run.output == right {
            return Ok(None);
        }
        // Ends of lines count too, so they stay on.
        let mut ours = right.split_inclusive(|&byte| byte == b'\n');
        let mut theirs = run.output.split_inclusive(|&byte| byte == b'\n');
        let mut line = 0;
        loop {
            let (our, their) = (ours.next(), theirs.next());
            if our != their || our.is_none() {
                let told = |answer: Option<&[u8]>, nothing: &str| match answer {
                    Some(text) => shown(text),
                    None => nothing.to_string(),
                };
                let mut program = told(their, "(nothing more)");
                if let Some(trouble) = &run.trouble {
                    program = format!("{program}; the program {trouble}");
                }
                let machine = told(our, "(nothing more)");
                return Ok(Some(Difference {
                    line,
                    machine,
                    program,
                    late: run.late,
                }));
            }
            line += 1;
        }
    }

    /// Drops lines, in chunks and then one by one, while some difference remains.
    pub fn shrink(
        &self,
        session: &[u8],
        found: Difference,
    ) -> std::io::Result<(Vec<Vec<u8>>, Difference)> {
        let end = Instant::now() + self.shrink_limit;
        let mut kept: Vec<Vec<u8>> = lines::split(session).map(<[u8]>::to_vec).collect();
        let mut difference = found;
        // A hanging program is asked often, so a short wait must do. Any other keeps its time: on a
        // busy computer a slow answer would pass for the difference.
        let limit = if difference.late {
            self.time_limit.min(Duration::from_secs(2))
        } else {
            self.time_limit
        };
        let needed = |line: usize| {
            if self.kind.answers_lines() {
                line + 1
            } else {
                usize::MAX
            }
        };
        let cut: Vec<Vec<u8>> = kept[..kept.len().min(needed(difference.line))].to_vec();
        if let Some(again) = self.difference_within(&join(&cut), limit)? {
            kept = cut;
            difference = again;
        }
        // Chunks side by side first; then short ones at every place, which fit whole strings.
        let mut sizes: Vec<(usize, usize)> = Vec::new();
        let mut size = kept.len().div_ceil(2);
        while size > WINDOWS[0] {
            sizes.push((size, size));
            size = size.div_ceil(2);
        }
        sizes.extend(WINDOWS.map(|size| (size, 1)));
        let mut dropped = true;
        while dropped {
            dropped = false;
            for &(size, stride) in &sizes {
                let mut start = 0;
                while start < kept.len() {
                    if Instant::now() >= end {
                        return Ok((kept, difference));
                    }
                    let mut shorter = kept[..start].to_vec();
                    shorter.extend_from_slice(&kept[(start + size).min(kept.len())..]);
                    match self.difference_within(&join(&shorter), limit)? {
                        Some(again) => {
                            // What stands behind the first difference is of no use.
                            shorter.truncate(needed(again.line));
                            kept = shorter;
                            difference = again;
                            dropped = true;
                        }
                        None => start += stride,
                    }
                }
            }
        }
        Ok((kept, difference))
    }
}

pub fn join(lines: &[Vec<u8>]) -> Vec<u8> {
    let mut text = Vec::new();
    for line in lines {
        text.extend_from_slice(line);
        text.push(b'\n');
    }
    text
}

/// A line fit to be looked at: bytes that do not print escaped, long runs cut in the middle.
pub fn shown(line: &[u8]) -> String {
    let text = line
        .strip_suffix(b"\n")
        .unwrap_or(line)
        .escape_ascii()
        .to_string();
    let mut fields = Vec::new();
    for field in text.split(',') {
        if field.len() > 80 {
            let (head, tail) = (&field[..32], &field[field.len() - 32..]);
            fields.push(format!("{head}...({} characters)...{tail}", field.len()));
        } else {
            fields.push(field.to_string());
        }
    }
    let mut shown = fields.join(",");
    if !line.ends_with(b"\n") {
        shown.push_str(" (no #0A)");
    }
    shown
}
