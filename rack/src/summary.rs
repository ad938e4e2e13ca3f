//! What became of a run: each job, each cartridge and each fault, in words.

use crate::board::Damage;
use crate::cartridge::What;
use crate::driver::{Command, Filed, Ledger, Outcome};
use crate::faults::inches;
use crate::run::Ran;
use ctc_words::names::{name, Kind};
use std::collections::HashMap;

pub fn command_words(command: &Command) -> String {
    match command {
        Command::Status => "status".to_string(),
        Command::Rewind => "rewind".to_string(),
        Command::Density(density) => format!("density {}", name(Kind::Density, *density)),
        Command::Track(track) => format!("track {track}"),
        Command::Guard(guard) => format!("{} guard", if *guard { "set" } else { "clear" }),
        Command::SpaceFiles(many) => format!("fsf {many}"),
        Command::BackFiles(many) => format!("bsf {many}"),
        Command::SpaceRecords(many) => format!("fsr {many}"),
        Command::BackRecords(many) => format!("bsr {many}"),
        Command::WriteMarks(many) => format!("weof {many}"),
        Command::Erase(Some(many)) => format!("erase {many}"),
        Command::Erase(None) => "erase".to_string(),
        Command::Write { name, .. } => format!("write {name}"),
        Command::Read { folder, files: None } => format!("read {folder}"),
        Command::Read { folder, files: Some(files) } => format!("read {folder} files {files}"),
    }
}

/// Whether every copy that was filed is what this run wrote at its place, where it wrote anything there.
pub fn wrong_copies(ledger: &Ledger) -> usize {
    let mut written = HashMap::new();
    for (track, spot, record) in &ledger.written {
        if let (crate::driver::Spot::Behind { marks, records }, Some(record)) = (spot, record) {
            written.insert((*track, *marks, *records), record);
        }
    }
    let mut wrong = 0;
    for Filed { track, file, first, records, .. } in &ledger.filed {
        for (index, record) in records.iter().enumerate() {
            if let (Ok(bytes), Some(there)) = (record, written.get(&(*track, *file, first + index))) {
                wrong += usize::from(bytes[..] != there[..]);
            }
        }
    }
    wrong
}

/// The file that a file of tape is filed as, or how the names of its records begin.
pub fn filed_name(filed: &Filed) -> String {
    format!("{}/track-{}.file-{}", filed.folder, filed.track, filed.file)
}

fn filed_words(filed: &Filed) -> String {
    let had = filed.records.iter().flatten();
    let (whole, bytes) = had.fold((0, 0), |(whole, bytes), record| (whole + 1, bytes + record.len()));
    match filed.records.len() - whole {
        0 => format!("{}: {bytes} bytes", filed_name(filed)),
        lost => format!("{}: {} had, each as a file; {lost} lost", filed_name(filed), count(whole, "record")),
    }
}

/// How often a fault was met.
fn met(times: u32) -> String {
    match times {
        0 => "never met".to_string(),
        1 => "met once".to_string(),
        times => format!("met {times} times"),
    }
}

/// A number of things.
fn count(number: usize, what: &str) -> String {
    format!("{number} {what}{}", if number == 1 { "" } else { "s" })
}

/// What became of a run.
pub struct Summary {
    pub words: String,
    /// Whether all was done and nothing lost.
    pub whole: bool,
    /// The last line of the words.
    pub verdict: String,
}

pub fn summary(ran: &Ran) -> Summary {
    let mut said = String::new();
    let (mut lost, mut stopped, mut left) = (0, 0, 0);
    let mut wrong = 0;
    for ended in &ran.jobs {
        let ledger = ended.ledger.borrow();
        said += &format!("job {}, drive {}\n", ended.job.number, ended.job.drive);
        for (command, outcome) in &ledger.outcomes {
            let (word, words) = match outcome {
                Outcome::Done(words) => ("done", words),
                Outcome::Lost(words) => ("LOST", words),
                // what stands behind a command that stopped is not tried
                Outcome::Stopped(words) if words.starts_with("not tried") => ("NOT DONE", words),
                Outcome::Stopped(words) => ("STOPPED", words),
            };
            lost += usize::from(word == "LOST");
            stopped += usize::from(word == "STOPPED");
            left += usize::from(word == "NOT DONE");
            said += &format!("  {word:8} {}: {words}\n", command_words(command));
        }
        for command in ended.job.commands.iter().skip(ledger.outcomes.len()) {
            left += 1;
            said += &format!("  {:8} {}\n", "NOT DONE", command_words(command));
        }
        for filed in &ledger.filed {
            said += &format!("  {:8} {}\n", "filed", filed_words(filed));
        }
        let did = [
            ("stores tried again", ledger.retries),
            ("records restored by check bytes", ledger.restored),
            ("merges of passes", ledger.merged),
            ("reads with a supplied count", ledger.supplied),
            ("passes that did not fit", ledger.unlike),
            ("places looked for", ledger.repositioned),
        ];
        let did: Vec<String> =
            did.iter().filter(|(_, many)| *many > 0).map(|(what, many)| format!("{what} {many}")).collect();
        if !did.is_empty() {
            said += &format!("  {:8} {}\n", "host", did.join(", "));
        }
        match wrong_copies(&ledger) {
            0 => {}
            copies => {
                wrong += copies;
                said += &format!("  {:8} copies that are not what was written: {copies}\n", "WRONG");
            }
        }
    }
    for (drive, transport) in ran.board().transports.iter().enumerate() {
        let Some(cartridge) = transport.cartridge() else {
            continue;
        };
        let gone = if transport.is_installed() { "" } else { ", its tape gone" };
        let protected = if cartridge.protected { ", protected" } else { "" };
        said += &format!("cartridge of drive {drive}, {} inches{protected}{gone}\n", inches(cartridge.length));
        for (number, track) in cartridge.tracks.iter().enumerate() {
            let many = |test: fn(&What) -> bool| track.segments.iter().filter(|segment| test(&segment.what)).count();
            let scraps = many(|what| matches!(what, What::Scrap));
            if !track.segments.is_empty() {
                said += &format!(
                    "  track {number}: {}, {}{}\n",
                    count(many(|what| matches!(what, What::Record { .. })), "record"),
                    count(many(|what| matches!(what, What::Mark)), "mark"),
                    if scraps == 0 { String::new() } else { format!(", {}", count(scraps, "scrap")) },
                );
            }
        }
    }
    said += &faults(ran);
    let board = ran.board();
    if let Some(broken) = &ran.broken {
        said += &format!("BROKEN OFF: {broken}\n");
    }
    said += &format!("{} stores, {} calls, {}\n", ran.handed, board.calls, count(board.restarts, "restart"));
    let problems: Vec<String> = [
        (lost, count(lost, "command") + " with losses"),
        (stopped, count(stopped, "command") + " stopped"),
        (left, count(left, "command") + " not begun"),
        (wrong, format!("{wrong} wrong copies")),
        (usize::from(ran.broken.is_some()), "the run broken off".to_string()),
    ]
    .into_iter()
    .filter_map(|(number, words)| (number > 0).then_some(words))
    .collect();
    let verdict = match problems.is_empty() {
        true => "nothing was lost".to_string(),
        false => format!("NOT ALL WAS DONE: {}", problems.join(", ")),
    };
    said += &format!("{verdict}\n");
    Summary { words: said, whole: problems.is_empty(), verdict }
}

/// What became of each fault.
fn faults(ran: &Ran) -> String {
    let mut said = String::new();
    for (drive, transport) in ran.board().transports.iter().enumerate() {
        for fault in transport.faults() {
            said += &format!("  drive {drive} {}: {}\n", fault.fault, met(fault.times));
        }
        let names = ["drop-out", "torn", "bad", "late", "silent", "gap"];
        for (name, times) in names.iter().zip(transport.by_chance).filter(|(_, times)| *times > 0) {
            said += &format!("  drive {drive} {name} by chance: {}\n", met(times));
        }
    }
    for ended in &ran.jobs {
        let job = ended.job.number;
        let (faults, by_chance) = ran.host.link.met(usize::from(job));
        for (fault, times) in faults {
            said += &format!("  job {job} {fault}: {}\n", met(*times));
        }
        if by_chance > 0 {
            said += &format!("  job {job} faults of the link by chance: {}\n", met(by_chance));
        }
    }
    let board = ran.board();
    let memory = |damage: &Damage| {
        let Damage { drive, order, byte, value } = damage;
        format!("  memory drive {drive} order {order} place {byte} byte {value:02X}")
    };
    for (damage, told) in &board.damaged {
        let what =
            if *told { "the controller was started anew" } else { "in range: nobody can tell, and it was left out" };
        said += &format!("{}: {what}\n", memory(damage));
    }
    for damage in &board.damages {
        said += &format!("{}: never met, there was no such order\n", memory(damage));
    }
    if !said.is_empty() {
        said.insert_str(0, "faults\n");
    }
    said
}
