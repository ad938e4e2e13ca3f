//! Random scenarios with all faults, and a judge of what came of them. The judge goes by what the commands say, by what
//! lies on the tapes, and by the passes as only the transports know them; it shares no rule with the driver.

use crate::board::{Damage, DRIVES};
use crate::cartridge::{Cartridge, Track, What, FIRST, GCR, MFM};
use crate::driver::{Command, Ledger, Outcome};
use crate::faults::{Chance, Chances, Fault, Place, INCH};
use crate::noise::{LinkChances, LinkFault};
use crate::run::{run, Job, Ran, Setup, Wrongs};
use crate::transport::{Seen, Transport, GOOD_MARK};
use std::rc::Rc;

/// Bytes of the state that can be damaged so that it is refused, with a value that no field has.
const DAMAGES: [(usize, u8); 8] = [(0, 0), (3, 4), (10, 2), (17, 9), (25, 4), (31, 7), (49, 7), (223, 200)];

fn bytes(chance: &mut Chance, length: usize) -> Rc<Vec<u8>> {
    let mut made = Vec::with_capacity(length + 8);
    while made.len() < length {
        made.extend(chance.next().to_le_bytes());
    }
    made.truncate(length);
    Rc::new(made)
}

fn length(chance: &mut Chance) -> usize {
    match chance.below(20) {
        0 => 0,
        1..=3 => chance.below(300) as usize,
        4..=16 => chance.below(6000) as usize,
        17..=18 => chance.below(20_000) as usize,
        _ => 60_000 + chance.below(5536) as usize,
    }
}

/// The commands of one job: tracks are written and read back, with moves between.
fn commands(chance: &mut Chance, density: u8) -> Vec<Command> {
    let mut made = vec![Command::Status];
    if density == MFM && chance.below(4) == 0 {
        made.push(Command::Density(MFM));
    }
    let tracks = 1 + chance.below(2);
    let first = chance.below(4) as u8;
    for track in 0..tracks {
        made.push(Command::Track((first + track as u8) % 4));
        for _ in 0..1 + chance.below(3) {
            for _ in 0..1 + chance.below(2) {
                let length = length(chance);
                let count = (1 + chance.below(length as u64 + 1) as usize).max(length.div_ceil(6)).min(65_535);
                made.push(Command::Write { name: String::new(), bytes: bytes(chance, length), count });
            }
            made.push(Command::WriteMarks(1));
        }
        made.push(Command::WriteMarks(1));
        if chance.below(8) == 0 {
            made.push(Command::Erase(Some(1 + chance.below(5) as u16)));
        }
    }
    for track in 0..tracks {
        made.push(Command::Track((first + track as u8) % 4));
        match chance.below(4) {
            0 => made.push(Command::SpaceFiles(1)),
            1 => {
                made.push(Command::SpaceFiles(1));
                made.push(Command::BackFiles(1));
                made.push(Command::SpaceRecords(1));
            }
            _ => {}
        }
        made.push(Command::Read { folder: format!("{track}"), files: None });
        if chance.below(4) == 0 {
            made.push(Command::Rewind);
            made.push(Command::SpaceRecords(1 + chance.below(2) as usize));
            made.push(Command::BackRecords(1));
        }
    }
    made.push(Command::Status);
    made
}

fn fault(chance: &mut Chance, length: Place) -> Fault {
    let track = chance.below(4) as u8;
    let object = chance.below(8) as usize;
    let at = FIRST + chance.below((length - FIRST) as u64) as Place;
    let near = FIRST + chance.below(300) as Place;
    let times = Some(1 + chance.below(3) as u32);
    match chance.below(15) {
        0..=2 => Fault::Stretched {
            track,
            from: near,
            to: near + chance.below(600) as Place,
            chance: 1 + chance.below(40) as u32,
        },
        3..=4 => Fault::Bad { track, object, blockette: chance.below(12) as usize, mark: 1 + chance.below(9) as u8 },
        5..=6 => Fault::Torn { track, object, code: 0x0C + chance.below(3) as u8 },
        7 => Fault::Trailing { track, object, code: 0x10 + chance.below(3) as u8 },
        8 => Fault::DropOut { track, at: near, times },
        9 => Fault::EarlyEnd { at: near, times: Some(1) },
        10 => Fault::Gone { track, at },
        11 => Fault::Late { order: 1 + chance.below(60) as usize, flags: 1 + chance.below(3) as u8 },
        12 => Fault::LoadPointLate { times: Some(1) },
        13 => Fault::Gap { track, object, times: times.filter(|_| chance.below(4) > 0) },
        _ => Fault::EndLate { times: Some(1) },
    }
}

/// A random scenario. What nobody could tell is left out: silent damage beside bad blockettes, and memory damaged
/// within its ranges.
pub fn scenario(seed: u64, alone: Option<u8>) -> Setup {
    let mut transports = [0, 1, 2, 3].map(|drive| Transport::new(seed.wrapping_mul(31) ^ drive << 48));
    let mut jobs = Vec::new();
    let mut damages = Vec::new();
    for drive in 0..DRIVES as u8 {
        // each drive by its own chance, so that it is the same one alone
        let mut chance = Chance::new(seed ^ (u64::from(drive) + 1) << 56);
        // one in eight is so short that it is soon full
        let (least, more) = match chance.below(8) {
            0 => (100, 50),
            1 | 2 => (150, 3000),
            _ => (150, 900),
        };
        let inches = least + chance.below(more);
        let mut cartridge = Cartridge { length: inches as Place * INCH, ..Cartridge::default() };
        let density = if chance.below(4) == 0 { MFM } else { GCR };
        cartridge.protected = chance.below(40) == 0;
        let silent = density == GCR && chance.below(6) == 0;
        let quiet = chance.below(8) == 0;
        let length = cartridge.length;
        let transport = &mut transports[usize::from(drive)];
        if silent {
            let times = Some(1 + chance.below(3) as u32).filter(|_| chance.below(3) > 0);
            let object = chance.below(6) as usize;
            let byte = 2 + chance.below(3000) as usize;
            cartridge.faults.push(Fault::Silent { track: chance.below(4) as u8, object, byte, times });
            transport.set_chances(Chances { silent: 30, late: 5, drop_out: 10, ..Chances::default() });
        } else if !quiet {
            for _ in 0..chance.below(6) {
                cartridge.faults.push(fault(&mut chance, length));
            }
            if chance.below(3) == 0 {
                transport.set_chances(Chances {
                    drop_out: chance.below(60) as u32,
                    torn: chance.below(40) as u32,
                    bad: chance.below(40) as u32,
                    late: chance.below(20) as u32,
                    silent: 0,
                    gap: chance.below(40) as u32,
                });
            }
        }
        if chance.below(60) == 0 {
            transports[usize::from(drive)] = Transport::missing();
        } else if chance.below(60) > 0 {
            transport.insert(cartridge);
        }
        let mut faults = Vec::new();
        for _ in 0..chance.below(4) {
            let write = 1 + chance.below(6) as usize;
            let exchange = 1 + chance.below(200) as usize;
            faults.push(match chance.below(5) {
                0 => LinkFault::Parity { write, byte: chance.below(5000) as usize },
                1 => LinkFault::RunsOut { write, after: chance.below(5000) as usize },
                2 => LinkFault::Breaks { exchange },
                3 => LinkFault::ShortSpace { read: write, bytes: chance.below(3000) as usize },
                _ => LinkFault::Changed { exchange, byte: chance.next() as u8 },
            });
        }
        let chances = match chance.below(3) {
            0 => LinkChances {
                breaks: chance.below(30) as u32,
                changed: chance.below(30) as u32,
                parity: chance.below(60) as u32,
                runs_out: chance.below(60) as u32,
                short_space: chance.below(60) as u32,
            },
            _ => LinkChances::default(),
        };
        let commands = commands(&mut chance, density);
        if chance.below(12) == 0 && alone.is_none() {
            let (byte, value) = DAMAGES[chance.below(DAMAGES.len() as u64) as usize];
            damages.push(Damage { drive, order: 1 + chance.below(40) as usize, byte, value });
        }
        if alone.is_none_or(|number| number == drive) {
            jobs.push(Job { number: drive, drive, density, commands, faults, chances });
        }
    }
    Setup {
        transports,
        jobs,
        damages,
        seed,
        keeps: false,
        keeps_orders: false,
        judged: true,
        wrongs: Wrongs::default(),
    }
}

/// What lies on a track: records, and marks as none.
type Objects = Vec<Option<Vec<u8>>>;

/// What a command puts on its track.
fn objects(command: &Command) -> Objects {
    match command {
        Command::Write { bytes, .. } if bytes.is_empty() => vec![Some(Vec::new())],
        Command::Write { bytes, count, .. } => bytes.chunks(*count).map(|part| Some(part.to_vec())).collect(),
        Command::WriteMarks(marks) => vec![None; *marks],
        _ => Vec::new(),
    }
}

/// What the commands that were done put on each track.
fn expected(ledger: &Ledger) -> [Objects; 4] {
    let mut tracks: [Objects; 4] = Default::default();
    let mut track = 0;
    for (command, outcome) in &ledger.outcomes {
        if matches!(outcome, Outcome::Stopped(_)) {
            break;
        }
        if let Command::Track(number) = command {
            track = usize::from(*number);
        }
        tracks[track].extend(objects(command));
    }
    tracks
}

/// Where a job ended early: its track, what that command would have put there, and the driver's words.
fn stop(ledger: &Ledger) -> Option<(usize, Objects, &str)> {
    let mut track = 0;
    for (command, outcome) in &ledger.outcomes {
        if let Command::Track(number) = command {
            track = usize::from(*number);
        }
        if let Outcome::Stopped(why) = outcome {
            return Some((track, objects(command), why));
        }
    }
    None
}

/// Why what lies on a track is not what its job says: all of what was done, in its order, and nothing else. A command
/// that was stopped may have done its beginning. Only a driver that says so leaves more behind: a try that it could not
/// erase.
fn unlike(
    number: usize,
    track: &Track,
    done: &[Option<Vec<u8>>],
    stopped: &Option<(usize, Objects, &str)>,
) -> Option<String> {
    let there = on_tape(track);
    let same = there.iter().zip(done).take_while(|(one, other)| one == other).count();
    let (begun, told) = match stopped {
        Some((at, begun, why)) if *at == number => (&begun[..], why.ends_with("is not erased")),
        _ => (&[][..], false),
    };
    let more = &there[same..];
    let good = more.iter().zip(begun).take_while(|(one, other)| one == other).count();
    if same < done.len() || more.len() > good + usize::from(told) {
        let (held, written) = (there.len(), done.len());
        return Some(format!("track {number} holds {held} objects, and {written} were written; unlike from {same}"));
    }
    let scraps = track.segments.iter().filter(|segment| segment.what == What::Scrap).count();
    (scraps > 0 && !told).then(|| format!("{scraps} scraps are left on track {number}"))
}

/// The bytes of a record as its image has them, without the checks.
fn payload(image: &[u8]) -> Vec<u8> {
    let count = usize::from(u16::from_be_bytes([image[0], image[1]]).rotate_left(1));
    image[2..2 + count].to_vec()
}

fn on_tape(track: &Track) -> Objects {
    let objects = track.segments.iter().filter_map(|segment| match &segment.what {
        What::Record { image, .. } => Some(Some(payload(image))),
        What::Mark => Some(None),
        What::Scrap => None,
    });
    objects.collect()
}

/// The blockettes that a host can know from one pass, by document 01: those before the second bad one of a parity.
fn visible(seen: &Seen, known: &mut [bool]) {
    let total = known.len();
    let parity = |place: usize| (total - 1 - place) % 2;
    let mut bad = [0; 2];
    for (offset, mark) in seen.marks.iter().enumerate() {
        let place = seen.first + offset;
        if *mark != GOOD_MARK || seen.supplied && offset == 0 {
            bad[parity(place)] += 1;
            if bad[parity(place)] == 2 {
                return;
            }
        } else {
            known[place] = true;
        }
    }
}

/// A record that was torn in every pass, though a skip back tells its count, which would have read it.
fn untried(transport: &Transport, track: u8, object: usize) -> Option<String> {
    let there = transport.cartridge()?.tracks[usize::from(track)].segments.get(object)?;
    let long = matches!(&there.what, What::Record { image, density: GCR } if image.len() > 2);
    let told = !transport.faults().iter().any(|met| match met.fault {
        Fault::Trailing { track: on, object: number, .. } | Fault::Gap { track: on, object: number, times: None } => {
            (on, number) == (track, object)
        }
        Fault::Stretched { track: on, .. } => on == track,
        _ => false,
    });
    (long && told).then(|| "nobody read it with its count".to_string())
}

/// Why a loss could have been avoided, by the passes over the record.
fn avoidable(transport: &Transport, track: u8, object: usize) -> Option<String> {
    let passes = transport.passes.iter();
    let over: Vec<&Seen> = passes.filter(|seen| (seen.track, seen.object) == (track, object)).collect();
    let Some(first) = over.first() else {
        return untried(transport, track, object);
    };
    if over.iter().any(|seen| seen.silent) {
        return None;
    }
    if first.density == MFM {
        return over.iter().any(|seen| seen.code == 0 && !seen.late).then(|| "a pass in MFM had it".to_string());
    }
    let total = over.iter().map(|seen| seen.first + seen.marks.len()).max().unwrap_or(0);
    let mut known = vec![false; total];
    for seen in over.iter().filter(|seen| !seen.late) {
        visible(seen, &mut known);
    }
    let bad = |parity: usize| (0..total).filter(|place| (total - 1 - place) % 2 == parity && !known[*place]).count();
    let worst = bad(0).max(bad(1));
    (worst < 2 && over.iter().any(|seen| !seen.late)).then(|| format!("the passes together had it: {worst} bad"))
}

/// The verdict on a run: everything that should not be, in words.
pub fn judge(ran: &Ran) -> Vec<String> {
    let mut wrong = Vec::new();
    if let Some(broken) = &ran.broken {
        wrong.push(format!("broken off: {broken}"));
        return wrong;
    }
    let board = ran.board();
    if board.guards_passed > 0 {
        wrong.push(format!("{} orders passed a guard", board.guards_passed));
    }
    for ended in &ran.jobs {
        let ledger = ended.ledger.borrow();
        let job = &ended.job;
        let tracks = expected(&ledger);
        let transport = &board.transports[usize::from(job.drive)];
        let told = |what: String| format!("job {}: {what}", job.number);
        let stopped = ledger.outcomes.iter().any(|(_, outcome)| matches!(outcome, Outcome::Stopped(_)));
        if ledger.outcomes.len() != job.commands.len() {
            wrong.push(told(format!("{} commands of {} have an outcome", ledger.outcomes.len(), job.commands.len())));
        }
        if board.controller().drive(job.drive).report != transport.report() {
            wrong.push(told("the controller has another report than the drive".to_string()));
        }
        let passed = |cartridge: &Cartridge| {
            cartridge.tracks.iter().flat_map(|track| &track.segments).any(|segment| segment.end() > cartridge.length)
        };
        if transport.cartridge().is_some_and(passed) {
            wrong.push(told("something lies behind the end of the tape".to_string()));
        }
        // what is said to be written is on the tape
        if let Some(cartridge) = transport.cartridge() {
            let at = stop(&ledger);
            let tracks = cartridge.tracks.iter().zip(&tracks).enumerate();
            wrong.extend(tracks.filter_map(|(number, (track, done))| unlike(number, track, done, &at)).map(told));
        }
        // what is filed is what was written
        let mut lost = 0;
        for filed in &ledger.filed {
            let track = &tracks[usize::from(filed.track)];
            let start = match filed.file {
                0 => 0,
                file => {
                    let marks = track.iter().enumerate().filter(|(_, object)| object.is_none());
                    marks.map(|(place, _)| place + 1).nth(file - 1).unwrap_or(track.len())
                }
            };
            let written: Vec<&Vec<u8>> = track[start..].iter().map_while(Option::as_ref).collect();
            // a job that spaced over records begins later in its file
            let skipped =
                if filed.records.len() < written.len() && !stopped { written.len() - filed.records.len() } else { 0 };
            let spaced = job.commands.iter().any(|command| matches!(command, Command::SpaceRecords(_)));
            if skipped > usize::from(spaced) || filed.records.len() > written.len() {
                wrong.push(told(format!(
                    "track {} file {}: {} records filed, {} written",
                    filed.track,
                    filed.file,
                    filed.records.len(),
                    written.len()
                )));
                continue;
            }
            let begins = |skip: usize| {
                filed.records.iter().zip(&written[skip..]).all(|(record, written)| match record {
                    Ok(bytes) => bytes == *written,
                    Err(_) => true,
                })
            };
            let Some(skip) = (0..=skipped.max(usize::from(spaced && stopped && !written.is_empty())))
                .find(|&skip| skip >= skipped && begins(skip))
            else {
                wrong.push(told(format!("track {} file {}: a copy that is not the record", filed.track, filed.file)));
                continue;
            };
            for (index, record) in filed.records.iter().enumerate() {
                if record.is_err() {
                    lost += 1;
                    if let Some(why) = avoidable(transport, filed.track, start + skip + index) {
                        wrong.push(told(format!(
                            "track {} file {} record {}: lost, but {why}",
                            filed.track,
                            filed.file,
                            skip + index
                        )));
                    }
                }
            }
        }
        // a read that is done has every record of what was written
        for (command, outcome) in &ledger.outcomes {
            if let (Command::Read { folder, .. }, Outcome::Done(_)) = (command, outcome) {
                let filed: usize =
                    ledger.filed.iter().filter(|filed| filed.folder == *folder).map(|filed| filed.records.len()).sum();
                let track =
                    ledger.filed.iter().find(|filed| filed.folder == *folder).map(|filed| usize::from(filed.track));
                let whole = track.map_or(0, |track| tracks[track].iter().flatten().count());
                let spaced = job.commands.iter().any(|command| matches!(command, Command::SpaceFiles(_)));
                if !stopped && !spaced && filed != whole {
                    wrong.push(told(format!("{filed} records read and {whole} written, and no loss told")));
                }
                if filed == 0 && !spaced && !stopped {
                    wrong.push(told("nothing was read, and no loss told".to_string()));
                }
            }
            if let (Command::Read { .. }, Outcome::Lost(_)) = (command, outcome) {
                if lost == 0 {
                    wrong.push(told("a loss is told that is not among the files".to_string()));
                }
            }
        }
        let (faults, by_chance) = ran.host.link.met(usize::from(job.number));
        let link = by_chance + faults.iter().map(|(_, times)| times).sum::<u32>();
        wrong.extend(unneeded_stop(&ledger, transport, link).map(told));
    }
    wrong
}

/// A job that stopped for a reason that its drive does not show.
fn unneeded_stop(ledger: &Ledger, transport: &Transport, link: u32) -> Option<String> {
    let (command, why) = ledger.outcomes.iter().find_map(|(command, outcome)| match outcome {
        Outcome::Stopped(why) => Some((command, why)),
        _ => None,
    })?;
    let by_chance: u32 = transport.by_chance.iter().sum();
    let faults = link + by_chance + transport.faults().iter().map(|met| met.times).sum::<u32>();
    let protected = transport.cartridge().is_some_and(|cartridge| cartridge.protected);
    let known = match why.split(';').next().unwrap_or_default() {
        "the tape is gone" => !transport.is_installed(),
        "the tape is protected" => protected,
        "the tape has no more room" => true,
        // only faults keep a record from being written
        why => why.starts_with("not written in") && faults > 0,
    };
    (!known).then(|| format!("stopped: {why} ({command:.40?})"))
}

/// Whether each drive was given the same orders and images, and delivered the same bytes, as it is alone. A string that
/// the link made another one may be a reset, which is meant for all drives: such a run says nothing of this.
pub fn separate(seed: u64, wrongs: Wrongs) -> Vec<String> {
    let mut together = scenario(seed, None);
    together.damages.clear();
    together.keeps_orders = true;
    together.wrongs = wrongs;
    let together = run(together, &mut |_, _| {});
    let mut wrong = Vec::new();
    if together.host.link.mistaken > 0 {
        return wrong;
    }
    for drive in 0..DRIVES {
        let mut alone = scenario(seed, Some(drive as u8));
        alone.wrongs = wrongs;
        alone.keeps_orders = true;
        let alone = run(alone, &mut |_, _| {});
        let (one, other) = (together.board(), alone.board());
        if one.orders_given[drive] != other.orders_given[drive] {
            wrong.push(format!("drive {drive} is given other orders alone"));
        }
        if one.bytes_delivered[drive] != other.bytes_delivered[drive] {
            wrong.push(format!("drive {drive} delivers other bytes alone"));
        }
    }
    wrong
}

/// How often the faults came in a run, and what was lost.
#[derive(Clone, Copy, Debug, Default, PartialEq, Eq)]
pub struct Tally {
    pub stores: u64,
    pub records: u64,
    pub lost: u64,
    pub restored: u64,
    pub merged: u64,
    pub supplied: u64,
    pub unlike: u64,
    pub retries: u64,
    pub restarts: u64,
    pub link: u64,
    pub tape: u64,
}

impl Tally {
    pub fn add(&mut self, ran: &Ran) {
        self.stores += ran.handed;
        self.restarts += ran.board().restarts as u64;
        for (number, transport) in ran.board().transports.iter().enumerate() {
            self.tape += transport.faults().iter().map(|met| u64::from(met.times)).sum::<u64>();
            self.tape += transport.by_chance.iter().map(|&times| u64::from(times)).sum::<u64>();
            let (faults, by_chance) = ran.host.link.met(number);
            self.link += faults.iter().map(|(_, times)| u64::from(*times)).sum::<u64>() + u64::from(by_chance);
        }
        for ended in &ran.jobs {
            let ledger = ended.ledger.borrow();
            let records = ledger.filed.iter().flat_map(|filed| &filed.records);
            self.records += records.clone().filter(|record| record.is_ok()).count() as u64;
            self.lost += records.filter(|record| record.is_err()).count() as u64;
            self.restored += ledger.restored;
            self.merged += ledger.merged;
            self.supplied += ledger.supplied;
            self.unlike += ledger.unlike;
            self.retries += ledger.retries;
        }
    }
}
