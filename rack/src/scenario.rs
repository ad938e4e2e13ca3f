//! A scenario: a text that says which cartridges are in the drives, what is wrong with them, and what each of four jobs
//! has its host do. Its words, names and sources are those of `./ctc make`, and so are the places of what is wrong.

use crate::board::{Damage, DRIVES};
use crate::cartridge::{density, length, Cartridge, GCR};
use crate::driver::Command;
use crate::faults::{Chance, Chances, Fault};
use crate::noise::{LinkChances, LinkFault};
use crate::run::{Job, Setup, Wrongs};
use crate::transport::Transport;
use ctc_words::line::split;
use ctc_words::names::Kind;
use ctc_words::statement::{is_comment, listed, Source, Words, Wrong};
use std::path::{Path, PathBuf};
use std::rc::Rc;

/// The count of records where none is said.
const COUNT: usize = 16_384;
/// The most of what a number in a scenario counts.
const MOST: usize = 1_000_000;

/// What a line of a scenario begins with, and what a command of a job does.
const BEGINNINGS: [&str; 4] = ["drive", "fault", "chance", "job"];
const COMMANDS: [&str; 15] = [
    "status",
    "rewind",
    "fsf",
    "bsf",
    "fsr",
    "bsr",
    "weof",
    "erase",
    "track N",
    "density MFM",
    "density GCR",
    "set guard",
    "clear guard",
    "write",
    "read",
];

/// What is in a drive.
#[derive(Clone, Debug, PartialEq, Eq)]
pub enum Slot {
    /// No drive.
    Missing,
    /// A drive without a cartridge.
    Empty,
    /// A cartridge, and the folder that it is kept in.
    Cartridge { cartridge: Cartridge, folder: Option<PathBuf> },
}

#[derive(Clone, Debug, PartialEq, Eq)]
pub struct Scenario {
    pub slots: [Slot; DRIVES],
    faults: Vec<(usize, Fault)>,
    chances: [Chances; DRIVES],
    pub damages: Vec<Damage>,
    pub jobs: Vec<Job>,
}

/// Where a text cannot be meant, and why: its line, from 1, and its column.
#[derive(Clone, Debug, PartialEq, Eq)]
pub struct Problem {
    pub line: usize,
    pub wrong: Wrong,
}

/// A fault of a job's link, or the chances of it: they may stand before their job.
struct Link {
    line: usize,
    column: usize,
    job: u8,
    fault: Option<LinkFault>,
    chances: Option<LinkChances>,
}

/// What is read, line by line.
struct Reader<'a> {
    scenario: Scenario,
    folder: &'a Path,
    named: [bool; DRIVES],
    chosen: [bool; DRIVES],
    links: Vec<Link>,
    /// Where each job says its drive: the line, and the column.
    drives: Vec<(usize, usize)>,
    line: usize,
}

impl Scenario {
    /// Reads a scenario. Files and cartridges are looked for in the folder.
    pub fn parse(text: &[u8], folder: &Path) -> Result<Scenario, Problem> {
        let scenario = Scenario {
            slots: [Slot::Empty, Slot::Empty, Slot::Empty, Slot::Empty],
            faults: Vec::new(),
            chances: [Chances::default(); DRIVES],
            damages: Vec::new(),
            jobs: Vec::new(),
        };
        let none = [false; DRIVES];
        let (links, drives) = (Vec::new(), Vec::new());
        let mut reader = Reader { scenario, folder, named: none, chosen: none, links, drives, line: 0 };
        for line in split(text) {
            reader.line += 1;
            if !is_comment(line) {
                reader.line(line).map_err(|wrong| Problem { line: reader.line, wrong })?;
            }
        }
        reader.end()
    }
}

impl Reader<'_> {
    fn line(&mut self, line: &[u8]) -> Result<(), Wrong> {
        let mut words = Words::of(line)?;
        if words.is_done() {
            return Ok(());
        }
        match words.peek().filter(|word| BEGINNINGS.contains(word)) {
            Some(word) => {
                words.need(word)?;
                match word {
                    "drive" => self.drive(&mut words)?,
                    "fault" => self.fault(&mut words)?,
                    "chance" => self.chance(&mut words)?,
                    _ => self.job(&mut words)?,
                }
            }
            None => {
                let Some(job) = self.scenario.jobs.last_mut() else {
                    let what = "commands stand behind the job whose they are";
                    return words.other(&format!("{what}; a line before them begins with {}", listed(&BEGINNINGS)));
                };
                job.commands.extend(command(&mut words, self.folder)?);
            }
        }
        words.end()
    }

    /// What is left when all lines are read.
    fn end(mut self) -> Result<Scenario, Problem> {
        for Link { line, column, job, fault, chances } in self.links {
            let Some(job) = self.scenario.jobs.iter_mut().find(|other| other.number == job) else {
                let what = format!("job {job} is nowhere in the scenario");
                return Err(Problem { line, wrong: Wrong { column, what } });
            };
            job.faults.extend(fault);
            if let Some(chances) = chances {
                job.chances = chances;
            }
        }
        if self.scenario.jobs.is_empty() {
            let what = "the scenario ends without a job: a line such as 'job 0 drive 0', and its commands".to_string();
            return Err(Problem { line: self.line.max(1), wrong: Wrong { column: 1, what } });
        }
        // a forgotten cartridge would be a tape that is gone
        for (job, (line, column)) in self.scenario.jobs.iter().zip(self.drives) {
            let drive = job.drive;
            if !self.named[usize::from(drive)] {
                let what = format!(
                    "no line names drive {drive}: a job needs 'drive {drive} cartridge ..', or 'drive {drive} empty' \
                     where that is meant"
                );
                return Err(Problem { line, wrong: Wrong { column, what } });
            }
        }
        Ok(self.scenario)
    }

    fn drive(&mut self, words: &mut Words) -> Result<(), Wrong> {
        let column = words.column();
        let drive = words.number("drive", DRIVES - 1)?;
        if std::mem::replace(&mut self.named[drive], true) {
            return Err(Wrong { column, what: format!("drive {drive} is there already") });
        }
        self.scenario.slots[drive] = if words.take("missing") {
            Slot::Missing
        } else if words.take("empty") {
            Slot::Empty
        } else if words.take("cartridge") {
            match words.take("new") {
                true => new_cartridge(words, self.folder)?,
                false => {
                    let column = words.column();
                    let folder = self.folder.join(words.next("'new', or the folder of a cartridge,")?);
                    let cartridge = Cartridge::load(&folder).map_err(|what| Wrong { column, what })?;
                    Slot::Cartridge { cartridge, folder: Some(folder) }
                }
            }
        } else {
            return words.other("a drive is missing, is empty, or has a cartridge");
        };
        Ok(())
    }

    fn fault(&mut self, words: &mut Words) -> Result<(), Wrong> {
        if words.take("drive") {
            let drive = words.number("drive", DRIVES - 1)?;
            self.scenario.faults.push((drive, Fault::parse(words)?));
        } else if words.take("job") {
            let column = words.column();
            let job = words.number("job", DRIVES - 1)? as u8;
            let fault = Some(LinkFault::parse(words)?);
            self.links.push(Link { line: self.line, column, job, fault, chances: None });
        } else if words.take("memory") {
            let drive = words.named("drive", 0, DRIVES - 1)? as u8;
            let order = words.named("order", 1, MOST)?;
            let byte = words.named("place", 0, 223)?;
            words.need("byte")?;
            let value = words.hex("byte", Some(1))?[0];
            self.scenario.damages.push(Damage { drive, order, byte, value });
        } else {
            return words.other("a fault is that of a drive, of a job, or of the memory");
        }
        Ok(())
    }

    fn chance(&mut self, words: &mut Words) -> Result<(), Wrong> {
        if words.take("drive") {
            let column = words.column();
            let drive = words.number("drive", DRIVES - 1)?;
            if std::mem::replace(&mut self.chosen[drive], true) {
                return Err(Wrong { column, what: format!("the chances of drive {drive} are there already") });
            }
            let Chances { drop_out, torn, bad, late, silent, gap } = &mut self.scenario.chances[drive];
            let kinds: [(&str, &mut u32); 6] = [
                ("drop-out", drop_out),
                ("torn", torn),
                ("bad", bad),
                ("late", late),
                ("silent", silent),
                ("gap", gap),
            ];
            return chances(words, kinds);
        }
        if !words.take("job") {
            return words.other("a chance is that of a drive or of a job");
        }
        let column = words.column();
        let job = words.number("job", DRIVES - 1)? as u8;
        if self.links.iter().any(|link| link.job == job && link.chances.is_some()) {
            return Err(Wrong { column, what: format!("the chances of job {job} are there already") });
        }
        let mut link = LinkChances::default();
        let LinkChances { breaks, changed, parity, runs_out, short_space } = &mut link;
        let kinds: [(&str, &mut u32); 5] = [
            ("breaks", breaks),
            ("changed", changed),
            ("parity", parity),
            ("runs-out", runs_out),
            ("short-space", short_space),
        ];
        chances(words, kinds)?;
        self.links.push(Link { line: self.line, column, job, fault: None, chances: Some(link) });
        Ok(())
    }

    fn job(&mut self, words: &mut Words) -> Result<(), Wrong> {
        let jobs = &mut self.scenario.jobs;
        let column = words.column();
        let number = words.number("job", DRIVES - 1)? as u8;
        if jobs.iter().any(|job| job.number == number) {
            return Err(Wrong { column, what: format!("job {number} is there already") });
        }
        words.need("drive")?;
        let column = words.column();
        let drive = words.number("drive", DRIVES - 1)? as u8;
        if jobs.iter().any(|job| job.drive == drive) {
            let what = format!("drive {drive} has a job already, and two would not know where its tape stands");
            return Err(Wrong { column, what });
        }
        let density = if words.is_done() { GCR } else { density(words)? };
        let (commands, faults, chances) = (Vec::new(), Vec::new(), LinkChances::default());
        jobs.push(Job { number, drive, density, commands, faults, chances });
        self.drives.push((self.line, column));
        Ok(())
    }
}

/// Chances with their numbers, so many in a thousand, to the end of the line.
fn chances<const MANY: usize>(words: &mut Words, mut kinds: [(&str, &mut u32); MANY]) -> Result<(), Wrong> {
    loop {
        let Some((kind, chance)) = kinds.iter_mut().find(|(kind, _)| words.peek() == Some(kind)) else {
            return words.other(&format!("what comes by chance is {}", listed(&kinds.map(|(kind, _)| kind))));
        };
        **chance = words.named(kind, 0, 1000)? as u32;
        if words.is_done() {
            return Ok(());
        }
    }
}

/// What stands behind `cartridge new`.
fn new_cartridge(words: &mut Words, folder: &Path) -> Result<Slot, Wrong> {
    let mut cartridge = Cartridge::default();
    let mut kept = None;
    while !words.is_done() {
        match words.peek() {
            Some("inches") => cartridge.length = length(words)?,
            _ if words.take("protected") => cartridge.protected = true,
            _ if words.take("kept") => kept = Some(folder.join(words.next("the folder in which it is kept")?)),
            _ => return words.other("behind a new cartridge stand inches N, protected or kept FOLDER"),
        }
    }
    Ok(Slot::Cartridge { cartridge, folder: kept })
}

impl Scenario {
    /// The rack of this scenario, with the jobs of one drive alone where one is said.
    pub fn setup(&self, seed: u64, alone: Option<u8>, keeps: bool) -> Setup {
        let mut number = 0;
        let transports = [0; DRIVES].map(|_| {
            let drive = number;
            number += 1;
            let mut transport = match &self.slots[drive] {
                Slot::Missing => Transport::missing(),
                _ => Transport::new(seed.wrapping_mul(0x2545_F491_4F6C_DD1D) ^ (drive as u64) << 60),
            };
            for (_, fault) in self.faults.iter().filter(|(of, _)| *of == drive) {
                transport.add_fault(fault.clone());
            }
            transport.set_chances(self.chances[drive]);
            if let Slot::Cartridge { cartridge, .. } = &self.slots[drive] {
                transport.insert(cartridge.clone());
            }
            transport
        });
        let mut jobs = self.jobs.clone();
        jobs.retain(|job| alone.is_none_or(|drive| drive == job.drive));
        let (damages, wrongs) = (self.damages.clone(), Wrongs::default());
        Setup { transports, jobs, damages, seed, keeps, keeps_orders: false, judged: false, wrongs }
    }
}

/// The commands of one line of a job.
fn command(words: &mut Words, folder: &Path) -> Result<Vec<Command>, Wrong> {
    let many = |words: &mut Words| match words.is_done() {
        true => Ok(1),
        false => words.number_in("how many", 1, MOST),
    };
    let start = words.column();
    if let Some(name) = words.name(Kind::Control) {
        return match name.number {
            track @ 0..=3 => Ok(vec![Command::Track(track as u8)]),
            0x0A => Ok(vec![Command::Guard(false)]),
            0x0B => Ok(vec![Command::Guard(true)]),
            0x0C => Ok(vec![Command::Density(0)]),
            0x0D => Ok(vec![Command::Density(1)]),
            0x10 => Ok(vec![Command::Rewind]),
            _ => {
                let what = format!("'{}' is a store, and no command: there are {}", name.words, listed(&COMMANDS));
                Err(Wrong { column: start, what })
            }
        };
    }
    let word = words.peek().unwrap_or("");
    let known = COMMANDS.iter().any(|command| *command == word);
    if let Some(wrong) = words.second(&COMMANDS) {
        return wrong;
    }
    if !known {
        return words.other(&format!(
            "a command is {}; another job or fault begins with {}",
            listed(&COMMANDS),
            listed(&BEGINNINGS)
        ));
    }
    words.need(word)?;
    Ok(vec![match word {
        "status" => Command::Status,
        "fsf" => Command::SpaceFiles(many(words)?),
        "bsf" => Command::BackFiles(many(words)?),
        "fsr" => Command::SpaceRecords(many(words)?),
        "bsr" => Command::BackRecords(many(words)?),
        "weof" => Command::WriteMarks(many(words)?),
        "erase" => match words.is_done() {
            true => Command::Erase(None),
            false => Command::Erase(Some(words.number_in("inches", 1, 32_767)? as u16)),
        },
        "read" => {
            let folder = words.next("the folder that is read to")?.to_string();
            let files = match words.is_done() {
                true => None,
                false => Some(words.named("files", 1, MOST)?),
            };
            Command::Read { folder, files }
        }
        _ => return write(words, folder),
    }])
}

/// `write SOURCE.. [count N]`; `made BYTES` is a source too, of bytes made up.
fn write(words: &mut Words, folder: &Path) -> Result<Vec<Command>, Wrong> {
    let mut files: Vec<(String, Rc<Vec<u8>>)> = Vec::new();
    let mut count = COUNT;
    while !words.is_done() {
        if words.peek() == Some("count") {
            count = words.named("count", 1, 65_535)?;
            break;
        }
        let column = words.column();
        if words.peek() == Some("made") {
            let length = words.named("made", 0, 100_000_000)?;
            files.push((format!("made {length}"), Rc::new(made(length))));
            continue;
        }
        let source = words.source("a source")?;
        let bytes = source.bytes(folder).map_err(|what| Wrong { column, what })?;
        let name = match source {
            Source::File(name) => name,
            Source::Bytes(_) => format!("{} bytes that stand in the scenario", bytes.len()),
        };
        files.push((name, Rc::new(bytes)));
    }
    if files.is_empty() {
        return words.other("what is written is a file, bytes HEX, text \"...\" or made BYTES");
    }
    Ok(files.into_iter().map(|(name, bytes)| Command::Write { name, bytes, count }).collect())
}

/// Bytes made up: the same for the same length.
pub fn made(length: usize) -> Vec<u8> {
    let mut chance = Chance::new(length as u64);
    (0..length).map(|_| chance.next() as u8).collect()
}

#[cfg(test)]
mod tests {
    use super::*;

    #[test]
    fn what_cannot_be_meant_is_said_with_its_place() {
        let job = "job 0 drive 0\n";
        for (text, line, column, part) in [
            ("", 1, 1, "ends without a job"),
            ("# nothing\n\n", 2, 1, "ends without a job"),
            ("rewind", 1, 1, "commands stand behind the job whose they are"),
            ("job 0 drive 0\n  rewind 3", 2, 10, "'3' says nothing here"),
            ("job 0 drive 0\n  rewind # back", 2, 10, "a comment is a line of its own"),
            ("job 0 drive 0\n  rewind\r\n", 2, 9, "ends with CR"),
            ("job 0 drive 0\n  write \"a", 2, 9, "no closing quotation mark"),
            ("job 0 drive 0\njob 0 drive 1", 2, 5, "job 0 is there already"),
            ("job 0 drive 0\njob 1 drive 0", 2, 13, "drive 0 has a job already"),
            ("job 4 drive 0", 1, 5, "job '4' is not 0 to 3"),
            ("job 0 drive 4", 1, 13, "drive '4' is not 0 to 3"),
            ("job 0", 1, 6, "the word 'drive' is missing here"),
            ("job 0 drive 0 gcr", 1, 15, "the word 'density' is missing here"),
            ("job 0 drive 0 density gcr", 1, 23, "'gcr' cannot stand here: a density is MFM or GCR"),
            ("drive 1 cartridge nowhere\njob 0 drive 0", 1, 19, "cannot be read"),
            ("drive 1 cartridge\njob 0 drive 0", 1, 18, "the folder of a cartridge, is missing"),
            ("drive 1 full", 1, 9, "a drive is missing, is empty, or has a cartridge"),
            ("drive 1 cartridge new inches 97", 1, 23, "a tape is longer than 97 inches"),
            ("drive 1 cartridge new inches 600 feet", 1, 34, "behind a new cartridge stand inches N, protected"),
            ("drive 1 empty\ndrive 1 missing\njob 0 drive 0", 2, 7, "drive 1 is there already"),
            ("fault job 2 parity write 1 place 3\njob 0 drive 0", 1, 11, "job 2 is nowhere in the scenario"),
            ("fault drive 0 bent\njob 0 drive 0", 1, 15, "a fault of a drive is stretched"),
            ("fault job 0 bent\njob 0 drive 0", 1, 13, "a fault of a job's link is parity"),
            ("fault tape", 1, 7, "of a drive, of a job, or of the memory"),
            ("fault memory drive 1 order 5 place 224 byte 07", 1, 36, "place '224' is not 0 to 223"),
            ("fault memory drive 1 order 5 place 49 byte 7", 1, 44, "2 hexadecimal digits"),
            ("chance tape", 1, 8, "of a drive or of a job"),
            ("chance drive 0 worn 3", 1, 16, "'worn' cannot stand here: what comes by chance is drop-out, torn"),
            ("chance drive 0", 1, 15, "the line ends too soon"),
            ("chance drive 0 torn 3 torn", 1, 27, "torn is missing"),
            ("chance drive 0 torn 3\nchance drive 0 bad 3", 2, 14, "the chances of drive 0 are there already"),
            ("chance job 1 breaks 1001", 1, 21, "breaks '1001' is not 0 to 1000"),
            ("job 0 drive 0\n  rewind", 1, 13, "no line names drive 0: a job needs 'drive 0 cartridge ..'"),
            ("drive 0 empty\njob 1 drive 2\njob 0 drive 0", 2, 13, "or 'drive 2 empty' where that is meant"),
        ] {
            let Problem { line: number, wrong } = Scenario::parse(text.as_bytes(), Path::new(".")).unwrap_err();
            assert!(wrong.what.contains(part), "{text}: {wrong:?}");
            assert_eq!((number, wrong.column), (line, column), "{text}: {wrong:?}");
        }
        for (command, column, part) in [
            ("jump", 1, "'jump' cannot stand here: a command is status, rewind, fsf"),
            ("skip forward", 1, "'skip forward' is a store, and no command"),
            ("track 4", 1, "'track 4' is a store, and no command"),
            ("track", 6, "the line ends too soon: track N"),
            ("guard on", 1, "set guard, clear guard"),
            ("set gard", 5, "'gard' cannot stand here: set guard"),
            ("density mfm", 9, "'mfm' cannot stand here: a density is MFM or GCR"),
            ("fsf 0", 5, "how many '0' is not 1 to 1000000"),
            ("fsr two", 5, "how many 'two' is not"),
            ("erase 32768", 7, "inches '32768' is not 1 to 32767"),
            ("write", 6, "what is written is a file, bytes HEX"),
            ("write nothing-there", 7, "nothing-there is not there"),
            ("write bytes 123", 13, "two for each byte"),
            ("write text hello", 12, "a text in quotation marks"),
            ("write made 5 count 70000", 20, "count '70000' is not 1 to 65535"),
            ("write made 5 count 7 made 6", 22, "'made' says nothing here"),
            ("read", 5, "the folder that is read to is missing"),
            ("read here 3", 11, "the word 'files' is missing here"),
        ] {
            let Problem { line, wrong } =
                Scenario::parse(format!("{job}{command}").as_bytes(), Path::new(".")).unwrap_err();
            assert!(wrong.what.contains(part), "{command}: {wrong:?}");
            assert_eq!((line, wrong.column), (2, column), "{command}: {wrong:?}");
        }
        let latin = Scenario::parse(b"job 0 drive 0\n  write \xE4", Path::new(".")).unwrap_err();
        assert_eq!((latin.line, latin.wrong.column), (2, 9));
        // a drive without a cartridge may be meant, and may be said behind the job
        Scenario::parse(b"job 0 drive 0\n  rewind\ndrive 0 empty\n", Path::new(".")).unwrap();
        Scenario::parse(b"drive 0 missing\njob 0 drive 0\n  rewind\n", Path::new(".")).unwrap();
    }

    #[test]
    fn a_scenario_is_read() {
        let text = "# a tape\ndrive 2 cartridge new, inches 500, protected\n\
                    fault memory drive 2 order 3 place 0 byte 9F\n\
                    job 2 drive 2 density MFM\n  fsf 2\n  write made 10, text \"a, b\", bytes 0A0B count 4\n\
                    chance job 2 breaks 5\n  set guard\n  track 3\n  rewind\n  erase\n  read \"a folder\" files 2\n";
        let scenario = Scenario::parse(text.as_bytes(), Path::new(".")).unwrap();
        let Slot::Cartridge { cartridge, folder: None } = &scenario.slots[2] else { panic!() };
        assert!(cartridge.protected && cartridge.length == 5000);
        assert_eq!(scenario.damages, [Damage { drive: 2, order: 3, byte: 0, value: 0x9F }]);
        let job = &scenario.jobs[0];
        assert_eq!((job.density, job.chances.breaks), (0, 5));
        let written = |name: &str, bytes: &[u8]| Command::Write {
            name: name.to_string(),
            bytes: Rc::new(bytes.to_vec()),
            count: 4,
        };
        assert_eq!(
            job.commands,
            [
                Command::SpaceFiles(2),
                written("made 10", &made(10)),
                written("4 bytes that stand in the scenario", b"a, b"),
                written("2 bytes that stand in the scenario", &[10, 11]),
                Command::Guard(true),
                Command::Track(3),
                Command::Rewind,
                Command::Erase(None),
                Command::Read { folder: "a folder".to_string(), files: Some(2) },
            ]
        );
        assert_eq!(scenario.setup(1, Some(1), false).jobs, []);
    }
}
