//! The rack's command: `./ctc rack`.

use ctc_rack::alone::Alone;
use ctc_rack::board::{Board, Event, DRIVES};
use ctc_rack::cartridge::{
    density_of_word, track_of, Cartridge, Segment, Track, What, BLOCKETTE, GCR, MFM, TEXT_FILE, TRACKS,
};
use ctc_rack::driver::Filed;
use ctc_rack::faults::{inches, Fault};
use ctc_rack::files::{make_folder, write_file};
use ctc_rack::page::Page;
use ctc_rack::run::{run, Ran};
use ctc_rack::scenario::{Problem, Scenario, Slot};
use ctc_rack::tap::{self, Object};
use ctc_rack::{replay, story, summary};
use ctc_words::interface::{build, image_count, mark_count, restore};
use ctc_words::statement::Source;
use std::env;
use std::io::{IsTerminal, Write};
use std::path::{Path, PathBuf};
use std::process::ExitCode;
use std::time::{Duration, Instant};

/// What ends the command: wrong usage, or what failed.
enum End {
    Usage(String),
    Failed(String),
}

type Done<T> = Result<T, End>;

fn failed<T>(what: String) -> Done<T> {
    Err(End::Failed(what))
}

fn usage<T>(what: &str) -> Done<T> {
    Err(End::Usage(what.to_string()))
}

fn main() -> ExitCode {
    let words: Vec<String> = env::args().skip(1).collect();
    let ended = match words.first().map(String::as_str) {
        None => usage("a scenario, export or import is missing"),
        Some("export") => export(&words[1..]),
        Some("import") => import(&words[1..]),
        Some(_) => play(&words),
    };
    match ended {
        Ok(true) => ExitCode::SUCCESS,
        Ok(false) => ExitCode::from(1),
        Err(End::Failed(what)) => {
            eprintln!("rack: {what}");
            ExitCode::from(1)
        }
        Err(End::Usage(what)) => {
            eprintln!("rack: {what}; --help says more");
            ExitCode::from(2)
        }
    }
}

#[derive(Default)]
struct Options {
    file: Option<PathBuf>,
    seed: u64,
    alone: Option<u8>,
    session: Option<PathBuf>,
    explain: Option<PathBuf>,
    page: Option<PathBuf>,
    into: PathBuf,
}

fn options(words: &[String]) -> Done<Options> {
    let mut options = Options { seed: 1, ..Options::default() };
    let mut words = words.iter();
    while let Some(word) = words.next() {
        if !word.starts_with("--") {
            if options.file.is_some() {
                return usage("one scenario at a time");
            }
            options.file = Some(PathBuf::from(word));
            continue;
        }
        let Some(value) = words.next() else {
            return usage(&format!("{word} has a value behind it, or is no option"));
        };
        match word.as_str() {
            "--seed" => match value.parse() {
                Ok(seed) => options.seed = seed,
                Err(_) => return usage(&format!("a seed is a number, and not '{value}'")),
            },
            "--alone" => match value.parse() {
                Ok(drive) if drive < 4 => options.alone = Some(drive),
                _ => return usage(&format!("a drive is 0 to 3, and not '{value}'")),
            },
            "--session" => options.session = Some(PathBuf::from(value)),
            "--explain" => options.explain = Some(PathBuf::from(value)),
            "--page" => options.page = Some(PathBuf::from(value)),
            "--into" => options.into = PathBuf::from(value),
            _ => return usage(&format!("{word} is no option")),
        }
    }
    if options.file.is_none() {
        return usage("the scenario is missing");
    }
    Ok(options)
}

/// Runs a scenario with its progress on standard error, where that is a terminal.
fn run_shown(scenario: &Scenario, options: &Options, alone: Option<u8>) -> Ran {
    let keeps = options.session.is_some() || options.explain.is_some() || options.page.is_some();
    let shown = std::io::stderr().is_terminal();
    // shown at once, so that a long run is told from one that does nothing
    let mut last: Option<Instant> = None;
    let mut setup = scenario.setup(options.seed, alone, keeps);
    setup.keeps_orders = options.alone.is_some();
    let whose = alone.map_or("rack".to_string(), |drive| format!("rack, drive {drive} alone"));
    let ran = run(setup, &mut |stores, board: &Board| {
        if shown && last.is_none_or(|last| last.elapsed() > Duration::from_millis(200)) {
            last = Some(Instant::now());
            let places: Vec<String> = board.transports.iter().map(|drive| inches(drive.place())).collect();
            let (places, calls) = (places.join(", "), board.calls);
            eprint!("\r\x1b[K{whose}: {stores} stores, {calls} calls; the tapes stand at {places} inches");
        }
    });
    if last.is_some() {
        // what became of it stands in its place
        eprint!("\r\x1b[K");
    }
    ran
}

fn play(words: &[String]) -> Done<bool> {
    let options = options(words)?;
    let file = options.file.clone().unwrap_or_default();
    let text = read_file(&file)?;
    let folder = file.parent().unwrap_or(Path::new("."));
    let scenario = Scenario::parse(&text, folder).map_err(|Problem { line, wrong }| {
        End::Failed(format!("{}:{line}:{}: {}", file.display(), wrong.column, wrong.what))
    })?;
    if options.alone.is_some() && !scenario.damages.is_empty() {
        return failed(
            "--alone: damage to the memory restarts the controller for all drives; leave it out".to_string(),
        );
    }
    if let Some(drive) = options.alone.filter(|drive| scenario.jobs.iter().all(|job| job.drive != *drive)) {
        return failed(format!("--alone: no job of the scenario works with drive {drive}"));
    }
    // a folder that cannot be made is told before a long run, and not behind it
    for file in [&options.session, &options.explain, &options.page].into_iter().flatten() {
        make_folder(file).map_err(End::Failed)?;
    }
    make_folder(&options.into.join("file")).map_err(End::Failed)?;
    let ran = run_shown(&scenario, &options, None);
    let summary::Summary { mut words, mut whole, mut verdict } = summary::summary(&ran);
    let alone = options.alone.map(|drive| {
        let alone = run_shown(&scenario, &options, Some(drive));
        Alone::of(drive, ran.board(), alone.board(), story::tell(alone.board().events()))
    });
    if let Some(alone) = &alone {
        whole &= alone.same;
        words += &format!("drive {} alone: {}\n", alone.drive, alone.words);
        if !alone.same {
            verdict += &format!("; drive {} alone is not the same", alone.drive);
        }
    }
    // told before anything is written, so that a full disk leaves it standing
    let mut out = std::io::stdout();
    let mut problems: Vec<String> = Vec::new();
    if let Err(error) = out.write_all(words.as_bytes()).and_then(|()| out.flush()) {
        problems.push(format!("standard output cannot be written: {error}"));
    }
    for ended in &ran.jobs {
        for filed in &ended.ledger.borrow().filed {
            problems.extend(file_away(filed, &options.into).err());
        }
    }
    for (drive, slot) in scenario.slots.iter().enumerate() {
        if let (Slot::Cartridge { folder: Some(folder), cartridge }, Some(now)) =
            (slot, ran.board().transports[drive].cartridge())
        {
            if now != cartridge || !folder.join(TEXT_FILE).exists() {
                problems.extend(now.save(folder).err());
            }
        }
    }
    let events = ran.board().events();
    let entries = story::tell(events);
    if let Some(to) = &options.explain {
        problems.extend(write_file(to, story::explanation(&entries).as_bytes()).err());
    }
    if let Some(to) = &options.page {
        let title = format!("{}, seed {}", file.file_name().unwrap_or_default().to_string_lossy(), options.seed);
        let (summary, verdict, heads) = (words.as_str(), verdict.as_str(), heads(&scenario));
        let page = Page { title: &title, summary, verdict, entries: &entries, heads, alone: alone.as_ref() };
        problems.extend(write_file(to, page.html().as_bytes()).err());
    }
    if let Some(name) = &options.session {
        problems.extend(write_session(events, name).err());
    }
    for problem in &problems {
        eprintln!("rack: {problem}");
    }
    Ok(whole && problems.is_empty())
}

/// What stands in the head of each drive's lane.
fn heads(scenario: &Scenario) -> [String; DRIVES] {
    std::array::from_fn(|drive| {
        let job = scenario.jobs.iter().find(|job| usize::from(job.drive) == drive);
        let slot = match &scenario.slots[drive] {
            Slot::Missing => ", not there",
            Slot::Empty => ", empty",
            Slot::Cartridge { .. } => "",
        };
        job.map_or("no job".to_string(), |job| format!("job {}", job.number)) + slot
    })
}

/// The run as a session of jobs, both files or neither.
fn write_session(events: &[Event], name: &Path) -> Result<(), String> {
    let session = replay::session(events)
        .map_err(|why| format!("--session: {why}; nothing was written to {}", name.display()))?;
    write_file(&name.with_extension("session"), &session.lines)?;
    write_file(&name.with_extension("answers"), &session.answers)
}

/// A file of tape that was had whole is one file; else each record that was had is one.
fn file_away(filed: &Filed, into: &Path) -> Result<(), String> {
    let file = into.join(summary::filed_name(filed));
    if filed.records.iter().all(Result::is_ok) {
        let bytes: Vec<u8> = filed.records.iter().flatten().flatten().copied().collect();
        return write_file(&file, &bytes);
    }
    for (number, record) in filed.records.iter().enumerate() {
        if let Ok(bytes) = record {
            write_file(&PathBuf::from(format!("{}.record-{}", file.display(), filed.first + number)), bytes)?;
        }
    }
    Ok(())
}

// ---- tape images of data

fn read_file(file: &Path) -> Done<Vec<u8>> {
    if file.is_dir() {
        return failed(format!("{} is a folder, and no file", file.display()));
    }
    Source::File(file.to_string_lossy().into_owned()).bytes(Path::new("")).map_err(End::Failed)
}

fn track_word(word: &str) -> Done<usize> {
    match word.parse() {
        Ok(track) if track < TRACKS => Ok(track),
        _ => usage(&format!("a track is 0 to 3, and not '{word}'")),
    }
}

/// Turns a track of a cartridge into a plain tape image of its records' data.
fn export(words: &[String]) -> Done<bool> {
    let [folder, track, file] = words else {
        return usage("export has a cartridge, a track and a tape image behind it");
    };
    let number = track_word(track)?;
    let cartridge = Cartridge::load(Path::new(folder)).map_err(End::Failed)?;
    let mut objects = Vec::new();
    let mut lost = 0;
    for (index, segment) in cartridge.tracks[number].segments.iter().enumerate() {
        match data_of(&cartridge, number, index, segment) {
            Ok(object) => objects.push(object),
            Err(why) => {
                lost += 1;
                eprintln!("rack: object {index} of track {number} is left out: {why}");
            }
        }
    }
    write_file(Path::new(file), &tap::write(&objects)).map_err(End::Failed)?;
    println!("{} objects of track {number} written to {file}, {lost} left out", objects.len());
    Ok(lost == 0)
}

/// The data of an object; blockettes that are bad in every pass are restored.
fn data_of(cartridge: &Cartridge, track: usize, object: usize, segment: &Segment) -> Result<Object, String> {
    let bytes = match &segment.what {
        What::Mark => return Ok(Object::Mark),
        What::Scrap => return Err("nobody can read a scrap".to_string()),
        What::Record { image, density: GCR } => {
            let count = image_count(image).map_or(0, usize::from);
            let mut marks = vec![15; mark_count(count, GCR)];
            for fault in &cartridge.faults {
                match fault {
                    Fault::Bad { track: on, object: of, blockette, mark }
                        if (usize::from(*on), *of) == (track, object) && *blockette < marks.len() =>
                    {
                        marks[*blockette] = *mark;
                    }
                    _ => {}
                }
            }
            debug_assert_eq!(image.len(), 2 + BLOCKETTE * marks.len());
            restore(image, &marks).map_err(|refusal| format!("it cannot be restored: refusal {}", refusal.0))?
        }
        What::Record { image, .. } => image[2..].to_vec(),
    };
    match bytes.is_empty() {
        true => Err("the format has no record of no bytes".to_string()),
        false => Ok(Object::record(&bytes)),
    }
}

/// Puts the records of a plain tape image on a track of a cartridge, which is made where it is missing.
fn import(words: &[String]) -> Done<bool> {
    let (file, folder, track, density) = match words {
        [file, folder, track] => (file, folder, track, GCR),
        [file, folder, track, word] => match density_of_word(word) {
            Some(density) => (file, folder, track, density),
            None => return usage(&format!("a density is mfm or gcr, and not '{word}'")),
        },
        _ => {
            return usage(
                "import has a tape image, a cartridge and a track behind it, and a density where it is not gcr",
            )
        }
    };
    let number = track_word(track)?;
    let folder = Path::new(folder);
    let told = |what: String| End::Failed(format!("{file}: {what}"));
    let objects = tap::read(&read_file(Path::new(file))?).map_err(|problem| told(problem.to_string()))?;
    let mut images = Vec::new();
    for object in &objects {
        images.push(match object {
            Object::Record { bad: true, .. } => {
                return Err(told(format!("object {} is marked as bad", images.len())));
            }
            Object::Record { bytes, .. } => match build(bytes, density) {
                Some(image) => Object::record(&image),
                None => return Err(told(format!("object {} has more than 65,535 bytes", images.len()))),
            },
            other => other.clone(),
        });
    }
    let mut cartridge = match folder.join(TEXT_FILE).exists() {
        true => Cartridge::load(folder).map_err(End::Failed)?,
        false => Cartridge::default(),
    };
    let made: Track = track_of(&images, |_| MFM).map_err(End::Failed)?;
    let end = made.segments.last().map_or(0, Segment::end);
    if end > cartridge.length {
        return failed(format!("{file}: the tape is {} inches too short", (end - cartridge.length).div_euclid(10) + 1));
    }
    let many = made.segments.len();
    cartridge.tracks[number] = made;
    cartridge.save(folder).map_err(End::Failed)?;
    println!("{many} objects on track {number} of {}", folder.display());
    Ok(true)
}
