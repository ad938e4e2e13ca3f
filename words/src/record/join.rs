//! The records of a folder, put together again. What is written is what was split, byte by byte, or nothing.

use crate::density::Density;
use crate::files::{self, Part, Progress};
use crate::marks::{blockette, number};
use crate::split::{name_of, HEAD, INDEX};
use crate::sum::{sum_of, Sum};
use crate::{bytes_in_records, print, say, Failure, Words};
use ctc_words::records::{image_length, mark_count, restore};
use ctc_words::records::{BLOCKETTE_LENGTH, COUNT_LIMIT, IMAGE_MOST, MARKS_MOST};
use ctc_words::records::{MARK_ERROR_LEAST, MARK_ERROR_MOST, MARK_GOOD};
use std::env;
use std::ffi::OsString;
use std::fs::{self, File};
use std::io::{self, BufRead, BufReader, BufWriter, Seek, Write};
use std::path::{Path, PathBuf};

pub fn run(words: &[OsString]) -> Result<(), Failure> {
    let words = Words::read(words, &[("--force", false)])?;
    let &[folder, file] = words.files.as_slice() else {
        return Err(Failure::Usage("join takes a folder and a file".to_string()));
    };
    let (folder, file) = (Path::new(folder), Path::new(file));
    files::watch_signals();
    let goal = Goal::of(file, folder, words.option("--force").is_some())?;
    let (part, output) = Part::file(&goal.place())?;
    let mut output = BufWriter::new(output);
    let joined = join(folder, &mut output)?;
    let failed = |cause| Failure::file("write", &part.path, cause);
    let output = output
        .into_inner()
        .map_err(|cause| failed(cause.into_error()))?;
    output.sync_all().map_err(failed)?;
    goal.reach(part, output)?;
    if let Goal::Standard = goal {
        return Ok(());
    }
    print(&format!(
        "{}: {}, {} restored\n",
        file.display(),
        bytes_in_records(joined.length, joined.records),
        joined.restored
    ))
}

/// Where the file goes. A plain file is replaced by a whole one; what is none, as standard output, is written at the
/// end.
enum Goal {
    New(PathBuf),
    Replaced(PathBuf),
    InPlace(PathBuf),
    Standard,
}

impl Goal {
    fn of(file: &Path, folder: &Path, force: bool) -> Result<Goal, Failure> {
        if file == Path::new("-") {
            return Ok(Goal::Standard);
        }
        let path = file.to_path_buf();
        let refused = |what| Err(Failure::Failed(format!("{} {what}", file.display())));
        let about = match fs::metadata(&path) {
            Err(_) if fs::symlink_metadata(&path).is_err() => return Ok(Goal::New(path)),
            Err(cause) => return Err(Failure::file("write", &path, cause)),
            Ok(about) => about,
        };
        if about.is_dir() {
            return refused("is a folder, and no file");
        }
        if !about.is_file() {
            return Ok(Goal::InPlace(path));
        }
        if !force {
            return refused("is there already: --force replaces it");
        }
        // the file that a link leads to, and not the link
        let path = path
            .canonicalize()
            .map_err(|cause| Failure::file("write", file, cause))?;
        if folder
            .canonicalize()
            .is_ok_and(|folder| path.parent() == Some(&folder))
        {
            return refused("stands among the images: name another place");
        }
        Ok(Goal::Replaced(path))
    }

    /// Beside which the file is made.
    fn place(&self) -> PathBuf {
        match self {
            Goal::New(path) | Goal::Replaced(path) => path.clone(),
            Goal::InPlace(_) | Goal::Standard => env::temp_dir().join("ctc-record"),
        }
    }

    fn reach(&self, part: Part, made: File) -> Result<(), Failure> {
        match self {
            Goal::New(path) => part.rename(path),
            Goal::Replaced(path) => {
                let failed = |cause| Failure::file("write", path, cause);
                let earlier = fs::metadata(path).map_err(failed)?;
                made.set_permissions(earlier.permissions())
                    .map_err(failed)?;
                part.rename(path)
            }
            Goal::InPlace(path) => {
                let output = File::options().write(true).open(path);
                copy(
                    made,
                    output.map_err(|cause| Failure::file("write", path, cause))?,
                    path,
                )
            }
            Goal::Standard => copy(made, io::stdout().lock(), Path::new(files::STANDARD_OUTPUT)),
        }
    }
}

fn copy(mut made: File, mut output: impl Write, path: &Path) -> Result<(), Failure> {
    made.rewind()
        .and_then(|()| io::copy(&mut made, &mut output))
        .and_then(|_| output.flush())
        .map_err(|cause| Failure::file("write", path, cause))
}

struct Joined {
    records: u64,
    length: u64,
    restored: u64,
}

/// A line of the index.
enum Line {
    Record {
        count: usize,
        sum: String,
    },
    End {
        records: u64,
        length: u64,
        sum: String,
    },
}

fn join(folder: &Path, output: &mut impl Write) -> Result<Joined, Failure> {
    let path = folder.join(INDEX);
    let of_index = |what: &str| Failure::Failed(format!("{}: {what}", path.display()));
    let mut index = match File::open(&path) {
        Err(cause) if cause.kind() == io::ErrorKind::NotFound => {
            let what = format!(
                "{} is not there: {} is no folder that split made",
                path.display(),
                folder.display()
            );
            return Err(Failure::Failed(what));
        }
        file => BufReader::new(file.map_err(|cause| Failure::file("read", &path, cause))?),
    };
    let mut next_line = || -> Result<Option<String>, Failure> {
        let mut line = String::new();
        let read = index
            .read_line(&mut line)
            .map_err(|cause| Failure::file("read", &path, cause))?;
        // a line without its end is one that was cut off
        Ok(if read == 0 {
            None
        } else {
            line.strip_suffix('\n').map(str::to_string)
        })
    };
    if next_line()?.as_deref() != Some(HEAD) {
        return Err(of_index(&format!("its first line is not '{HEAD}'")));
    }
    let density = next_line()?
        .as_deref()
        .and_then(|line| line.strip_prefix("density "))
        .and_then(Density::of_word)
        .ok_or_else(|| of_index("its second line names no density"))?;

    let mut joined = Joined {
        records: 0,
        length: 0,
        restored: 0,
    };
    let (mut losses, mut whole, mut progress) =
        (0u64, Sum::default(), Progress::new(records_in(&path)));
    let (said_records, said_length, said_sum) = loop {
        files::not_cut()?;
        let line = next_line()?
            .as_deref()
            .and_then(|line| read_line(line, joined.records));
        let (count, sum) = match line {
            None => {
                return Err(of_index(&format!(
                    "line {} is none of an index, or the index was cut off there",
                    joined.records + 3
                )))
            }
            Some(Line::End {
                records,
                length,
                sum,
            }) => break (records, length, sum),
            Some(Line::Record { count, sum }) => (count, sum),
        };
        let name = name_of(joined.records);
        match record(folder, &name, count, density, &sum)? {
            Ok(Good { bytes, notes }) => {
                for note in &notes {
                    progress.clear();
                    say(&format!("{name}: {note}"));
                }
                joined.restored += u64::from(!notes.is_empty());
                whole.add(&bytes);
                output
                    .write_all(&bytes)
                    .map_err(|cause| Failure::file("write", Path::new("the file"), cause))?;
            }
            Err(Loss { what, places }) => {
                progress.clear();
                losses += 1;
                say(&format!(
                    "{what}: not joined are {} of the file",
                    places_text(joined.length, &places)
                ));
            }
        }
        joined.length += count as u64;
        joined.records += 1;
        progress.at(joined.records);
    };
    drop(progress);
    if (said_records, said_length) != (joined.records, joined.length) || next_line()?.is_some() {
        return Err(of_index(
            "its last line does not count its records and bytes",
        ));
    }
    if losses > 0 {
        say(&format!(
            "{losses} of {} records could not be joined: no file was written",
            joined.records
        ));
        return Err(Failure::Told);
    }
    if whole.digits() != said_sum {
        return Err(of_index(
            "the SHA-256 of the file is not that of its last line: no file was written",
        ));
    }
    let behind = format!("{}.image", name_of(joined.records));
    if folder.join(&behind).exists() {
        say(&format!(
            "{behind} is no part of the file: the index ends before it"
        ));
    }
    Ok(joined)
}

/// How many records an index has, for what is shown of the progress.
fn records_in(path: &Path) -> Option<u64> {
    let lines = BufReader::new(File::open(path).ok()?).split(b'\n').count() as u64;
    lines.checked_sub(3)
}

fn read_line(line: &str, record: u64) -> Option<Line> {
    let is_sum = |word: &str| {
        word.len() == 64 && word.bytes().all(|byte| b"0123456789abcdef".contains(&byte))
    };
    match line.split(' ').collect::<Vec<_>>()[..] {
        ["end", records, length, sum] if is_sum(sum) => Some(Line::End {
            records: records.parse().ok()?,
            length: length.parse().ok()?,
            sum: sum.to_string(),
        }),
        [name, count, sum] if name == name_of(record) && is_sum(sum) => {
            let count = number(count).filter(|count| (1..=COUNT_LIMIT).contains(count))?;
            Some(Line::Record {
                count,
                sum: sum.to_string(),
            })
        }
        _ => None,
    }
}

struct Good {
    bytes: Vec<u8>,
    /// What was not as it should be, and was made good.
    notes: Vec<String>,
}

struct Loss {
    what: String,
    /// Which bytes of the record, from and to.
    places: Vec<(usize, usize)>,
}

/// The bytes of a record, or what is lost of it.
fn record(
    folder: &Path,
    name: &str,
    count: usize,
    density: Density,
    sum: &str,
) -> Result<Result<Good, Loss>, Failure> {
    let path = folder.join(format!("{name}.image"));
    let shown = path.display();
    let lost = |what: String| {
        Ok(Err(Loss {
            what,
            places: vec![(0, count - 1)],
        }))
    };
    let Some(mut image) = files::read_some(&path, IMAGE_MOST + 1)? else {
        return lost(format!("{shown} is missing"));
    };
    let length = image_length(count, density as u8).unwrap_or(0);
    if image.len() != length {
        let has = if image.len() > IMAGE_MOST {
            "more".to_string()
        } else {
            image.len().to_string()
        };
        return lost(format!(
            "{shown}: a record of {count} bytes has an image of {length} bytes, and this has {has}"
        ));
    }
    let mut notes = Vec::new();
    // the index has the count too: that of the image is as good as supplied
    let count_bytes = (count as u16).rotate_right(1).to_be_bytes();
    if image[..2] != count_bytes {
        image[..2].copy_from_slice(&count_bytes);
        notes.push("its count was spoiled, and is that of the index".to_string());
    }
    if density == Density::Mfm {
        let bytes = image.split_off(2);
        if sum_of(&bytes) != sum {
            return lost(format!(
                "{shown} does not have the bytes that were split, and MFM cannot be restored"
            ));
        }
        return Ok(Ok(Good { bytes, notes }));
    }

    let wanted = mark_count(count, density as u8);
    let restored = |marks: &[u8]| restore(&image, marks);
    // marks are asked for what is not as it was, and for nothing else
    if let Some(bytes) = restored(&vec![MARK_GOOD; wanted])
        .ok()
        .filter(|bytes| sum_of(bytes) == sum)
    {
        return Ok(Ok(Good { bytes, notes }));
    }
    let marks_path = folder.join(format!("{name}.marks"));
    let marks_shown = marks_path.display();
    let Some(marks) = files::read_some(&marks_path, MARKS_MOST + 1)? else {
        let Some(bad) = spoiled(&image, wanted, sum) else {
            return lost(format!(
                "{shown} does not have the bytes that were split, and more is bad than can be restored"
            ));
        };
        let words: Vec<String> = bad
            .iter()
            .map(|place| format!("{place}:{MARK_ERROR_LEAST}"))
            .collect();
        let words = words.join(" ");
        let what = format!(
            "{shown} is spoiled: after 'ctc record marks {wanted} bad {words} >{marks_shown}' join restores it"
        );
        return Ok(Err(Loss {
            what,
            places: places_of(&bad, wanted, count),
        }));
    };
    if marks.len() != wanted {
        let has = if marks.len() > MARKS_MOST {
            "more".to_string()
        } else {
            marks.len().to_string()
        };
        return lost(format!(
            "{marks_shown}: a record of {count} bytes has {wanted} marks, and these are {has}"
        ));
    }
    let legal =
        |mark: u8| mark == MARK_GOOD || (MARK_ERROR_LEAST..=MARK_ERROR_MOST).contains(&mark);
    if let Some(place) = marks.iter().position(|mark| !legal(*mark)) {
        return lost(format!(
            "{marks_shown}: the mark at place {place} is {}, and neither 1 to 9 nor 15",
            marks[place]
        ));
    }
    let bad: Vec<usize> = (0..wanted)
        .filter(|place| marks[*place] != MARK_GOOD)
        .collect();
    let bad_text = bad
        .iter()
        .map(|place| blockette(*place, wanted))
        .collect::<Vec<_>>()
        .join(", ");
    match restored(&marks) {
        Ok(bytes) if sum_of(&bytes) == sum => {
            notes.push(format!("restored with its marks, bad were {bad_text}"));
            Ok(Ok(Good { bytes, notes }))
        }
        Ok(_) => lost(format!(
            "{shown} does not have the bytes that were split, nor has it them with its marks"
        )),
        // marks of the right number and legal are refused for this alone
        Err(_) => {
            let twin = |one: usize, other: usize| {
                one != other && parity(one, wanted) == parity(other, wanted)
            };
            let twins = bad
                .iter()
                .copied()
                .filter(|one| bad.iter().any(|other| twin(*one, *other)));
            Ok(Err(Loss {
                what: format!("{shown}: two bad blockettes of one parity cannot be restored, bad are {bad_text}"),
                places: places_of(&twins.collect::<Vec<_>>(), wanted, count),
            }))
        }
    }
}

/// Which blockettes are bad, where marking at most one of each parity gives the bytes that were split.
fn spoiled(image: &[u8], blockettes: usize, sum: &str) -> Option<Vec<usize>> {
    let mut folds = [[0u8; BLOCKETTE_LENGTH]; 2];
    for (place, bytes) in image[2..].chunks_exact(BLOCKETTE_LENGTH).enumerate() {
        for (fold, byte) in folds[parity(place, blockettes)].iter_mut().zip(bytes) {
            *fold ^= byte;
        }
    }
    // only of a parity whose check blockette does not fit can one be bad
    let candidates = |wanted: usize| -> Vec<Option<usize>> {
        if folds[wanted].iter().all(|byte| *byte == 0) {
            return vec![None];
        }
        (0..blockettes)
            .filter(|place| parity(*place, blockettes) == wanted)
            .map(Some)
            .collect()
    };
    for one in candidates(0) {
        for other in candidates(1) {
            let mut bad: Vec<usize> = one.into_iter().chain(other).collect();
            bad.sort_unstable();
            let mut marks = vec![MARK_GOOD; blockettes];
            bad.iter()
                .for_each(|place| marks[*place] = MARK_ERROR_LEAST);
            if restore(image, &marks).is_ok_and(|bytes| sum_of(&bytes) == sum) {
                return Some(bad);
            }
        }
    }
    None
}

/// The parity of the blockette at a place in tape order.
fn parity(place: usize, blockettes: usize) -> usize {
    (blockettes - 1 - place) % 2
}

/// The bytes of the record in the data blockettes among those at some places.
fn places_of(places: &[usize], blockettes: usize, count: usize) -> Vec<(usize, usize)> {
    let data = places.iter().filter(|place| **place < blockettes - 2);
    data.map(|place| {
        (
            place * BLOCKETTE_LENGTH,
            ((place + 1) * BLOCKETTE_LENGTH).min(count) - 1,
        )
    })
    .collect()
}

fn places_text(start: u64, places: &[(usize, usize)]) -> String {
    let each = places
        .iter()
        .map(|(from, to)| format!("{} to {}", start + *from as u64, start + *to as u64));
    format!("bytes {}", each.collect::<Vec<_>>().join(", "))
}
