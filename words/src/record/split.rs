//! A file, cut into records and their images.

use crate::density::Density;
use crate::files::{self, Part, Progress};
use crate::marks::number;
use crate::sum::{sum_of, Sum};
use crate::{bytes_in_records, print, Failure, Words};
use ctc_words::records::{build, COUNT_LIMIT};
use std::ffi::OsString;
use std::fs;
use std::io::{BufWriter, Write};
use std::path::{Path, PathBuf};

/// The first line of an index.
pub const HEAD: &str = "ctc-record split 1";
pub const INDEX: &str = "index";
/// The most bytes of a record of the first tapes.
const USUAL_COUNT: usize = 16_384;

/// The name of a record: that of its image and its marks without what follows the point.
pub fn name_of(record: u64) -> String {
    format!("{record:06}")
}

pub fn run(words: &[OsString]) -> Result<(), Failure> {
    let words = Words::read(words, &[("--count", true), ("--density", true)])?;
    let &[file, folder] = words.files.as_slice() else {
        return Err(Failure::Usage(
            "split takes a file and a folder".to_string(),
        ));
    };
    let count = match words.option("--count") {
        None => USUAL_COUNT,
        Some(word) => match number(word) {
            Some(count) if (1..=COUNT_LIMIT).contains(&count) => count,
            _ => {
                return Err(Failure::Usage(format!(
                    "a record has 1 to {COUNT_LIMIT} bytes, and not '{word}'"
                )))
            }
        },
    };
    let density = match words.option("--density") {
        None => Density::Gcr,
        Some(word) => Density::of_word(word).ok_or_else(|| {
            Failure::Usage(format!("the density is gcr or mfm, and not '{word}'"))
        })?,
    };
    files::watch_signals();
    // without a slash at its end
    let folder: PathBuf = Path::new(folder).components().collect();
    let (records, length) = split(Path::new(file), &folder, count, density)?;
    print(&format!(
        "{}: {}\n",
        folder.display(),
        bytes_in_records(length, records)
    ))
}

/// Gives how many records and bytes there are.
fn split(
    file: &Path,
    folder: &Path,
    count: usize,
    density: Density,
) -> Result<(u64, u64), Failure> {
    if fs::symlink_metadata(folder).is_ok() && !is_empty_folder(folder) {
        let what = format!(
            "{} is there already: name a new folder, or remove this one first",
            folder.display()
        );
        return Err(Failure::Failed(what));
    }
    let (mut input, known) = files::open(file)?;
    let part = Part::folder(folder)?;
    let mut progress = Progress::new(known.map(|length| length.div_ceil(count as u64)));
    let index_path = part.path.join(INDEX);
    let index_failed = |cause| Failure::file("write", &index_path, cause);
    let mut index = BufWriter::new(fs::File::create_new(&index_path).map_err(index_failed)?);
    writeln!(index, "{HEAD}\ndensity {}", density.word()).map_err(index_failed)?;

    let mut space = vec![0; count];
    let (mut records, mut length, mut whole) = (0, 0, Sum::default());
    loop {
        let read = files::fill(input.as_mut(), &mut space, file)?;
        if read == 0 {
            break;
        }
        let bytes = &space[..read];
        let image = build(bytes, density as u8).ok_or_else(|| {
            Failure::Failed(format!("record {records} was refused by the library"))
        })?;
        let name = name_of(records);
        files::write_new(&part.path.join(format!("{name}.image")), &image)?;
        writeln!(index, "{name} {read} {}", sum_of(bytes)).map_err(index_failed)?;
        whole.add(bytes);
        length += read as u64;
        records += 1;
        progress.at(records);
    }
    writeln!(index, "end {records} {length} {}", whole.digits()).map_err(index_failed)?;
    index.flush().map_err(index_failed)?;
    part.to_disk()?;
    part.rename(folder)?;
    Ok((records, length))
}

fn is_empty_folder(path: &Path) -> bool {
    fs::read_dir(path).is_ok_and(|mut inside| inside.next().is_none())
}
