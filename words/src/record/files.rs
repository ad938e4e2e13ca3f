//! Files as the commands read and write them: whole or not at all, and with progress where it is seen.

use crate::Failure;
use std::fs::{self, File};
use std::io::{self, IsTerminal, Read, Write};
use std::os::fd::AsRawFd;
use std::path::{Path, PathBuf};
use std::process;
use std::sync::atomic::{AtomicI32, Ordering};
use std::time::{Duration, Instant};

static SIGNAL: AtomicI32 = AtomicI32::new(0);

extern "C" fn note_signal(number: i32) {
    SIGNAL.store(number, Ordering::Relaxed);
}

extern "C" {
    fn signal(number: i32, handler: extern "C" fn(i32)) -> usize;
    fn siginterrupt(number: i32, flag: i32) -> i32;
    fn syncfs(file: i32) -> i32;
}

/// From here on HUP, INT and TERM are noted, so that what was begun is removed. A read that waits ends by them.
pub fn watch_signals() {
    for number in [1, 2, 15] {
        unsafe {
            signal(number, note_signal);
            siginterrupt(number, 1);
        }
    }
}

pub fn not_cut() -> Result<(), Failure> {
    match SIGNAL.load(Ordering::Relaxed) {
        0 => Ok(()),
        number => Err(Failure::Cut(number)),
    }
}

pub const STANDARD_INPUT: &str = "standard input";
pub const STANDARD_OUTPUT: &str = "standard output";

/// Opens what is read, and says how long it is where that is known.
pub fn open(path: &Path) -> Result<(Box<dyn Read>, Option<u64>), Failure> {
    if path == Path::new("-") {
        return Ok((Box::new(io::stdin().lock()), None));
    }
    let failed = |cause| Failure::file("read", path, cause);
    let file = File::open(path).map_err(failed)?;
    let about = file.metadata().map_err(failed)?;
    if about.is_dir() {
        let what = format!("{} is a folder, and no file", path.display());
        return Err(Failure::Failed(what));
    }
    let length = about.is_file().then_some(about.len());
    Ok((Box::new(file), length))
}

/// Reads until the space is full or the input ends; gives how many bytes came.
pub fn fill(input: &mut dyn Read, space: &mut [u8], path: &Path) -> Result<usize, Failure> {
    let mut filled = 0;
    while filled < space.len() {
        not_cut()?;
        match input.read(&mut space[filled..]) {
            Ok(0) => break,
            Ok(read) => filled += read,
            Err(cause) if cause.kind() == io::ErrorKind::Interrupted => {}
            Err(cause) => {
                let standard = path == Path::new("-");
                let path = if standard {
                    Path::new(STANDARD_INPUT)
                } else {
                    path
                };
                return Err(Failure::file("read", path, cause));
            }
        }
    }
    Ok(filled)
}

/// All of a small file, but no more than so many bytes; none where it is not there.
pub fn read_some(path: &Path, most: usize) -> Result<Option<Vec<u8>>, Failure> {
    let failed = |cause| Failure::file("read", path, cause);
    let file = match File::open(path) {
        Ok(file) => file,
        Err(cause) if cause.kind() == io::ErrorKind::NotFound => return Ok(None),
        Err(cause) => return Err(failed(cause)),
    };
    let mut bytes = Vec::new();
    file.take(most as u64)
        .read_to_end(&mut bytes)
        .map_err(failed)?;
    Ok(Some(bytes))
}

pub fn write_new(path: &Path, bytes: &[u8]) -> Result<(), Failure> {
    File::create_new(path)
        .and_then(|mut file| file.write_all(bytes))
        .map_err(|cause| Failure::file("write", path, cause))
}

/// What is made under a name of its own, and removed where it does not get its right one.
pub struct Part {
    pub path: PathBuf,
    folder: bool,
    kept: bool,
}

impl Part {
    /// Beside what it is to become.
    fn name(beside: &Path) -> PathBuf {
        let mut name = beside.file_name().unwrap_or_default().to_os_string();
        name.push(format!(".part.{}", process::id()));
        beside.with_file_name(name)
    }

    pub fn folder(becomes: &Path) -> Result<Part, Failure> {
        let path = Part::name(becomes);
        fs::create_dir(&path).map_err(|cause| Failure::file("make", &path, cause))?;
        Ok(Part {
            path,
            folder: true,
            kept: false,
        })
    }

    pub fn file(becomes: &Path) -> Result<(Part, File), Failure> {
        let path = Part::name(becomes);
        let file = File::options()
            .read(true)
            .write(true)
            .create_new(true)
            .open(&path);
        let file = file.map_err(|cause| Failure::file("write", &path, cause))?;
        Ok((
            Part {
                path,
                folder: false,
                kept: false,
            },
            file,
        ))
    }

    /// Brings all that a folder has to the disk: at once, since file by file takes many times as long.
    pub fn to_disk(&self) -> Result<(), Failure> {
        let failed = |cause| Failure::file("write", &self.path, cause);
        let folder = File::open(&self.path).map_err(failed)?;
        match unsafe { syncfs(folder.as_raw_fd()) } {
            0 => Ok(()),
            _ => Err(failed(io::Error::last_os_error())),
        }
    }

    pub fn rename(mut self, becomes: &Path) -> Result<(), Failure> {
        not_cut()?;
        fs::rename(&self.path, becomes).map_err(|cause| Failure::file("write", becomes, cause))?;
        self.kept = true;
        Ok(())
    }
}

impl Drop for Part {
    fn drop(&mut self) {
        if !self.kept {
            let _ = if self.folder {
                fs::remove_dir_all(&self.path)
            } else {
                fs::remove_file(&self.path)
            };
        }
    }
}

/// How far a work has come, on standard error where that is a terminal.
pub struct Progress {
    total: Option<u64>,
    last: Instant,
    shown: bool,
    seen: bool,
}

impl Progress {
    pub fn new(total: Option<u64>) -> Progress {
        Progress {
            total,
            last: Instant::now(),
            shown: false,
            seen: io::stderr().is_terminal(),
        }
    }

    pub fn at(&mut self, record: u64) {
        if !self.seen || self.last.elapsed() < Duration::from_millis(250) {
            return;
        }
        let of = self
            .total
            .map(|total| format!(" of {total}"))
            .unwrap_or_default();
        let _ = write!(io::stderr(), "\rctc record: record {record}{of}");
        self.last = Instant::now();
        self.shown = true;
    }

    /// Clears the line, for what is said next.
    pub fn clear(&mut self) {
        if self.shown {
            let _ = write!(io::stderr(), "\r\x1b[K");
            self.shown = false;
        }
    }
}

impl Drop for Progress {
    fn drop(&mut self) {
        self.clear();
    }
}
