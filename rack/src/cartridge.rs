//! A cartridge: four tracks and what is wrong with them. On disk it is a folder: `track-0.tap` to `track-3.tap` hold
//! what is on tape, the image of each record, and `cartridge.txt` what that format cannot say.

use crate::faults::{inches, place, Fault, Place, INCH};
use crate::files::write_file;
use crate::tap::{self, Object};
use ctc_words::names::{name, names, Kind};
use ctc_words::statement::{is_comment, Words, Wrong};
use std::fs;
use std::ops::Deref;
use std::path::Path;
use std::rc::Rc;

pub const TRACKS: usize = 4;
/// The length of a new tape: 600 feet.
pub const LENGTH: Place = 7200 * INCH;
/// The load point, which ends the warning of BOT; as far from EOT its warning begins.
pub const LOAD_POINT: Place = 48 * INCH;
/// Where the first record of a tape starts: one inch behind the load point.
pub const FIRST: Place = LOAD_POINT + INCH;
/// The gap between two records.
pub const GAP: Place = 12;
/// How far behind a record the heads stop where all went well; a third of an inch further where not.
pub const PROPER: Place = 4;
pub const IMPROPER: Place = PROPER + 3;
/// From where the heads stand to where a record is written.
pub const LEAD: Place = GAP - PROPER;
pub const MARK_LENGTH: Place = 5;

pub const MFM: u8 = 0;
pub const GCR: u8 = 1;
pub const BLOCKETTE: usize = 256;

/// The image of a record. A tape and those who read it share its bytes, until a fault changes some of them for one.
#[derive(Clone, Debug, Default)]
pub struct Image(Option<Rc<Vec<u8>>>);

impl Image {
    /// The bytes for one who changes them: a copy where somebody else has them too.
    pub fn own(&mut self) -> &mut Vec<u8> {
        Rc::make_mut(self.0.get_or_insert_with(Rc::default))
    }
}

impl Deref for Image {
    type Target = [u8];

    fn deref(&self) -> &[u8] {
        self.0.as_ref().map_or(&[], |bytes| bytes)
    }
}

impl From<Vec<u8>> for Image {
    fn from(bytes: Vec<u8>) -> Image {
        Image(Some(Rc::new(bytes)))
    }
}

impl PartialEq for Image {
    fn eq(&self, other: &Image) -> bool {
        **self == **other
    }
}

impl Eq for Image {}

/// What a stretch of track holds.
#[derive(Clone, Debug, PartialEq, Eq)]
pub enum What {
    Record {
        image: Image,
        density: u8,
    },
    Mark,
    /// What nobody can read: the rest of something that was written over, or a write that was broken off.
    Scrap,
}

#[derive(Clone, Debug, PartialEq, Eq)]
pub struct Segment {
    pub start: Place,
    pub length: Place,
    pub what: What,
}

impl Segment {
    pub fn end(&self) -> Place {
        self.start + self.length
    }
}

/// The length of a record on tape: a thousandth of an inch for a byte in GCR, five quarters of it in MFM, and a tenth
/// of an inch for what stands before and behind, in whole tenths.
pub fn record_length(image: usize, density: u8) -> Place {
    let thousandths = if density == MFM { image * 5 / 4 } else { image };
    ((thousandths + 199) / 100) as Place
}

/// Where a byte of an image lies behind the start of its record.
pub fn byte_place(byte: usize, density: u8) -> Place {
    record_length(byte, density) - 1
}

/// What lies on a track, in tape order. Where nothing lies the tape is erased.
#[derive(Clone, Debug, Default, PartialEq, Eq)]
pub struct Track {
    pub segments: Vec<Segment>,
}

impl Track {
    /// Erases from here to there. What is cut stays as scraps, at least a gap away.
    pub fn erase(&mut self, from: Place, to: Place) {
        let first = self.segments.partition_point(|segment| segment.end() <= from);
        let behind = self.segments.partition_point(|segment| segment.start < to);
        if first >= behind {
            return;
        }
        let scrap = |start: Place, end: Place| Segment { start, length: end - start, what: What::Scrap };
        let (start, end) = (self.segments[first].start, self.segments[behind - 1].end());
        let before = (start < from - PROPER).then(|| scrap(start, from - PROPER));
        let rest = to.max(from + GAP);
        let after = (rest < end).then(|| scrap(rest, end));
        self.segments.splice(first..behind, before.into_iter().chain(after));
    }

    /// Puts something where all is erased.
    pub fn put(&mut self, segment: Segment) {
        let index = self.segments.partition_point(|other| other.start < segment.start);
        self.segments.insert(index, segment);
    }

    /// The first one that ends behind a place, with its number.
    pub fn ahead(&self, place: Place) -> Option<usize> {
        let index = self.segments.partition_point(|segment| segment.end() <= place);
        (index < self.segments.len()).then_some(index)
    }

    /// The last one that starts before a place.
    pub fn behind(&self, place: Place) -> Option<usize> {
        self.segments.partition_point(|segment| segment.start < place).checked_sub(1)
    }
}

#[derive(Clone, Debug, PartialEq, Eq)]
pub struct Cartridge {
    pub length: Place,
    pub protected: bool,
    pub tracks: [Track; TRACKS],
    pub faults: Vec<Fault>,
}

impl Default for Cartridge {
    fn default() -> Cartridge {
        Cartridge { length: LENGTH, protected: false, tracks: Default::default(), faults: Vec::new() }
    }
}

/// The count of an image: 16 bits, rotated left by one.
pub fn image_count(image: &[u8]) -> Option<usize> {
    let held = u16::from_be_bytes([*image.first()?, *image.get(1)?]);
    Some(usize::from(held.rotate_left(1)))
}

/// The blockettes of a GCR record of so many bytes, check blockettes included.
pub fn blockettes(count: usize) -> usize {
    if count == 0 {
        0
    } else {
        count.div_ceil(BLOCKETTE) + 2
    }
}

/// The density in which an image was written, by its length; none where it is no image. A record of no bytes is the
/// same in both.
fn density_of(image: &[u8]) -> Option<Option<u8>> {
    let count = image_count(image)?;
    match image.len() {
        2 if count == 0 => Some(None),
        length if length == 2 + count => Some(Some(MFM)),
        length if length == 2 + BLOCKETTE * blockettes(count) => Some(Some(GCR)),
        _ => None,
    }
}

fn track_file(track: usize) -> String {
    format!("track-{track}.tap")
}

pub const TEXT_FILE: &str = "cartridge.txt";
/// The bytes of a scrap in its tape image, for each tenth of an inch.
const SCRAP_BYTES: usize = 100;

/// A track as a tape image: a gap word for each tenth of an inch beyond the usual gap, scraps as bad records.
pub fn track_objects(track: &Track) -> Vec<Object> {
    let mut objects = Vec::new();
    let mut place = FIRST;
    for segment in &track.segments {
        while place < segment.start {
            objects.push(Object::Gap);
            place += 1;
        }
        objects.push(match &segment.what {
            What::Record { image, .. } => Object::record(image),
            What::Mark => Object::Mark,
            What::Scrap => Object::Record { bytes: vec![0; SCRAP_BYTES * segment.length as usize], bad: true },
        });
        place = place.max(segment.start) + segment.length + GAP;
    }
    objects
}

/// The track that a tape image holds. `empty` tells the density of records of no bytes by their number.
pub fn track_of(objects: &[Object], empty: impl Fn(usize) -> u8) -> Result<Track, String> {
    let mut track = Track::default();
    let mut place = FIRST;
    for object in objects {
        let number = track.segments.len();
        let (length, what) = match object {
            Object::Gap => {
                place += 1;
                continue;
            }
            Object::Mark => (MARK_LENGTH, What::Mark),
            Object::Record { bytes, bad: true } => (bytes.len().div_ceil(SCRAP_BYTES) as Place, What::Scrap),
            Object::Record { bytes, bad: false } => {
                let Some(density) = density_of(bytes) else {
                    return Err(format!("object {number}, of {} bytes, is no image of a record", bytes.len()));
                };
                let density = density.unwrap_or_else(|| empty(number));
                (record_length(bytes.len(), density), What::Record { image: bytes.clone().into(), density })
            }
        };
        track.segments.push(Segment { start: place, length, what });
        place += length + GAP;
    }
    Ok(track)
}

/// The density of a word of a command, in small letters or capitals.
pub fn density_of_word(word: &str) -> Option<u8> {
    names().number(Kind::Density, &word.to_uppercase()).map(|number| number as u8)
}

impl Cartridge {
    /// The text beside the tape images.
    pub fn text(&self) -> String {
        let mut text = String::from("# what the tape images beside this cannot say\n");
        text += &format!("inches {}\n", inches(self.length));
        if self.protected {
            text += "protected\n";
        }
        for (number, track) in self.tracks.iter().enumerate() {
            for (object, segment) in track.segments.iter().enumerate() {
                if let What::Record { image, density } = &segment.what {
                    if image.len() == 2 {
                        let density = name(Kind::Density, *density);
                        text += &format!("empty track {number} object {object} density {density}\n");
                    }
                }
            }
        }
        for fault in &self.faults {
            text += &format!("{fault}\n");
        }
        text
    }

    /// Writes the folder, which is made where it is missing; each file whole or not at all.
    pub fn save(&self, folder: &Path) -> Result<(), String> {
        for (number, track) in self.tracks.iter().enumerate() {
            write_file(&folder.join(track_file(number)), &tap::write(&track_objects(track)))?;
        }
        write_file(&folder.join(TEXT_FILE), self.text().as_bytes())
    }

    /// Reads the folder. A tape image that is missing is an erased track.
    pub fn load(folder: &Path) -> Result<Cartridge, String> {
        let file = folder.join(TEXT_FILE);
        let text = fs::read_to_string(&file).map_err(|error| format!("{} cannot be read: {error}", file.display()))?;
        let mut cartridge = Cartridge::default();
        let mut empty = Vec::new();
        for (number, line) in text.lines().enumerate() {
            let told = |wrong: Wrong| format!("{}:{}:{}: {}", file.display(), number + 1, wrong.column, wrong.what);
            if let Some(found) = cartridge.take_line(line).map_err(told)? {
                empty.push(found);
            }
        }
        for track in 0..TRACKS {
            let file = folder.join(track_file(track));
            let told = |what: String| format!("{}: {what}", file.display());
            let bytes = match fs::read(&file) {
                Ok(bytes) => bytes,
                Err(error) if error.kind() == std::io::ErrorKind::NotFound => continue,
                Err(error) => return Err(told(error.to_string())),
            };
            let objects = tap::read(&bytes).map_err(|problem| told(problem.to_string()))?;
            let density = |object| {
                let found = empty.iter().find(|&&(other, number, _)| (other, number) == (track, object));
                found.map_or(MFM, |&(_, _, density)| density)
            };
            cartridge.tracks[track] = track_of(&objects, density).map_err(told)?;
        }
        Ok(cartridge)
    }

    /// One line of the text; gives the density of a record of no bytes where it says one.
    fn take_line(&mut self, line: &str) -> Result<Option<(usize, usize, u8)>, Wrong> {
        if is_comment(line.as_bytes()) {
            return Ok(None);
        }
        let mut words = Words::of(line.as_bytes())?;
        if words.is_done() {
            return Ok(None);
        }
        match words.peek() {
            Some("inches") => self.length = length(&mut words)?,
            Some("protected") => {
                words.need("protected")?;
                self.protected = true;
            }
            Some("empty") => {
                words.need("empty")?;
                let (track, object) = (words.named("track", 0, 3)?, words.named("object", 0, 1_000_000)?);
                let density = density(&mut words)?;
                words.end()?;
                return Ok(Some((track, object, density)));
            }
            _ => self.faults.push(Fault::parse(&mut words)?),
        }
        words.end()?;
        Ok(None)
    }
}

/// `inches N`, as long as a tape may be.
pub fn length(words: &mut Words) -> Result<Place, Wrong> {
    let column = words.column();
    match place(words, "inches")? {
        length if length > FIRST + LOAD_POINT => Ok(length),
        _ => Err(Wrong { column, what: format!("a tape is longer than {} inches", inches(FIRST + LOAD_POINT)) }),
    }
}

/// `density MFM` or `density GCR`.
pub fn density(words: &mut Words) -> Result<u8, Wrong> {
    words.need("density")?;
    match words.name(Kind::Density) {
        Some(name) => Ok(name.number as u8),
        None => words.other("a density is MFM or GCR"),
    }
}

#[cfg(test)]
mod tests {
    use super::*;
    use crate::faults::Chance;

    fn record(start: Place, count: usize) -> Segment {
        let mut image = (count as u16).rotate_right(1).to_be_bytes().to_vec();
        image.resize(2 + count, 7);
        let length = record_length(image.len(), MFM);
        Segment { start, length, what: What::Record { image: image.into(), density: MFM } }
    }

    #[test]
    fn what_is_cut_stays_as_scraps_a_gap_away() {
        let mut track = Track::default();
        track.put(record(500, 10_000));
        let end = track.segments[0].end();
        track.erase(540, 550);
        assert_eq!(track.segments.len(), 2);
        assert_eq!(
            (track.segments[0].start, track.segments[0].length, &track.segments[0].what),
            (500, 36, &What::Scrap)
        );
        assert_eq!((track.segments[1].start, track.segments[1].end()), (552, end));
        track.erase(0, 10_000);
        assert_eq!(track.segments, []);
    }

    /// An erase of any place leaves, tenth by tenth, what the papers' gap lets it leave.
    #[test]
    fn an_erase_takes_what_it_passes_and_nothing_else() {
        let mut chance = Chance::new(7);
        for _ in 0..2000 {
            let mut track = Track::default();
            let mut place = FIRST;
            for _ in 0..chance.below(8) {
                place += GAP + chance.below(40) as Place;
                let segment = record(place, chance.below(9000) as usize);
                place = segment.end();
                track.put(segment);
            }
            let from = FIRST + chance.below(600) as Place;
            let to = from + 1 + chance.below(300) as Place;
            let before = track.clone();
            track.erase(from, to);
            for tenth in 0..place + 400 {
                let holds = |track: &Track| {
                    let found = track.segments.iter().find(|segment| segment.start <= tenth && tenth < segment.end());
                    found.cloned()
                };
                let met = |segment: &Segment| segment.start < to && segment.end() > from;
                match (holds(&before), holds(&track)) {
                    (Some(was), now) if !met(&was) => assert_eq!(Some(was), now),
                    (Some(_), now) => {
                        let left = tenth < from - PROPER || tenth >= to.max(from + GAP);
                        assert_eq!(left, now.is_some_and(|segment| segment.what == What::Scrap));
                    }
                    (None, now) => assert_eq!(now, None),
                }
            }
        }
    }

    /// Random writes and erasures leave a track that its tape image gives back, place by place.
    #[test]
    fn a_track_comes_back_from_its_tape_image() {
        let mut chance = Chance::new(5);
        for _ in 0..200 {
            let mut track = Track::default();
            for _ in 0..chance.below(30) {
                let from = FIRST + chance.below(3000) as Place;
                let segment = match chance.below(3) {
                    0 => Segment { start: from, length: MARK_LENGTH, what: What::Mark },
                    1 => record(from, chance.below(20_000) as usize),
                    _ => record(from, 0),
                };
                track.erase(from - GAP, segment.end() + GAP);
                if chance.below(4) > 0 {
                    track.put(segment);
                }
            }
            let objects = tap::read(&tap::write(&track_objects(&track))).unwrap();
            assert_eq!(track_of(&objects, |_| MFM).unwrap(), track);
        }
    }

    #[test]
    fn an_image_of_the_wrong_length_is_refused() {
        let objects = [Object::Mark, Object::record(&[0x80, 0x02, 1, 2, 3])];
        assert!(track_of(&objects, |_| MFM).unwrap_err().contains("object 1, of 5 bytes"));
    }
}
