//! SIMH's tape images, `.tap`: each record between two words of its length, filled up to an even number of bytes;
//! a word of zeros for a tape mark; a word for each piece of erased tape. Words are four bytes, the lowest first.

use std::fmt;

/// The length word of a record whose bytes were not read well has this bit.
const BAD: u32 = 0x8000_0000;
const LENGTH: u32 = 0x00FF_FFFF;
const MARK: u32 = 0;
const GAP: u32 = 0xFFFF_FFFE;
const END_OF_MEDIUM: u32 = 0xFFFF_FFFF;

/// What follows what on a track.
#[derive(Clone, Debug, PartialEq, Eq)]
pub enum Object {
    Record {
        bytes: Vec<u8>,
        bad: bool,
    },
    Mark,
    /// One piece of erased tape.
    Gap,
}

impl Object {
    pub fn record(bytes: &[u8]) -> Object {
        Object::Record { bytes: bytes.to_vec(), bad: false }
    }
}

/// Why bytes are no tape image, and where.
#[derive(Clone, Debug, PartialEq, Eq)]
pub struct Problem {
    pub place: usize,
    pub what: String,
}

impl fmt::Display for Problem {
    fn fmt(&self, to: &mut fmt::Formatter) -> fmt::Result {
        write!(to, "byte {}: {}", self.place, self.what)
    }
}

fn word(bytes: &[u8], place: usize) -> Result<u32, Problem> {
    match bytes.get(place..place + 4) {
        Some(found) => Ok(u32::from_le_bytes([found[0], found[1], found[2], found[3]])),
        None => Err(Problem { place, what: "the file ends in the middle of a length".to_string() }),
    }
}

/// The objects of a tape image. A record of no bytes cannot be told from a mark, and is one.
pub fn read(bytes: &[u8]) -> Result<Vec<Object>, Problem> {
    let mut objects = Vec::new();
    let mut place = 0;
    while place < bytes.len() {
        let length = word(bytes, place)?;
        let start = place;
        place += 4;
        match length {
            MARK => objects.push(Object::Mark),
            GAP => objects.push(Object::Gap),
            END_OF_MEDIUM => break,
            _ if length & !(BAD | LENGTH) != 0 || length & LENGTH == 0 => {
                return Err(Problem { place: start, what: format!("{length:08X} is no length of a record") });
            }
            _ => {
                let count = (length & LENGTH) as usize;
                let Some(record) = bytes.get(place..place + count) else {
                    let what = format!("a record of {count} bytes, and the file has {} more", bytes.len() - place);
                    return Err(Problem { place: start, what });
                };
                place += count + count % 2;
                let behind = word(bytes, place)?;
                if behind != length {
                    let what = format!("the length behind the record is {behind:08X}, before it {length:08X}");
                    return Err(Problem { place, what });
                }
                place += 4;
                objects.push(Object::Record { bytes: record.to_vec(), bad: length & BAD != 0 });
            }
        }
    }
    Ok(objects)
}

/// The tape image of the objects. A record has at least one byte and less than 16 MB.
pub fn write(objects: &[Object]) -> Vec<u8> {
    let mut made = Vec::new();
    for object in objects {
        match object {
            Object::Mark => made.extend(MARK.to_le_bytes()),
            Object::Gap => made.extend(GAP.to_le_bytes()),
            Object::Record { bytes, bad } => {
                assert!(!bytes.is_empty() && bytes.len() <= LENGTH as usize);
                let length = bytes.len() as u32 | if *bad { BAD } else { 0 };
                made.extend(length.to_le_bytes());
                made.extend(bytes);
                if bytes.len() % 2 == 1 {
                    made.push(0);
                }
                made.extend(length.to_le_bytes());
            }
        }
    }
    made
}

#[cfg(test)]
mod tests {
    use super::*;

    #[test]
    fn the_words_of_the_format() {
        let objects =
            [Object::record(b"odd"), Object::Mark, Object::Gap, Object::Record { bytes: vec![7, 8], bad: true }];
        let bytes = write(&objects);
        let expected = [
            &[3, 0, 0, 0, b'o', b'd', b'd', 0, 3, 0, 0, 0][..],
            &[0, 0, 0, 0],
            &[0xFE, 0xFF, 0xFF, 0xFF],
            &[2, 0, 0, 0x80, 7, 8, 2, 0, 0, 0x80],
        ]
        .concat();
        assert_eq!(bytes, expected);
        assert_eq!(read(&bytes).unwrap(), objects);
    }

    #[test]
    fn the_end_of_the_medium_ends() {
        let mut bytes = write(&[Object::Mark]);
        bytes.extend([0xFF; 4]);
        bytes.extend([1, 2, 3]);
        assert_eq!(read(&bytes).unwrap(), [Object::Mark]);
    }

    #[test]
    fn what_is_no_tape_image_is_told_with_its_place() {
        let good = write(&[Object::Mark, Object::record(b"four")]);
        for length in 0..good.len() {
            match read(&good[..length]) {
                Ok(objects) => assert!(length == 0 || length == 4, "{length}: {objects:?}"),
                Err(problem) => assert!(problem.place >= 4 || length < 4, "{length}: {problem}"),
            }
        }
        let mut other = good.clone();
        other[13] = 1;
        assert_eq!(read(&other).unwrap_err().place, 12);
        other = good;
        other[7] = 0x10;
        assert_eq!(read(&other).unwrap_err().place, 4);
    }
}
