//! What can be wrong with a tape and a drive: at a place that one names, or by chance with a seed.

use ctc_words::names::{name, Kind};
use ctc_words::statement::{listed, Words, Wrong, LATE};
use std::fmt;

/// A place along the tape, in tenths of an inch from BOT.
pub type Place = i64;
pub const INCH: Place = 10;

/// Numbers by chance, the same ones for the same seed (splitmix64).
#[derive(Clone, Debug)]
pub struct Chance(u64);

impl Chance {
    pub fn new(seed: u64) -> Chance {
        Chance(seed)
    }

    pub fn next(&mut self) -> u64 {
        self.0 = self.0.wrapping_add(0x9E37_79B9_7F4A_7C15);
        let mut mixed = self.0;
        mixed = (mixed ^ mixed >> 30).wrapping_mul(0xBF58_476D_1CE4_E5B9);
        mixed = (mixed ^ mixed >> 27).wrapping_mul(0x94D0_49BB_1331_11EB);
        mixed ^ mixed >> 31
    }

    /// A number below the limit, which is not 0.
    pub fn below(&mut self, limit: u64) -> u64 {
        self.next() % limit
    }

    /// Yes in so many of a thousand.
    pub fn in_thousand(&mut self, many: u32) -> bool {
        many > 0 && self.below(1000) < u64::from(many)
    }
}

/// How often a fault is met; none is always.
pub type Times = Option<u32>;

/// A fault at a place. Objects are the records and marks of a track, counted from 0; blockettes are counted from 0 in
/// tape order, check blockettes included; orders are those that the drive was given, counted from 1.
#[derive(Clone, Debug, PartialEq, Eq)]
pub enum Fault {
    /// What lies here is read badly by chance, so many in a hundred, in each pass anew.
    Stretched { track: u8, from: Place, to: Place, chance: u32 },
    /// A blockette is read badly in every pass.
    Bad { track: u8, object: usize, blockette: usize, mark: u8 },
    /// The beginning of a record is gone, and its count with it: code C, D or E.
    Torn { track: u8, object: usize, code: u8 },
    /// In the middle of a record the drive finds a gap: code 0A.
    Gap { track: u8, object: usize, times: Times },
    /// What stands behind a record is bad: code 10, 11 or 12.
    Trailing { track: u8, object: usize, code: u8 },
    /// A byte of the image is another one, and no mark says so.
    Silent { track: u8, object: usize, byte: usize, times: Times },
    /// A write that comes here drops out.
    DropOut { track: u8, at: Place, times: Times },
    /// EOT is found here.
    EarlyEnd { at: Place, times: Times },
    /// The tape is gone when a move on this track comes here.
    Gone { track: u8, at: Place },
    /// Late flags with the result of an order.
    Late { order: usize, flags: u8 },
    /// The load point is not found in time.
    LoadPointLate { times: Times },
    /// A rewind or fast forward does not find its end in time.
    EndLate { times: Times },
}

impl Fault {
    pub fn times(&self) -> Times {
        match *self {
            Fault::Gap { times, .. }
            | Fault::Silent { times, .. }
            | Fault::DropOut { times, .. }
            | Fault::EarlyEnd { times, .. }
            | Fault::LoadPointLate { times }
            | Fault::EndLate { times } => times,
            Fault::Gone { .. } | Fault::Late { .. } => Some(1),
            _ => None,
        }
    }
}

fn times_words(times: Times) -> String {
    times.map_or(String::new(), |many| format!(" times {many}"))
}

/// A place in inches with its tenths.
pub fn inches(place: Place) -> String {
    if place % INCH == 0 {
        format!("{}", place / INCH)
    } else {
        format!("{}.{}", place / INCH, place % INCH)
    }
}

impl fmt::Display for Fault {
    fn fmt(&self, to: &mut fmt::Formatter) -> fmt::Result {
        match self {
            Fault::Stretched { track, from, to: end, chance } => {
                write!(to, "stretched track {track} from {} to {} chance {chance}", inches(*from), inches(*end))
            }
            Fault::Bad { track, object, blockette, mark } => {
                write!(to, "bad track {track} object {object} blockette {blockette} mark {mark}")
            }
            Fault::Torn { track, object, code } => write!(to, "torn track {track} object {object} code {code:02X}"),
            Fault::Gap { track, object, times } => {
                write!(to, "gap track {track} object {object}{}", times_words(*times))
            }
            Fault::Trailing { track, object, code } => {
                write!(to, "trailing track {track} object {object} code {code:02X}")
            }
            Fault::Silent { track, object, byte, times } => {
                write!(to, "silent track {track} object {object} place {byte}{}", times_words(*times))
            }
            Fault::DropOut { track, at, times } => {
                write!(to, "drop-out track {track} at {}{}", inches(*at), times_words(*times))
            }
            Fault::EarlyEnd { at, times } => write!(to, "early-end at {}{}", inches(*at), times_words(*times)),
            Fault::Gone { track, at } => write!(to, "gone track {track} at {}", inches(*at)),
            Fault::Late { order, flags } => {
                let which = LATE.get(usize::from(*flags).wrapping_sub(1)).unwrap_or(&"both");
                write!(to, "late {which} order {order}")
            }
            Fault::LoadPointLate { times } => write!(to, "load-point-late{}", times_words(*times)),
            Fault::EndLate { times } => write!(to, "end-late{}", times_words(*times)),
        }
    }
}

/// A name and a place in inches, with at most one digit behind the point.
pub fn place(words: &mut Words, name: &str) -> Result<Place, Wrong> {
    words.need(name)?;
    let column = words.column();
    let text = words.next("how many inches")?;
    let (whole, tenths) = text.split_once('.').unwrap_or((text, "0"));
    let is_digits = |part: &str| !part.is_empty() && part.bytes().all(|byte| byte.is_ascii_digit());
    match (whole.parse::<u32>(), tenths.parse::<u32>()) {
        (Ok(whole_inches), Ok(tenths_more))
            if is_digits(whole) && is_digits(tenths) && tenths.len() == 1 && whole_inches <= 100_000 =>
        {
            Ok(Place::from(whole_inches) * INCH + Place::from(tenths_more))
        }
        _ => Err(Wrong { column, what: format!("{name} '{text}' is no number of inches, such as 60 or 60.5") }),
    }
}

/// A track.
fn track(words: &mut Words) -> Result<u8, Wrong> {
    Ok(words.named("track", 0, 3)? as u8)
}

/// A record or mark of a track, counted from 0.
fn object(words: &mut Words) -> Result<usize, Wrong> {
    words.named("object", 0, 1_000_000)
}

/// One of these codes: `code HH` or its name.
fn code(words: &mut Words, codes: &[u8]) -> Result<u8, Wrong> {
    let column = words.column();
    match words.code()? {
        Some(code) if codes.contains(&code) => Ok(code),
        found => {
            let each = codes.iter().map(|code| format!("'code {code:02X}' or '{}'", name(Kind::Code, *code)));
            let each = each.collect::<Vec<_>>().join(", ");
            match found {
                Some(code) => Err(Wrong { column, what: format!("code {code:02X} is none of these: {each}") }),
                None => words.other(&format!("one of {each}")),
            }
        }
    }
}

/// `times N`, or always.
fn times(words: &mut Words) -> Result<Times, Wrong> {
    match words.take("times") {
        true => Ok(Some(words.number_in("times", 1, 1_000_000)? as u32)),
        false => Ok(None),
    }
}

/// The words that a fault of a drive begins with.
const KINDS: [&str; 12] = [
    "stretched",
    "bad",
    "torn",
    "gap",
    "trailing",
    "silent",
    "drop-out",
    "early-end",
    "gone",
    "late",
    "load-point-late",
    "end-late",
];

impl Fault {
    /// The fault of its words, which `Display` writes.
    pub fn parse(words: &mut Words) -> Result<Fault, Wrong> {
        let Some(kind) = words.peek().filter(|kind| KINDS.contains(kind)) else {
            return words.other(&format!("a fault of a drive is {}", listed(&KINDS)));
        };
        words.need(kind)?;
        let fault = match kind {
            "stretched" => {
                let (track, from) = (track(words)?, place(words, "from")?);
                let column = words.column();
                let to = place(words, "to")?;
                if to < from {
                    return Err(Wrong { column, what: format!("the stretch ends before {} inches", inches(from)) });
                }
                Fault::Stretched { track, from, to, chance: words.named("chance", 1, 100)? as u32 }
            }
            "bad" => Fault::Bad {
                track: track(words)?,
                object: object(words)?,
                blockette: words.named("blockette", 0, 257)?,
                mark: words.named("mark", 1, 9)? as u8,
            },
            "torn" => {
                Fault::Torn { track: track(words)?, object: object(words)?, code: code(words, &[0x0C, 0x0D, 0x0E])? }
            }
            "gap" => Fault::Gap { track: track(words)?, object: object(words)?, times: times(words)? },
            "trailing" => {
                let codes = [0x10, 0x11, 0x12];
                Fault::Trailing { track: track(words)?, object: object(words)?, code: code(words, &codes)? }
            }
            "silent" => Fault::Silent {
                track: track(words)?,
                object: object(words)?,
                byte: words.named("place", 2, 66_049)?,
                times: times(words)?,
            },
            "drop-out" => Fault::DropOut { track: track(words)?, at: place(words, "at")?, times: times(words)? },
            "early-end" => Fault::EarlyEnd { at: place(words, "at")?, times: times(words)? },
            "gone" => Fault::Gone { track: track(words)?, at: place(words, "at")? },
            "late" => {
                let column = words.column();
                let flags = words.late(3)?;
                if flags == 0 {
                    return Err(Wrong { column, what: "late flags are write, read or both".to_string() });
                }
                Fault::Late { order: words.named("order", 1, 1_000_000)?, flags }
            }
            "load-point-late" => Fault::LoadPointLate { times: times(words)? },
            _ => Fault::EndLate { times: times(words)? },
        };
        words.end()?;
        Ok(fault)
    }
}

/// Faults by chance, each so many in a thousand: of the reads, of the writes, or of the blockettes of a read.
#[derive(Clone, Copy, Debug, Default, PartialEq, Eq)]
pub struct Chances {
    pub drop_out: u32,
    pub torn: u32,
    pub bad: u32,
    pub late: u32,
    /// A byte that is read as another one, in one pass, with no mark.
    pub silent: u32,
    /// A gap that is found in the middle of a record, in one pass.
    pub gap: u32,
}

#[cfg(test)]
mod tests {
    use super::*;

    #[test]
    fn a_fault_is_read_as_it_is_written() {
        let texts = [
            "stretched track 2 from 60 to 100.5 chance 30",
            "bad track 0 object 3 blockette 5 mark 9",
            "torn track 1 object 0 code 0E",
            "gap track 2 object 4 times 3",
            "gap track 2 object 4",
            "trailing track 3 object 12 code 11",
            "silent track 0 object 2 place 700 times 1",
            "drop-out track 0 at 61.3 times 2",
            "drop-out track 0 at 61",
            "early-end at 700 times 1",
            "gone track 2 at 90",
            "late read order 7",
            "load-point-late times 1",
            "end-late",
        ];
        for text in texts {
            let fault = Fault::parse(&mut Words::of(text.as_bytes()).unwrap()).unwrap();
            assert_eq!(fault.to_string(), text);
        }
    }

    #[test]
    fn what_cannot_be_meant_is_said() {
        for (text, column, part) in [
            ("stretched track 4 from 1 to 2 chance 3", 17, "track '4' is not 0 to 3"),
            ("stretched track 1 to 2", 19, "the word 'from' is missing here"),
            ("stretched track 1 from 9 to 2 chance 3", 26, "ends before 9 inches"),
            ("stretched track 1 from 9.25 to 10 chance 3", 24, "no number of inches"),
            ("torn track 1 object 2 code 16", 23, "code 16 is none of these: 'code 0C' or 'identification zone late'"),
            ("torn track 1 object 2 0E", 23, "'0E' cannot stand here: one of 'code 0C' or 'identification zone late'"),
            ("torn track 1 object 2", 22, "the line ends too soon: one of 'code 0C'"),
            ("late order 7", 6, "'order' cannot stand here: the late flags are write, read or both"),
            ("late 0 order 7", 6, "write, read or both"),
            ("late read order 7 more", 19, "'more' says nothing here"),
            ("bent", 1, "'bent' cannot stand here: a fault of a drive is stretched, bad"),
            ("", 1, "a fault of a drive is stretched, bad"),
        ] {
            let said = Fault::parse(&mut Words::of(text.as_bytes()).unwrap()).unwrap_err();
            assert!(said.what.contains(part) && said.column == column, "{text}: {said:?}");
        }
    }

    /// All that a list of codes has in quotation marks can be typed.
    #[test]
    fn what_a_list_of_codes_says_can_be_typed() {
        for (fault, codes) in [("torn", [0x0C, 0x0D, 0x0E]), ("trailing", [0x10, 0x11, 0x12])] {
            let read = |code: &str| {
                let text = format!("{fault} track 1 object 2 {code}");
                Fault::parse(&mut Words::of(text.as_bytes()).unwrap())
            };
            let said = read("0E").unwrap_err().what;
            let list = said.split_once("here: ").unwrap().1;
            let typed: Vec<u8> = list
                .split('\'')
                .skip(1)
                .step_by(2)
                .map(|code| match read(code) {
                    Ok(Fault::Torn { code, .. } | Fault::Trailing { code, .. }) => code,
                    other => panic!("{code}: {other:?}"),
                })
                .collect();
            assert_eq!(typed, codes.map(|code| [code, code]).concat(), "{said}");
        }
    }
}
