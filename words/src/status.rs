//! Status words, both ways: a word to words, and words to a word.

use crate::line::{put_decimal, put_hex};
use crate::names::{name, names, Kind};

fn put(words: &str, out: &mut Vec<u8>) {
    out.extend_from_slice(words.as_bytes());
}

/// A list with a separator, of which the first item has none before it.
struct List {
    separator: &'static str,
    start: usize,
}

impl List {
    fn new(separator: &'static str, out: &[u8]) -> List {
        List {
            separator,
            start: out.len(),
        }
    }

    fn next(&self, out: &mut Vec<u8>) {
        if out.len() > self.start {
            put(self.separator, out);
        }
    }

    fn put(&self, words: &str, out: &mut Vec<u8>) {
        self.next(out);
        put(words, out);
    }
}

/// The bits of a report, in words; `nothing` where it has none.
pub fn put_report(report: u8, out: &mut Vec<u8>) {
    let list = List::new(", ", out);
    for bit in (0..8).rev() {
        if report >> bit & 1 != 0 {
            list.put(name(Kind::Report, 1 << bit), out);
        }
    }
    if out.len() == list.start {
        put("nothing", out);
    }
}

/// A code with its number and its name.
pub fn put_code(code: u8, out: &mut Vec<u8>) {
    put("code ", out);
    put_hex(&[code], out);
    let words = name(Kind::Code, code);
    if !words.is_empty() {
        out.push(b' ');
        put(words, out);
    }
}

/// How the tape moved.
pub fn put_motion(motion: u8, out: &mut Vec<u8>) {
    match motion & 3 {
        0 => put("", out),
        3 => put("tape ", out),
        _ => put("moved ", out),
    }
    put(name(Kind::Motion, motion & 3), out);
}

/// A bit of primary, 0 the most significant.
fn bit(word: u32, number: u32) -> bool {
    word >> (31 - number) & 1 != 0
}

/// The field of primary that ends with a bit and has so many.
fn field(word: u32, last: u32, width: u32) -> u8 {
    (word >> (31 - last) & ((1 << width) - 1)) as u8
}

/// Primary: flags; drive and track; code; mark; motion; flags of the transfer and density; report.
pub fn put_primary(word: u32, out: &mut Vec<u8>) {
    let groups = List::new("; ", out);
    let flags = List::new(", ", out);
    for number in 0..3 {
        if bit(word, number) {
            flags.put(name(Kind::Primary, number as u8), out);
        }
    }
    groups.next(out);
    put("drive ", out);
    out.push(b'0' + field(word, 7, 2));
    put(", track ", out);
    out.push(b'0' + field(word, 5, 3));
    put("; ", out);
    put_code(field(word, 15, 5), out);
    if bit(word, 8) {
        put("; mark found", out);
    }
    put("; ", out);
    put_motion(field(word, 10, 2), out);
    put("; ", out);
    for number in 16..23 {
        if bit(word, number) {
            put(name(Kind::Primary, number as u8), out);
            put(", ", out);
        }
    }
    put(name(Kind::Density, field(word, 23, 1)), out);
    put("; ", out);
    put_report(word as u8, out);
}

/// Secondary.
pub fn put_secondary(word: u32, out: &mut Vec<u8>) {
    put("count ", out);
    put_decimal(word as usize, out);
}

/// An error of a blockette, by its two bytes.
fn put_error(digits: u8, number: u8, out: &mut Vec<u8>) {
    put(name(Kind::Blockette, digits & 15), out);
    out.push(b' ');
    put_decimal(number as usize, out);
    put(", mark ", out);
    put_decimal((digits >> 4) as usize, out);
    let words = name(Kind::Mark, digits >> 4);
    if !words.is_empty() {
        out.push(b' ');
        put(words, out);
    }
}

/// Tertiary: the first odd error and the first even one.
pub fn put_tertiary(word: u32, out: &mut Vec<u8>) {
    let [odd, odd_number, even, even_number] = word.to_be_bytes();
    let list = List::new("; ", out);
    if odd & 15 != 0 {
        list.put("odd: ", out);
        put_error(odd, odd_number, out);
    }
    if even & 15 != 0 {
        list.put("even: ", out);
        put_error(even, even_number, out);
    }
    if out.len() == list.start {
        put("no blockette bad", out);
    }
}

/// Quintary: the blockette at which the scan stopped.
pub fn put_quintary(word: u32, out: &mut Vec<u8>) {
    let [_, _, digits, number] = word.to_be_bytes();
    if digits & 15 == 0 {
        put("no second bad blockette of one parity", out);
    } else {
        put("second bad of its parity: ", out);
        put_error(digits, number, out);
    }
}

/// The reports of all drives.
pub fn put_reports(word: u32, out: &mut Vec<u8>) {
    for (drive, report) in word.to_be_bytes().into_iter().enumerate() {
        if drive > 0 {
            put("; ", out);
        }
        put("drive ", out);
        out.push(b'0' + drive as u8);
        out.push(b' ');
        put_report(report, out);
    }
}

/// The word of a load, by the load's number.
pub fn put_word(load: u8, word: u32, out: &mut Vec<u8>) {
    match load {
        1 => put_primary(word, out),
        2 => put_secondary(word, out),
        3 => put_tertiary(word, out),
        4 => put_reports(word, out),
        5 => put_quintary(word, out),
        _ => put_hex(&word.to_be_bytes(), out),
    }
}

pub fn words(load: u8, word: u32) -> String {
    let mut out = Vec::new();
    put_word(load, word, &mut out);
    String::from_utf8(out).expect("the table of names is text")
}

// ---- back

/// The bits that a list of names says.
fn report_of(text: &str) -> Option<u8> {
    if text == "nothing" {
        return Some(0);
    }
    text.split(", ").try_fold(0, |bits, word| {
        Some(bits | names().number(Kind::Report, word)? as u8)
    })
}

/// `code 15 GCR record bad, can be restored` is 15.
fn code_of(text: &str) -> Option<u8> {
    let digits = text.strip_prefix("code ")?.get(..2)?;
    let code = u8::from_str_radix(digits, 16).ok()?;
    let mut said = Vec::new();
    put_code(code, &mut said);
    (code < 32 && said == text.as_bytes()).then_some(code)
}

fn motion_of(text: &str) -> Option<u8> {
    let words = text
        .strip_prefix("moved ")
        .or(text.strip_prefix("tape "))
        .unwrap_or(text);
    names()
        .number(Kind::Motion, words)
        .map(|motion| motion as u8)
}

fn primary_of(text: &str) -> Option<u32> {
    let flag = |word: &str| {
        let number = names().number(Kind::Primary, word)?;
        matches!(number, 0..=2 | 16..=22).then_some(1u32 << (31 - number))
    };
    let mut groups = text.split("; ").peekable();
    let mut word = 0;
    if !groups.peek()?.starts_with("drive ") {
        for name in groups.next()?.split(", ") {
            word |= flag(name)?;
        }
    }
    let (drive, track) = groups
        .next()?
        .strip_prefix("drive ")?
        .split_once(", track ")?;
    word |= drive.parse::<u32>().ok().filter(|drive| *drive < 4)? << 24;
    word |= track.parse::<u32>().ok().filter(|track| *track < 8)? << 26;
    word |= u32::from(code_of(groups.next()?)?) << 16;
    let mut motion = groups.next()?;
    if motion == "mark found" {
        word |= 1 << 23;
        motion = groups.next()?;
    }
    word |= u32::from(motion_of(motion)?) << 21;
    let transfer = groups.next()?;
    let (flags, density) = match transfer.rsplit_once(", ") {
        Some((flags, density)) => (Some(flags), density),
        None => (None, transfer),
    };
    for name in flags.into_iter().flat_map(|flags| flags.split(", ")) {
        word |= flag(name)?;
    }
    word |= names().number(Kind::Density, density)? << 8;
    word |= u32::from(report_of(groups.next()?)?);
    groups.next().is_none().then_some(word)
}

/// `data blockette 1, mark 9` is 91 01.
fn error_of(text: &str) -> Option<[u8; 2]> {
    let (blockette, mark) = text.split_once(", mark ")?;
    let (kind, number) = blockette.rsplit_once(' ')?;
    let mark: u8 = mark.split(' ').next()?.parse().ok()?;
    let kind = names().number(Kind::Blockette, kind)? as u8;
    let bytes = [
        (mark < 16).then_some(mark << 4 | kind)?,
        number.parse().ok()?,
    ];
    let mut said = Vec::new();
    put_error(bytes[0], bytes[1], &mut said);
    (said == text.as_bytes()).then_some(bytes)
}

/// The word that these words say; none where `put_word` says no such thing.
pub fn word_of(load: u8, text: &str) -> Option<u32> {
    let word = match load {
        1 => primary_of(text),
        2 => text.strip_prefix("count ")?.parse().ok(),
        3 if text == "no blockette bad" => Some(0),
        3 => text.split("; ").try_fold(0, |word, part| {
            let (shift, error) = match part.split_once(": ")? {
                ("odd", error) => (16, error),
                ("even", error) => (0, error),
                _ => return None,
            };
            Some(word | u32::from(u16::from_be_bytes(error_of(error)?)) << shift)
        }),
        4 => text
            .split("; ")
            .enumerate()
            .try_fold(0u32, |word, (drive, part)| {
                let report = report_of(part.strip_prefix(&format!("drive {drive} "))?)?;
                Some(word << 8 | u32::from(report))
            }),
        5 if text.starts_with("no second") => Some(0),
        5 => error_of(text.strip_prefix("second bad of its parity: ")?)
            .map(|bytes| u16::from_be_bytes(bytes).into()),
        _ => u32::from_str_radix(text, 16).ok(),
    }?;
    (words(load, word) == text).then_some(word)
}
