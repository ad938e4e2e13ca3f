//! A moving view of a cartridge: document 02's eleventh wish, with each stretch counted anew.

use crate::generator::Random;
use crate::lines;

/// Code, motion and count of a finished store. Only the code is looked at.
#[derive(Clone, Copy, Debug, PartialEq, Eq)]
pub struct Record {
    pub code: u8,
    pub motion: u8,
    pub count: u32,
}

/// "Take up to 65,535 result records".
pub const RUN_LIMIT: usize = 65_535;
/// "and a width of 1 to 64".
pub const WIDTHS: std::ops::RangeInclusive<u64> = 1..=64;

#[derive(Clone, Copy, Debug, PartialEq, Eq)]
pub enum Refusal {
    Space = 11,
    Width = 18,
    Run = 19,
}

#[derive(Clone, Copy, Debug, PartialEq, Eq)]
pub struct View {
    pub stretches: usize,
    /// The place of the first record of the first stretch with most codes 16.
    pub first: Option<usize>,
}

/// A rule made wrong on purpose, to show that the comparison notices it.
#[derive(Clone, Copy, Debug, PartialEq, Eq)]
pub enum Mutant {
    // What a stretch is.
    /// The oldest record is let out one step late.
    OldestLate,
    /// The oldest record is let out one step early.
    OldestEarly,
    /// It is never let out.
    OldestNever,
    /// A good record that leaves takes an error with it.
    OldestUnread,
    /// The newest record comes one step late.
    NewestLate,
    /// Stretches do not overlap.
    Apart,
    ShortAtEnd,
    ShortAtStart,
    /// A run of just the width gives no stretch.
    EqualIsShort,
    LastMissing,
    /// A run shorter than the width is one stretch.
    ShortIsOne,
    BackToFront,
    // What is counted.
    /// 15 and 16 are decimal.
    Decimal,
    Exchanged,
    OthersWithAll,
    GoodAmongOthers,
    HighUnseen,
    HighCut,
    FailedMotionUnseen,
    CountlessUnseen,
    OnlyReported,
    // The first with most.
    LastWithMost,
    MostOf15,
    MostOfOthers,
    MostOfAll,
    MostOf15And16,
    FirstWithAny,
    FirstWithout,
    PlaceFrom1,
    PlaceOfLast,
    PlaceOfCode16,
    PlaceCut,
    PlaceOfByte,
    NoneWithout16,
    NoStretchIs0,
    // Refusals.
    Width0,
    Width1Refused,
    Width64Refused,
    Width65,
    WidthCut8,
    WidthCut16,
    WidthCut32,
    WidthCut64,
    WidthAbove255Unreadable,
    WidthAbove65535Unreadable,
    /// The width's line counts among the records.
    WidthIsRecord,
    RunOneMore,
    RunCut16,
    RunBeforeWidth,
    /// A short run is no stretch, whatever the width.
    ShortBeforeWidth,
    // Lines.
    WidthBeforeLines,
    RunBeforeLines,
    LineFromRecords,
    LastBadLine,
    BadLineUnseen,
    BadLineEndsRun,
    BadCountsRefused,
    MotionTo3,
    MotionUnlimited,
    CountTo65535,
    CountUnlimited,
    LowerCase,
    OneDigit,
    ThreeDigits,
    ZerosUnreadable,
    CarriageReturn,
    Blanks,
    Signs,
    EmptyLineUnseen,
    EmptyLineAtEndUnseen,
    EmptyField,
    FieldMore,
    FieldMissing,
    Commas,
    LastWithoutEndUnseen,
    WidthZerosUnreadable,
    EmptyWidthIs0,
    NoLineIsNothing,
    NoLineIs18,
    // Space, which no line shows.
    SpaceFirst,
    SpaceBeforeRun,
    SpaceForRecords,
    SpaceOneShort,
    SpaceExact,
    SpaceForNone,
    RestCleared,
    ClearedAndRefused,
}

/// Those that lines show.
pub const MUTANTS: [Mutant; 79] = [
    Mutant::OldestLate,
    Mutant::OldestEarly,
    Mutant::OldestNever,
    Mutant::OldestUnread,
    Mutant::NewestLate,
    Mutant::Apart,
    Mutant::ShortAtEnd,
    Mutant::ShortAtStart,
    Mutant::EqualIsShort,
    Mutant::LastMissing,
    Mutant::ShortIsOne,
    Mutant::BackToFront,
    Mutant::Decimal,
    Mutant::Exchanged,
    Mutant::OthersWithAll,
    Mutant::GoodAmongOthers,
    Mutant::HighUnseen,
    Mutant::HighCut,
    Mutant::FailedMotionUnseen,
    Mutant::CountlessUnseen,
    Mutant::OnlyReported,
    Mutant::LastWithMost,
    Mutant::MostOf15,
    Mutant::MostOfOthers,
    Mutant::MostOfAll,
    Mutant::MostOf15And16,
    Mutant::FirstWithAny,
    Mutant::FirstWithout,
    Mutant::PlaceFrom1,
    Mutant::PlaceOfLast,
    Mutant::PlaceOfCode16,
    Mutant::PlaceCut,
    Mutant::PlaceOfByte,
    Mutant::NoneWithout16,
    Mutant::NoStretchIs0,
    Mutant::Width0,
    Mutant::Width1Refused,
    Mutant::Width64Refused,
    Mutant::Width65,
    Mutant::WidthCut8,
    Mutant::WidthCut16,
    Mutant::WidthCut32,
    Mutant::WidthCut64,
    Mutant::WidthAbove255Unreadable,
    Mutant::WidthAbove65535Unreadable,
    Mutant::WidthIsRecord,
    Mutant::RunOneMore,
    Mutant::RunCut16,
    Mutant::RunBeforeWidth,
    Mutant::ShortBeforeWidth,
    Mutant::WidthBeforeLines,
    Mutant::RunBeforeLines,
    Mutant::LineFromRecords,
    Mutant::LastBadLine,
    Mutant::BadLineUnseen,
    Mutant::BadLineEndsRun,
    Mutant::BadCountsRefused,
    Mutant::MotionTo3,
    Mutant::MotionUnlimited,
    Mutant::CountTo65535,
    Mutant::CountUnlimited,
    Mutant::LowerCase,
    Mutant::OneDigit,
    Mutant::ThreeDigits,
    Mutant::ZerosUnreadable,
    Mutant::CarriageReturn,
    Mutant::Blanks,
    Mutant::Signs,
    Mutant::EmptyLineUnseen,
    Mutant::EmptyLineAtEndUnseen,
    Mutant::EmptyField,
    Mutant::FieldMore,
    Mutant::FieldMissing,
    Mutant::Commas,
    Mutant::LastWithoutEndUnseen,
    Mutant::WidthZerosUnreadable,
    Mutant::EmptyWidthIs0,
    Mutant::NoLineIsNothing,
    Mutant::NoLineIs18,
];

/// Those of the space that a caller lends.
pub const SPACE_MUTANTS: [Mutant; 8] = [
    Mutant::SpaceFirst,
    Mutant::SpaceBeforeRun,
    Mutant::SpaceForRecords,
    Mutant::SpaceOneShort,
    Mutant::SpaceExact,
    Mutant::SpaceForNone,
    Mutant::RestCleared,
    Mutant::ClearedAndRefused,
];

// ---------------------------------------------------------------------------------------------
// The view
// ---------------------------------------------------------------------------------------------

/// "the number of codes 15, of codes 16, and of other nonzero codes", hexadecimal as all codes are.
fn fresh_count(stretch: &[Record], mutant: Option<Mutant>) -> [usize; 3] {
    let wrong = |rule| mutant == Some(rule);
    let (code_15, code_16) = match mutant {
        Some(Mutant::Decimal) => (15, 16),
        Some(Mutant::Exchanged) => (0x16, 0x15),
        _ => (0x15, 0x16),
    };
    let mut counts = [0; 3];
    for record in stretch {
        let code = match record.code {
            code if wrong(Mutant::HighCut) => code & 0x1F,
            0x20.. if wrong(Mutant::HighUnseen) => continue,
            0x19.. if wrong(Mutant::OnlyReported) => continue,
            code => code,
        };
        if wrong(Mutant::FailedMotionUnseen) && record.motion == 3
            || wrong(Mutant::CountlessUnseen) && record.count == 0
        {
            continue;
        }
        if code == code_15 {
            counts[0] += 1;
        } else if code == code_16 {
            counts[1] += 1;
        } else if code != 0 || wrong(Mutant::GoodAmongOthers) {
            counts[2] += 1;
        }
        if wrong(Mutant::OthersWithAll) && (code == code_15 || code == code_16) {
            counts[2] += 1;
        }
    }
    counts
}

/// The records that are counted for the stretch which begins at a place.
fn stretch(run: &[Record], place: usize, width: usize, mutant: Option<Mutant>) -> &[Record] {
    let (start, end) = match mutant {
        Some(Mutant::OldestLate) => (place.saturating_sub(1), place + width),
        Some(Mutant::OldestEarly) if place > 0 => (place + 1, place + width),
        Some(Mutant::OldestNever) => (0, place + width),
        Some(Mutant::NewestLate) if place > 0 => (place, place + width - 1),
        Some(Mutant::ShortAtStart) => ((place + 1).saturating_sub(width), place + 1),
        Some(Mutant::Apart) => (place * width, place * width + width),
        _ => (place, place + width),
    };
    &run[start.min(run.len())..end.min(run.len())]
}

/// "Each stretch's counts equal a fresh count of it": so each is counted, from nothing.
pub fn view(
    width: u64,
    run: &[Record],
    space: &mut [u8],
    mutant: Option<Mutant>,
) -> Result<View, Refusal> {
    let wrong = |rule| mutant == Some(rule);
    let widths = match mutant {
        Some(Mutant::Width0) => 0..=64,
        Some(Mutant::Width1Refused) => 2..=64,
        Some(Mutant::Width64Refused) => 1..=63,
        Some(Mutant::Width65) => 1..=65,
        _ => WIDTHS,
    };
    let limit = match mutant {
        Some(Mutant::WidthIsRecord) => RUN_LIMIT - 1,
        Some(Mutant::RunOneMore) => RUN_LIMIT + 1,
        _ => RUN_LIMIT,
    };
    let run = match mutant {
        Some(Mutant::RunCut16) => &run[..run.len() % 65_536],
        _ => run,
    };
    let short = run.len() < usize::try_from(width).unwrap_or(usize::MAX);
    let stretches = match mutant {
        _ if short && wrong(Mutant::ShortIsOne) && !run.is_empty() => 1,
        Some(Mutant::ShortAtEnd | Mutant::ShortAtStart) => run.len(),
        _ if short => 0,
        Some(Mutant::Apart) => run.len() / (width as usize).max(1),
        Some(Mutant::EqualIsShort) if run.len() == width as usize => 0,
        Some(Mutant::LastMissing) => run.len() - width as usize,
        _ => run.len() - width as usize + 1,
    };
    let needed = match mutant {
        Some(Mutant::SpaceForRecords) => 3 * run.len(),
        Some(Mutant::SpaceForNone) => 3 * stretches.max(1),
        Some(Mutant::SpaceOneShort) => (3 * stretches).saturating_sub(1),
        _ => 3 * stretches,
    };
    let space_short = space.len() < needed || wrong(Mutant::SpaceExact) && space.len() != needed;
    // "18 a width outside 1 to 64; 19 a run above 65,535; 11 for output space comes last."
    let mut refusals = [
        (!widths.contains(&width), Refusal::Width),
        (run.len() > limit, Refusal::Run),
        (space_short, Refusal::Space),
    ];
    match mutant {
        Some(Mutant::SpaceFirst) => refusals.rotate_right(1),
        Some(Mutant::SpaceBeforeRun) => refusals.swap(1, 2),
        Some(Mutant::RunBeforeWidth) => refusals.swap(0, 1),
        Some(Mutant::ShortBeforeWidth) if short => refusals[0].0 = false,
        _ => {}
    }
    if let Some((_, refusal)) = refusals.iter().find(|(holds, _)| *holds) {
        if wrong(Mutant::ClearedAndRefused) {
            space.fill(0);
        }
        return Err(*refusal);
    }
    let width = width as usize;
    if wrong(Mutant::RestCleared) {
        space.fill(0);
    }
    let mut counted: Vec<[usize; 3]> = (0..stretches)
        .map(|place| fresh_count(stretch(run, place, width, mutant), mutant))
        .collect();
    if wrong(Mutant::OldestUnread) {
        // The one that leaves is taken for one of the others, whatever it was.
        for place in 1..stretches {
            let before = counted[place - 1];
            let newest = fresh_count(&run[place + width - 1..place + width], None);
            counted[place] = [
                before[0] + newest[0],
                before[1] + newest[1],
                (before[2] + newest[2]).saturating_sub(1),
            ];
        }
    }
    let weight = |counts: &[usize; 3]| match mutant {
        Some(Mutant::MostOf15) => counts[0],
        Some(Mutant::MostOfOthers) => counts[2],
        Some(Mutant::MostOfAll) => counts.iter().sum(),
        Some(Mutant::MostOf15And16) => counts[0] + counts[1],
        Some(Mutant::FirstWithAny) => counts[1].min(1),
        Some(Mutant::FirstWithout) => 64 - counts[1].min(64),
        _ => counts[1],
    };
    // "Also give the first stretch with most codes 16, as the place of its first record from 0."
    let most = counted.iter().map(weight).max();
    let mut first = match mutant {
        Some(Mutant::LastWithMost) => counted.iter().rposition(|one| Some(weight(one)) == most),
        _ => counted.iter().position(|one| Some(weight(one)) == most),
    };
    if wrong(Mutant::NoneWithout16) && most == Some(0) {
        first = None;
    }
    // "A run shorter than the width gives no stretches, and none as the first."
    if wrong(Mutant::NoStretchIs0) && stretches == 0 {
        first = Some(0);
    }
    let first = first.map(|place| match mutant {
        Some(Mutant::PlaceFrom1) => place + 1,
        Some(Mutant::PlaceOfLast) => place + width - 1,
        Some(Mutant::PlaceOfByte) => 3 * place,
        Some(Mutant::PlaceCut) => place % 256,
        Some(Mutant::PlaceOfCode16) => {
            let place_of_16 = run[place..place + width]
                .iter()
                .position(|record| record.code == 0x16);
            place + place_of_16.unwrap_or(0)
        }
        _ => place,
    });
    if wrong(Mutant::BackToFront) {
        counted.reverse();
    }
    // "For each full stretch of that width, in run order, write three bytes".
    for (bytes, counts) in space.chunks_mut(3).zip(&counted) {
        for (byte, count) in bytes.iter_mut().zip(counts) {
            *byte = *count as u8;
        }
    }
    Ok(View { stretches, first })
}

// ---------------------------------------------------------------------------------------------
// Lines
// ---------------------------------------------------------------------------------------------

/// The answers to a run: its width, then a record a line.
pub fn answers(input: &[u8], mutant: Option<Mutant>) -> Vec<u8> {
    let wrong = |rule| mutant == Some(rule);
    if input.is_empty() && wrong(Mutant::NoLineIsNothing) {
        return Vec::new();
    }
    if input.is_empty() && wrong(Mutant::NoLineIs18) {
        return b"18,-,-\n".to_vec();
    }
    let mut lines: Vec<&[u8]> = lines::split(input).collect();
    if wrong(Mutant::LastWithoutEndUnseen) && !input.ends_with(b"\n") {
        lines.pop();
    }
    if wrong(Mutant::EmptyLineAtEndUnseen) && lines.last().is_some_and(|line| line.is_empty()) {
        lines.pop();
    }
    let mut bad = Vec::new();
    // Without any line there is no width either.
    let width = match lines.first().and_then(|line| read_width(line, mutant)) {
        Some(width) => width,
        None => {
            bad.push(1);
            0
        }
    };
    let mut run = Vec::new();
    for (index, line) in lines.iter().enumerate().skip(1) {
        if wrong(Mutant::EmptyLineUnseen) && line.is_empty() {
            continue;
        }
        if wrong(Mutant::RunBeforeLines) && run.len() > RUN_LIMIT {
            break;
        }
        match read_record(line, mutant) {
            Some(record) => run.push(record),
            None if wrong(Mutant::BadLineUnseen) => {}
            None if wrong(Mutant::BadLineEndsRun) => break,
            None => bad.push(index + 1),
        }
    }
    if wrong(Mutant::WidthBeforeLines) && bad.first() != Some(&1) && !WIDTHS.contains(&width) {
        bad.clear();
    }
    let bad = match mutant {
        Some(Mutant::LastBadLine) => bad.last(),
        _ => bad.first(),
    };
    if let Some(&line) = bad {
        return match mutant {
            Some(Mutant::LineFromRecords) => format!("?,{},-\n", line - 1),
            Some(Mutant::BadCountsRefused) => "?,-,-\n".to_string(),
            _ => format!("?,{line},-\n"),
        }
        .into_bytes();
    }
    let mut space = vec![0; 3 * (run.len() + 1)];
    match view(width, &run, &mut space, mutant) {
        Err(refusal) => format!("{},-,-\n", refusal as u8).into_bytes(),
        Ok(View { stretches, first }) => {
            let first = first.map_or("-".to_string(), |place| place.to_string());
            let mut text = format!("0,{stretches},{first}\n");
            for counts in space.chunks(3).take(stretches) {
                text += &format!("{},{},{}\n", counts[0], counts[1], counts[2]);
            }
            text.into_bytes()
        }
    }
}

/// A decimal number, however long; above 64 bits it is the greatest of these.
fn read_width(line: &[u8], mutant: Option<Mutant>) -> Option<u64> {
    let line = trimmed(line, mutant);
    if line.is_empty() && mutant == Some(Mutant::EmptyWidthIs0) {
        return Some(0);
    }
    if mutant == Some(Mutant::WidthZerosUnreadable) && line.len() > 1 && line[0] == b'0' {
        return None;
    }
    if line.is_empty() || !line.iter().all(u8::is_ascii_digit) {
        return None;
    }
    let digits = line.iter().map(|byte| (byte - b'0') as u64);
    let width = digits.clone().fold(0, |value: u64, digit| {
        value.saturating_mul(10).saturating_add(digit)
    });
    let wrapped = digits.fold(0, |value: u64, digit| {
        value.wrapping_mul(10).wrapping_add(digit)
    });
    Some(match mutant {
        Some(Mutant::WidthCut8) => wrapped & 0xFF,
        Some(Mutant::WidthCut16) => wrapped & 0xFFFF,
        Some(Mutant::WidthCut32) => wrapped & 0xFFFF_FFFF,
        Some(Mutant::WidthCut64) => wrapped,
        Some(Mutant::WidthAbove255Unreadable) if width > 255 => return None,
        Some(Mutant::WidthAbove65535Unreadable) if width > 65_535 => return None,
        _ => width,
    })
}

/// `CC:M:N`: the code in two capital hexadecimal digits, motion 0-255 and a count of 32 bits in decimal.
fn read_record(line: &[u8], mutant: Option<Mutant>) -> Option<Record> {
    let wrong = |rule| mutant == Some(rule);
    let line = trimmed(line, mutant);
    let mut fields = line
        .split(|&byte| byte == b':' || wrong(Mutant::Commas) && byte == b',')
        .collect::<Vec<_>>();
    match fields.len() {
        3 => {}
        4.. if wrong(Mutant::FieldMore) => fields.truncate(3),
        2 if wrong(Mutant::FieldMissing) => fields.push(b"0"),
        _ => return None,
    }
    let code = fields[0];
    match code.len() {
        2 => {}
        1 if wrong(Mutant::OneDigit) => {}
        3 if wrong(Mutant::ThreeDigits) => {}
        _ => return None,
    }
    let mut value = 0u32;
    for byte in code {
        value = value * 16
            + match byte {
                b'0'..=b'9' => byte - b'0',
                b'A'..=b'F' => byte - b'A' + 10,
                b'a'..=b'f' if wrong(Mutant::LowerCase) => byte - b'a' + 10,
                _ => return None,
            } as u32;
    }
    let motions = match mutant {
        Some(Mutant::MotionTo3) => 3,
        Some(Mutant::MotionUnlimited) => u64::MAX,
        _ => 255,
    };
    let counts = match mutant {
        Some(Mutant::CountTo65535) => 65_535,
        Some(Mutant::CountUnlimited) => u64::MAX,
        _ => u32::MAX as u64,
    };
    Some(Record {
        code: value as u8,
        motion: decimal(fields[1], motions, mutant)? as u8,
        count: decimal(fields[2], counts, mutant)? as u32,
    })
}

/// As in a session: one digit or more, no sign; zeros before it are readable, and the value counts.
fn decimal(field: &[u8], limit: u64, mutant: Option<Mutant>) -> Option<u64> {
    let field = match mutant {
        Some(Mutant::Signs) => field.strip_prefix(b"+").unwrap_or(field),
        Some(Mutant::EmptyField) if field.is_empty() => b"0",
        Some(Mutant::ZerosUnreadable) if field.len() > 1 && field[0] == b'0' => return None,
        _ => field,
    };
    if field.is_empty() {
        return None;
    }
    let mut value = 0u64;
    for byte in field {
        if !byte.is_ascii_digit() {
            return None;
        }
        value = value
            .saturating_mul(10)
            .saturating_add((byte - b'0') as u64);
    }
    (value <= limit).then_some(value)
}

fn trimmed(line: &[u8], mutant: Option<Mutant>) -> &[u8] {
    match mutant {
        Some(Mutant::CarriageReturn) => line.strip_suffix(b"\r").unwrap_or(line),
        Some(Mutant::Blanks) => line.trim_ascii(),
        _ => line,
    }
}

// ---------------------------------------------------------------------------------------------
// Random runs
// ---------------------------------------------------------------------------------------------

/// Widths that are refused, and what they come to in 8, 16, 32 or 64 bits.
const REFUSED_WIDTHS: [&str; 22] = [
    "0",
    "00",
    "65",
    "065",
    "66",
    "100",
    "127",
    "128",
    "255",
    "256",
    "257",
    "261",
    "320",
    "65535",
    "65536",
    "65539",
    "4294967295",
    "4294967296",
    "4294967298",
    "18446744073709551616",
    "18446744073709551620",
    "340282366920938463463374607431768211457",
];

const UNREADABLE_WIDTHS: [&str; 18] = [
    "", "-1", "+3", " 3", "3 ", "3\r", "\t3", "0x3", "3,", ",3", "3:", "A", "3.0", "1e1", "15:1:0",
    "#3", "3 4", "\u{0663}",
];

/// Lines that are no records.
const UNREADABLE_RECORDS: [&str; 62] = [
    "",
    " ",
    "#",
    "# 15:1:0",
    "15",
    "15:",
    "15:1",
    "15:1:",
    "15::0",
    ":1:0",
    "::",
    ":",
    "15:1:0:",
    "15:1:0:0",
    ":15:1:0",
    "15:1:0,",
    "15,1,0",
    "15;1;0",
    "15 1 0",
    "1:1:0",
    "5:1:0",
    "015:1:0",
    "115:1:0",
    "0015:1:0",
    "1a:1:0",
    "0c:1:0",
    "fF:1:0",
    "1G:1:0",
    "G1:1:0",
    "0x15:1:0",
    "x5:1:0",
    "+5:1:0",
    "-1:1:0",
    " 15:1:0",
    "15:1:0 ",
    "15 :1:0",
    "15: 1:0",
    "15:1 :0",
    "15:1: 0",
    "15:1:0\r",
    "15:1:0\0",
    "\u{feff}15:1:0",
    "15:256:0",
    "15:0256:0",
    "15:257:0",
    "15:1000:0",
    "15:65536:0",
    "15:4294967297:0",
    "15:18446744073709551617:0",
    "15:-1:0",
    "15:+1:0",
    "15:A:0",
    "15:1.0:0",
    "15:1:4294967296",
    "15:1:04294967296",
    "15:1:4294967297",
    "15:1:18446744073709551616",
    "15:1:340282366920938463463374607431768211456",
    "15:1:-1",
    "15:1:+1",
    "15:1:F",
    "3",
];

/// What codes come together.
#[derive(Clone, Copy)]
enum Cluster {
    Good,
    Restored,
    Lost,
    Worn,
    /// Codes that one could take for others.
    Alike,
    Any,
}

const CLUSTERS: [Cluster; 6] = [
    Cluster::Good,
    Cluster::Restored,
    Cluster::Lost,
    Cluster::Worn,
    Cluster::Alike,
    Cluster::Any,
];

fn code(cluster: Cluster, random: &mut Random) -> u8 {
    match cluster {
        Cluster::Good => random.pick(&[0, 0, 0, 0, 0, 0, 0, 0, 0x15, 0x16]),
        Cluster::Restored => random.pick(&[0, 0x15, 0x15, 0x15, 0x16]),
        Cluster::Lost => random.pick(&[0, 0x16, 0x16, 0x16, 0x15]),
        Cluster::Worn => random.pick(&[0, 0, 0x15, 0x16, 7, 8, 0x0C, 0x17]),
        Cluster::Alike => random.pick(&[
            0x0F, 0x10, 0x14, 0x15, 0x16, 0x17, 0x1F, 0x20, 0x35, 0x36, 0x40, 0x51, 0x61, 0x95,
            0xF6, 0xFF, 0,
        ]),
        Cluster::Any => random.byte(),
    }
}

fn put_number(number: u64, random: &mut Random, text: &mut Vec<u8>) {
    if random.chance(3) {
        let zeros = random.pick(&[1, 1, 2, 4, 20, 40]);
        text.extend(std::iter::repeat_n(b'0', zeros));
    }
    text.extend_from_slice(number.to_string().as_bytes());
}

fn put_record(code: u8, random: &mut Random, text: &mut Vec<u8>) {
    text.extend_from_slice(format!("{code:02X}:").as_bytes());
    let motion = match random.below(20) {
        0 => 255,
        1 => random.below(256) as u64,
        _ => random.below(4) as u64,
    };
    put_number(motion, random, text);
    text.push(b':');
    let count = match random.below(20) {
        0 => u32::MAX as u64,
        1 => random.number() >> 32,
        2..=8 => 0,
        _ => random.below(65_536) as u64,
    };
    put_number(count, random, text);
}

/// Lengths that a random run would hardly have: width and length.
const EDGES: [(&str, usize); 10] = [
    ("64", RUN_LIMIT),
    ("1", RUN_LIMIT),
    ("64", RUN_LIMIT + 1),
    ("0", RUN_LIMIT + 1),
    ("65", RUN_LIMIT + 1),
    ("2", RUN_LIMIT + 3),
    ("5", 2 * RUN_LIMIT + 7),
    ("1", RUN_LIMIT - 1),
    ("65", RUN_LIMIT),
    ("33", 65_536 + 40),
];

/// What a run is made of, but for its records.
struct Plan {
    width: String,
    length: usize,
    /// Before which records a line stands that is none, and what it is.
    bad: Vec<(usize, &'static str)>,
    /// What stands behind the last record.
    end: &'static str,
}

/// Runs that come in every comparison, among the random ones: no line at all, the edges, each line that is unreadable
/// or refused, and each width.
pub const FIXED: std::ops::RangeInclusive<u64> = 101..=277;

fn fixed(index: usize, random: &mut Random) -> Option<Plan> {
    let length = 3 + random.below(4);
    let plan = |width: &str, length, bad| Plan {
        width: width.to_string(),
        length,
        bad,
        end: "\n",
    };
    let mut index = index;
    if let Some((width, length)) = EDGES.get(index) {
        return Some(plan(width, *length, Vec::new()));
    }
    index -= EDGES.len();
    if let Some(line) = UNREADABLE_RECORDS.get(index) {
        return Some(plan("2", length, vec![(random.below(length + 1), line)]));
    }
    index -= UNREADABLE_RECORDS.len();
    for widths in [&UNREADABLE_WIDTHS[..], &REFUSED_WIDTHS] {
        if let Some(width) = widths.get(index) {
            return Some(plan(width, length, Vec::new()));
        }
        index -= widths.len();
    }
    let width = index as u64 + 1;
    let length = index + 1 + random.below(9);
    WIDTHS
        .contains(&width)
        .then(|| plan(&width.to_string(), length, Vec::new()))
}

fn planned(seed: u64, longest: usize, random: &mut Random) -> Plan {
    let width = seed % WIDTHS.end() + 1;
    let written = match random.below(100) {
        0..=9 => random.pick(&REFUSED_WIDTHS).to_string(),
        10..=13 => random.pick(&UNREADABLE_WIDTHS).to_string(),
        _ => {
            let mut text = Vec::new();
            put_number(width, random, &mut text);
            String::from_utf8_lossy(&text).into_owned()
        }
    };
    let length = match random.below(100) {
        0..=4 => 0,
        5..=34 => (width as usize + random.below(5)).saturating_sub(2),
        35..=69 => random.below(200),
        70..=97 => random.below(longest + 1),
        _ => RUN_LIMIT + 1 + random.below(200),
    };
    let mut bad = Vec::new();
    if length > RUN_LIMIT && random.chance(50) {
        // Behind the limit alone.
        let place = RUN_LIMIT + 1 + random.below(length - RUN_LIMIT);
        bad.push((place, random.pick(&UNREADABLE_RECORDS)));
    } else if random.chance(12) {
        for _ in 0..random.below(3) + 1 {
            let place = random.below(length + 1);
            bad.push((place, random.pick(&UNREADABLE_RECORDS)));
        }
    }
    let end = match random.below(20) {
        0..=3 => "",
        // An empty line is no record.
        4 => "\n\n",
        _ => "\n",
    };
    Plan {
        width: written,
        length,
        bad,
        end,
    }
}

/// A random run, and the same for the same seed. The longer ones have up to `longest` records, but for a few above the
/// limit.
pub fn run(seed: u64, longest: usize) -> Vec<u8> {
    let mut random = Random::new(seed);
    let plan = match seed.checked_sub(*FIXED.start()) {
        Some(0) => return Vec::new(),
        Some(index) if FIXED.contains(&seed) => fixed(index as usize - 1, &mut random),
        _ => None,
    };
    let plan = plan.unwrap_or_else(|| planned(seed, longest, &mut random));
    let mut text = plan.width.into_bytes();
    // Some runs have no code 16 at all, and some one code alone.
    let only = random
        .chance(8)
        .then(|| random.pick(&[0, 0x15, 0x16, 7, 0xFF]));
    let without = random.chance(10);
    let mut cluster = random.pick(&CLUSTERS);
    for place in 0..=plan.length {
        for (_, line) in plan.bad.iter().filter(|(before, _)| *before == place) {
            text.push(b'\n');
            text.extend_from_slice(line.as_bytes());
        }
        if place == plan.length {
            break;
        }
        if random.chance(6) {
            cluster = random.pick(&CLUSTERS);
        }
        let code = match (only, code(cluster, &mut random)) {
            (Some(only), _) => only,
            (None, 0x16) if without => 0x15,
            (None, code) => code,
        };
        text.push(b'\n');
        put_record(code, &mut random, &mut text);
    }
    text.extend_from_slice(plan.end.as_bytes());
    text
}
