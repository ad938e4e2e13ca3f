//! What generated sessions reach, and that they are the same for the same seed.

use machine::generator;
use machine::lines::{self, Line, Session};
use machine::machine::{link, primary, report, Action, Entry, Gap, Machine};
use machine::machine::{Operation, Phase, Send, OPERATIONS};
use machine::records::{self, Density, GOOD, NO_PLACE};
use std::collections::BTreeMap;

// As many, and as long, as tests/run compares.
const SESSIONS: u64 = 600;
const LINES: usize = 500;

type Counts = BTreeMap<String, usize>;

fn phase_name(phase: &Phase) -> String {
    match phase {
        Phase::Collecting { length: 0, .. } => "idle".to_string(),
        Phase::Collecting { .. } => "collecting".to_string(),
        Phase::AckOffered { .. } => "ACK offered".to_string(),
        Phase::Sending { send, noes, .. } => format!("sending {send:?} after {noes} noes"),
        Phase::GoOffered(_) => "GO offered".to_string(),
        Phase::DataAwaited(_) => "data awaited".to_string(),
        Phase::ResultAwaited(_) => "result awaited".to_string(),
        Phase::EorOffered { .. } => "EOR offered".to_string(),
    }
}

fn count_session(seed: u64, counts: &mut Counts) {
    let mut count = |name: String| *counts.entry(name).or_insert(0) += 1;
    let text = generator::session(seed, LINES);
    let mut session = Session::new(None);
    let mut out = Vec::new();
    let mut number = 0;
    for line in lines::split(&text) {
        number += 1;
        let before = session.machine.clone();
        let density = before.drives[before.selected].density;
        out.clear();
        session.answer(line, &mut out);
        let after = &session.machine;
        let refusal = String::from_utf8_lossy(out.split(|&byte| byte == b',').next().unwrap());
        count(format!("phase {}", phase_name(&after.phase)));
        count(format!("refusal {refusal}"));
        count_guard(&before, lines::read(line), after, &mut count);
        if let (Phase::DataAwaited(job), Some(Line::Data(_))) = (before.phase, lines::read(line)) {
            if let Some(size) = long(job.count()) {
                count(format!("data {density:?}, {size}: refusal {refusal}"));
            }
        }
        if let (Phase::ResultAwaited(job), Some(Line::Result { image, marks, .. })) =
            (before.phase, lines::read(line))
        {
            if let Some(supplied) = job.supplied() {
                count(format!("supplied: result, refusal {refusal}"));
                let blank = if supplied == 0 { "0" } else { "a count" };
                if refusal == "9" {
                    count(format!(
                        "supplied {blank}: {}",
                        image_kind(&image, supplied)
                    ));
                }
                if refusal == "10" && !records::is_mark(marks[0]) {
                    count("supplied: first mark not legal".to_string());
                }
                if let Some(size) = long(supplied) {
                    count(format!("supplied {size}: result, refusal {refusal}"));
                }
            }
        }
        if refusal != "0" {
            assert!(
                before == *after,
                "a line that was refused changed the state"
            );
            continue;
        }
        match (before.phase, lines::read(line)) {
            (
                Phase::ResultAwaited(job),
                Some(Line::Result {
                    code,
                    mark,
                    image,
                    marks,
                    space,
                    ..
                }),
            ) => {
                let operation = job.operation;
                count(format!("result {operation:?} {code:02X}"));
                count(format!("result {operation:?} {density:?}"));
                if mark {
                    count(format!("mark {operation:?}"));
                }
                let last = after.code();
                if last != code {
                    count(format!(
                        "code {last:02X} in place of {operation:?} {code:02X}"
                    ));
                }
                let delivered = out.rsplit(|&byte| byte == b',').next().unwrap().len() / 2;
                let whole = records::count_of(&image).unwrap_or(0);
                let fits = after.outcome & primary::OVERFLOW == 0;
                if operation == Operation::Read && delivered < whole && fits && last != code {
                    count(format!(
                        "code {last:02X} that delivers less than the record"
                    ));
                }
                for bit in [17, 18, 19, 20, 21, 22] {
                    if after.outcome & 1 << (31 - bit) != 0 {
                        count(format!("bit {bit} after {operation:?}"));
                    }
                }
                count_retry(operation, code, &marks, after, &mut count);
                let told = after.outcome & primary::COUNT_VALID != 0;
                if let (true, Some(size)) = (told, long(after.secondary as usize)) {
                    count(format!("{operation:?} {density:?} tells {size}"));
                    if job.supplied().is_some() {
                        count(format!("supplied long: {code:02X} ends as {last:02X}"));
                    }
                }
                if let Some(supplied) = job.supplied() {
                    let blank = if supplied == 0 { "0" } else { "a count" };
                    count(format!("supplied {blank}: {code:02X} ends as {last:02X}"));
                    if last == 0x15 || last == 0x16 {
                        let first = if marks[0] == records::GOOD {
                            "good"
                        } else {
                            "bad"
                        };
                        count(format!("supplied: {last:02X}, first mark {first}"));
                        let own = records::count_of(&image) == Some(supplied);
                        let own = if own { "the same" } else { "another" };
                        count(format!("supplied: {last:02X}, own count {own}"));
                        let whole = if fits && delivered < supplied {
                            "stopped in the data"
                        } else if !fits && space < 256 {
                            "space short of the first blockette"
                        } else if !fits {
                            "space short"
                        } else if supplied < 256 {
                            "less than a blockette"
                        } else {
                            "all delivered"
                        };
                        count(format!("supplied: {last:02X}, {whole}"));
                    }
                }
            }
            (Phase::AckOffered { string }, Some(Line::Taken)) => {
                let operation = string[1] >> 4 & 7;
                if string[0] == link::LOAD {
                    count(format!("load {operation}"));
                } else {
                    count(format!("store {operation}"));
                    if operation == 3 {
                        count(format!("control {:02X}", string[5]));
                    }
                    if operation == 4 && string[2] == 0x80 {
                        count_supplied_store(&string, &before, after, &mut count);
                    }
                    let size = long(u16::from_be_bytes([string[4], string[5]]) as usize);
                    if let (5, Some(size)) = (operation, size) {
                        count(format!("write {size}: code {:02X}", after.code()));
                    }
                    if operation != 0 && after.code() != 0 {
                        count(format!("store ends with code {:02X}", after.code()));
                    }
                }
            }
            (Phase::DataAwaited(_), Some(Line::Data(_))) => {
                count(format!("data {density:?}"));
            }
            (Phase::GoOffered(job), Some(Line::Byte(_) | Line::Broken)) => {
                let yes = matches!(after.phase, Phase::DataAwaited(_));
                let go = if yes { "GO yes" } else { "GO no" };
                count(go.to_string());
                if long(job.count()).is_some() {
                    count(format!("{go} to a long write"));
                }
            }
            (Phase::DataAwaited(job), Some(Line::Reset)) if long(job.count()).is_some() => {
                count("reset of a long write".to_string());
            }
            (Phase::Sending { send, .. }, Some(Line::Byte(byte))) => {
                let ended = !matches!(after.phase, Phase::Sending { .. });
                if byte == link::ACK {
                    count(format!("accepted {send:?}"));
                } else if ended {
                    count(format!("given up at the fifth no {send:?}"));
                }
            }
            (Phase::Sending { send, .. }, Some(Line::Broken)) => {
                count(format!("broken {send:?}"));
            }
            (_, Some(Line::Reset)) => count("reset".to_string()),
            _ => {}
        }
    }
    assert_eq!(number, LINES, "seed {seed}");
}

/// The guards: what a store meets, and what a report, a data call and a reset meet and leave.
fn count_guard(
    before: &Machine,
    line: Option<Line>,
    after: &Machine,
    count: &mut impl FnMut(String),
) {
    let reset_by = match (before.phase, line) {
        (_, Some(Line::Reset)) => "call",
        (Phase::AckOffered { string }, Some(Line::Taken)) if string[0] == link::STORE => {
            if string[1] >> 4 & 7 != 0 {
                return count_guarded_store(&string, before, after, count);
            }
            "store"
        }
        (_, Some(Line::Report { drive, report })) => {
            let guarded = before.drives.get(drive as usize).map(|drive| drive.guard);
            if guarded == Some(true) && report & report::INSTALLED == 0 {
                count(format!("guard: report without 32 on drive {drive}"));
            }
            return;
        }
        (Phase::DataAwaited(_), Some(Line::Data(_))) if after.phase != before.phase => {
            let drive = before.drives[before.selected];
            if drive.is_guarded() {
                count(format!("guard: data, gap {:?}", drive.gap));
            }
            return;
        }
        _ => return,
    };
    for (number, drive) in before.drives.iter().enumerate() {
        if drive.guard {
            count(format!("guard: reset by {reset_by}, drive {number}"));
        }
    }
}

fn count_guarded_store(
    string: &[u8; 8],
    before: &Machine,
    after: &Machine,
    count: &mut impl FnMut(String),
) {
    let code = after.code();
    let drive = before.drives[after.selected];
    let operation = match (string[1] >> 4 & 7, string[5]) {
        _ if code == 1 => return,
        (3, value @ (0x0A | 0x0B)) => {
            let was = if drive.guard { "set" } else { "clear" };
            let ends = if matches!(after.phase, Phase::Sending { .. }) {
                "with an interrupt"
            } else {
                "alone"
            };
            let named = format!("guard: {value:02X} where it is {was}");
            count(format!("{named}, drive {}", after.selected));
            return count(format!("{named}, {ends}"));
        }
        (3, value) => OPERATIONS
            .into_iter()
            .find(|operation| operation.order() == value),
        (4, _) if string[2] == 0 => Some(Operation::Read),
        (4, _) if string[2] == 0x80 => Some(Operation::SuppliedCount),
        (5, _) => Some(Operation::Write),
        (6, _) => Some(Operation::Erase),
        _ => None,
    };
    let Some(operation) = operation.filter(|_| drive.guard && code != 2) else {
        return;
    };
    let mut met = format!("gap {:?}", drive.gap);
    if drive.reports(report::BOT_WARNING) {
        met += ", BOT warning";
    }
    if drive.reports(report::BOT) {
        met += ", BOT";
    }
    if !operation.passes_report(&drive) {
        met += ", not ready";
    }
    count(format!("guard: {operation:?}, {met}: {code:02X}"));
}

/// The retry bit, with what decided about it.
fn count_retry(
    operation: Operation,
    reported: u8,
    marks: &[u8],
    after: &Machine,
    count: &mut impl FnMut(String),
) {
    let code = after.code();
    let retry = retry_is(after.outcome & primary::RETRY != 0);
    let bits = match after.outcome & primary::TROUBLE {
        0 => "no bit",
        primary::OVERFLOW => "bit 17",
        primary::UNDERFLOW => "bit 18",
        primary::LATE_1 => "bit 19",
        primary::LATE_2 => "bit 20",
        _ => "bits",
    };
    count(format!("{operation:?} {code:02X}, {bits}: {retry}"));
    let by_code = bits == "no bit" || operation.is_skip() && bits == "bit 19";
    if code != reported && by_code {
        let was = match reported {
            0x10..=0x12 => "10-12".to_string(),
            _ => format!("{reported:02X}"),
        };
        count(format!("{operation:?} {was} made {code:02X}: {retry}"));
    }
    if code == 0x15 {
        let (data, checks) = marks.split_at(marks.len() - 2);
        let data = if data.iter().all(|&mark| mark == GOOD) {
            "whole data"
        } else {
            "bad data"
        };
        let checks = match (checks[0] == GOOD, checks[1] == GOOD) {
            (true, true) => "whole checks",
            (false, true) => "odd check bad",
            (true, false) => "even check bad",
            (false, false) => "both checks bad",
        };
        count(format!("{operation:?} 15, {data}, {bits}: {retry}"));
        if by_code {
            count(format!("{operation:?} 15, {data}, {checks}: {retry}"));
        }
    }
}

fn retry_is(set: bool) -> &'static str {
    if set {
        "retry"
    } else {
        "no retry"
    }
}

/// What was wrong with the lengths of a result for a supplied count.
fn image_kind(image: &[u8], supplied: usize) -> &'static str {
    let own_count = records::count_of(image).unwrap_or(65_536);
    match image.len() {
        0 => "no image",
        2 if image == [0, 0] => "the image of no bytes",
        length if length == records::image_length(supplied, Density::Gcr) => "wrong marks",
        length if length == records::image_length(own_count, Density::Gcr) => "a whole record",
        _ => "a wrong length",
    }
}

/// A count above 16,384, by the sizes where something may change: the longest MFM image that fits
/// the program's space, 15 and 16 bits.
fn long(count: usize) -> Option<&'static str> {
    Some(match count {
        0..=16_384 => return None,
        16_385 => "16385",
        16_386..=16_895 => "below 16896",
        16_896 => "16896",
        16_897 => "16897",
        16_898..=32_767 => "15 bits",
        32_768..=65_533 => "16 bits",
        65_534 => "65534",
        _ => "65535",
    })
}

fn count_supplied_store(
    string: &[u8; 8],
    before: &Machine,
    after: &Machine,
    count: &mut impl FnMut(String),
) {
    let drive = after.drives[after.selected];
    let density = match (drive.density, before.drives[before.selected].density) {
        _ if after.code() == 1 => "no such drive",
        (Density::Gcr, Density::Mfm) => "GCR after MFM",
        (Density::Mfm, Density::Gcr) => "MFM after GCR",
        (Density::Gcr, _) => "GCR",
        (Density::Mfm, _) => "MFM",
    };
    let size = match u16::from_be_bytes([string[4], string[5]]) {
        0 => "0",
        1..=16_384 => "a count",
        _ => "a long count",
    };
    let ready = if Operation::SuppliedCount.may_start(&drive) {
        "ready"
    } else {
        "not ready"
    };
    let code = after.code();
    count(format!(
        "supplied {size}: store, {density}, {ready}: {code:02X}"
    ));
}

#[test]
fn sessions_reach_everything() {
    let mut counts = Counts::new();
    for seed in 1..=SESSIONS {
        count_session(seed, &mut counts);
    }
    for (name, count) in &counts {
        println!("{count:7} {name}");
    }
    let mut wanted: Vec<String> = (2..=11)
        .filter(|number| *number != 6)
        .map(|number| format!("refusal {number}"))
        .collect();
    wanted.extend(["0", "?"].map(|refusal| format!("refusal {refusal}")));
    for operation in OPERATIONS {
        for code in operation.listed() {
            wanted.push(format!("result {operation:?} {code:02X}"));
        }
        for density in [Density::Mfm, Density::Gcr] {
            if (operation, density) != (Operation::SuppliedCount, Density::Mfm) {
                wanted.push(format!("result {operation:?} {density:?}"));
            }
            wanted.push(format!("data {density:?}"));
        }
        if operation.is_search() || operation.is_skip() {
            wanted.push(format!("mark {operation:?}"));
        }
        if operation.moves_tape() {
            wanted.push(format!("code 07 in place of {operation:?} 00"));
        }
    }
    wanted.push("mark Read".to_string());
    for operation in ["Read", "SkipForward"] {
        for code in ["15", "16"] {
            for reported in ["00", "10", "11", "12"] {
                wanted.push(format!("code {code} in place of {operation} {reported}"));
            }
        }
    }
    wanted.extend((0..8).map(|number| format!("load {number}")));
    wanted.extend((0..8).map(|number| format!("store {number}")));
    for value in (0..=0x0D).chain([0x10, 0x11]).chain(0x20..=0x24) {
        wanted.push(format!("control {value:02X}"));
    }
    wanted.extend((1..=4).map(|code| format!("store ends with code {code:02X}")));
    for phase in [
        "idle",
        "collecting",
        "ACK offered",
        "GO offered",
        "EOR offered",
    ] {
        wanted.push(format!("phase {phase}"));
    }
    wanted.extend(["data", "result"].map(|what| format!("phase {what} awaited")));
    for send in [
        Send::LoadReply,
        Send::Secondary,
        Send::Completion,
        Send::DriveChange,
    ] {
        wanted.extend((0..5).map(|noes| format!("phase sending {send:?} after {noes} noes")));
        wanted.push(format!("accepted {send:?}"));
        wanted.push(format!("given up at the fifth no {send:?}"));
        wanted.push(format!("broken {send:?}"));
    }
    for name in [
        "GO yes",
        "GO no",
        "reset",
        "bit 17 after Read",
        "bit 17 after CheckBytes",
        "bit 18 after Write",
        "bit 22 after Read",
        "bit 22 after Write",
        "bit 22 after SkipForward",
        "bit 22 after SkipReverse",
        "code 16 that delivers less than the record",
    ] {
        wanted.push(name.to_string());
    }
    wanted.extend(wanted_of_supplied());
    wanted.extend(wanted_of_retry());
    wanted.extend(wanted_of_long());
    wanted.extend(wanted_of_guard());
    let missing: Vec<&String> = wanted
        .iter()
        .filter(|name| !counts.contains_key(*name))
        .collect();
    assert!(missing.is_empty(), "not reached: {missing:?}");
    // The program's check store has always 512 bytes, so no session shows refusal 6.
    assert!(!counts.contains_key("refusal 6"));
}

/// Reading with a supplied count, rule by rule.
fn wanted_of_supplied() -> Vec<String> {
    let mut wanted = Vec::new();
    for refusal in [0, 7, 8, 9, 10] {
        wanted.push(format!("result, refusal {refusal}"));
    }
    for code in [0x15, 0x16] {
        for what in [
            "first mark good",
            "first mark bad",
            "own count the same",
            "own count another",
            "space short of the first blockette",
            "space short",
            "less than a blockette",
            "all delivered",
        ] {
            wanted.push(format!("{code:02X}, {what}"));
        }
    }
    wanted.push("16, stopped in the data".to_string());
    wanted.push("first mark not legal".to_string());
    let mut wanted: Vec<String> = wanted
        .iter()
        .map(|what| format!("supplied: {what}"))
        .collect();
    for (size, what) in [
        ("a count", "no image"),
        ("a count", "wrong marks"),
        ("a count", "a whole record"),
        ("a count", "a wrong length"),
        ("0", "the image of no bytes"),
        ("0", "a whole record"),
        ("a count", "00 ends as 15"),
        ("a count", "00 ends as 16"),
        ("a count", "00 ends as 07"),
        ("a count", "14 ends as 07"),
        ("0", "00 ends as 13"),
        ("0", "00 ends as 07"),
        ("0", "14 ends as 14"),
        ("a count", "store, GCR, ready: 00"),
        ("a count", "store, GCR after MFM, ready: 00"),
        ("a count", "store, GCR, not ready: 04"),
        ("a count", "store, MFM, ready: 02"),
        ("a count", "store, MFM after GCR, ready: 02"),
        ("a count", "store, MFM, not ready: 02"),
        ("0", "store, GCR, ready: 00"),
        ("0", "store, MFM, ready: 02"),
        ("a long count", "store, GCR, ready: 00"),
        ("a long count", "store, GCR, not ready: 04"),
        ("a long count", "store, MFM, ready: 02"),
        ("a count", "store, no such drive, ready: 01"),
    ] {
        wanted.push(format!("supplied {size}: {what}"));
    }
    wanted.extend([17, 19, 20, 21, 22].map(|bit| format!("bit {bit} after SuppliedCount")));
    wanted
}

/// The retry bit, rule by rule.
fn wanted_of_retry() -> Vec<String> {
    let mut wanted = Vec::new();
    for operation in OPERATIONS {
        let supplied = operation == Operation::SuppliedCount;
        for &code in operation
            .listed()
            .iter()
            .filter(|&&code| !supplied || code != 0)
        {
            let asked = operation.entry(code) == Entry::Retry;
            let skips = operation.is_skip();
            let alone = retry_is(asked);
            wanted.push(format!("{operation:?} {code:02X}, no bit: {alone}"));
            if skips || !asked {
                let late = retry_is(asked || !skips);
                wanted.push(format!("{operation:?} {code:02X}, bit 19: {late}"));
            }
            if !asked {
                wanted.push(format!("{operation:?} {code:02X}, bit 20: retry"));
            }
        }
    }
    for operation in ["Read", "SkipForward"] {
        for reported in ["00", "10-12"] {
            for code in ["07", "15", "16"] {
                wanted.push(format!("{operation} {reported} made {code}: retry"));
            }
            wanted.push(format!("{operation} {reported} made 15: no retry"));
        }
        for checks in ["odd check bad", "even check bad", "both checks bad"] {
            wanted.push(format!("{operation} 15, whole data, {checks}: no retry"));
        }
        for checks in ["whole checks", "odd check bad", "even check bad"] {
            wanted.push(format!("{operation} 15, bad data, {checks}: retry"));
        }
        wanted.push(format!("{operation} 15, whole data, bit 20: retry"));
        wanted.push(format!("{operation} 15, bad data, bit 19: retry"));
    }
    for reported in ["0C", "0D", "0F"] {
        wanted.push(format!("SkipForward {reported} made 07: retry"));
    }
    for checks in ["whole checks", "odd check bad", "even check bad"] {
        wanted.push(format!("SuppliedCount 15, whole data, {checks}: retry"));
    }
    for code in ["00", "10", "11", "12"] {
        wanted.push(format!("Read {code}, bit 17: retry"));
    }
    for name in [
        "Read 15, whole data, bit 17: retry",
        "Read 15, whole data, bit 19: retry",
        "SkipForward 15, whole data, bit 19: no retry",
        "SuppliedCount 00 made 13: retry",
        "CheckBytes 00, bit 17: retry",
        "Write 00, bit 18: retry",
    ] {
        wanted.push(name.to_string());
    }
    wanted
}

/// Counts above 16,384, wherever one may be, and what the program's limits make of them.
fn wanted_of_long() -> Vec<String> {
    let fitting = ["16385", "below 16896", "16896"];
    let others = ["16897", "15 bits", "16 bits", "65534", "65535"];
    let mut wanted = vec!["write 65535: code 04".to_string()];
    for size in fitting.into_iter().chain(others) {
        wanted.push(format!("write {size}: code 00"));
        wanted.push(format!("data Gcr, {size}: refusal 11"));
        wanted.push(format!("supplied {size}: result, refusal 0"));
        wanted.push(format!("supplied {size}: result, refusal 9"));
        wanted.push(format!("SkipReverse Gcr tells {size}"));
    }
    for size in fitting {
        wanted.push(format!("data Mfm, {size}: refusal 0"));
        for operation in ["Write", "Read", "SkipForward"] {
            wanted.push(format!("{operation} Mfm tells {size}"));
        }
    }
    wanted.extend(others.map(|size| format!("data Mfm, {size}: refusal 11")));
    for code in &Operation::SuppliedCount.listed()[1..] {
        wanted.push(format!("supplied long: {code:02X} ends as {code:02X}"));
    }
    for name in [
        "GO yes to a long write",
        "GO no to a long write",
        "reset of a long write",
        "supplied long: 14 ends as 07",
    ] {
        wanted.push(name.to_string());
    }
    wanted
}

/// The guard of a drive, rule by rule.
fn wanted_of_guard() -> Vec<String> {
    let bad_gaps = [Gap::Improper, Gap::UnfinishedWrite, Gap::Lost];
    let mut wanted = Vec::new();
    for operation in OPERATIONS {
        if !operation.moves_tape() {
            continue;
        }
        let code = if operation.is_recording() { "04" } else { "00" };
        for gap in bad_gaps {
            wanted.push(format!("{operation:?}, gap {gap:?}: {code}"));
        }
        if operation.is_recording() {
            wanted.push(format!("{operation:?}, gap Proper: 00"));
            wanted.push(format!("{operation:?}, gap Proper, not ready: 04"));
            for gap in bad_gaps {
                let met = format!("{operation:?}, gap {gap:?}");
                wanted.push(format!("{met}, BOT: 04"));
                wanted.push(format!("{met}, BOT warning: 00"));
                wanted.push(format!("{met}, BOT warning, not ready: 04"));
            }
        }
    }
    for drive in 0..4 {
        for (value, was) in [("0A", "set"), ("0B", "clear")] {
            wanted.push(format!("{value} where it is {was}, drive {drive}"));
        }
        wanted.push(format!("report without 32 on drive {drive}"));
        wanted.push(format!("reset by call, drive {drive}"));
        wanted.push(format!("reset by store, drive {drive}"));
    }
    for value in ["0A", "0B"] {
        for was in ["set", "clear"] {
            for ends in ["alone", "with an interrupt"] {
                wanted.push(format!("{value} where it is {was}, {ends}"));
            }
        }
    }
    wanted.extend(bad_gaps.map(|gap| format!("data, gap {gap:?}")));
    wanted.iter().map(|what| format!("guard: {what}")).collect()
}

/// As many as tests/run compares.
const SESSIONS_OF_JOBS: u64 = 250;

fn count_session_of_jobs(seed: u64, counts: &mut Counts) {
    let mut count = |name: String| *counts.entry(name).or_insert(0) += 1;
    let text = generator::session_of_jobs(seed, LINES);
    let mut session = Session::of_jobs(None);
    let mut out = Vec::new();
    for line in lines::split(&text) {
        let before = session.machine.clone();
        out.clear();
        session.answer(line, &mut out);
        let after = &session.machine;
        let answer = String::from_utf8_lossy(&out).trim_end().to_string();
        let fields: Vec<&str> = answer.split(',').collect();
        let (refusal, record) = (fields[0], fields[4]);
        let call = match lines::read_of_jobs(line) {
            Some(Line::Queue { .. }) => "queue",
            Some(Line::Hand) => "hand",
            Some(Line::Taken) => "taken",
            Some(Line::Result { .. }) => "result",
            Some(Line::Reset) => "reset",
            Some(Line::Byte(_) | Line::Broken) => "link",
            Some(_) => "other",
            None if line.starts_with(b"Q") => "unreadable queue",
            None if line.starts_with(b"H") => "unreadable hand",
            None => "unreadable",
        };
        let phase = match before.phase {
            Phase::Sending { .. } => "sending".to_string(),
            phase => phase_name(&phase),
        };
        count(format!("{call} {refusal}, {phase}"));
        if let Some((code, _)) = record.split_once(':') {
            count(format!("{call} hands back {code}"));
        }
        let queued = !before.queues.is_empty();
        let handed = before.queues != after.queues && call == "hand";
        if handed {
            let served = (before.queues.last_served, after.queues.last_served);
            count(format!("{} served after {}", served.1, served.0));
            count(format!("handed over, then {}", phase_name(&after.phase)));
        } else {
            count(format!("{call} {refusal}, queued {queued}"));
        }
        if after.queues.of_job.iter().all(|queue| queue.len() > 1) {
            count("all jobs wait".to_string());
        }
    }
}

#[test]
fn sessions_of_jobs_reach_everything() {
    let mut counts = Counts::new();
    for seed in 1..=SESSIONS_OF_JOBS {
        count_session_of_jobs(seed, &mut counts);
    }
    for (name, count) in &counts {
        println!("{count:7} {name}");
    }
    let mut wanted = vec!["all jobs wait".to_string()];
    let busy = [
        "collecting",
        "ACK offered",
        "sending",
        "GO offered",
        "data awaited",
        "result awaited",
        "EOR offered",
    ];
    for phase in busy.iter().chain(&["idle"]) {
        wanted.extend(["queue 0", "queue 16", "reset 0"].map(|call| format!("{call}, {phase}")));
        wanted.extend(["queue", "hand"].map(|call| format!("unreadable {call} ?, {phase}")));
    }
    wanted.push("queue 17, idle".to_string());
    wanted.push("queue 17, result awaited".to_string());
    wanted.extend(busy.map(|phase| format!("hand 4, {phase}")));
    for queued in [false, true] {
        wanted.push(format!("hand 4, queued {queued}"));
        wanted.push(format!("reset 0, queued {queued}"));
    }
    wanted.push("hand 0, queued false".to_string());
    for code in 0..=4 {
        wanted.push(format!("hand hands back {code:02X}"));
        wanted.push(format!("taken hands back {code:02X}"));
    }
    wanted.push("link hands back 05".to_string());
    for code in [
        "00", "07", "0A", "0B", "12", "13", "14", "15", "16", "17", "18",
    ] {
        wanted.push(format!("result hands back {code}"));
    }
    for last in 0..4 {
        wanted.extend((0..4).map(|next| format!("{next} served after {last}")));
    }
    for phase in ["idle", "GO offered", "result awaited"] {
        wanted.push(format!("handed over, then {phase}"));
    }
    let missing: Vec<&String> = wanted
        .iter()
        .filter(|name| !counts.contains_key(*name))
        .collect();
    assert!(missing.is_empty(), "not reached: {missing:?}");
}

/// With the stores switched off, no first operand byte is 80 and no such result is awaited.
#[test]
fn sessions_without_supplied() {
    for seed in 1..=SESSIONS {
        let mut session = Session::new(None);
        let mut out = Vec::new();
        for line in lines::split(&generator::session_without_supplied(seed, LINES)) {
            if let Phase::AckOffered { string } = session.machine.phase {
                let store = string[0] == link::STORE && string[1] >> 4 & 7 == 4;
                assert!(!store || string[2] != 0x80, "seed {seed}");
            }
            session.answer(line, &mut out);
            out.clear();
        }
    }
}

#[test]
fn refusals_that_no_session_reaches() {
    use machine::machine::{Refusal, Reported};
    let mut machine = Machine::fresh();
    let mut image = [0; 1];
    let empty = Reported {
        code: 0x1F,
        mark: true,
        late: 9,
        image: &[1],
        marks: &[0],
    };
    assert_eq!(
        machine.data(&[], NO_PLACE, &mut image, &mut []),
        Err(Refusal::NotAwaited)
    );
    assert_eq!(
        machine.result(empty, &mut [], &mut []),
        Err(Refusal::NotAwaited)
    );
    machine.report(0, 0x22).unwrap();
    // A write of no bytes, MFM: its image has two.
    for byte in [0x64, 0x50, 0, 0, 0, 0, 0, 0x34] {
        machine.byte(byte).unwrap();
    }
    assert_eq!(machine.taken(), Ok(Action::Byte(link::GO)));
    assert_eq!(machine.byte(link::ACK), Ok(Action::None));
    let before = machine.clone();
    assert_eq!(
        machine.data(&[], NO_PLACE, &mut image, &mut [0; 511]),
        Err(Refusal::CheckStore)
    );
    assert_eq!(
        machine.data(&[], NO_PLACE, &mut image, &mut [0; 512]),
        Err(Refusal::ImageSpace)
    );
    assert_eq!(
        machine.data(&[], 0, &mut image, &mut [0; 512]),
        Err(Refusal::ImageSpace)
    );
    assert_eq!(
        machine.data(&[], 0, &mut [0; 2], &mut [0; 512]),
        Err(Refusal::Place)
    );
    assert_eq!(machine, before);
    assert!(machine
        .data(&[], NO_PLACE, &mut [0; 2], &mut [0; 512])
        .is_ok());
    assert_eq!(
        machine.result(empty, &mut [], &mut [0; 513]),
        Err(Refusal::CheckStore)
    );
    assert_eq!(
        machine.result(empty, &mut [], &mut [0; 512]),
        Err(Refusal::CodeNotListed)
    );
}

#[test]
fn a_seed_gives_one_session() {
    for seed in [0, 1, 2, 77, u64::MAX] {
        assert_eq!(generator::session(seed, 300), generator::session(seed, 300));
        assert_ne!(
            generator::session(seed, 300),
            generator::session_without_supplied(seed, 300)
        );
        let of_jobs = generator::session_of_jobs(seed, 300);
        assert_eq!(of_jobs, generator::session_of_jobs(seed, 300));
        assert_ne!(of_jobs, generator::session(seed, 300));
    }
    assert_ne!(generator::session(1, 300), generator::session(2, 300));
}
