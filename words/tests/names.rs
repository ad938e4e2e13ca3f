//! Holds the table of names to all that has the same numbers and words: the C headers, the Rattle code, the definitions
//! and the pages, but for docs/MANUAL.md, which tests/manual holds to it. Then moves each of them alone, in a copy, and
//! sees that it is found.

use ctc_words::names::{names, read, Kind, Name, TABLE};
use std::cell::RefCell;
use std::collections::HashMap;
use std::fs;
use std::ops::Range;
use std::path::Path;

/// The sources, some of which may stand there in another form.
struct Sources {
    changed: HashMap<String, String>,
    read: RefCell<HashMap<String, String>>,
}

impl Sources {
    fn new() -> Sources {
        Sources {
            changed: HashMap::new(),
            read: RefCell::default(),
        }
    }

    fn with(path: &str, text: String) -> Sources {
        Sources {
            changed: HashMap::from([(path.to_string(), text)]),
            ..Sources::new()
        }
    }

    fn text(&self, path: &str) -> String {
        if let Some(text) = self.changed.get(path) {
            return text.clone();
        }
        let read = || {
            let whole = Path::new(env!("CARGO_MANIFEST_DIR")).join("..").join(path);
            fs::read_to_string(&whole)
                .unwrap_or_else(|error| panic!("{}: {error}", whole.display()))
        };
        self.read
            .borrow_mut()
            .entry(path.to_string())
            .or_insert_with(read)
            .clone()
    }
}

const HEADERS: [&str; 3] = [
    "include/ctc_controller.h",
    "include/ctc_records.h",
    "include/ctc_contest.h",
];
const SESSIONS: &str = "docs/SESSIONS.md";
const JOBS: &str = "docs/JOBS.md";

/// Where a number stands between two texts, in which any white space is as good as one blank.
fn places(text: &str, before: &str, behind: &str) -> Vec<Range<usize>> {
    let mut flat = String::new();
    let mut origin = Vec::new();
    for (at, c) in text.char_indices() {
        let c = if c.is_whitespace() { ' ' } else { c };
        if c == ' ' && flat.ends_with(' ') {
            continue;
        }
        flat.push(c);
        origin.extend(vec![at; c.len_utf8()]);
    }
    let bytes = flat.as_bytes();
    let is_word = |byte: u8| byte.is_ascii_alphanumeric() || byte == b'_';
    let mut found = Vec::new();
    let mut at = 0;
    while at < bytes.len() {
        let starts = bytes[at].is_ascii_digit() && (at == 0 || !is_word(bytes[at - 1]));
        let end = at
            + bytes[at..]
                .iter()
                .take_while(|byte| is_word(**byte))
                .count();
        if starts && flat[..at].ends_with(before) && flat[end..].starts_with(behind) {
            found.push(origin[at]..origin[end - 1] + 1);
        }
        at = end.max(at + 1);
    }
    found
}

fn number(text: &str) -> Option<u32> {
    let digits = text.trim_end_matches('u');
    match digits.strip_prefix("0x") {
        Some(digits) => u32::from_str_radix(digits, 16).ok(),
        None => digits.parse().ok(),
    }
}

/// A file and the places in it that have the number of a name.
type Place = (String, Vec<Range<usize>>);

fn c_places(sources: &Sources, constant: &str) -> Vec<Place> {
    HEADERS
        .iter()
        .map(|header| {
            let text = sources.text(header);
            (
                header.to_string(),
                places(&text, &format!("#define {constant} "), ""),
            )
        })
        .filter(|(_, found)| !found.is_empty())
        .collect()
}

/// `crate/file NAME`, or `crate/file TEXT` with # in the number's place.
fn rattle_place(sources: &Sources, cell: &str) -> Place {
    let (file, rule) = cell.split_once(' ').expect("a file and a name");
    let (folder, file) = file.split_once('/').expect("a crate and a file");
    let path = format!("crates/{folder}/src/{file}.rt");
    let text = sources.text(&path);
    let found = match rule.split_once('#') {
        Some((before, behind)) => places(&text, before, behind),
        None => ["u8", "u32", "usize"]
            .iter()
            .flat_map(|of| places(&text, &format!("const {rule}: {of} = "), ";"))
            .collect(),
    };
    (path, found)
}

fn definition_place(sources: &Sources, cell: &str) -> Place {
    let (file, rule) = cell.split_once(' ').expect("a file and a name");
    let (folder, file) = file.split_once('/').expect("a crate and a file");
    let path = format!("crates/{folder}/specs/{file}.antt");
    let text = sources.text(&path);
    let found = match rule.split_once('#') {
        Some((before, behind)) => places(&text, before, behind),
        None => places(&text, &format!("pub {rule} : ℕ {rule} = "), ""),
    };
    (path, found)
}

/// Where the C headers, the code and the definitions have a name's number.
fn all_places(sources: &Sources, name: &Name) -> Vec<Place> {
    let c = name
        .c
        .map_or_else(Vec::new, |constant| c_places(sources, constant));
    let rattle = name.rattle.map(|cell| rattle_place(sources, cell));
    let definition = name.definition.map(|cell| definition_place(sources, cell));
    c.into_iter().chain(rattle).chain(definition).collect()
}

/// The number that stands there: for a bit of primary, its weight in its byte.
fn expected(name: &Name) -> u32 {
    match name.kind {
        Kind::Primary => 1 << (7 - name.number % 8),
        _ => name.number,
    }
}

/// The rows of the pages' tables with at least two cells: number and words.
fn rows(text: &str) -> Vec<(String, String)> {
    text.lines()
        .filter(|line| line.starts_with("| "))
        .flat_map(|line| {
            let cells: Vec<String> = line
                .trim_matches('|')
                .split('|')
                .map(|cell| cell.trim().to_string())
                .collect();
            cells
                .windows(2)
                .map(|pair| (pair[0].clone(), pair[1].clone()))
                .collect::<Vec<_>>()
        })
        .collect()
}

/// The part of a page from a heading of a table on, to the end of the table.
fn table<'a>(text: &'a str, heading: &str) -> &'a str {
    let Some(start) = text.find(heading) else {
        return "";
    };
    let end = text[start..]
        .find("\n\n")
        .map_or(text.len(), |end| start + end);
    &text[start..end]
}

/// What of the pages does not hold for a name.
fn page_complaints(sources: &Sources, name: &Name, complaints: &mut Vec<String>) {
    let sessions = sources.text(SESSIONS);
    let jobs = sources.text(JOBS);
    let mut complain = |page: &str| {
        complaints.push(format!(
            "{page}: {:?} {} '{}'",
            name.kind, name.number, name.words
        ))
    };
    let has = |part: &str, number: String| {
        rows(part)
            .iter()
            .any(|row| row.0 == number && row.1.starts_with(name.words))
    };
    match name.kind {
        Kind::Refusal => {
            let number = name.number.to_string();
            let part = table(&jobs, "| Refusal | |");
            let told = rows(part).iter().any(|row| row.0 == number);
            let must = matches!(name.number, 4 | 16 | 17);
            if told != must || must && !has(part, number) {
                complain(JOBS);
            }
        }
        Kind::Motion => {
            let flat = jobs.replace('\n', " ");
            if !flat.contains(&format!("{} {}", name.number, name.words)) {
                complain(JOBS);
            }
        }
        Kind::Limit => {
            let (thousands, ones) = (name.number / 1000, name.number % 1000);
            let number = match thousands {
                0 => ones.to_string(),
                _ => format!("{thousands},{ones:03}"),
            };
            if !table(&sessions, "| | Limit of the program |").contains(&number) {
                complain(SESSIONS);
            }
        }
        _ => {}
    }
}

/// What does not hold of names.
fn complaints(sources: &Sources, list: &[Name]) -> Vec<String> {
    let mut complaints = Vec::new();
    for name in list {
        let cells = [name.c, name.rattle, name.definition]
            .into_iter()
            .flatten()
            .count();
        let places = all_places(sources, name);
        if places.len() < cells || places.iter().any(|(_, found)| found.is_empty()) {
            complaints.push(format!(
                "{:?} {} '{}' is not there",
                name.kind, name.number, name.words
            ));
        }
        for (path, found) in &places {
            let text = sources.text(path);
            for place in found {
                if number(&text[place.clone()]) != Some(expected(name)) {
                    complaints.push(format!(
                        "{path}: {:?} '{}' is {}",
                        name.kind,
                        name.words,
                        &text[place.clone()]
                    ));
                }
            }
        }
        page_complaints(sources, name, &mut complaints);
    }
    complaints
}

/// A public constant of a byte or of a number, or a case of an enum with its number, and how the table has it.
fn numbered(line: &str) -> Option<(&str, String)> {
    if let Some(rest) = line.strip_prefix("pub const ") {
        let constant = rest.split(':').next()?;
        let counts = line.contains(": u8 =") || line.contains(": u32 =");
        return counts.then(|| (constant, constant.to_string()));
    }
    let (case, number) = line
        .strip_prefix("    ")?
        .strip_suffix(',')?
        .split_once(" = ")?;
    let is_case = case.chars().all(char::is_alphanumeric) && number.parse::<u32>().is_ok();
    is_case.then(|| (case, format!("{case} = #,")))
}

/// Constants that no line of the table has.
fn missing(sources: &Sources, list: &[Name]) -> Vec<String> {
    let mut missing = Vec::new();
    for header in HEADERS {
        for line in sources.text(header).lines() {
            let Some(constant) = line
                .strip_prefix("#define ")
                .and_then(|rest| rest.split(' ').next())
            else {
                continue;
            };
            let named = [
                "CTC_REFUSED_",
                "CTC_ORDER_",
                "CTC_ACTION_",
                "CTC_KIND_",
                "CTC_DENSITY_",
                "CTC_CODE_",
                "CTC_MOTION_",
                "CTC_PHASE_",
            ];
            let reports = header == HEADERS[0] && constant.starts_with("CTC_REPORT_");
            let named = reports || named.iter().any(|prefix| constant.starts_with(prefix));
            if named && !list.iter().any(|name| name.c == Some(constant)) {
                missing.push(format!("{header}: {constant} has no name"));
            }
        }
    }
    for file in ["common/refusals", "operations/codes", "layout/places"] {
        let (folder, source) = file.split_once('/').expect("a crate and a file");
        for line in sources
            .text(&format!("crates/{folder}/src/{source}.rt"))
            .lines()
        {
            let Some((constant, cell)) = numbered(line) else {
                continue;
            };
            let apart = ["DONE", "LAYOUT", "LAST_KIND", "LAST_OPERATION"].contains(&constant);
            let cell = format!("{file} {cell}");
            if !apart && !list.iter().any(|name| name.rattle == Some(&cell)) {
                missing.push(format!("{file}: {constant} has no name"));
            }
        }
    }
    missing
}

#[test]
fn the_table_holds() {
    let mut found = complaints(&Sources::new(), names().list());
    found.extend(missing(&Sources::new(), names().list()));
    assert!(found.is_empty(), "{}", found.join("\n"));
}

/// Every number moved alone, in the header, the code or the definition.
#[test]
fn a_moved_number_is_found() {
    let sources = Sources::new();
    let mut tried = 0;
    for name in names().list() {
        for (path, found) in all_places(&sources, name) {
            let text = sources.text(&path);
            for place in found {
                let moved = number(&text[place.clone()]).expect("a number") + 1;
                let changed = format!("{}{moved}{}", &text[..place.start], &text[place.end..]);
                let wrong = Sources::with(&path, changed);
                assert!(
                    !complaints(&wrong, &[*name]).is_empty(),
                    "{path}: {:?} {}",
                    name.kind,
                    name.words
                );
                tried += 1;
            }
        }
    }
    assert!(tried > 200, "{tried} numbers were moved");
}

/// Every name of the table changed alone, where a page has it.
#[test]
fn a_changed_word_is_found() {
    let sources = Sources::new();
    let mut tried = 0;
    for name in names().list() {
        let of_pages = name.kind == Kind::Motion
            || name.kind == Kind::Refusal && matches!(name.number, 4 | 16 | 17);
        if of_pages {
            let words: &'static str = Box::leak(format!("{} indeed", name.words).into_boxed_str());
            let changed = Name { words, ..*name };
            assert!(
                !complaints(&sources, &[changed]).is_empty(),
                "{:?} {}",
                name.kind,
                name.words
            );
            tried += 1;
        }
    }
    assert!(tried == 7, "{tried} words were changed");
}

/// Every row of the pages that has a name, with another number.
#[test]
fn a_moved_row_is_found() {
    let sources = Sources::new();
    for (page, row, moved) in [
        (SESSIONS, "16,898", "16,899"),
        (JOBS, "| 17 | the queue", "| 18 | the queue"),
        (JOBS, "1 forward, 2 reverse", "2 forward, 1 reverse"),
    ] {
        let text = sources.text(page);
        assert!(text.contains(row), "{page} has no '{row}'");
        let wrong = Sources::with(page, text.replace(row, moved));
        assert!(
            !complaints(&wrong, names().list()).is_empty(),
            "{page}: {moved}"
        );
    }
}

/// A constant that is new and has no name.
#[test]
fn a_nameless_constant_is_found() {
    let sources = Sources::new();
    for (path, line) in [
        ("include/ctc_controller.h", "#define CTC_REPORT_LOCKED 3u\n"),
        (
            "include/ctc_controller.h",
            "#define CTC_ORDER_DANCE 0x30u\n",
        ),
        ("include/ctc_controller.h", "#define CTC_CODE_TORN 0x19u\n"),
        ("include/ctc_records.h", "#define CTC_REFUSED_TWICE 21u\n"),
        ("crates/common/src/refusals.rt", "    Twice = 21,\n"),
        (
            "crates/operations/src/codes.rt",
            "pub const TORN: u8 = 0x19;\n",
        ),
        (
            "crates/layout/src/places.rt",
            "pub const RESTING: u8 = 7;\n",
        ),
    ] {
        let wrong = Sources::with(path, sources.text(path) + line);
        assert_eq!(missing(&wrong, names().list()).len(), 1, "{path}: {line}");
    }
}

#[test]
fn a_line_that_is_none_is_told() {
    for (table, said) in [
        (
            "code|00|no error|-|-\n",
            "names.txt:1: a line has six fields",
        ),
        ("colour|00|red|-|-|-\n", "names.txt:1: no such kind"),
        ("    |red|-|-|-\n", "names.txt:1: a line has six fields"),
        (
            "code|00|no error|-|-\n    -\n",
            "names.txt:1: a line goes on from a | on",
        ),
        (
            "code|00|no error|-|-\n    |-|-\n",
            "names.txt:1: a line has six fields",
        ),
        ("# head\ncode|0G|no error|-|-|-\n", "names.txt:2: no number"),
        (
            "code|00|a|-|-|-\ncode|00|b|-|-|-\n",
            "names.txt:2: a name is missing, or its number stands twice",
        ),
    ] {
        assert_eq!(read(table).err().as_deref(), Some(said));
    }
    assert!(read(TABLE).is_ok());
    let whole = read("code|00|no error|-|a|b\n").expect("a table");
    let broken = read("code|00|no error|-|a\n    |b\n").expect("a table");
    assert_eq!(whole.list(), broken.list());
}
