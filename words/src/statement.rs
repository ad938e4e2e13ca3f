//! Statements: what a line of words says, read and written. docs/WORDS.md has the grammar.

use crate::interface::Store;
use crate::line::{hex, put_bytes, put_decimal, put_hex};
use crate::names::{names, Kind, Name};
use std::fs;
use std::path::Path;

/// Why a statement cannot be read or meant, and where.
#[derive(Clone, Debug, PartialEq, Eq)]
pub struct Wrong {
    /// Counted from 1.
    pub column: usize,
    pub what: String,
}

/// Bytes that stand in the statement, or a file that has them.
#[derive(Clone, Debug, PartialEq, Eq)]
pub enum Source {
    Bytes(Vec<u8>),
    File(String),
}

impl Source {
    /// Its bytes, or why it has none. A file is looked for in the folder.
    pub fn bytes(&self, folder: &Path) -> Result<Vec<u8>, String> {
        let file = match self {
            Source::Bytes(bytes) => return Ok(bytes.clone()),
            Source::File(file) => folder.join(file),
        };
        fs::read(&file).map_err(|error| match error.kind() {
            std::io::ErrorKind::NotFound => format!("{} is not there", file.display()),
            _ => format!("{} cannot be read: {error}", file.display()),
        })
    }
}

/// A bad blockette of a record: a data blockette or a check blockette, its number, its mark, and whether its bits are
/// turned.
#[derive(Clone, Copy, Debug, PartialEq, Eq)]
pub struct Spoiled {
    pub check: bool,
    pub number: usize,
    pub mark: u8,
    pub turned: bool,
}

/// What a result brings.
#[derive(Clone, Debug, PartialEq, Eq)]
pub enum Brings {
    Nothing,
    Record(Source, Vec<Spoiled>),
    Count(u16),
    Image(Source, Source),
}

#[derive(Clone, Debug, PartialEq, Eq)]
pub struct ResultWords {
    pub code: u8,
    pub mark: bool,
    pub late: u8,
    pub brings: Brings,
    /// None where it is the usual one.
    pub space: Option<usize>,
}

#[derive(Clone, Debug, PartialEq, Eq)]
pub enum Statement {
    /// A blank line.
    Nothing,
    Comment(Vec<u8>),
    Store(Store, Option<Source>),
    /// The address of a load.
    Load(u8),
    Accept,
    AcceptOne,
    Refuse,
    Bytes(Vec<u8>),
    Taken,
    Broken,
    Tick,
    Reset,
    Hand,
    Report(u8, u8),
    Data(Source),
    Result(ResultWords),
    Queue(u8, Store),
    /// A line as it stands.
    Line(Vec<u8>),
}

/// A statement, and whether it says that it is refused.
#[derive(Clone, Debug, PartialEq, Eq)]
pub struct Said {
    pub refused: bool,
    pub statement: Statement,
    /// Where what it is about stands, for messages: the first word, and the one that names a file or a record.
    pub column: usize,
    pub source_column: usize,
}

/// The words of the late flags 1, 2 and 3.
pub const LATE: [&str; 3] = ["write", "read", "both"];

/// The mark of a spoiled blockette for which none is named.
const USUAL_MARK: u8 = 1;

struct Word<'a> {
    column: usize,
    text: &'a str,
    quoted: bool,
}

/// The words of a line, taken one by one. Scenarios of the rack are read with them too.
pub struct Words<'a> {
    list: Vec<Word<'a>>,
    at: usize,
    end: usize,
}

/// Whether a line is a comment.
pub fn is_comment(line: &[u8]) -> bool {
    line.first() == Some(&b'#')
}

fn split(line: &str) -> Result<Vec<Word<'_>>, Wrong> {
    let mut list = Vec::new();
    let mut at = 0;
    while let Some(start) = line[at..]
        .find(|c: char| !c.is_ascii_whitespace() && c != ',')
        .map(|found| at + found)
    {
        if line[start..].starts_with('"') {
            let Some(length) = line[start + 1..].find('"') else {
                let what = "the text has no closing quotation mark".to_string();
                return Err(Wrong {
                    column: start + 1,
                    what,
                });
            };
            list.push(Word {
                column: start + 1,
                text: &line[start + 1..start + 1 + length],
                quoted: true,
            });
            at = start + length + 2;
        } else {
            let length = line[start..]
                .find(|c: char| c.is_ascii_whitespace())
                .unwrap_or(line.len() - start);
            let text = line[start..start + length].trim_end_matches(',');
            list.push(Word {
                column: start + 1,
                text,
                quoted: false,
            });
            at = start + length;
        }
    }
    Ok(list)
}

impl<'a> Words<'a> {
    /// The words of a line that is no comment, given without its #0A.
    pub fn of(line: &'a [u8]) -> Result<Words<'a>, Wrong> {
        let at = |column: usize, what: &str| Wrong {
            column,
            what: what.to_string(),
        };
        if line.ends_with(b"\r") {
            return Err(at(
                line.len(),
                "the line ends with CR: save the file with LF ends",
            ));
        }
        let text = std::str::from_utf8(line)
            .map_err(|error| at(error.valid_up_to() + 1, "no text: it is not UTF-8"))?;
        Ok(Words {
            list: split(text)?,
            at: 0,
            end: text.len() + 1,
        })
    }

    pub fn is_done(&self) -> bool {
        self.at == self.list.len()
    }

    /// The next word; none where it is quoted.
    pub fn peek(&self) -> Option<&'a str> {
        self.list
            .get(self.at)
            .filter(|word| !word.quoted)
            .map(|word| word.text)
    }

    pub fn column(&self) -> usize {
        self.list.get(self.at).map_or(self.end, |word| word.column)
    }

    pub fn wrong<T>(&self, what: impl Into<String>) -> Result<T, Wrong> {
        Err(Wrong {
            column: self.column(),
            what: what.into(),
        })
    }

    /// What stands here cannot be meant, and this may.
    pub fn other<T>(&self, may: &str) -> Result<T, Wrong> {
        match self.list.get(self.at) {
            Some(word) => {
                let text = shortened(word.text);
                self.wrong(format!("'{text}' cannot stand here: {may}"))
            }
            None => self.wrong(format!("the line ends too soon: {may}")),
        }
    }

    /// Nothing more stands in the line.
    pub fn end(&self) -> Result<(), Wrong> {
        match self.list.get(self.at) {
            Some(word) if word.text.starts_with('#') && !word.quoted => {
                self.wrong("a comment is a line of its own, with # at its start")
            }
            Some(word) => self.wrong(format!("'{}' says nothing here", shortened(word.text))),
            None => Ok(()),
        }
    }

    /// The same, where this might stand.
    pub fn end_or(&self, may: &str) -> Result<(), Wrong> {
        match self.list.get(self.at) {
            Some(word) if word.quoted || !word.text.starts_with('#') => self.other(may),
            _ => self.end(),
        }
    }

    /// Where the first word of some of these names comes next, what may stand behind it, said at its place.
    pub fn second<T>(&mut self, names: &[&str]) -> Option<Result<T, Wrong>> {
        let may = behind(self.peek()?, names)?;
        self.at += 1;
        Some(self.other(&may))
    }

    /// Takes this word, if it comes next.
    pub fn take(&mut self, word: &str) -> bool {
        let there = self.peek() == Some(word);
        self.at += usize::from(there);
        there
    }

    pub fn need(&mut self, word: &str) -> Result<(), Wrong> {
        match self.take(word) {
            true => Ok(()),
            false => self.wrong(format!("the word '{word}' is missing here")),
        }
    }

    /// The next word as it stands, or what is missing.
    pub fn next(&mut self, what: &str) -> Result<&'a str, Wrong> {
        match self.list.get(self.at) {
            Some(word) => {
                self.at += 1;
                Ok(word.text)
            }
            None => self.wrong(format!("{what} is missing")),
        }
    }

    pub fn number(&mut self, what: &str, most: usize) -> Result<usize, Wrong> {
        self.number_in(what, 0, most)
    }

    pub fn number_in(&mut self, what: &str, least: usize, most: usize) -> Result<usize, Wrong> {
        let column = self.column();
        let text = self.next(what)?;
        match text.parse::<usize>() {
            Ok(number) if (least..=most).contains(&number) && !text.starts_with('+') => Ok(number),
            _ => Err(Wrong {
                column,
                what: format!("{what} '{text}' is not {least} to {most}"),
            }),
        }
    }

    /// This word, and its number.
    pub fn named(&mut self, word: &str, least: usize, most: usize) -> Result<usize, Wrong> {
        self.need(word)?;
        self.number_in(word, least, most)
    }

    /// `code HH`, or the name of a code; none where neither comes next.
    pub fn code(&mut self) -> Result<Option<u8>, Wrong> {
        if self.take("code") {
            return Ok(Some(self.hex("code", Some(1))?[0]));
        }
        Ok(self.name(Kind::Code).map(|name| name.number as u8))
    }

    /// Late flags: `write`, `read`, `both`, or their number.
    pub fn late(&mut self, most: usize) -> Result<u8, Wrong> {
        for (flags, word) in (1..).zip(LATE) {
            if self.take(word) {
                return Ok(flags);
            }
        }
        match self.peek() {
            Some(word) if word.bytes().all(|byte| byte.is_ascii_digit()) => {
                Ok(self.number("late", most)? as u8)
            }
            _ => self.other("the late flags are write, read or both"),
        }
    }

    pub fn hex(&mut self, what: &str, length: Option<usize>) -> Result<Vec<u8>, Wrong> {
        let column = self.column();
        let text = self.next(what)?;
        let mut bytes = Vec::new();
        let digits = put_bytes(text.as_bytes(), &mut bytes);
        let fits = length.is_none_or(|length| text.len() == 2 * length);
        if digits && fits && text.len() % 2 == 0 {
            return Ok(bytes);
        }
        let wanted = match length {
            Some(length) => format!("{} hexadecimal digits", 2 * length),
            None => "hexadecimal digits, two for each byte".to_string(),
        };
        Err(Wrong {
            column,
            what: format!(
                "{what} '{}' is not {wanted}, letters capital",
                shortened(text)
            ),
        })
    }

    /// The longest name of a kind that comes next.
    pub fn name(&mut self, kind: Kind) -> Option<&'static Name> {
        let texts: Vec<&str> = self.list[self.at..].iter().map(|word| word.text).collect();
        let name = names().leading(kind, &texts)?;
        self.at += name.words.split(' ').count();
        Some(name)
    }

    pub fn source(&mut self, what: &str) -> Result<Source, Wrong> {
        if self.take("bytes") {
            // no bytes at all have no digits
            if self
                .list
                .get(self.at)
                .is_none_or(|word| !word.quoted && !is_hex(word.text))
            {
                return Ok(Source::Bytes(Vec::new()));
            }
            return Ok(Source::Bytes(self.hex("bytes", None)?));
        }
        if self.take("text") {
            return match self.list.get(self.at) {
                Some(word) if word.quoted => {
                    self.at += 1;
                    Ok(Source::Bytes(word.text.as_bytes().to_vec()))
                }
                _ => self.wrong("behind 'text' stands a text in quotation marks"),
            };
        }
        Ok(Source::File(self.next(what)?.to_string()))
    }
}

fn is_hex(text: &str) -> bool {
    text.bytes()
        .all(|byte| matches!(byte, b'0'..=b'9' | b'A'..=b'F'))
        && text.len() >= 2
}

/// Words with commas between them.
pub fn listed(words: &[&str]) -> String {
    match words {
        [all @ .., last] if !all.is_empty() => format!("{} or {last}", all.join(", ")),
        _ => words.concat(),
    }
}

/// What stands behind the first word of names; none where no name of several words begins with it.
fn behind(first: &str, names: &[&str]) -> Option<String> {
    let longer: Vec<(&str, &str)> = names
        .iter()
        .filter_map(|name| Some((*name, name.strip_prefix(first)?.strip_prefix(' ')?)))
        .collect();
    let (wholes, seconds): (Vec<&str>, Vec<&str>) = longer.into_iter().unzip();
    match (first, &seconds[..]) {
        (_, []) => None,
        ("density", _) => Some(format!("a density is {}", listed(&seconds))),
        ("track", [least, .., most]) => Some(format!("a track is {least} to {most}")),
        _ => Some(listed(&wholes)),
    }
}

fn shortened(text: &str) -> String {
    match text.char_indices().nth(16) {
        Some((at, _)) => format!("{}..", &text[..at]),
        None => text.to_string(),
    }
}

/// What a store begins with that is said in words, but for `reset store`.
macro_rules! stores {
    () => {
        "read, check bytes, read supplied, write, erase, rewind, fast forward, skip, search, write mark, track, \
         density, set, clear"
    };
}

/// What may begin a statement, for a message and for help.
pub const BEGINNINGS: &str = concat!(
    stores!(),
    ", reset, load, report, result, data, accept, refuse, tick, queue, hand, taken, broken, byte, store, line or \
     refused"
);

/// What may begin a store that is queued.
const STORES: &str = concat!(stores!(), ", reset store or store");

/// Reads a line of words, given without its #0A.
pub fn read(line: &[u8]) -> Result<Said, Wrong> {
    let whole = |statement| Said {
        refused: false,
        statement,
        column: 1,
        source_column: 1,
    };
    if is_comment(line) {
        return Ok(whole(Statement::Comment(line.to_vec())));
    }
    if let Some(rest) = line.strip_prefix(b"line") {
        if rest.is_empty() || rest[0] == b' ' {
            return Ok(whole(Statement::Line(
                rest.get(1..).unwrap_or(b"").to_vec(),
            )));
        }
    }
    let mut words = Words::of(line)?;
    if words.list.is_empty() {
        return Ok(whole(Statement::Nothing));
    }
    let column = words.column();
    let refused = words.take("refused");
    let mut said = Said {
        refused,
        statement: Statement::Nothing,
        column,
        source_column: column,
    };
    said.statement = statement(&mut words, &mut said.source_column)?;
    words.end()?;
    let one_line = !matches!(
        said.statement,
        Statement::Store(..)
            | Statement::Load(_)
            | Statement::Accept
            | Statement::AcceptOne
            | Statement::Refuse
    );
    if refused && !one_line {
        return Err(Wrong {
            column,
            what: "'refused' stands before a statement of one line, and this makes several"
                .to_string(),
        });
    }
    Ok(said)
}

fn statement(words: &mut Words, source_column: &mut usize) -> Result<Statement, Wrong> {
    let Some(first) = words.peek() else {
        return words.wrong(format!("a statement begins with {BEGINNINGS}"));
    };
    let bare = match first {
        "taken" => Some(Statement::Taken),
        "broken" => Some(Statement::Broken),
        "tick" => Some(Statement::Tick),
        "hand" => Some(Statement::Hand),
        "refuse" => Some(Statement::Refuse),
        _ => None,
    };
    if let Some(bare) = bare {
        words.at += 1;
        return Ok(bare);
    }
    match first {
        "accept" => {
            words.at += 1;
            if words.take("one") {
                return Ok(Statement::AcceptOne);
            }
            words.end_or("accept, or accept one")?;
            Ok(Statement::Accept)
        }
        "reset"
            if words
                .list
                .get(1 + words.at)
                .is_none_or(|word| word.text != "store") =>
        {
            words.at += 1;
            words.end_or("reset, or reset store")?;
            Ok(Statement::Reset)
        }
        "load" => {
            words.at += 1;
            if words.take("address") {
                return Ok(Statement::Load(words.hex("address", Some(1))?[0]));
            }
            match words.name(Kind::Load) {
                Some(name) => Ok(Statement::Load((name.number as u8) << 4)),
                None => {
                    let mut loads = names().words(Kind::Load);
                    loads.push("address HH");
                    words.other(&format!("a load is {}", listed(&loads)))
                }
            }
        }
        "byte" => {
            words.at += 1;
            let mut bytes = words.hex("byte", Some(1))?;
            while words.at < words.list.len() {
                bytes.extend(words.hex("byte", Some(1))?);
            }
            Ok(Statement::Bytes(bytes))
        }
        "report" => {
            words.at += 1;
            let drive = words.named("drive", 0, 255)? as u8;
            let mut report = 0;
            let mut any = words.take("nothing");
            while let Some(name) = words.name(Kind::Report) {
                report |= name.number as u8;
                any = true;
            }
            if any && words.is_done() {
                return Ok(Statement::Report(drive, report));
            }
            let bits = names().words(Kind::Report).join(", ");
            let may = format!("a report is nothing, or some of {bits}");
            if any {
                words.end_or(&may)?;
            }
            words.other(&may)
        }
        "data" => {
            words.at += 1;
            *source_column = words.column();
            Ok(Statement::Data(words.source("a file, bytes or text")?))
        }
        "result" => {
            words.at += 1;
            result(words, source_column).map(Statement::Result)
        }
        "queue" => {
            words.at += 1;
            let job = words.named("job", 0, 255)? as u8;
            match store(words, source_column, true)? {
                (store, None) => Ok(Statement::Queue(job, store)),
                _ => words.wrong(
                    "a store that is queued has its bytes when it is handed over: say data then",
                ),
            }
        }
        _ => store(words, source_column, false).map(|(store, from)| Statement::Store(store, from)),
    }
}

/// What a store asks for, with its drive and the other words that it takes.
fn store(
    words: &mut Words,
    source_column: &mut usize,
    queued: bool,
) -> Result<(Store, Option<Source>), Wrong> {
    if words.take("store") {
        words.need("address")?;
        let address = words.hex("address", Some(1))?[0];
        words.need("operand")?;
        let operand = words.hex("operand", Some(4))?;
        let operand = operand.try_into().expect("four bytes");
        return Ok((Store { address, operand }, None));
    }
    let start = words.at;
    let mut longest: Option<(Kind, &Name)> = None;
    let kinds = [Kind::Control, Kind::Reading, Kind::Store];
    for kind in kinds {
        words.at = start;
        if let Some(name) = words.name(kind) {
            let none = name.kind == Kind::Store && matches!(name.number, 3 | 4);
            if !none && longest.is_none_or(|(_, other)| other.words.len() < name.words.len()) {
                longest = Some((kind, name));
            }
        }
    }
    words.at = start;
    let stores = || kinds.map(|kind| names().words(kind)).concat();
    let Some((kind, name)) = longest else {
        if let Some(wrong) = words.second(&stores()) {
            return wrong;
        }
        if queued {
            return words.other(&format!("a store begins with {STORES}"));
        }
        let text = shortened(words.list[start].text);
        return words.wrong(format!(
            "'{text}' begins no statement: it begins with {BEGINNINGS}"
        ));
    };
    words.at += name.words.split(' ').count();
    let number = name.number as u8;
    let (operation, mut operand) = match kind {
        Kind::Control => (3, [0, 0, 0, number]),
        Kind::Reading => (4, [number, 0, 0, 0]),
        _ => (number, [0; 4]),
    };
    let writes = (kind, number) == (Kind::Store, 5);
    let counts = writes || (kind, number) == (Kind::Reading, 0x80);
    let mut address = operation << 4;
    let mut count = None;
    let mut from = None;
    while let Some(word) = words.peek() {
        match word {
            "drive" => {
                words.at += 1;
                address = address & 0xF0 | 8 | words.number("drive", 7)? as u8;
            }
            "interrupt" => {
                words.at += 1;
                address |= 0x80;
            }
            "count" if counts => {
                words.at += 1;
                count = Some(words.number("count", 65_535)?);
            }
            "discard" if writes => {
                words.at += 1;
                operand[1] = words.number("discard", 255)? as u8;
            }
            "from" if writes => {
                words.at += 1;
                *source_column = words.column();
                from = Some(words.source("a file, bytes or text")?);
            }
            _ => break,
        }
    }
    if !words.is_done() {
        let mut may = vec!["drive N", "interrupt"];
        may.extend(counts.then_some("count N"));
        may.extend(writes.then_some("discard N"));
        may.extend(writes.then_some("from SOURCE"));
        let may = format!("behind {} stand {}", name.words, listed(&may));
        // read and write begin longer names too
        words.end_or(&match behind(name.words, &stores()) {
            Some(longer) if words.at == start + 1 => format!("{longer}; or {may}"),
            _ => may,
        })?;
    }
    if counts {
        let bytes = match &from {
            Some(Source::Bytes(bytes)) => Some(bytes.len().saturating_sub(operand[1] as usize)),
            _ => None,
        };
        let Some(count) = count.or(bytes).filter(|count| *count <= 65_535) else {
            let file = if from.is_some() && bytes.is_none() { " from a file" } else { "" };
            return words.wrong(format!("{}{file} needs a count, 0 to 65535", name.words));
        };
        operand[2..].copy_from_slice(&(count as u16).to_be_bytes());
    }
    Ok((Store { address, operand }, from))
}

fn result(words: &mut Words, source_column: &mut usize) -> Result<ResultWords, Wrong> {
    let code = if words.take("good") {
        0
    } else if let Some(code) = words.code()? {
        code
    } else {
        return words.other("behind 'result' stands good, code HH or the name of a code");
    };
    let mut said = ResultWords {
        code,
        mark: false,
        late: 0,
        brings: Brings::Nothing,
        space: None,
    };
    while let Some(word) = words.peek() {
        let start = words.at;
        words.at += 1;
        match word {
            "mark" => said.mark = true,
            "late" => said.late = words.late(255)?,
            "record" => {
                *source_column = words.column();
                said.brings = Brings::Record(words.source("a file, bytes or text")?, Vec::new());
            }
            "spoiled" | "marked" => {
                let list = blockettes(words, word)?;
                let Brings::Record(_, bad) = &mut said.brings else {
                    words.at = start;
                    return words.wrong(format!("'{word}' stands behind a record"));
                };
                bad.extend(list);
            }
            "count" => said.brings = Brings::Count(words.number("count", 65_535)? as u16),
            "image" => {
                *source_column = words.column();
                let image = words.source("a file, bytes or text")?;
                let marks = match words.take("marks") {
                    true => words.source("a file, bytes or text")?,
                    false => Source::Bytes(Vec::new()),
                };
                said.brings = Brings::Image(image, marks);
            }
            "space" => said.space = Some(words.number("space", crate::line::HOST_LIMIT)?),
            _ => {
                words.at = start;
                break;
            }
        }
    }
    words.end_or(
        "behind the code stand mark, late, record, spoiled, marked, count, image or space",
    )?;
    Ok(said)
}

/// `1 3 mark 9 check 0`
fn blockettes(words: &mut Words, word: &str) -> Result<Vec<Spoiled>, Wrong> {
    let mut list: Vec<Spoiled> = Vec::new();
    loop {
        let check = words.take("check");
        let is_number = words
            .peek()
            .is_some_and(|word| word.bytes().all(|byte| byte.is_ascii_digit()));
        if !check && !is_number {
            break;
        }
        let number = words.number("blockette", 255)?;
        // the word alone is the mark that was found
        let behind = words
            .list
            .get(words.at + 1)
            .is_some_and(|word| word.text.parse::<u8>().is_ok());
        let mark = match words.peek() {
            Some("mark") if behind => {
                words.at += 1;
                words.number("mark", 255)? as u8
            }
            _ => USUAL_MARK,
        };
        list.push(Spoiled {
            check,
            number,
            mark,
            turned: word == "spoiled",
        });
    }
    match list.is_empty() {
        true => words.wrong(format!(
            "behind '{word}' stand numbers of blockettes, and check 0 or check 1"
        )),
        false => Ok(list),
    }
}

// ---- writing

fn put(words: &str, out: &mut Vec<u8>) {
    out.extend_from_slice(words.as_bytes());
}

fn put_source(source: &Source, out: &mut Vec<u8>) {
    match source {
        Source::Bytes(bytes) => {
            put("bytes", out);
            if !bytes.is_empty() {
                out.push(b' ');
                put_hex(bytes, out);
            }
        }
        Source::File(file) => put(file, out),
    }
}

/// A store in words where they say all of it, else its bytes.
pub fn put_store(store: &Store, out: &mut Vec<u8>) {
    let [first, second, third, fourth] = store.operand;
    let name = |kind, number| names().of(kind, number);
    let words = match store.operation() {
        3 if (first, second, third) == (0, 0, 0) => name(Kind::Control, fourth),
        4 if first == 0x80 && second == 0 => name(Kind::Reading, first),
        4 if (second, third, fourth) == (0, 0, 0) && first != 0x80 => name(Kind::Reading, first),
        5 if first == 0 => name(Kind::Store, 5),
        operation @ (0 | 6) if store.operand == [0; 4] => name(Kind::Store, operation),
        _ => "",
    };
    if words.is_empty() || store.drive().is_none() && store.address & 7 != 0 {
        put("store address ", out);
        put_hex(&[store.address], out);
        put(" operand ", out);
        put_hex(&store.operand, out);
        return;
    }
    put(words, out);
    if let Some(drive) = store.drive() {
        put(" drive ", out);
        out.push(b'0' + drive);
    }
    if store.asks_interrupt() {
        put(" interrupt", out);
    }
    if store.operation() == 5 || store.operation() == 4 && first == 0x80 {
        put(" count ", out);
        put_decimal(store.count() as usize, out);
    }
    if store.operation() == 5 && second != 0 {
        put(" discard ", out);
        put_decimal(second as usize, out);
    }
}

/// Writes a statement as it is read, without #0A.
pub fn put_said(said: &Said, out: &mut Vec<u8>) {
    if said.refused {
        put("refused ", out);
    }
    match &said.statement {
        Statement::Nothing => {}
        Statement::Comment(text) => out.extend_from_slice(text),
        Statement::Store(store, from) => {
            put_store(store, out);
            if let Some(source) = from {
                put(" from ", out);
                put_source(source, out);
            }
        }
        Statement::Load(address) => {
            let words = names().of(Kind::Load, address >> 4);
            put("load ", out);
            if words.is_empty() || address & 15 != 0 {
                put("address ", out);
                put_hex(&[*address], out);
            } else {
                put(words, out);
            }
        }
        Statement::Accept => put("accept", out),
        Statement::AcceptOne => put("accept one", out),
        Statement::Refuse => put("refuse", out),
        Statement::Bytes(bytes) => {
            put("byte", out);
            for byte in bytes {
                out.push(b' ');
                put_hex(&[*byte], out);
            }
        }
        Statement::Taken => put("taken", out),
        Statement::Broken => put("broken", out),
        Statement::Tick => put("tick", out),
        Statement::Reset => put("reset", out),
        Statement::Hand => put("hand", out),
        Statement::Report(drive, report) => {
            put("report drive ", out);
            put_decimal(*drive as usize, out);
            for bit in (0..8).rev().filter(|bit| report >> bit & 1 != 0) {
                out.push(b' ');
                put(names().of(Kind::Report, 1 << bit), out);
            }
            if *report == 0 {
                put(" nothing", out);
            }
        }
        Statement::Data(source) => {
            put("data ", out);
            put_source(source, out);
        }
        Statement::Result(result) => put_result(result, out),
        Statement::Queue(job, store) => {
            put("queue job ", out);
            put_decimal(*job as usize, out);
            out.push(b' ');
            put_store(store, out);
        }
        Statement::Line(text) => {
            put("line", out);
            if !text.is_empty() {
                out.push(b' ');
                out.extend_from_slice(text);
            }
        }
    }
}

fn put_result(result: &ResultWords, out: &mut Vec<u8>) {
    put("result ", out);
    match result.code {
        0 => put("good", out),
        code => {
            put("code ", out);
            put_hex(&[code], out);
        }
    }
    if result.mark {
        put(" mark", out);
    }
    match result.late {
        0 => {}
        late => match LATE.get(late as usize - 1) {
            Some(word) => put(&format!(" late {word}"), out),
            None => put(&format!(" late {late}"), out),
        },
    }
    match &result.brings {
        Brings::Nothing => {}
        Brings::Record(source, spoiled) => {
            put(" record ", out);
            put_source(source, out);
            for (at, bad) in spoiled.iter().enumerate() {
                if at == 0 || spoiled[at - 1].turned != bad.turned {
                    put(if bad.turned { " spoiled" } else { " marked" }, out);
                }
                put(if bad.check { " check " } else { " " }, out);
                put_decimal(bad.number, out);
                if bad.mark != USUAL_MARK {
                    put(" mark ", out);
                    put_decimal(bad.mark as usize, out);
                }
            }
        }
        Brings::Count(count) => {
            put(" count ", out);
            put_decimal(*count as usize, out);
        }
        Brings::Image(image, marks) => {
            put(" image ", out);
            put_source(image, out);
            if *marks != Source::Bytes(Vec::new()) {
                put(" marks ", out);
                put_source(marks, out);
            }
        }
    }
    if let Some(space) = result.space {
        put(" space ", out);
        put_decimal(space, out);
    }
}

/// The words of a statement.
pub fn written(said: &Said) -> String {
    let mut out = Vec::new();
    put_said(said, &mut out);
    String::from_utf8(out).unwrap_or_else(|error| hex(error.as_bytes()))
}
