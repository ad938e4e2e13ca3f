//! The table of names, `names.txt`: the one place where a number of the papers has its word.

use std::sync::OnceLock;

/// The table as it stands in its file.
pub const TABLE: &str = include_str!("../names.txt");

/// What a number is the number of. `KINDS` has their words in the table.
#[derive(Clone, Copy, Debug, PartialEq, Eq, Hash)]
pub enum Kind {
    Operation,
    Order,
    Store,
    Reading,
    Control,
    Load,
    Code,
    Refusal,
    Report,
    Primary,
    Phase,
    Sent,
    Lead,
    Offer,
    Action,
    Mark,
    Blockette,
    Motion,
    Gap,
    Density,
    Limit,
}

/// The kinds in the order of `Kind`, with their words, and whether their numbers are hexadecimal.
pub const KINDS: [(Kind, &str, bool); 21] = [
    (Kind::Operation, "operation", false),
    (Kind::Order, "order", true),
    (Kind::Store, "store", true),
    (Kind::Reading, "reading", true),
    (Kind::Control, "control", true),
    (Kind::Load, "load", true),
    (Kind::Code, "code", true),
    (Kind::Refusal, "refusal", false),
    (Kind::Report, "report", true),
    (Kind::Primary, "primary", false),
    (Kind::Phase, "phase", false),
    (Kind::Sent, "sent", false),
    (Kind::Lead, "lead", true),
    (Kind::Offer, "offer", true),
    (Kind::Action, "action", false),
    (Kind::Mark, "mark", false),
    (Kind::Blockette, "blockette", false),
    (Kind::Motion, "motion", false),
    (Kind::Gap, "gap", false),
    (Kind::Density, "density", false),
    (Kind::Limit, "limit", false),
];

/// One line of the table.
#[derive(Clone, Copy, Debug, PartialEq, Eq)]
pub struct Name {
    pub kind: Kind,
    pub number: u32,
    pub words: &'static str,
    /// A constant of the C headers, or none.
    pub c: Option<&'static str>,
    /// Where the Rattle code has the number, as the head of the table says.
    pub rattle: Option<&'static str>,
    /// Where the definitions have it.
    pub definition: Option<&'static str>,
}

pub struct Names {
    list: Vec<Name>,
    /// By kind and number, for numbers of one byte.
    words: [[&'static str; 256]; KINDS.len()],
}

/// Reads a table; a line that is none is told with its number.
pub fn read(table: &'static str) -> Result<Names, String> {
    let mut names = Names {
        list: Vec::new(),
        words: [[""; 256]; KINDS.len()],
    };
    let mut lines = table.lines().enumerate().peekable();
    while let Some((at, line)) = lines.next() {
        if line.starts_with('#') || line.is_empty() {
            continue;
        }
        let wrong = |what: &str| format!("names.txt:{}: {what}", at + 1);
        let mut fields: Vec<&'static str> = line.split('|').collect();
        // a line that begins with blanks has the fields that are left
        while let Some((_, more)) = lines.next_if(|(_, more)| more.starts_with(' ')) {
            match more.trim_start().strip_prefix('|') {
                Some(more) => fields.extend(more.split('|')),
                None => return Err(wrong("a line goes on from a | on")),
            }
        }
        let [kind, number, words, c, rattle, definition] = fields[..] else {
            return Err(wrong("a line has six fields"));
        };
        let Some(&(kind, _, hexadecimal)) = KINDS.iter().find(|(_, word, _)| *word == kind) else {
            return Err(wrong("no such kind"));
        };
        let base = if hexadecimal { 16 } else { 10 };
        let number = u32::from_str_radix(number, base).map_err(|_| wrong("no number"))?;
        if words.is_empty()
            || names
                .list
                .iter()
                .any(|name| name.kind == kind && name.number == number)
        {
            return Err(wrong("a name is missing, or its number stands twice"));
        }
        let some = |field: &'static str| (field != "-").then_some(field);
        names.list.push(Name {
            kind,
            number,
            words,
            c: some(c),
            rattle: some(rattle),
            definition: some(definition),
        });
        if let Some(word) = names.words[kind as usize].get_mut(number as usize) {
            *word = words;
        }
    }
    Ok(names)
}

/// The table, read once.
pub fn names() -> &'static Names {
    static NAMES: OnceLock<Names> = OnceLock::new();
    NAMES
        .get_or_init(|| read(TABLE).expect("the table of names is part of the program, and tested"))
}

impl Names {
    /// The words of a number; empty where it has none.
    pub fn of(&self, kind: Kind, number: u8) -> &'static str {
        self.words[kind as usize][number as usize]
    }

    /// All names of a kind, in the order of the table.
    pub fn all(&self, kind: Kind) -> impl Iterator<Item = &Name> {
        self.list.iter().filter(move |name| name.kind == kind)
    }

    /// The words of all names of a kind, in the order of the table.
    pub fn words(&self, kind: Kind) -> Vec<&'static str> {
        self.all(kind).map(|name| name.words).collect()
    }

    /// The whole table, in its order.
    pub fn list(&self) -> &[Name] {
        &self.list
    }

    /// The number that has these words.
    pub fn number(&self, kind: Kind, words: &str) -> Option<u32> {
        self.all(kind)
            .find(|name| name.words == words)
            .map(|name| name.number)
    }

    /// The name whose words stand at the start of these, the longest where several do.
    pub fn leading(&self, kind: Kind, words: &[&str]) -> Option<&Name> {
        self.all(kind)
            .filter(|name| {
                let mut given = words.iter();
                name.words
                    .split(' ')
                    .all(|word| given.next() == Some(&word))
            })
            .max_by_key(|name| name.words.len())
    }
}

/// The words of a number, empty where it has none.
pub fn name(kind: Kind, number: u8) -> &'static str {
    names().of(kind, number)
}
