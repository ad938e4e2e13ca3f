//! docs/ARCHITECTURE.md: its table of crates, its tables of where to find what, and every path, name and link in it.

use crate::code::{self, Names};
use crate::tree::Tree;
use crate::{compared, groups_of, Faults};

const PAGE: &str = "docs/ARCHITECTURE.md";
const COLUMNS: usize = 120;
/// The folder of a crate that a column is of, and how its files end.
const FOLDERS: [(&str, &str, &str); 3] = [
    ("Code", "src", ".rt"),
    ("Definition", "specs", ".antt"),
    ("Theorem", "proofs", ".antt"),
];

/// What stands between backquotes, each with the text before it.
fn spans(text: &str) -> Vec<(String, String)> {
    let parts: Vec<_> = text.split('`').collect();
    let pairs = parts.chunks_exact(2);
    pairs
        .map(|pair| (pair[0].to_string(), pair[1].to_string()))
        .collect()
}

/// The cells of a table's row.
fn cells(line: &str) -> Vec<String> {
    let row = line.trim_start_matches('|').trim_end_matches('|');
    row.split('|').map(|cell| cell.trim().to_string()).collect()
}

/// The lines under a heading, up to the next of its level or a higher one.
fn section(text: &str, heading: &str) -> Result<Vec<String>, String> {
    let level = heading.split(' ').next().unwrap_or("").len();
    let mut lines = text.lines().skip_while(|line| *line != heading);
    lines.next().ok_or(format!("{PAGE}: no '{heading}'"))?;
    let ends = |line: &&str| {
        let marks = line.chars().take_while(|&c| c == '#').count();
        marks == 0 || marks > level
    };
    Ok(lines.take_while(ends).map(str::to_string).collect())
}

fn is_file(span: &str) -> bool {
    span.ends_with(".rt") || span.ends_with(".antt")
}

/// Whether the names are defined in a file of the repository.
fn stand_in(tree: &Tree, path: &str, names: &[String], faults: &mut Faults) {
    match tree.read(path) {
        Err(_) => faults.push(format!("{PAGE}: no file {path}")),
        Ok(text) => {
            let defined = code::defined(path, &text);
            let missing = names.iter().filter(|name| !defined.contains(*name));
            faults.extend(missing.map(|name| format!("{PAGE}: {name} is not in {path}")));
        }
    }
}

/// The table of crates: each once, in its group, and what it knows nothing of is not below it.
pub fn crates(tree: &Tree) -> Result<Faults, String> {
    let (text, crates) = (tree.read(PAGE)?, code::crates(tree)?);
    let (groups, mut faults, mut listed) = (groups_of(tree)?, vec![], Names::new());
    for line in section(&text, "## The crates")? {
        let cells = cells(&line);
        let [group, name, _, unknown] = &cells[..] else {
            continue;
        };
        let Some((_, name)) = spans(name).into_iter().next() else {
            continue;
        };
        if groups.get(&name) != Some(group) {
            faults.push(format!(
                "{PAGE}: {name} is in {:?}, not {group}",
                groups.get(&name)
            ));
        }
        let spans = spans(unknown);
        if spans.is_empty() {
            faults.push(format!("{PAGE}: {name} knows nothing of what?"));
        }
        for (_, other) in spans {
            let known = crates
                .below
                .get(&name)
                .is_some_and(|below| below.contains(&other));
            if known || !crates.direct.contains_key(&other) {
                faults.push(format!("{PAGE}: {name} knows nothing of {other}"));
            }
        }
        if !listed.insert(name.clone()) {
            faults.push(format!("{PAGE}: {name} stands twice"));
        }
    }
    faults.extend(compared(
        "the table of crates",
        &listed,
        &crates.direct.keys().cloned().collect(),
    ));
    Ok(faults)
}

/// The examples of the rule of names: a function of the code, and the definitions that it promises.
pub fn names(tree: &Tree) -> Result<Faults, String> {
    let (text, places) = (tree.read(PAGE)?, code::definitions(tree)?);
    let (mut functions, mut faults, mut rows) = (Names::new(), vec![], 0);
    for krate in tree.names("crates") {
        for file in tree.names(&format!("crates/{krate}/src")) {
            let path = format!("crates/{krate}/src/{file}");
            functions.extend(code::defined(&path, &tree.read(&path)?));
        }
    }
    for line in section(&text, "## A crate")? {
        let cells = cells(&line);
        let [_, _, example] = &cells[..] else {
            continue;
        };
        for (at, (_, name)) in spans(example).into_iter().enumerate() {
            rows += 1;
            if !(at == 0 && functions.contains(&name) || at > 0 && places.contains_key(&name)) {
                faults.push(format!("{PAGE}: {name} is no example of the rule of names"));
            }
        }
    }
    if rows == 0 {
        faults.push(format!("{PAGE}: no example of the rule of names"));
    }
    Ok(faults)
}

/// How many: calls, functions for C, phases, answers of the table and bytes of a state, wherever they are said.
pub fn counts(tree: &Tree) -> Result<Faults, String> {
    const WORDS: [&str; 13] = [
        "no", "one", "two", "three", "four", "five", "six", "seven", "eight", "nine", "ten",
        "eleven", "twelve",
    ];
    let word = |count: usize| WORDS.get(count).copied().unwrap_or("more");
    let calls = code::methods(tree, "controller", "Controller")?.len();
    let passed = code::calls(tree)?.len() - 2;
    let interface = tree.read("crates/firmware/src/interface.rt")?;
    let functions = interface.matches("extern \"C\" fn ").count();
    let phases = code::phases(tree)?.len();
    let answers = 32 * code::cases(tree, "crates/operations/src/operation.rt", "Operation")?.len();
    let places = tree.read("crates/layout/src/places.rt")?;
    let length = places
        .split("STATE_LENGTH: usize = ")
        .nth(1)
        .ok_or("no STATE_LENGTH")?;
    let length: String = length.chars().take_while(char::is_ascii_digit).collect();
    let said = [
        (PAGE, format!("the {} calls", word(calls))),
        (PAGE, format!("{} calls passed on", word(passed))),
        (PAGE, format!("{} functions: a call", word(functions))),
        (PAGE, format!("The {} phases", word(phases))),
        (PAGE, format!("the {answers} answers")),
        (
            "docs/pictures/phases.svg",
            format!("The {} phases", word(phases)),
        ),
        (
            "docs/pictures/groups.svg",
            format!("{} calls and their refusals", word(calls)),
        ),
        (
            "docs/pictures/groups.svg",
            format!("the state as {length} bytes"),
        ),
    ];
    let mut faults = vec![];
    for (path, phrase) in said {
        if !tree.read(path)?.contains(&phrase) {
            faults.push(format!("{path}: does not say '{phrase}'"));
        }
    }
    Ok(faults)
}

/// The ways outside the controller: their refusals, in the order of the definition that says which is given.
pub fn ways(tree: &Tree) -> Result<Faults, String> {
    let (text, mut faults, mut rows) = (tree.read(PAGE)?, vec![], 0);
    let section = section(&text, "## Phases, and a store's life")?;
    for line in section
        .iter()
        .filter(|line| line.starts_with("| ") && !line.starts_with("| Way "))
    {
        let cells = cells(line);
        let [way, _, listed] = &cells[..] else {
            return Err(format!("{PAGE}: '{line}'"));
        };
        let krate = if way == "view" { "views" } else { "records" };
        let claims = tree.read(&format!("crates/{krate}/specs/Refused.antt"))?;
        let name = format!("{}{}Refused", way[..1].to_uppercase(), &way[1..]);
        let mut order: Vec<String> = code::numbered(&claims, &name)?;
        order.dedup();
        if order.join(" ") != *listed {
            faults.push(format!(
                "{PAGE}: {way} refuses with {listed}, not {}",
                order.join(" ")
            ));
        }
        rows += 1;
    }
    if rows == 0 {
        faults.push(format!("{PAGE}: no ways"));
    }
    Ok(faults)
}

/// Where to find: every file is there, and every name is defined in its file. `link/Link.collect_byte` is a crate, a
/// file and a name; the crate is that of the heading where none stands, `.name` is in the file before it, and a
/// theorem's name alone, which has a small letter, is one of Demands. Other columns hold paths.
pub fn places(tree: &Tree) -> Result<Faults, String> {
    let (mut faults, mut rows) = (vec![], 0);
    let (mut heading, mut columns) = (String::new(), vec![]);
    for line in section(&tree.read(PAGE)?, "## Where to find")? {
        if line.starts_with("### ") {
            heading = spans(&line)
                .into_iter()
                .next()
                .map_or(String::new(), |(_, name)| name);
        }
        if !line.starts_with("| ") {
            continue;
        }
        if line.starts_with("| Topic ") {
            columns = cells(&line);
            continue;
        }
        rows += 1;
        let cells = cells(&line);
        if cells.len() != columns.len() {
            faults.push(format!("{PAGE}: '{line}' has {} cells", cells.len()));
        }
        for (column, cell) in columns.iter().zip(cells) {
            let kind = FOLDERS.iter().find(|(name, ..)| name == column);
            let mut before = String::new();
            for (_, span) in spans(&cell) {
                let Some((_, folder, ending)) = kind else {
                    if !tree.exists(&span) {
                        faults.push(format!("{PAGE}: no {span}"));
                    }
                    continue;
                };
                let (krate, rest) = span.split_once('/').unwrap_or((&heading, &span));
                let (file, name) = match rest.split_once('.') {
                    Some((file, name)) => (file, Some(name)),
                    None if *folder == "proofs" && rest.starts_with(|c: char| c.is_lowercase()) => {
                        ("Demands", Some(rest))
                    }
                    None => (rest, None),
                };
                if !file.is_empty() {
                    before = format!("crates/{krate}/{folder}/{file}{ending}");
                }
                let names: Vec<_> = name.map(str::to_string).into_iter().collect();
                stand_in(tree, &before, &names, &mut faults);
            }
        }
    }
    if rows == 0 {
        faults.push(format!("{PAGE}: no row of where to find"));
    }
    Ok(faults)
}

/// Whether a path is one from the root, from crates/ or from a crate, or the name of a file of a crate.
fn is_there(tree: &Tree, path: &str) -> bool {
    let path = path.trim_end_matches('/');
    if ["", "crates/", "docs/"]
        .iter()
        .any(|folder| tree.exists(&format!("{folder}{path}")))
    {
        return true;
    }
    let within = ["", "src/", "specs/", "proofs/"];
    let places = |name: &String| {
        let crates = within
            .iter()
            .map(move |folder| format!("crates/{name}/{folder}{path}"));
        crates.into_iter().any(|path| tree.exists(&path))
    };
    tree.names("crates").iter().any(places)
}

/// The anchor of a heading.
fn anchor(heading: &str) -> String {
    let kept = |c: &char| c.is_alphanumeric() || matches!(c, ' ' | '-' | '_');
    let plain: String = heading.to_lowercase().chars().filter(kept).collect();
    plain.replace(' ', "-")
}

/// Every path and link of the page leads somewhere, names "in" a file are defined there, and no line is too long.
pub fn paths(tree: &Tree) -> Result<Faults, String> {
    let (text, mut faults) = (tree.read(PAGE)?, vec![]);
    let long = text
        .lines()
        .enumerate()
        .filter(|(_, line)| line.chars().count() > COLUMNS);
    faults.extend(long.map(|(at, _)| format!("{PAGE}: line {} is too long", at + 1)));

    let find = section(&text, "## Where to find")?.join("\n");
    let rest = text.replace(&find, "");
    for paragraph in rest.split("\n\n") {
        let mut names = vec![];
        for (before, span) in spans(&paragraph.replace('\n', " ")) {
            let before = before.as_str();
            if is_file(&span) && span.contains('/') && before == " in " {
                stand_in(tree, &span, &names, &mut faults);
                names.clear();
                continue;
            }
            if !matches!(before, ", " | " and ") {
                names.clear();
            }
            let is_path = is_file(&span) || (span.contains('/') && !span.contains(' '));
            if is_path && !is_there(tree, &span) {
                faults.push(format!("{PAGE}: no {span}"));
            }
            names.push(span);
        }
    }
    for behind in text.split("](").skip(1) {
        let link = behind.split(')').next().unwrap_or("");
        let (file, place) = link.split_once('#').unwrap_or((link, ""));
        let path = match file {
            "" => PAGE.to_string(),
            _ => format!("docs/{file}"),
        };
        if !tree.exists(&path) {
            faults.push(format!("{PAGE}: no {path}"));
        } else if !place.is_empty() {
            let page = tree.read(&path)?;
            let mut headings = page.lines().filter(|line| line.starts_with('#'));
            if !headings.any(|line| anchor(line.trim_start_matches('#').trim()) == place) {
                faults.push(format!("{PAGE}: no heading #{place} in {path}"));
            }
        }
    }
    Ok(faults)
}

/// Other pages' links to headings of this one.
pub fn links(tree: &Tree) -> Result<Faults, String> {
    let (page, mut faults) = (tree.read(PAGE)?, vec![]);
    let headings: Names = page
        .lines()
        .filter(|line| line.starts_with('#'))
        .map(|line| anchor(line.trim_start_matches('#').trim()))
        .collect();
    let pages = tree
        .names("docs")
        .into_iter()
        .map(|name| format!("docs/{name}"));
    for path in pages
        .chain(["README.md".to_string()])
        .filter(|path| path.ends_with(".md"))
    {
        for behind in tree.read(&path)?.split("ARCHITECTURE.md#").skip(1) {
            let place = behind.split(')').next().unwrap_or("");
            if !headings.contains(place) {
                faults.push(format!("{path}: no heading #{place} in {PAGE}"));
            }
        }
    }
    Ok(faults)
}
