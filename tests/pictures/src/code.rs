//! What the code and the definitions say: phases, calls, refusals, crates, and the names that a file defines.

use crate::tree::Tree;
use std::collections::{BTreeMap, BTreeSet};

pub type Names = BTreeSet<String>;

/// The lines from one that begins so to the next that is a closing brace in the same column.
fn block(text: &str, begins: &str) -> Result<Vec<String>, String> {
    let mut lines = text.lines().skip_while(|line| !line.starts_with(begins));
    lines
        .next()
        .ok_or(format!("no line begins with '{begins}'"))?;
    Ok(lines
        .take_while(|line| *line != "}")
        .map(str::to_string)
        .collect())
}

fn is_of_word(c: char) -> bool {
    c.is_alphanumeric() || c == '_'
}

/// The word that a text begins with.
pub fn word(text: &str) -> String {
    let end = |c: char| !is_of_word(c);
    text.split(end).next().unwrap_or("").to_string()
}

/// A word's other spelling: ack_offered is AckOffered.
fn camel(name: &str) -> String {
    let parts = name.split('_');
    parts
        .map(|part| format!("{}{}", part[..1].to_uppercase(), &part[1..]))
        .collect()
}

/// The cases of an enum, in order.
pub fn cases(tree: &Tree, file: &str, name: &str) -> Result<Vec<String>, String> {
    let lines = block(&tree.read(file)?, &format!("pub enum {name} {{"))?;
    let cases = lines.iter().map(|line| word(line.trim()));
    Ok(cases.filter(|case| !case.is_empty()).collect())
}

/// The phases, in order.
pub fn phases(tree: &Tree) -> Result<Vec<String>, String> {
    cases(tree, "crates/link/src/state.rt", "Phase")
}

/// The calls of a struct of a crate: its public methods that promise the definition of a call, `x` that of `x_call`.
/// Others on the same struct only read it, build it, or make a call in place.
pub fn methods(tree: &Tree, krate: &str, name: &str) -> Result<Names, String> {
    let (folder, mut found) = (format!("crates/{krate}/src"), Names::new());
    for file in tree.names(&folder) {
        let text = tree.read(&format!("{folder}/{file}"))?;
        for own in text.split(&format!("\nimpl {name} {{\n")).skip(1) {
            let own = own.split("\n}\n").next().unwrap_or("");
            for method in own.split("\n    pub fn ").skip(1) {
                let (call, contract) = (word(method), method.split("\n    {\n").next());
                let promised = format!("{call}_call");
                let mut words = contract.unwrap_or("").split(|c: char| !is_of_word(c));
                if words.any(|word| word == promised) {
                    found.insert(call);
                }
            }
        }
    }
    Ok(found)
}

/// The calls: the controller's and the dispatcher's.
pub fn calls(tree: &Tree) -> Result<Names, String> {
    let controller = methods(tree, "controller", "Controller")?;
    Ok(&controller | &methods(tree, "dispatcher", "Dispatcher")?)
}

/// A definition's lines, with that of its type.
fn definition(text: &str, name: &str) -> Result<Vec<String>, String> {
    let head = format!("pub {name} :");
    let mut lines = text.lines().skip_while(|line| !line.contains(&head));
    let first = lines
        .next()
        .ok_or(format!("{name} is not defined"))?
        .to_string();
    let rest = lines
        .take_while(|line| !line.is_empty())
        .map(str::to_string);
    Ok([first].into_iter().chain(rest).collect())
}

/// The numbers before the conditions of a definition, in order.
pub fn numbered(text: &str, name: &str) -> Result<Vec<String>, String> {
    let lines = definition(text, name)?.join("\n");
    let tried = lines.split('(').filter_map(|part| part.split_once(','));
    let is_number = |word: &&str| word.parse::<u32>().is_ok();
    Ok(tried
        .map(|(word, _)| word)
        .filter(is_number)
        .map(str::to_string)
        .collect())
}

/// The phases in which a call is carried out, where it goes by them.
pub fn carried_in(tree: &Tree, call: &str) -> Result<Option<Names>, String> {
    let machine = tree.read("crates/controller/specs/Machine.antt")?;
    let Ok(lines) = definition(&machine, &format!("{call}_in")) else {
        return Ok(None);
    };
    let mut found = Names::new();
    for line in &lines {
        if let Some((_, behind)) = line.split_once(" when_") {
            found.insert(camel(&word(behind)));
        } else if let Some((head, _)) = line.split_once(" = carried") {
            let pattern = head
                .rsplit_once('(')
                .ok_or(format!("{call}_in: '{line}'"))?;
            found.insert(word(pattern.1));
        }
    }
    Ok(Some(found))
}

/// The numbers that may refuse each call, by the two tables of conditions.
pub fn refusals(tree: &Tree) -> Result<BTreeMap<String, BTreeSet<u32>>, String> {
    let [controller, dispatcher] = ["controller", "dispatcher"]
        .map(|krate| tree.read(&format!("crates/{krate}/specs/Reasons.antt")));
    let (controller, dispatcher) = (controller?, dispatcher?);
    let numbers = |text: &str| -> BTreeSet<u32> {
        let tried = text.split('(').filter_map(|part| part.split_once(','));
        tried
            .filter_map(|(number, _)| number.parse().ok())
            .collect()
    };
    let all = |name: &str| definition(&controller, name).map(|lines| numbers(&lines.join("\n")));
    let of_any = all("conditions_of")?;
    let mut found = BTreeMap::new();
    for (text, prefix) in [
        (&controller, "own_conditions c "),
        (&dispatcher, "own_conditions d "),
    ] {
        let own = definition(text, "own_conditions")?.join("\n");
        for equation in own.split(prefix).skip(1) {
            let call = word(equation.trim_start_matches('('));
            let mut set = &of_any | &numbers(equation);
            for table in ["data_conditions", "result_conditions"] {
                if equation.contains(table) {
                    set = &(&set | &all(table)?) | &all("not_awaited")?;
                }
            }
            // the constructor's name; what the dispatcher passes on is the controller's
            match call.as_str() {
                "host_data" => found.insert("data".to_string(), set),
                "passed" => None,
                _ => found.insert(call, set),
            };
        }
    }
    Ok(found)
}

/// The crates, with all that each stands on, directly or by another; and the lines as they are.
pub struct Crates {
    pub direct: BTreeMap<String, Names>,
    pub below: BTreeMap<String, Names>,
}

pub fn crates(tree: &Tree) -> Result<Crates, String> {
    let (mut direct, mut below) = (BTreeMap::new(), BTreeMap::<String, Names>::new());
    for line in tree
        .read("crates.txt")?
        .lines()
        .filter(|line| !line.starts_with('#'))
    {
        let (name, stands_on) = line.split_once(':').ok_or(format!("crates.txt: {line}"))?;
        // what C links with is said to be a static library
        let name = word(name);
        let own: Names = stands_on.split_whitespace().map(str::to_string).collect();
        let further = own.iter().filter_map(|other| below.get(other)).flatten();
        let all = further.chain(&own).cloned().collect();
        below.insert(name.clone(), all);
        direct.insert(name, own);
    }
    Ok(Crates { direct, below })
}

/// The names that a file of code, definitions or theorems defines.
pub fn defined(path: &str, text: &str) -> Names {
    let kinds: &[&str] = if path.ends_with(".rt") {
        &["pub ", "extern \"C\" ", "fn ", "struct ", "enum ", "trait ", "const "]
    } else {
        &["abbrev ", "unfoldable ", "pub ", "record ", "data "]
    };
    let mut found = Names::new();
    for line in text.lines() {
        let mut rest = line.trim_start();
        while let Some(shorter) = kinds.iter().find_map(|kind| rest.strip_prefix(kind)) {
            rest = shorter;
        }
        if path.ends_with(".rt") {
            if rest.len() < line.trim_start().len() {
                found.insert(word(rest));
            }
        } else {
            // a public name, in a module or not, or a theorem of the file's own
            let name = rest.split([' ', ':']).next().unwrap_or("");
            let is_public = rest.len() < line.trim_start().len() && name != "use" && name != "mod";
            let is_own = rest.len() == line.len() && rest[name.len()..].starts_with(" :");
            if (is_public || is_own) && !name.is_empty() {
                found.insert(name.to_string());
            }
        }
    }
    found
}

/// Where each definition of specs/ stands.
pub fn definitions(tree: &Tree) -> Result<BTreeMap<String, Vec<String>>, String> {
    let mut places = BTreeMap::<String, Vec<String>>::new();
    for krate in tree.names("crates") {
        let folder = format!("crates/{krate}/specs");
        for file in tree.names(&folder) {
            let path = format!("{folder}/{file}");
            if !file.ends_with(".antt") {
                continue;
            }
            for name in defined(&path, &tree.read(&path)?) {
                places.entry(name).or_default().push(path.clone());
            }
        }
    }
    Ok(places)
}
