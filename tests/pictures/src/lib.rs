//! Holds the pictures and docs/ARCHITECTURE.md to the code, the definitions and the theorems. Each check answers what
//! is wrong, a line each.

pub mod code;
pub mod page;
pub mod svg;
pub mod tree;

use code::Names;
use std::collections::{BTreeMap, BTreeSet};
use svg::{Picture, Piece};
use tree::Tree;

pub type Faults = Vec<String>;

const PHASES: &str = "docs/pictures/phases.svg";
const STORE: &str = "docs/pictures/store.svg";
const GROUPS: &str = "docs/pictures/groups.svg";

/// A phase, a call that is carried out in it, and a phase that it may lead to.
pub type Transition = (String, String, String);

fn picture(tree: &Tree, path: &str) -> Result<Picture, String> {
    Picture::read(&tree.read(path)?).map_err(|fault| format!("{path}: {fault}"))
}

/// What one has and the other has not, and the other way round.
pub fn compared<T: Ord + std::fmt::Debug>(
    what: &str,
    picture: &BTreeSet<T>,
    code: &BTreeSet<T>,
) -> Faults {
    let missing = code
        .difference(picture)
        .map(|one| format!("{what}: {one:?} is missing"));
    let more = picture
        .difference(code)
        .map(|one| format!("{what}: {one:?} is not so"));
    missing.chain(more).collect()
}

/// The words that are shown as calls.
fn called(text: &[Piece]) -> Vec<String> {
    let calls = text.iter().filter(|piece| piece.is("call"));
    calls.map(|piece| piece.text.trim().to_string()).collect()
}

/// The transitions that a picture's arrows show, through the boxes that are no phase.
fn arrows(path: &str, picture: &Picture) -> Result<BTreeSet<Transition>, String> {
    let is_phase = |at: usize| picture.boxes[at].class == "phase";
    let name = |at: usize| picture.boxes[at].name();
    let mut found = BTreeSet::new();
    for arrow in &picture.arrows {
        let calls = called(&arrow.text);
        if calls.is_empty() == is_phase(arrow.from) {
            let from = name(arrow.from);
            return Err(format!(
                "{path}: an arrow from {from} with {} calls",
                calls.len()
            ));
        }
        // all boxes that are reached without a call
        let mut reached = BTreeSet::from([arrow.to]);
        loop {
            let passed = |at: &usize| reached.contains(at) && !is_phase(*at);
            let next = picture.arrows.iter().filter(|next| passed(&next.from));
            let further: BTreeSet<_> = next.map(|next| next.to).collect();
            if further.is_subset(&reached) {
                break;
            }
            reached.extend(further);
        }
        for to in reached.into_iter().filter(|&at| is_phase(at)) {
            let found_here = calls
                .iter()
                .map(|call| (name(arrow.from), call.clone(), name(to)));
            found.extend(found_here.filter(|_| is_phase(arrow.from)));
        }
    }
    Ok(found)
}

/// The calls that phases.svg has in every phase, each with where it leads: to the same phase or to one.
fn everywhere(picture: &Picture) -> Result<BTreeMap<String, Option<String>>, String> {
    let mut found = BTreeMap::new();
    let text = picture.group("everywhere");
    for sentence in text.split(|piece| piece.text == "\n") {
        let said = svg::whole(sentence);
        let words = said.trim_end_matches('.');
        let leads = match words.rsplit_once(" from every phase to ") {
            Some((_, phase)) => Some(phase.to_string()),
            None if words.is_empty() => continue,
            None if words.ends_with(" in every phase, and it stays") => None,
            None => return Err(format!("{PHASES}: '{said}'")),
        };
        found.extend(
            called(sentence)
                .into_iter()
                .map(|call| (call, leads.clone())),
        );
    }
    Ok(found)
}

/// All transitions that phases.svg shows.
pub fn transitions(tree: &Tree) -> Result<BTreeSet<Transition>, String> {
    let picture = picture(tree, PHASES)?;
    let mut found = arrows(PHASES, &picture)?;
    for (call, leads) in everywhere(&picture)? {
        for phase in code::phases(tree)? {
            let to = leads.clone().unwrap_or(phase.clone());
            found.insert((phase, call.clone(), to));
        }
    }
    Ok(found)
}

/// The numbers behind a word.
fn numbers(text: &str) -> BTreeSet<u32> {
    let words = text.split(|c: char| !c.is_ascii_digit());
    words.filter_map(|word| word.parse().ok()).collect()
}

/// The phases, calls and refusals of phases.svg.
pub fn phases(tree: &Tree) -> Result<Faults, String> {
    let picture = picture(tree, PHASES)?;
    let shapes = picture.boxes.iter().filter(|shape| shape.class == "phase");
    let drawn: Vec<_> = shapes.map(svg::Shape::name).collect();
    let phases: Names = code::phases(tree)?.into_iter().collect();
    let mut faults = compared(
        "phases.svg, phases",
        &drawn.iter().cloned().collect(),
        &phases,
    );
    if drawn.len() != phases.len() {
        faults.push(format!(
            "phases.svg: {} boxes for {} phases",
            drawn.len(),
            phases.len()
        ));
    }
    let calls = code::calls(tree)?;
    let shown: Names = picture.texts().flat_map(|text| called(text)).collect();
    faults.extend(compared("phases.svg, calls", &shown, &calls));

    // where each call is carried out
    let (drawn, mut defined) = (arrows(PHASES, &picture)?, BTreeSet::new());
    let in_all: Names = everywhere(&picture)?.into_keys().collect();
    let mut defined_in_all = Names::new();
    for call in calls {
        match code::carried_in(tree, &call)? {
            Some(phases) => defined.extend(phases.into_iter().map(|phase| (phase, call.clone()))),
            None => {
                defined_in_all.insert(call);
            }
        }
    }
    let pairs = drawn
        .into_iter()
        .map(|(phase, call, _)| (phase, call))
        .collect();
    faults.extend(compared("phases.svg, carried out", &pairs, &defined));
    faults.extend(compared(
        "phases.svg, in every phase",
        &in_all,
        &defined_in_all,
    ));

    // the refusals
    let (text, mut listed) = (picture.group("refused"), BTreeMap::new());
    for (at, piece) in text
        .iter()
        .enumerate()
        .filter(|(_, piece)| piece.is("call"))
    {
        let behind = text.get(at + 1).map_or("", |piece| piece.text.as_str());
        listed.insert(piece.text.clone(), numbers(behind));
    }
    let listed = listed.into_iter().collect();
    faults.extend(compared(
        "phases.svg, refusals",
        &listed,
        &code::refusals(tree)?.into_iter().collect(),
    ));
    Ok(faults)
}

/// The arrows of store.svg, the refusals of its calls, what a store may ask for and what the tape test looks at.
pub fn store(tree: &Tree) -> Result<Faults, String> {
    let picture = picture(tree, STORE)?;
    // all that phases.svg has but what a controller does that only collects
    let begins = |(phase, call, _): &Transition| phase != "Collecting" || call == "hand";
    let all = arrows(PHASES, &self::picture(tree, PHASES)?)?;
    let expected = all.into_iter().filter(begins).collect();
    let mut faults = compared("store.svg, arrows", &arrows(STORE, &picture)?, &expected);

    let (calls, refusals) = (code::calls(tree)?, code::refusals(tree)?);
    let shown: Names = picture.texts().flat_map(|text| called(text)).collect();
    faults.extend(
        shown
            .difference(&calls)
            .map(|call| format!("store.svg: no call {call}")),
    );
    let mut listed = 0;
    for arrow in &picture.arrows {
        let text = svg::whole(&arrow.text);
        let Some((_, behind)) = text.split_once("(refused: ") else {
            continue;
        };
        let numbers = numbers(behind.split(')').next().unwrap_or(""));
        for call in called(&arrow.text) {
            listed += 1;
            if refusals.get(&call) != Some(&numbers) {
                let right = refusals.get(&call);
                faults.push(format!(
                    "store.svg: {call} refused with {numbers:?}, not {right:?}"
                ));
            }
        }
    }
    for call in ["taken", "hand", "data", "result"] {
        let has = |arrow: &svg::Arrow| {
            called(&arrow.text).contains(&call.to_string())
                && svg::whole(&arrow.text).contains("(refused: ")
        };
        if listed == 0 || !picture.arrows.iter().any(has) {
            faults.push(format!("store.svg: no refusals of {call}"));
        }
    }

    // "Operate" is shown as "operation": without its last letter
    let leaving = |name: &str| -> String {
        let from = |arrow: &&svg::Arrow| picture.boxes[arrow.from].name() == name;
        let arrows = picture.arrows.iter().filter(from);
        arrows
            .map(|arrow| svg::whole(&arrow.text).to_lowercase())
            .collect()
    };
    let asked = leaving("course");
    for case in code::cases(tree, "crates/operations/src/decode.rt", "Decoded")? {
        let stem = case.to_lowercase();
        if !asked.contains(stem.trim_end_matches('e')) {
            faults.push(format!("store.svg: no arrow from course says {case}"));
        }
    }
    let test = tree.read("crates/operations/specs/Test.antt")?;
    let still = test.lines().find(|line| line.starts_with("may_move Still "));
    let looked_at = still
        .ok_or("Test.antt: no may_move")?
        .split(" = ")
        .next()
        .unwrap_or("");
    let shapes = picture
        .boxes
        .iter()
        .filter(|shape| shape.name() == "tape test");
    let said: String = shapes.map(|shape| svg::whole(&shape.text)).collect();
    let words: Vec<&str> = said
        .split(|c: char| !(c.is_ascii_alphanumeric() || c == '_'))
        .collect();
    for word in looked_at
        .split(' ')
        .skip(2)
        .filter(|word| !words.contains(word))
    {
        faults.push(format!(
            "store.svg: the tape test does not look at the {word}"
        ));
    }
    Ok(faults)
}

/// The group of each crate, by groups.svg.
pub fn groups_of(tree: &Tree) -> Result<BTreeMap<String, String>, String> {
    let picture = picture(tree, GROUPS)?;
    let mut found = BTreeMap::new();
    for shape in picture.boxes.iter().filter(|shape| shape.class == "group") {
        for name in shape.shown("crate").split_whitespace() {
            if found.insert(name.to_string(), shape.name()).is_some() {
                return Err(format!("groups.svg: {name} stands twice"));
            }
        }
    }
    Ok(found)
}

/// The crates and arrows of groups.svg, the headers, and what is not proved.
pub fn groups(tree: &Tree) -> Result<Faults, String> {
    let (picture, groups, crates) = (
        picture(tree, GROUPS)?,
        groups_of(tree)?,
        code::crates(tree)?,
    );
    let shown: Names = groups.keys().cloned().collect();
    let mut faults = compared(
        "groups.svg, crates",
        &shown,
        &crates.direct.keys().cloned().collect(),
    );

    let mut stands_on = BTreeSet::new();
    for (name, others) in &crates.direct {
        for other in others {
            if let (Some(from), Some(to)) = (groups.get(name), groups.get(other)) {
                stands_on.insert((from.clone(), to.clone()));
            }
        }
    }
    stands_on.retain(|(from, to)| from != to);
    let label = |at: usize| {
        let shape = &picture.boxes[at];
        match shape.class.as_str() {
            "header" => shape.shown("file"),
            _ => shape.name(),
        }
    };
    let mut drawn = BTreeSet::new();
    for arrow in &picture.arrows {
        let (from, to) = (label(arrow.from), label(arrow.to));
        let is_so = match picture.boxes[arrow.from].class.as_str() {
            "group" => {
                drawn.insert((from.clone(), to.clone()));
                stands_on.contains(&(from.clone(), to.clone()))
            }
            "header" => exports(tree, &groups, &to, &from)?,
            _ => uses(tree, &from, &to)?,
        };
        if !is_so {
            faults.push(format!("groups.svg: {from} does not stand on {to}"));
        }
    }
    // what stands on a group by way of another needs no arrow
    for (from, to) in &stands_on {
        let mut reached = BTreeSet::from([from]);
        for _ in 0..crates.direct.len() {
            let next = drawn.iter().filter(|(one, _)| reached.contains(one));
            let further: Vec<_> = next.map(|(_, other)| other).collect();
            reached.extend(further);
        }
        if !reached.contains(to) {
            faults.push(format!("groups.svg: no way from {from} to {to}"));
        }
    }
    for (name, others) in &crates.direct {
        // what only hands on to another crate stands on that alone
        let lowest = name == "common" || name.ends_with("_c");
        if others.contains("common") == lowest {
            faults.push(format!("groups.svg: {name} and common"));
        }
    }
    let kinds = |class: &'static str| {
        let shapes = picture
            .boxes
            .iter()
            .filter(move |shape| shape.class == class);
        shapes.map(move |shape| shape.shown(if class == "header" { "file" } else { "name" }))
    };
    let headers: Names = kinds("header").collect();
    let there = tree
        .names("include")
        .into_iter()
        .map(|name| format!("include/{name}"));
    faults.extend(compared("groups.svg, headers", &headers, &there.collect()));
    let unproved = kinds("unproved").filter(|name| !tree.exists(name));
    faults.extend(unproved.map(|name| format!("groups.svg: no folder {name}")));
    Ok(faults)
}

/// Whether a header's functions are those that a group's crates export.
fn exports(
    tree: &Tree,
    groups: &BTreeMap<String, String>,
    group: &str,
    header: &str,
) -> Result<bool, String> {
    let text = tree.read(header)?;
    let mut exported = 0;
    for (name, _) in groups.iter().filter(|(_, of)| *of == group) {
        let path = match name.ends_with("_c") {
            true => format!("crates/{name}/src/lib.rt"),
            false => format!("crates/{name}/src/interface.rt"),
        };
        if !tree.exists(&path) {
            continue;
        }
        for behind in tree.read(&path)?.split("extern \"C\" fn ").skip(1) {
            exported += 1;
            if !text.contains(&format!("{}(", code::word(behind))) {
                return Ok(false);
            }
        }
    }
    Ok(exported > 0)
}

/// Whether a package of Rust is made with another one, or with the library of a header.
fn uses(tree: &Tree, package: &str, what: &str) -> Result<bool, String> {
    let Some(header) = what.strip_prefix("include/ctc_") else {
        let manifest = tree.read(&format!("{package}/Cargo.toml"))?;
        return Ok(manifest.contains(&format!("{{ path = \"../{what}\" }}")));
    };
    let library = match header {
        "controller.h" => "firmware",
        _ => header.trim_end_matches(".h"),
    };
    let script = tree.read(&format!("{package}/build.rs"))?;
    Ok(script.contains(&format!("(\"{library}\", ")))
}

/// In every picture: what is shown as a definition is one, in the file or folder of specs that the words behind it say.
pub fn definitions(tree: &Tree) -> Result<Faults, String> {
    let (places, mut faults) = (code::definitions(tree)?, vec![]);
    let is_picture = |name: &String| name.ends_with(".svg");
    for name in tree.names("docs/pictures").into_iter().filter(is_picture) {
        let text = tree.read(&format!("docs/pictures/{name}"))?;
        let (mut classes, mut waiting, mut named) = (vec![], vec![], 0);
        for part in text.split('<').skip(1) {
            let (tag, behind) = part
                .split_once('>')
                .ok_or(format!("{name}: a tag does not end"))?;
            match tag.split(' ').next().unwrap_or("") {
                "text" | "tspan" => classes.push(tag.contains("class=\"by\"")),
                "/text" | "/tspan" => {
                    classes.pop();
                }
                _ => {}
            }
            if classes.last() == Some(&true) {
                let words = behind.split(|c: char| !(c.is_ascii_alphanumeric() || c == '_'));
                for word in words.filter(|word| word.starts_with(|c: char| c.is_ascii_alphabetic()))
                {
                    named += 1;
                    match places.get(word) {
                        Some(places) => waiting.push((word, places)),
                        None => faults.push(format!("{name}: {word} is no definition")),
                    }
                }
            } else if let Some((folder, _)) = behind.strip_prefix(" in ").and_then(|said| {
                let end = said.find([';', ',', ' ']).unwrap_or(said.len());
                Some((said[..end].trim_end_matches('.'), ()))
                    .filter(|(path, _)| path.contains("/specs"))
            }) {
                for (word, places) in waiting.drain(..) {
                    if !places
                        .iter()
                        .any(|place| place.starts_with(&format!("crates/{folder}")))
                    {
                        faults.push(format!("{name}: {word} is not in {folder}"));
                    }
                }
            } else if !matches!(behind.trim(), "" | "," | "and") {
                waiting.clear();
            }
        }
        // the crates' own picture, and a plot of a log
        if named == 0 && !["groups.svg", "wear.svg"].contains(&name.as_str()) {
            faults.push(format!("{name}: names no definition"));
        }
    }
    Ok(faults)
}
