//! A run as a page: one HTML file that needs nothing else. A lane for the host and one for each drive; time goes down,
//! and a row is a turn: what one store did, or what a job queued.

use crate::alone::Alone;
use crate::board::DRIVES;
use crate::story::{Entry, Lane, Sort};

/// The page may load nothing, from nowhere.
const POLICY: &str = "default-src 'none'; style-src 'unsafe-inline'; script-src 'unsafe-inline'";

const STYLE: &str = "
:root { color-scheme: light dark; --line: #8885; --bad: #fbe0dc; --recovery: #e3ecfa; --restart: #fff1b8; }
@media (prefers-color-scheme: dark) { :root { --bad: #5c2a24; --recovery: #263a5c; --restart: #5a4a10; } }
body { font: 13px/1.35 system-ui, sans-serif; margin: 1rem; }
h1 { font-size: 1.4rem; margin: 0 0 .3rem; }
p { max-width: 70rem; margin: .3rem 0; }
form { border: 1px solid; border-radius: 4px; margin: .6rem 0; padding: .3rem .7rem; max-width: 70rem; }
label { margin-right: 1rem; white-space: nowrap; }
summary { cursor: pointer; }
pre { white-space: pre-wrap; margin: .3rem 0 .6rem 1rem; }
.troubles { columns: 22rem; margin: .3rem 0 .6rem; padding-left: 1.2rem; }
table { border-collapse: collapse; table-layout: fixed; width: 100%; margin-top: .6rem; }
caption { position: absolute; clip-path: inset(50%); }
th, td { border: 1px solid var(--line); padding: 0; text-align: left; vertical-align: top; }
td { border-top-style: dotted; border-bottom-style: dotted; }
thead th { position: sticky; top: 0; z-index: 3; background: Canvas; border-bottom: 2px solid; padding: .2rem .4rem; }
thead small { font-weight: 400; }
.entry { position: relative; padding: .08rem .3rem .08rem .35rem; border-left: 5px solid transparent;
  overflow-wrap: break-word; scroll-margin-top: 3rem; }
.entry i { font: 11px/1 ui-monospace, monospace; margin-right: .35em; opacity: .75; }
.order { border-left: 5px solid; }
.result, .ended { border-left: 5px double; }
.bad { border-left: 5px solid; background: var(--bad); font-weight: 600; }
.recovery { border-left: 5px dotted; background: var(--recovery); }
.restart { border: 3px double; background: var(--restart); font-weight: 600; }
.bad > b::before { content: '\\2716\\00a0'; }
.recovery > b::before { content: '\\21bb\\00a0'; }
.restart > b::before { content: '\\26a0\\00a0'; }
.entry[tabindex] > b { text-decoration: underline dotted; text-underline-offset: 2px; }
.entry:focus { outline: 2px solid Highlight; outline-offset: -2px; }
.differs { border: 3px solid; padding: .1rem; }
.differs::before { content: 'DIFFERS'; font-weight: 700; padding-left: .4rem; }
.more { font-weight: 400; }
.shown { display: none; font-weight: 600; }
.legend span { display: inline-block; margin: 0 1.2rem .2rem 0; padding: 0 .3rem; }
body.without-link .of-link, body.without-report .of-report, body.without-link tr.only-link,
body.without-report tr.only-report, body.without-link.without-report tr.only-quiet,
body.without-good tr.good { display: none; }
body.without-link col.host { width: 8rem; }
@media screen {
  .more { display: none; position: absolute; z-index: 2; top: 100%; left: 1rem; width: max-content;
    max-width: 24rem; padding: .3rem .5rem; background: Canvas; color: CanvasText; border: 1px solid;
    border-radius: 3px; box-shadow: 0 2px 8px #0006; }
  .late .more { left: auto; right: 0; }
  .entry:hover .more, .entry:focus .more { display: block; }
}
@media screen and (max-width: 50rem) {
  table, tbody, tr, td { display: block; }
  colgroup, thead, td:empty { display: none; }
  td { border: 0; }
  tr { border-top: 1px solid var(--line); }
  td::before { content: attr(data-lane); font-size: 11px; font-weight: 700; }
  .more, .late .more { left: 1rem; right: auto; max-width: 80vw; }
}
@media print {
  @page { size: A4 landscape; margin: 10mm; }
  :root { color-scheme: light; }
  body { margin: 0; font-size: 8pt; color: #000; background: #fff; }
  form { display: none; }
  .filtered .shown { display: block; }
  thead { display: table-header-group; }
  thead th { position: static; }
  tr { break-inside: avoid; }
  .entry i { font-size: 7pt; opacity: 1; }
  table { break-before: page; }
  .entry[tabindex] > b { text-decoration: none; }
  .more { display: block; font-size: 7pt; padding-left: 1em; }
  col.host { width: 28%; }
  pre { columns: 2; font-size: 7pt; }
}
";

const SCRIPT: &str = "
const form = document.forms.show, body = document.body;
const boxes = [...form.querySelectorAll('input[type=checkbox]')];
// what is shown follows the form, and the address says it, so that a view can be handed on
function show(said) {
  const drive = form.elements.drive.value, hidden = boxes.filter(box => !box.checked).map(box => box.value);
  body.dataset.drive = drive;
  for (const box of boxes) body.classList.toggle('without-' + box.value, !box.checked);
  const parts = [drive === '' ? '' : 'drive=' + drive, hidden.length ? 'hide=' + hidden.join(',') : ''];
  body.classList.toggle('filtered', parts.some(part => part));
  document.querySelector('.shown').textContent = 'Shown: ' + (drive === '' ? 'all drives' : 'drive ' + drive) +
    (hidden.length ? ', without: ' + hidden.join(', ') : '');
  if (said) history.replaceState(null, '', '#' + parts.filter(part => part).join('&'));
}
function read() {
  const asked = new URLSearchParams(location.hash.slice(1));
  if (!['drive', 'hide', 'call'].some(word => asked.has(word))) return;
  const drive = asked.get('drive') ?? '';
  form.elements.drive.value = [...form.elements.drive].some(one => one.value === drive) ? drive : '';
  const hidden = (asked.get('hide') ?? '').split(',');
  for (const box of boxes) box.checked = !hidden.includes(box.value);
  show(false);
  if (asked.has('call')) document.getElementById('call-' + asked.get('call'))?.scrollIntoView();
}
form.addEventListener('change', () => show(true));
addEventListener('hashchange', read);
addEventListener('beforeprint', () => document.querySelectorAll('details').forEach(one => one.open = true));
read();
";

fn escaped(text: &str) -> String {
    text.replace('&', "&amp;").replace('<', "&lt;").replace('>', "&gt;").replace('"', "&quot;")
}

/// With one drive chosen, the other lanes, the rows without that drive and what the host says of others are hidden.
fn filter_style() -> String {
    let mut style = String::new();
    for drive in 0..DRIVES {
        let chosen = format!("body[data-drive='{drive}']");
        style += &format!("{chosen} [class*='lane-']:not(.lane-{drive}), {chosen} tbody tr:not(.has-{drive}), ");
        style += &format!("{chosen} .about:not(.about-{drive}) {{ display: none; }}\n");
    }
    style
}

/// The class of what a host's entry is about; one that is about all drives is always shown.
fn about_class(about: Option<u8>) -> String {
    about.map_or(String::new(), |drive| format!(" about about-{drive}"))
}

fn entry_html(entry: &Entry, id: Option<&str>) -> String {
    let sort = entry.sort.word();
    let bad = if entry.is_bad() { " bad" } else { "" };
    let about = if entry.lane == Lane::Host { about_class(entry.about) } else { String::new() };
    let id = id.map_or(String::new(), |id| format!(" id={id}"));
    let (focus, more) = match entry.more.is_empty() {
        true => ("", String::new()),
        false => (" tabindex=0", format!("<span class=more>{}</span>", escaped(&entry.more))),
    };
    format!(
        "<div class=\"entry of-{sort} {sort}{bad}{about}\"{focus}{id}><i>{}</i><b>{sort}</b> {}{more}</div>",
        entry.time,
        escaped(&entry.words)
    )
}

/// The turns of a run, each with its entries.
fn turns(entries: &[Entry]) -> Vec<&[Entry]> {
    entries.chunk_by(|one, other| one.turn == other.turn).collect()
}

/// What a drive did in those turns in which it did anything.
fn turns_of(entries: &[Entry], drive: u8) -> Vec<Vec<&Entry>> {
    turns(entries)
        .into_iter()
        .map(|turn| turn.iter().filter(|entry| entry.lane == Lane::Drive(drive)).collect::<Vec<_>>())
        .filter(|turn| !turn.is_empty())
        .collect()
}

/// Whether a drive did the same in two turns; the numbers of the calls are others.
fn is_alike(one: &[&Entry], other: &[&Entry]) -> bool {
    let told = |entry: &&Entry| (entry.sort, entry.words.clone(), entry.more.clone());
    one.iter().map(told).eq(other.iter().map(told))
}

/// The classes of a row: the drives that it is about, and what may be left out with all of it.
fn row_classes(turn: &[Entry], differs: bool) -> String {
    let mut classes: Vec<String> = Vec::new();
    for drive in 0..DRIVES as u8 {
        if turn.iter().any(|entry| entry.is_of(drive)) {
            classes.push(format!("has-{drive}"));
        }
    }
    let all = |test: fn(Sort) -> bool| turn.iter().all(|entry| test(entry.sort));
    for (word, yes) in [
        ("only-link", all(|sort| sort == Sort::Link)),
        ("only-report", all(|sort| sort == Sort::Report)),
        ("only-quiet", all(|sort| matches!(sort, Sort::Link | Sort::Report))),
        ("good", !differs && !turn.iter().any(Entry::is_told)),
    ] {
        if yes {
            classes.push(word.to_string());
        }
    }
    classes.join(" ")
}

/// The lanes of a run, and beside the lane of a drive the same drive's alone.
fn lanes(entries: &[Entry], heads: &[String; DRIVES], alone: Option<&Alone>) -> String {
    let mut columns: Vec<(u8, bool)> = Vec::new();
    for drive in 0..DRIVES as u8 {
        columns.push((drive, false));
        columns.extend(alone.filter(|alone| alone.drive == drive).map(|_| (drive, true)));
    }
    let name = |(drive, is_alone): (u8, bool)| match is_alone {
        true => format!("drive {drive} alone"),
        false => format!("drive {drive}"),
    };
    let mut html = "<table><caption>The run, turn by turn</caption><colgroup><col class=host>".to_string();
    for (drive, _) in &columns {
        html += &format!("<col class=lane-{drive}>");
    }
    html += "</colgroup>\n<thead><tr><th scope=col>host</th>";
    for column @ (drive, is_alone) in &columns {
        let head = if *is_alone { "the same job, run by itself" } else { &heads[usize::from(*drive)] };
        html += &format!("<th scope=col class=lane-{drive}>{} <small>{}</small></th>", name(*column), escaped(head));
    }
    html += "</tr></thead>\n<tbody>\n";
    let mut others = alone.map_or(Vec::new(), |alone| turns_of(&alone.entries, alone.drive)).into_iter();
    let mut last = 0;
    for turn in turns(entries) {
        // the first entry of a call can be pointed to
        let put = |of: &dyn Fn(&Entry) -> bool| -> String {
            let mut cell = String::new();
            for entry in turn.iter().filter(|entry| of(entry)) {
                let id = format!("call-{}", entry.time);
                let first = turn.iter().find(|other| other.time == entry.time);
                let named = entry.time > last && first.is_some_and(|first| std::ptr::eq(first, entry));
                cell += &entry_html(entry, named.then_some(&id));
            }
            cell
        };
        let here: Vec<&Entry> = turn.iter().filter(|entry| alone.is_some_and(|alone| alone.is_lane(entry))).collect();
        let beside = if here.is_empty() { Vec::new() } else { others.next().unwrap_or_default() };
        let differs = !is_alike(&here, &beside);
        html += &format!("<tr class=\"{}\">", row_classes(turn, differs));
        html += &format!("<td data-lane=host>{}</td>", put(&|entry| entry.lane == Lane::Host));
        for column @ (drive, is_alone) in &columns {
            let side = if *drive >= 2 { " late" } else { "" };
            let head = format!("class=\"lane-{drive}{side}\" data-lane=\"{}\"", name(*column));
            html += &match is_alone {
                true => beside_html(&head, &beside, differs),
                false => format!("<td {head}>{}</td>", put(&|entry| entry.lane == Lane::Drive(*drive))),
            };
        }
        html += "</tr>\n";
        last = turn.last().map_or(last, |entry| entry.time);
    }
    for turn in others {
        html += &format!("<tr class=has-{}><td></td>", turn[0].about.unwrap_or(0));
        for (drive, is_alone) in &columns {
            html += &match is_alone {
                true => beside_html(&format!("class=lane-{drive}"), &turn, true),
                false => format!("<td class=lane-{drive}></td>"),
            };
        }
        html += "</tr>\n";
    }
    html + "</tbody></table>\n"
}

/// A cell of the lane of a drive that was run alone.
fn beside_html(head: &str, turn: &[&Entry], differs: bool) -> String {
    let cell: String = turn.iter().map(|entry| entry_html(entry, None)).collect();
    match differs {
        true => format!("<td {head}><div class=differs>{cell}</div></td>"),
        false => format!("<td {head}>{cell}</td>"),
    }
}

/// Links to what was not as it should be.
fn troubles(entries: &[Entry]) -> String {
    let told: Vec<&Entry> = entries.iter().filter(|entry| entry.is_bad() || entry.sort == Sort::Restart).collect();
    let mut html =
        format!("<details><summary>Results that are not code 00, refusals and restarts: {}</summary>\n", told.len());
    html += "<ul class=troubles>\n";
    for entry in told {
        let lane = match entry.lane {
            Lane::Host => "host".to_string(),
            Lane::Drive(drive) => format!("drive {drive}"),
        };
        html += &format!(
            "<li class=\"{}\"><a href=#call-{}>{}</a> {lane}: {}</li>\n",
            about_class(entry.about).trim(),
            entry.time,
            entry.time,
            escaped(&entry.words)
        );
    }
    html + "</ul></details>\n"
}

/// A run, as the page tells it.
pub struct Page<'a> {
    pub title: &'a str,
    /// What became of it, in words, and its last line.
    pub summary: &'a str,
    pub verdict: &'a str,
    pub entries: &'a [Entry],
    /// What stands in the head of each drive's lane.
    pub heads: [String; DRIVES],
    /// A drive that was run alone as well.
    pub alone: Option<&'a Alone>,
}

impl Page<'_> {
    pub fn html(&self) -> String {
        let title = escaped(self.title);
        let mut html = format!(
            "<!DOCTYPE html>\n<html lang=en>\n<head>\n<meta charset=utf-8>\n\
             <meta http-equiv=Content-Security-Policy content=\"{POLICY}\">\n\
             <meta name=viewport content=\"width=device-width, initial-scale=1\">\n<title>{title}</title>\n\
             <style>{STYLE}{}</style>\n</head>\n<body data-drive=\"\">\n<h1>{title}</h1>\n",
            filter_style()
        );
        html += "<p>Time goes down. A row is a turn: what one store did, or what a job queued; the number before an \
                 entry is that of the call to the controller. Point at an entry whose first word is underlined, or go \
                 to it with the Tab key, for its status words in words.</p>\n";
        html += "<p class=legend><span class=order><b>order</b></span><span class=result><b>result</b></span>\
                 <span class=bad><b>result</b> that is not code 00</span>\
                 <span class=recovery><b>recovery</b> by the host</span>\
                 <span class=restart><b>restart</b></span></p>\n";
        html += "<form name=show><label><input type=radio name=drive value=\"\" checked> all drives</label>";
        for drive in 0..DRIVES {
            html += &format!("<label><input type=radio name=drive value={drive}> drive {drive}</label>");
        }
        html += "<label><input type=checkbox value=link checked> the host's link</label>\
                 <label><input type=checkbox value=report checked> reports</label>\
                 <label><input type=checkbox value=good checked> turns in which all was well</label></form>\n\
                 <p class=shown></p>\n";
        html += &format!(
            "<details><summary>What became of it: {}</summary><pre>{}</pre></details>\n",
            escaped(self.verdict),
            escaped(self.summary)
        );
        html += &troubles(self.entries);
        if let Some(alone) = self.alone {
            html += &format!(
                "<p><b>Drive {} alone:</b> {}. Its lane stands beside that of the whole run, turn by turn.</p>\n",
                alone.drive,
                escaped(&alone.words)
            );
        }
        html += &lanes(self.entries, &self.heads, self.alone);
        html + &format!("<script>{SCRIPT}</script>\n</body>\n</html>\n")
    }
}
