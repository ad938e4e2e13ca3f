//! A marks file, made from words.

use crate::density::Density;
use crate::{say, Failure};
use ctc_words::records::{mark_count, COUNT_LIMIT};
use ctc_words::records::{MARK_ERROR_LEAST, MARK_ERROR_MOST, MARK_GOOD};
use std::ffi::OsString;
use std::io::{self, IsTerminal, Write};
use std::path::Path;

pub fn run(words: &[OsString]) -> Result<(), Failure> {
    let words: Vec<String> = words
        .iter()
        .map(|word| word.to_string_lossy().into_owned())
        .collect();
    let marks = read(&words).map_err(Failure::Usage)?;
    let mut output = io::stdout().lock();
    if output.is_terminal() {
        return Err(Failure::Failed(
            "marks are bytes and no text, and not for a terminal: add > FILE".to_string(),
        ));
    }
    if io::stderr().is_terminal() {
        for (place, mark) in marks
            .iter()
            .enumerate()
            .filter(|(_, mark)| **mark != MARK_GOOD)
        {
            say(&format!(
                "place {place}, {}: mark {mark}",
                blockette(place, marks.len())
            ));
        }
    }
    output
        .write_all(&marks)
        .and_then(|()| output.flush())
        .map_err(|cause| Failure::file("write", Path::new("standard output"), cause))
}

/// Which blockette stands at a place in tape order, among so many: the data blockettes are numbered down to 0, and then
/// come check blockettes 1 and 0.
pub fn blockette(place: usize, count: usize) -> String {
    match count - 1 - place {
        behind @ (0 | 1) => format!("check blockette {behind}"),
        behind => format!("data blockette {}", behind - 2),
    }
}

fn read(words: &[String]) -> Result<Vec<u8>, String> {
    let (least, most) = (
        mark_count(1, Density::Gcr as u8),
        mark_count(COUNT_LIMIT, Density::Gcr as u8),
    );
    let (count, rest) = match words {
        [] => return Err("the number of marks is missing".to_string()),
        [count, rest @ ..] => (count, rest),
    };
    let count = match number(count) {
        Some(number) if (least..=most).contains(&number) => number,
        _ => {
            return Err(format!(
                "a record has {least} to {most} marks, and not '{count}'"
            ))
        }
    };
    let mut marks = vec![MARK_GOOD; count];
    let named = match rest {
        [] => &[],
        [bad, named @ ..] if bad == "bad" && !named.is_empty() => named,
        [bad] if bad == "bad" => {
            return Err("no blockette is named behind bad: PLACE:MARK".to_string())
        }
        [other, ..] => {
            return Err(format!(
                "behind the number comes the word bad, and not '{other}'"
            ))
        }
    };
    for word in named {
        let Some((place, mark)) = word.split_once(':') else {
            return Err(format!(
                "'{word}' is no PLACE:MARK, such as 3:9 or check0:2"
            ));
        };
        let place = place_of(place, count)?;
        let mark = match number(mark) {
            Some(mark) if (MARK_ERROR_LEAST.into()..=MARK_ERROR_MOST.into()).contains(&mark) => mark as u8,
            _ => {
                return Err(format!(
                    "the mark of a bad blockette is {MARK_ERROR_LEAST} to {MARK_ERROR_MOST}, and not as in '{word}'"
                ))
            }
        };
        if marks[place] != MARK_GOOD {
            return Err(format!(
                "place {place}, {}, is named twice",
                blockette(place, count)
            ));
        }
        marks[place] = mark;
    }
    Ok(marks)
}

fn place_of(word: &str, count: usize) -> Result<usize, String> {
    let data = count - 2;
    if let Some(rest) = word.strip_prefix("data") {
        return match number(rest) {
            Some(wanted) if wanted < data => Ok(data - 1 - wanted),
            _ => Err(format!(
                "of {count} marks the data blockettes are data0 to data{}, and not '{word}'",
                data - 1
            )),
        };
    }
    match word {
        "check1" => Ok(count - 2),
        "check0" => Ok(count - 1),
        _ => match number(word) {
            Some(place) if place < count => Ok(place),
            _ => Err(format!(
                "of {count} marks the places are 0 to {}, and not '{word}'",
                count - 1
            )),
        },
    }
}

/// Digits alone: no sign, no blank.
pub fn number(word: &str) -> Option<usize> {
    let digits = !word.is_empty() && word.bytes().all(|byte| byte.is_ascii_digit());
    digits.then(|| word.parse().ok()).flatten()
}
