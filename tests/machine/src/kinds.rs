//! What a program plays: sessions, sessions of jobs, or one of the tasks beside the controller.

use crate::mutants::{JOB_MUTANTS, MUTANTS};
use crate::{contest, generator, lines, table, wear};

#[derive(Clone, Copy, Debug, PartialEq, Eq)]
pub enum Kind {
    Sessions,
    Jobs,
    Table,
    Wear,
    Contest,
}

/// The first word of an invocation that asks for a kind; sessions have none.
const WORDS: [(&str, Kind); 4] = [
    ("--jobs", Kind::Jobs),
    ("--table", Kind::Table),
    ("--wear", Kind::Wear),
    ("--contest", Kind::Contest),
];

impl Kind {
    pub fn of_word(word: &str) -> Option<Kind> {
        WORDS
            .iter()
            .find(|(known, _)| *known == word)
            .map(|(_, kind)| *kind)
    }

    /// The words, as a usage line has them.
    pub fn words() -> String {
        WORDS.map(|(word, _)| word).join(" | ")
    }

    /// What the papers answer to this input.
    pub fn right(self, input: &[u8]) -> Vec<u8> {
        match self {
            Kind::Sessions => lines::run(input, None),
            Kind::Jobs => lines::run_of_jobs(input, None),
            Kind::Table => table::text(None),
            Kind::Wear => wear::answers(input, None),
            Kind::Contest => contest::answers(input, None),
        }
    }

    /// What is answered with one rule made wrong; numbers from 0.
    pub fn wrong(self, input: &[u8], mutant: usize) -> Option<Vec<u8>> {
        Some(match self {
            Kind::Sessions => lines::run(input, Some(*MUTANTS.get(mutant)?)),
            Kind::Jobs => lines::run_of_jobs(input, Some(*JOB_MUTANTS.get(mutant)?)),
            Kind::Table => table::text(Some(*table::mutants().get(mutant)?)),
            Kind::Wear => wear::answers(input, Some(*wear::MUTANTS.get(mutant)?)),
            Kind::Contest => contest::answers(input, Some(*contest::MUTANTS.get(mutant)?)),
        })
    }

    /// How many rules can be made wrong.
    pub fn mutants(self) -> usize {
        match self {
            Kind::Sessions => MUTANTS.len(),
            Kind::Jobs => JOB_MUTANTS.len(),
            Kind::Table => table::mutants().len(),
            Kind::Wear => wear::MUTANTS.len(),
            Kind::Contest => contest::MUTANTS.len(),
        }
    }

    /// A random input of about so many lines; the same seed gives the same one.
    pub fn generate(self, seed: u64, lines: usize) -> Vec<u8> {
        match self {
            Kind::Sessions => generator::session(seed, lines),
            Kind::Jobs => generator::session_of_jobs(seed, lines),
            // Nothing is asked.
            Kind::Table => Vec::new(),
            Kind::Wear => wear::run(seed, lines),
            Kind::Contest => contest::questions(seed, lines),
        }
    }

    /// Whether line n of the answers belongs to line n of the input, and no later line changes it.
    pub fn answers_lines(self) -> bool {
        match self {
            Kind::Sessions | Kind::Jobs | Kind::Contest => true,
            Kind::Table | Kind::Wear => false,
        }
    }
}
