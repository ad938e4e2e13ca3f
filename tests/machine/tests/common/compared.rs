//! What is asked of every kind of line: its stored texts are answered as stored, and the comparison finds each wrong
//! program.

use std::collections::BTreeSet;
use std::fmt::Debug;
use std::path::Path;
use std::process::Command;

use machine::kinds::Kind;

/// The names of what a folder holds.
fn entries(folder: &Path) -> Vec<String> {
    std::fs::read_dir(folder)
        .unwrap()
        .map(|file| file.unwrap().file_name().into_string().unwrap())
        .collect()
}

/// All that is stored for a program, with this ending and in a folder for each subject, is listed, with why, and is
/// answered as stored.
#[track_caller]
pub fn hold_to_stored(
    program: &str,
    ending: &str,
    listed: &[(&str, &str)],
    answers: impl Fn(&[u8]) -> Vec<u8>,
) {
    let folder = Path::new(env!("CARGO_MANIFEST_DIR"))
        .join("../../sessions")
        .join(program);
    let there: BTreeSet<String> = entries(&folder)
        .iter()
        .flat_map(|subject| {
            entries(&folder.join(subject))
                .into_iter()
                .map(move |file| format!("{subject}/{file}"))
        })
        .collect();
    let names: BTreeSet<String> = listed
        .iter()
        .flat_map(|(name, _)| [format!("{name}.{ending}"), format!("{name}.answers")])
        .collect();
    assert_eq!(there, names);
    for (name, why) in listed {
        let lines = std::fs::read(folder.join(format!("{name}.{ending}"))).unwrap();
        let stored = std::fs::read(folder.join(format!("{name}.answers"))).unwrap();
        assert_eq!(
            String::from_utf8_lossy(&answers(&lines)),
            String::from_utf8_lossy(&stored),
            "{name}: {why}"
        );
    }
}

/// The comparison, with the machine in the program's place.
pub struct Comparison {
    pub kind: Kind,
    /// The word for the kind, as both programs take it.
    pub word: &'static str,
    pub lines: usize,
}

/// What it says, and the lines that it prints to be replayed.
pub struct Said {
    pub status: Option<i32>,
    pub text: String,
    pub replayed: Vec<u8>,
}

impl Comparison {
    pub fn run(&self, options: &[&str], arguments: &[&str]) -> Said {
        let output = Command::new(env!("CARGO_BIN_EXE_compare"))
            .args([self.word, env!("CARGO_BIN_EXE_machine")])
            .args(["--lines", &self.lines.to_string()])
            .args(options)
            .args(["--", self.word])
            .args(arguments)
            .output()
            .unwrap();
        let heading = b"to be replayed:\n";
        let at = output
            .stdout
            .windows(heading.len())
            .position(|window| window == heading);
        let (text, replayed) = match at {
            Some(at) => (&output.stdout[..at], &output.stdout[at + heading.len()..]),
            None => (&output.stdout[..], &[][..]),
        };
        Said {
            status: output.status.code(),
            text: String::from_utf8_lossy(text).into_owned(),
            replayed: replayed.to_vec(),
        }
    }

    /// By the program that tests/run runs, in as many sessions.
    #[track_caller]
    pub fn finds_each<M: Debug>(&self, mutants: &[M], sessions: u64) {
        let options = ["--sessions", &sessions.to_string(), "--shrink", "0"];
        for (index, mutant) in mutants.iter().enumerate() {
            let said = self.run(&options, &["--mutant", &(index + 1).to_string()]);
            assert_eq!(said.status, Some(1), "{mutant:?}: {}", said.text);
            assert!(said.text.starts_with("seed "), "{mutant:?}: {}", said.text);
        }
    }

    /// How many lines are left of a difference, which still are one.
    #[track_caller]
    pub fn lines_left<M: Debug + PartialEq>(
        &self,
        mutants: &[M],
        mutant: M,
        shrink: &str,
    ) -> usize {
        let index = mutants.iter().position(|one| *one == mutant).unwrap();
        let options = ["--shrink", shrink];
        let said = self.run(&options, &["--mutant", &(index + 1).to_string()]);
        assert_eq!(said.status, Some(1), "{mutant:?}: {}", said.text);
        assert_ne!(
            self.kind.right(&said.replayed),
            self.kind.wrong(&said.replayed, index).unwrap(),
            "{mutant:?}"
        );
        said.replayed.iter().filter(|&&byte| byte == b'\n').count()
    }
}
