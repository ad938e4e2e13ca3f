//! The comparison finds each wrong rule, a crash and a hang, and nothing where nothing is wrong.

use machine::mutants::{guards_turned_round, limits_lowered, retry_turned_round};
use machine::mutants::{Mutant, JOB_MUTANTS, MUTANTS};
use machine::{generator, lines};
use std::process::{Command, Output};

/// The first words have the program among them, or stand before it.
fn compare(first: &[&str], options: &[&str]) -> (Output, String) {
    let output = Command::new(env!("CARGO_BIN_EXE_compare"))
        .args(first)
        .args(options)
        .output()
        .unwrap();
    let text = String::from_utf8_lossy(&output.stdout).into_owned();
    (output, text)
}

const MACHINE: &str = env!("CARGO_BIN_EXE_machine");

#[test]
fn each_mutant_is_found() {
    each_is_found(&MUTANTS, false);
}

/// In as many sessions as tests/run compares.
#[test]
fn each_mutant_of_jobs_is_found() {
    each_is_found(&JOB_MUTANTS, true);
}

fn each_is_found(mutants: &[Mutant], jobs: bool) {
    let word: &[&str] = if jobs { &["--jobs"] } else { &[] };
    let run = if jobs { lines::run_of_jobs } else { lines::run };
    let sessions = if jobs { "250" } else { "600" };
    for (index, mutant) in mutants.iter().enumerate() {
        let number = (index + 1).to_string();
        let mut options = vec![MACHINE, "--sessions", sessions, "--"];
        options.extend(word);
        options.extend(["--mutant", &number]);
        let (output, text) = compare(word, &options);
        assert_eq!(output.status.code(), Some(1), "{mutant:?}: {text}");
        assert!(text.starts_with("seed "), "{mutant:?}: {text}");
        // The shrunk session replays: it still tells the two apart, at its last line.
        let heading = b"the shrunk session, to be replayed:\n";
        let at = output
            .stdout
            .windows(heading.len())
            .position(|window| window == heading)
            .unwrap();
        let session = &output.stdout[at + heading.len()..];
        let right = run(session, None);
        let wrong = run(session, Some(*mutant));
        let right: Vec<&[u8]> = lines::split(&right).collect();
        let wrong: Vec<&[u8]> = lines::split(&wrong).collect();
        let last = right.len() - 1;
        assert_eq!(right[..last], wrong[..last], "{mutant:?}");
        assert_ne!(right[last], wrong[last], "{mutant:?}");
        println!(
            "{mutant:?}: {}, shrunk to {} lines",
            text.lines().next().unwrap(),
            last + 1
        );
    }
}

/// Nothing that decides about a retry could be otherwise without a random session that shows it.
#[test]
fn each_retry_turned_round_is_found() {
    all_found(retry_turned_round());
}

#[test]
fn each_limit_lowered_is_found() {
    all_found(limits_lowered());
}

#[test]
fn each_guard_turned_round_is_found() {
    all_found(guards_turned_round());
}

fn all_found(mut left: Vec<Mutant>) {
    for seed in 1..=600 {
        let session = generator::session(seed, 500);
        let right = lines::run(&session, None);
        left.retain(|&mutant| lines::run(&session, Some(mutant)) == right);
        if left.is_empty() {
            println!("all found by seed {seed}");
            return;
        }
    }
    panic!("not found: {left:?}");
}

#[test]
fn the_machine_is_like_itself() {
    let numbers = ["--seed", "900", "--sessions", "20", "--lines", "300"];
    let options = [&[MACHINE], &numbers[..]].concat();
    let of_jobs = [&options[..], &["--", "--jobs"]].concat();
    for (word, options) in [(&[][..], options), (&["--jobs"], of_jobs)] {
        let (output, text) = compare(word, &options);
        assert_eq!(output.status.code(), Some(0), "{text}");
        assert_eq!(text, "compared 20 sessions, 6000 lines: no difference\n");
    }
}

#[test]
fn a_crash_and_a_hang_are_differences() {
    let (output, text) = compare(&["/bin/false"], &["--sessions", "1", "--lines", "20"]);
    assert_eq!(output.status.code(), Some(1), "{text}");
    assert!(
        text.contains("(nothing more)") && text.contains("exit status: 1"),
        "{text}"
    );
    // Right to the last answer, but it ends badly.
    let script = ["-c", "\"$0\"; exit 3", MACHINE];
    let mut options = vec!["--sessions", "1", "--lines", "20", "--"];
    options.extend(script);
    let (output, text) = compare(&["/bin/sh"], &options);
    assert_eq!(output.status.code(), Some(1), "{text}");
    assert!(text.contains("exit status: 3"), "{text}");
    let options = [
        "--sessions",
        "1",
        "--lines",
        "3",
        "--seconds",
        "1",
        "--",
        "30",
    ];
    let (output, text) = compare(&["/bin/sleep"], &options);
    assert_eq!(output.status.code(), Some(1), "{text}");
    assert!(text.contains("hangs"), "{text}");
    // A program that is not there is no difference but a failure of the comparison.
    let (output, _) = compare(&["/nowhere/at/all"], &["--sessions", "1"]);
    assert_eq!(output.status.code(), Some(2));
}
