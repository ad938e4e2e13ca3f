//! Driver against tape: document 02's twelfth wish, by its sentences and point 12.1 of READING-02.md.

mod common;

use common::compared::{hold_to_stored, Comparison};
use machine::contest::{self, about_the_limits, answers, whole_range};
use machine::contest::{
    Answer, Gap, Mutant, Position, Refused, Search, Store, MUTANTS, UNREADABLE,
};
use machine::kinds::Kind;
use std::collections::BTreeSet;

/// As tests/run compares them.
const SESSIONS: u64 = 50;
const LINES: usize = 500;

/// "The yes must hold exactly when w is 0 or n is at least w plus twice f, and one more from an improper gap".
#[test]
fn the_wish_is_what_the_search_finds() {
    let mut search = Search::new(None);
    let questions = whole_range();
    assert_eq!(questions.len(), 2 * 9 * 33 * 9);
    for asked in questions {
        let more = u8::from(asked.gap == Gap::Improper);
        let yes = asked.writes == 0 || asked.stores >= asked.writes + 2 * asked.spoilings + more;
        let first = match asked.gap {
            _ if asked.writes == 0 || !yes => None,
            Gap::Proper => Some(Store::Write),
            Gap::Improper => Some(Store::Skip),
        };
        let answer = Answer { forced: yes, first };
        assert_eq!(search.answer(asked), Ok(answer), "{asked:?}");
    }
}

/// What the tape may make of a store.
fn outcomes(position: Position, store: Store) -> Vec<Position> {
    let stores = position.stores - 1;
    match store {
        Store::Skip => vec![Position {
            gap: Gap::Proper,
            stores,
            ..position
        }],
        Store::Write => {
            assert_eq!(position.gap, Gap::Proper);
            let mut outcomes = vec![Position {
                writes: position.writes - 1,
                stores,
                ..position
            }];
            if let Some(spoilings) = position.spoilings.checked_sub(1) {
                outcomes.push(Position {
                    gap: Gap::Improper,
                    stores,
                    spoilings,
                    ..position
                });
            }
            outcomes
        }
    }
}

/// A yes with its first store leads to a yes, whatever the tape does, until all is written; after a no the tape can
/// hold against any store of the driver's. So the answers are right, however they were found.
#[test]
fn the_answers_played_out() {
    let mut search = Search::new(None);
    let mut answer = |position| search.answer(position).unwrap();
    for position in whole_range() {
        match answer(position) {
            Answer {
                forced: true,
                first: Some(store),
            } => {
                assert!(position.stores > 0 && position.writes > 0);
                for next in outcomes(position, store) {
                    assert!(answer(next).forced, "{position:?} {next:?}");
                }
            }
            Answer {
                forced: true,
                first: None,
            } => assert_eq!(position.writes, 0),
            Answer {
                forced: false,
                first,
            } => {
                assert_eq!(first, None);
                assert!(position.writes > 0);
                if position.stores == 0 {
                    continue;
                }
                let mut stores = vec![Store::Skip];
                if position.gap == Gap::Proper {
                    stores.push(Store::Write);
                }
                for store in stores {
                    let nexts = outcomes(position, store);
                    assert!(
                        nexts.iter().any(|&next| !answer(next).forced),
                        "{position:?}"
                    );
                }
            }
        }
    }
}

/// "a write where both stores win"
#[test]
fn both_stores_win_in_a_proper_gap_with_one_to_spare() {
    let mut search = Search::new(None);
    let mut both = 0;
    for position in whole_range() {
        let wins = [Store::Write, Store::Skip].map(|store| {
            position.writes > 0 && position.stores > 0 && search.wins(position, store)
        });
        let spare = position.stores > position.writes + 2 * position.spoilings;
        let expected = position.gap == Gap::Proper && position.writes > 0 && spare;
        assert_eq!(wins == [true, true], expected, "{position:?}");
        if wins == [true, true] {
            both += 1;
            let first = search.answer(position).unwrap().first;
            assert_eq!(first, Some(Store::Write));
        }
    }
    assert!(both > 1000, "{both}");
}

/// "w and f go to 8, n to 32. Refused: 20 a number above its limit." Before all else.
#[test]
fn limits() {
    let mut search = Search::new(None);
    let (mut refused, mut taken) = (0, 0);
    for asked in about_the_limits() {
        let above = asked.writes > 8 || asked.stores > 32 || asked.spoilings > 8;
        assert_eq!(search.answer(asked) == Err(Refused), above, "{asked:?}");
        if above {
            refused += 1;
        } else {
            taken += 1;
        }
    }
    assert_eq!(
        (refused, taken),
        (2 * 11 * 11 * 11 - 2 * 4 * 5 * 4, 2 * 4 * 5 * 4)
    );
}

fn says(questions: &str, answer: &str) {
    let said = String::from_utf8(answers(questions.as_bytes(), None)).unwrap();
    assert_eq!(said, answer, "to {questions:?}");
}

#[test]
fn lines_of_questions() {
    says("", "");
    says("\n", "?,-,-\n");
    says("P,1,1,0", "0,Y,W\n");
    says("P,1,1,0\n", "0,Y,W\n");
    says("P,1,1,0\nI,1,1,0\nI,1,2,0\n", "0,Y,W\n0,N,-\n0,Y,S\n");
    says("P,0,0,8\n", "0,Y,-\n");
    says("P,0,33,0\n", "20,-,-\n");
    says("P,255,255,255\n", "20,-,-\n");
    says("P,255,255,256\n", "?,-,-\n");
    says("I,0008,00000000000000000000032,08\n", "0,Y,S\n");
    for line in UNREADABLE {
        says(line, if line.is_empty() { "" } else { "?,-,-\n" });
        says(&format!("{line}\nP,1,1,0\n"), "?,-,-\n0,Y,W\n");
    }
}

/// What each stored session shows. All are answered as they are stored.
const STORED: [(&str, &str); 14] = [
    (
        "forced/each-spoiling-takes-two",
        "a spoiled write takes its store and a skip",
    ),
    ("lines/empty", "no question has no answer"),
    (
        "forced/first-store",
        "a write where both stores win, a skip where it must be, none with no",
    ),
    ("forced/greatest-numbers", "the limits, and what they need"),
    (
        "lines/last-line-without-end",
        "the last line counts without its end",
    ),
    (
        "forced/no-spoiling",
        "one store for each write, and one for the gap",
    ),
    ("forced/nothing-to-write", "yes, and no first store"),
    ("refusals/each-number", "each number above its limit"),
    ("refusals/before-all", "with nothing to write too"),
    ("stories/pulled-cartridge", "one contest, store by store"),
    ("lines/unreadable-fields", "fields, blanks and ends"),
    ("lines/unreadable-letters", "the gap is P or I"),
    ("lines/unreadable-numbers", "decimal, 0 to 255"),
    (
        "lines/zeros-before-numbers",
        "readable, and the value counts",
    ),
];

#[test]
fn the_stored_questions() {
    hold_to_stored("contest", "questions", &STORED, |questions| {
        answers(questions, None)
    });
}

#[test]
fn what_the_compared_questions_hold() {
    let count = |seed| {
        let text = contest::questions(seed, LINES);
        assert_eq!(text, contest::questions(seed, LINES));
        let said = String::from_utf8(answers(&text, None)).unwrap();
        let kinds: BTreeSet<String> = said.lines().map(str::to_string).collect();
        (said.lines().count(), kinds.into_iter().collect::<Vec<_>>())
    };
    let answered = ["0,N,-", "0,Y,-", "0,Y,S", "0,Y,W"];
    assert_eq!(count(1), (5346, answered.map(String::from).to_vec()));
    let (lines, kinds) = count(2);
    assert_eq!(lines, 2 * 11 * 11 * 11);
    assert_eq!(kinds, [&answered[..], &["20,-,-"]].concat());
    assert_eq!(count(3).0, 2 * UNREADABLE.len() + 1);
    let (lines, kinds) = count(4);
    assert_eq!(lines, LINES);
    assert_eq!(kinds, [&answered[..], &["20,-,-", "?,-,-"]].concat());
}

#[test]
fn each_wrong_rule_is_found() {
    let mut left: Vec<Mutant> = MUTANTS.to_vec();
    for seed in 1..=SESSIONS {
        let questions = contest::questions(seed, LINES);
        let right = answers(&questions, None);
        left.retain(|&mutant| answers(&questions, Some(mutant)) == right);
    }
    assert_eq!(left, []);
}

/// A rule of the contest, of its answer or of its limits needs no random question: the whole range, and the limits,
/// tell it.
#[test]
fn each_wrong_rule_of_the_contest_is_found_in_the_whole_range() {
    let text = [contest::questions(1, 0), contest::questions(2, 0)].concat();
    let right = answers(&text, None);
    let lines = MUTANTS
        .iter()
        .position(|&mutant| mutant == Mutant::NumbersCut8)
        .unwrap();
    for &mutant in &MUTANTS[..lines] {
        assert!(answers(&text, Some(mutant)) != right, "{mutant:?}");
    }
}

const COMPARISON: Comparison = Comparison {
    kind: Kind::Contest,
    word: "--contest",
    lines: LINES,
};

#[test]
fn a_right_program_is_no_difference() {
    let sessions = SESSIONS.to_string();
    let said = COMPARISON.run(&["--sessions", &sessions], &[]);
    assert_eq!(said.status, Some(0), "{}", said.text);
    let lines = 5346 + 2 * 11 * 11 * 11 + 2 * UNREADABLE.len() + 1 + 47 * LINES;
    let told = format!("compared {sessions} sessions, {lines} lines: no difference\n");
    assert_eq!(said.text, told);
}

#[test]
fn each_wrong_program_is_found() {
    COMPARISON.finds_each(&MUTANTS, SESSIONS);
}

/// A question stands for itself, so one is left of a difference.
#[test]
fn a_difference_is_shrunk_to_one_question() {
    for mutant in [
        Mutant::SpoiledLeavesProper,
        Mutant::FirstExchanged,
        Mutant::Signs,
    ] {
        assert_eq!(
            COMPARISON.lines_left(&MUTANTS, mutant, "30"),
            1,
            "{mutant:?}"
        );
    }
}
