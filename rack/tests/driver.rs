//! What the driver leaves on tape where a write fails and the controller's memory is damaged as well, at every order;
//! and what it does where the controller loses its settings and nobody tells it.

use ctc_rack::board::{Damage, Wrong as WrongBoard};
use ctc_rack::cartridge::{Cartridge, What, FIRST, GAP, GCR, MARK_LENGTH, MFM};
use ctc_rack::driver::{Command, Outcome};
use ctc_rack::faults::{Fault, Place, INCH};
use ctc_rack::host::Wrong;
use ctc_rack::noise::LinkChances;
use ctc_rack::run::{run, Job, Ran, Setup, Wrongs};
use ctc_rack::soak::{judge, scenario};
use ctc_rack::transport::Transport;
use std::rc::Rc;

/// The phase of the controller's state, and a value that it never has.
const PHASE: (usize, u8) = (49, 7);
/// More orders than any of the runs below gives.
const ORDERS: usize = 40;

/// One job on a new cartridge in drive 0.
fn one_job(density: u8, commands: Vec<Command>, faults: &[Fault], damages: Vec<Damage>, wrongs: Wrongs) -> Ran {
    let mut transports = [0, 1, 2, 3].map(Transport::new);
    transports[0].insert(Cartridge { length: 400 * INCH, faults: faults.to_vec(), ..Cartridge::default() });
    let job = Job { number: 0, drive: 0, density, commands, faults: Vec::new(), chances: LinkChances::default() };
    let setup = Setup {
        transports,
        jobs: vec![job],
        damages,
        seed: 1,
        keeps: false,
        keeps_orders: false,
        judged: true,
        wrongs,
    };
    run(setup, &mut |_, _| {})
}

/// A record of so many bytes and a mark on a new cartridge, with these faults.
fn written(bytes: usize, faults: &[Fault], damage: Option<usize>, wrong: Option<Wrong>) -> Ran {
    let commands = vec![
        Command::Track(0),
        Command::Write { name: String::new(), bytes: Rc::new(vec![0x5A; bytes]), count: 65_535 },
        Command::WriteMarks(1),
    ];
    let damages = damage.map(|order| Damage { drive: 0, order, byte: PHASE.0, value: PHASE.1 });
    let wrongs = Wrongs { host: wrong, ..Wrongs::default() };
    one_job(GCR, commands, faults, damages.into_iter().collect(), wrongs)
}

/// Whether the tape holds the record and the mark and nothing else, scraps included.
fn holds_both(ran: &Ran, bytes: usize) -> Result<(), String> {
    let segments = &ran.board().transports[0].cartridge().expect("it is there").tracks[0].segments;
    let found: Vec<String> = segments
        .iter()
        .map(|segment| match &segment.what {
            What::Record { image, .. } => {
                format!("record of {}", u16::from_be_bytes([image[0], image[1]]).rotate_left(1))
            }
            What::Mark => "mark".to_string(),
            What::Scrap => "scrap".to_string(),
        })
        .collect();
    let ledger = ran.jobs[0].ledger.borrow();
    let all_done = ledger.outcomes.iter().all(|(_, outcome)| matches!(outcome, Outcome::Done(_)));
    let said = judge(ran);
    match all_done && said.is_empty() && found == [format!("record of {bytes}"), "mark".to_string()] {
        true => Ok(()),
        false => Err(format!("{found:?}, {:?}, {said:?}", ledger.outcomes.last().map(|(_, outcome)| outcome))),
    }
}

/// Drop-outs where a record or its mark is first tried, so often, and the memory damaged at every order of the drive.
fn all_places(wrong: Option<Wrong>) -> Vec<String> {
    let mut said = Vec::new();
    for bytes in [1, 300, 5000] {
        // the places of both on a tape without faults
        let clean = written(bytes, &[], None, None);
        holds_both(&clean, bytes).expect("nothing is in its way");
        let tape = clean.board().transports[0].cartridge().expect("it is there").clone();
        let starts: Vec<Place> = tape.tracks[0].segments.iter().map(|segment| segment.start).collect();
        assert!(starts[0] == FIRST && starts[1] > FIRST + GAP && MARK_LENGTH > 2);
        for at in starts {
            for times in 1..=4 {
                let drop_out = Fault::DropOut { track: 0, at: at + 2, times: Some(times) };
                let mut restarts = 0;
                for order in 1..ORDERS {
                    let ran = written(bytes, std::slice::from_ref(&drop_out), Some(order), wrong);
                    restarts += ran.board().restarts;
                    if let Err(why) = holds_both(&ran, bytes) {
                        said.push(format!("{bytes} bytes, {drop_out}, damage at order {order}: {why}"));
                    }
                }
                assert!(restarts >= 5, "the memory was damaged {restarts} times");
            }
        }
    }
    said
}

#[test]
fn nothing_but_what_was_asked_for_is_left() {
    let said = all_places(None);
    assert!(said.is_empty(), "{} cases, such as {}", said.len(), said[0]);
}

/// The try behind three inches of erased tape stays there where the next one begins before them.
#[test]
fn a_driver_that_forgets_what_it_erased_leaves_a_second_mark() {
    let said = all_places(Some(Wrong::ErasedForgotten));
    assert!(said.iter().any(|why| why.contains(r#""mark", "mark""#)), "{said:?}");
}

/// Scenarios of the soak that once were not as they should be: a second mark was left, and a density that the link had
/// changed was not set anew.
#[test]
fn what_was_wrong_once_is_right() {
    for seed in [45_047, 1_023_866] {
        assert_eq!(judge(&run(scenario(seed, None), &mut |_, _| {})), Vec::<String>::new(), "seed {seed}");
    }
}

/// Other bytes on track 0 than on track 2, which is read; the controller is reset before the Nth store, and nobody is
/// told. In MFM, so that nothing but the settings tells the tracks apart.
fn reset_before(nth: usize, wrong: Option<Wrong>) -> Ran {
    let write = |byte| Command::Write { name: String::new(), bytes: Rc::new(vec![byte; 40]), count: 10 };
    let mut commands = Vec::new();
    for (track, byte) in [(0, 0x11), (2, 0x22)] {
        commands.extend([Command::Track(track), write(byte), Command::WriteMarks(2)]);
    }
    commands.extend([Command::Rewind, Command::Read { folder: "read".to_string(), files: None }]);
    let wrongs = Wrongs { host: wrong, board: Some(WrongBoard::ResetBefore(nth)), ..Wrongs::default() };
    one_job(MFM, commands, &[], Vec::new(), wrongs)
}

/// Whether a copy was filed that is not what the job wrote on track 2, and whether the job said that a write or an
/// erase went elsewhere.
fn filed_and_told(ran: &Ran) -> (bool, bool) {
    let ledger = ran.jobs[0].ledger.borrow();
    let records = ledger.filed.iter().flat_map(|file| &file.records);
    let wrongly = records.flatten().any(|record| record.iter().any(|&byte| byte != 0x22));
    let told = ledger.outcomes.iter().any(
        |(_, outcome)| matches!(outcome, Outcome::Stopped(why) if why.contains("what lay there may be damaged")),
    );
    (wrongly, told)
}

/// How many of the resets lead to a wrong copy, to a track that holds what nobody meant for it without a word, and to
/// the job's saying so.
fn resets(wrong: Option<Wrong>) -> (usize, usize, usize) {
    let (mut copies, mut silent, mut said) = (0, 0, 0);
    for nth in 1..60 {
        let ran = reset_before(nth, wrong);
        let (wrongly, told) = filed_and_told(&ran);
        let tracks = &ran.board().transports[0].cartridge().expect("it is there").tracks;
        let meant = |track: usize, byte: u8| {
            tracks[track].segments.iter().all(|segment| match &segment.what {
                What::Record { image, .. } => image[2..].iter().all(|&found| found == byte),
                What::Mark | What::Scrap => true,
            })
        };
        copies += usize::from(wrongly);
        silent += usize::from(!told && !(meant(0, 0x11) && meant(2, 0x22)));
        said += usize::from(told);
    }
    (copies, silent, said)
}

#[test]
fn settings_that_are_lost_are_noticed() {
    let (copies, silent, said) = resets(None);
    assert_eq!((copies, silent), (0, 0), "wrong copies, and tracks that were written over without a word");
    assert!(said >= 3, "{said} resets came before a write");
}

#[test]
fn a_driver_that_does_not_look_at_the_settings_files_what_is_on_another_track() {
    let (copies, silent, said) = resets(Some(Wrong::SettingsUnchecked));
    assert!(copies > 0 && silent > 0 && said == 0, "{copies}, {silent}, {said}");
}
