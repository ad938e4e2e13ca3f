//! Transports, boards and hosts that are wrong in one way: the soak must find each of them.

use ctc_rack::run::{run, Wrongs};
use ctc_rack::soak::{judge, scenario, separate};
use ctc_rack::{board, host, transport};

const SCENARIOS: u64 = 400;

fn found(wrongs: Wrongs) -> Option<(u64, String)> {
    (0..SCENARIOS).find_map(|seed| {
        let mut setup = scenario(seed, None);
        setup.wrongs = wrongs;
        let mut said = judge(&run(setup, &mut |_, _| {}));
        if said.is_empty() && seed % 16 == 0 {
            said = separate(seed, wrongs);
        }
        said.pop().map(|what| (seed, what))
    })
}

fn all_found(cases: Vec<(String, Wrongs)>) {
    let mut missed = Vec::new();
    for (name, wrongs) in cases {
        match found(wrongs) {
            Some((seed, what)) => println!("{name}: seed {seed}: {what}"),
            None => missed.push(name),
        }
    }
    assert!(missed.is_empty(), "not found: {missed:?}");
}

#[test]
fn right_ones_are_not_found_wrong() {
    assert_eq!(found(Wrongs::default()), None);
}

#[test]
fn wrong_transports_are_found() {
    use transport::Wrong::*;
    let all = [
        MarkLost,
        MarksReversed,
        ReverseStays,
        SkipsTwo,
        WritesTooEarly,
        DropOutUntold,
        CountUnrotated,
        OtherDensity,
        GoneUnreported,
        SuppliedFromStart,
        OneTrack,
        RewindShort,
        EndPassed,
        LateLost,
        GapStays,
    ];
    let case = |&wrong| (format!("{wrong:?}"), Wrongs { transport: Some(wrong), ..Wrongs::default() });
    all_found(all.iter().map(case).collect());
}

#[test]
fn wrong_boards_are_found() {
    use board::Wrong::*;
    let all = [
        OtherDrive,
        OldImage,
        ReportsLost,
        ShortDelivery,
        DeliveredTwice,
        ParityUntold,
        SilentRestart,
        SpaceUntold,
    ];
    let case = |&wrong| (format!("{wrong:?}"), Wrongs { board: Some(wrong), ..Wrongs::default() });
    all_found(all.iter().map(case).collect());
}

#[test]
fn wrong_hosts_are_found() {
    use host::Wrong::*;
    let all = [
        StringUnchecked,
        InterruptForgotten,
        NoData,
        TroubleIgnored,
        FiledAsDelivered,
        Unverified,
        ChecksSwapped,
        NoSkipBack,
        SkipsBackTwice,
        SuppliedTooLong,
        PassesForgotten,
        EvenErrorIgnored,
        LossUntold,
        RestartIgnored,
        FailedWriteKept,
        NeverSupplied,
        CountedUpward,
        GapIsEnd,
        OverflowIgnored,
    ];
    let case = |&wrong| (format!("{wrong:?}"), Wrongs { host: Some(wrong), ..Wrongs::default() });
    all_found(all.iter().map(case).collect());
}
