//! The soak's random scenarios hold every fault that there is: each is met, by its place and by chance.

use ctc_rack::faults::Fault;
use ctc_rack::noise::LinkFault;
use ctc_rack::run::run;
use ctc_rack::soak::scenario;
use std::collections::BTreeMap;

const SCENARIOS: u64 = 400;

fn tape_fault(fault: &Fault) -> &'static str {
    match fault {
        Fault::Stretched { .. } => "stretched tape",
        Fault::Bad { .. } => "a blockette that is bad for good",
        Fault::Torn { .. } => "a torn first blockette",
        Fault::Gap { .. } => "a gap in a record",
        Fault::Trailing { .. } => "what stands behind a record",
        Fault::Silent { .. } => "damage that the marks do not show",
        Fault::DropOut { .. } => "a drop-out in a write",
        Fault::EarlyEnd { .. } => "EOT early",
        Fault::Gone { .. } => "tape gone in the middle of a move",
        Fault::Late { .. } => "late flags",
        Fault::LoadPointLate { .. } => "the load point late",
        Fault::EndLate { .. } => "an end late",
    }
}

fn link_fault(fault: &LinkFault) -> &'static str {
    match fault {
        LinkFault::Parity { .. } => "parity at a host byte",
        LinkFault::RunsOut { .. } => "a host that runs out",
        LinkFault::ShortSpace { .. } => "a host without space",
        LinkFault::Breaks { .. } => "a link that breaks",
        LinkFault::Changed { .. } => "a wrong answer on the link",
    }
}

#[test]
fn every_fault_is_met_in_the_soak() {
    let mut met: BTreeMap<&str, u64> = BTreeMap::new();
    let mut by_chance = [0; 6];
    for seed in 0..SCENARIOS {
        let ran = run(scenario(seed, None), &mut |_, _| {});
        let board = ran.board();
        for (drive, transport) in board.transports.iter().enumerate() {
            for fault in transport.faults() {
                *met.entry(tape_fault(&fault.fault)).or_default() += u64::from(fault.times);
            }
            for (sum, times) in by_chance.iter_mut().zip(transport.by_chance) {
                *sum += times;
            }
            let (faults, chances) = ran.host.link.met(drive);
            for (fault, times) in faults {
                *met.entry(link_fault(fault)).or_default() += u64::from(*times);
            }
            *met.entry("the link by chance").or_default() += u64::from(chances);
        }
        *met.entry("damaged memory").or_default() += board.damaged.iter().filter(|(_, told)| *told).count() as u64;
    }
    println!("{met:?} {by_chance:?}");
    assert_eq!(met.len(), 12 + 5 + 2);
    assert!(met.values().all(|&times| times > 0), "{met:?}");
    assert!(by_chance.iter().all(|&times| times > 0), "{by_chance:?}");
}
