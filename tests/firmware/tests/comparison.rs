//! Many writes, with places at every border, against the independent machine.

use firmware_tests::{both, controller, machine, random, Answer, Call, Lent, DAMAGED};
use machine::generator::Random;
use machine::machine::{primary, Refusal};
use machine::mutants::PLACES;
use machine::records::{image_length, Density, CHECK_BYTES, NO_PLACE};
use std::collections::BTreeMap;

const CALLS: usize = 40_000;

/// What a call was about, by its answer.
fn kind(call: &Call, answer: &Answer) -> String {
    if answer.refusal != 0 {
        return format!("refused {}", answer.refusal);
    }
    let [word, _] = answer.words;
    let thrown = call.thrown as usize;
    let needed = thrown + call.count as usize;
    let short = call.host.len() < needed;
    let bits = (word & primary::PARITY != 0, word & primary::UNDERFLOW != 0);
    let place = match call.place {
        NO_PLACE if call.host.len() > NO_PLACE => "none, though a byte stands there",
        NO_PLACE => "none",
        place if place < thrown && needed == thrown => "thrown away, count 0",
        place if place < thrown => "thrown away",
        place if place == thrown && place < needed => "the first",
        place if place + 1 == needed => "the last",
        place if place < needed => "between",
        place if place == needed => "right behind",
        _ => "behind",
    };
    let host = if short { "short" } else { "enough" };
    format!("density {}, {host}, {place}: {bits:?}", call.density)
}

#[test]
fn random_calls() {
    let mut random = Random::new(6);
    let mut kinds = BTreeMap::new();
    for _ in 0..CALLS {
        let call = random::call(&mut random);
        let answer = both(&call);
        let wrote = answer.lent != call.lent;
        assert!(answer.refusal == 0 || !wrote, "{} wrote", answer.refusal);
        *kinds.entry(kind(&call, &answer)).or_insert(0) += 1;
    }
    for (kind, count) in &kinds {
        println!("{count:6} {kind}");
    }
    // Every kind that can be was there, and no other.
    let mut expected = vec![];
    for refusal in [Refusal::CheckStore, Refusal::ImageSpace, Refusal::Place] {
        expected.push(format!("refused {}", refusal as u32));
    }
    expected.push(format!("refused {DAMAGED}"));
    for density in [0, 1] {
        for (host, place, bits) in [
            ("enough", "none", (false, false)),
            ("enough", "none, though a byte stands there", (false, false)),
            ("enough", "thrown away", (true, false)),
            ("enough", "thrown away, count 0", (true, false)),
            ("enough", "the first", (true, false)),
            ("enough", "between", (true, false)),
            ("enough", "the last", (true, false)),
            ("enough", "right behind", (false, false)),
            ("enough", "behind", (false, false)),
            ("short", "none", (false, true)),
            ("short", "thrown away", (true, false)),
            ("short", "thrown away, count 0", (true, false)),
            ("short", "the first", (true, false)),
            ("short", "between", (true, false)),
        ] {
            expected.push(format!("density {density}, {host}, {place}: {bits:?}"));
        }
    }
    expected.sort();
    let found: Vec<String> = kinds.into_keys().collect();
    assert_eq!(found, expected);
}

/// Few bytes, and every place, host length, count and number thrown away among them.
#[test]
fn every_small_call() {
    let mut random = Random::new(7);
    for density in [0, 1] {
        let form = if density == 0 {
            Density::Mfm
        } else {
            Density::Gcr
        };
        for (thrown, count) in (0..4).flat_map(|thrown| (0..5).map(move |count| (thrown, count))) {
            for host in 0..10 {
                for place in (0..12).chain([NO_PLACE - 1, NO_PLACE, NO_PLACE + 1]) {
                    both(&Call {
                        density,
                        thrown,
                        count,
                        place,
                        host: random.bytes(host),
                        lent: Lent {
                            space: random.bytes(image_length(count as usize, form) + place % 2),
                            check: random.bytes(CHECK_BYTES),
                        },
                    });
                }
            }
        }
    }
}

/// The longest record behind the most bytes thrown away, with a bad byte at every border.
#[test]
fn the_longest_write() {
    let mut random = Random::new(8);
    for density in [0, 1] {
        for host in [65_789, 65_790, 65_791, 65_792, 65_793] {
            let borders = [
                0, 254, 255, 256, 511, 65_535, 65_788, 65_789, 65_790, 65_791, 65_792, 65_793,
            ];
            for place in borders {
                both(&Call {
                    density,
                    thrown: 255,
                    count: 65_535,
                    place,
                    host: random.bytes(host),
                    lent: Lent {
                        space: random.bytes(66_050),
                        check: random.bytes(CHECK_BYTES),
                    },
                });
            }
        }
    }
}

/// Each wrong rule of the machine is told from the controller by a random call.
#[test]
fn each_wrong_rule_is_found() {
    let mut random = Random::new(9);
    let mut left = PLACES.to_vec();
    for turn in 0..CALLS {
        let call = random::call(&mut random);
        let given = controller(&call);
        left.retain(|&mutant| {
            let stays = machine(&call, Some(mutant)) == given;
            if !stays {
                println!("{mutant:?}: call {turn}");
            }
            stays
        });
    }
    assert!(left.is_empty(), "not found: {left:?}");
}
