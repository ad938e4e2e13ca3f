//! Four jobs and the record handed back, by READING-02's points 4 and 8.

mod common;

use common::Bench;
use machine::generator::{Generator, Random};
use machine::jobs::{Queues, Store, JOBS, QUEUE_LIMIT};
use machine::lines::{self, Session};
use machine::machine::{Action, Machine, Phase, Refusal};
use std::collections::VecDeque;

const READ: &str = "48,00000000";

/// Queues stores that are told apart by the last byte of their order.
fn queue_reads(bench: &mut Bench, stores: &[(usize, u8)]) {
    for (job, last) in stores {
        let line = format!("Q,{job},48,000000{last:02X}");
        bench.says(&line, "0,-,,,-");
    }
}

/// Hands over a read, which ends at once, and gives the last byte of its order.
#[track_caller]
fn hand_read(bench: &mut Bench) -> u8 {
    let order = bench.line("H");
    let bytes = order.strip_prefix("0,M,4000000000").expect(&order);
    bench.says("R,00,0,0,0000,,0", "0,A,45,,00:1:0");
    bench.says("B,06", "0,-,,,-");
    u8::from_str_radix(&bytes[..2], 16).unwrap()
}

/// A machine in each phase, reached by a session of jobs with nothing queued.
fn phases() -> Vec<Bench> {
    let ways = [
        "B,64",
        "B,64|B,48|B,00",
        "B,62|B,10|B,00|B,72",
        "B,62|B,10|B,00|B,72|T",
        "Q,0,B8,00000008|H",
        "Q,0,58,00000001|H",
        "Q,0,58,00000001|H|B,06",
        "Q,0,58,00000001|H|B,06|D,5A",
        "Q,0,58,00000001|H|B,15",
        "Q,0,48,40000000|H",
    ];
    ways.map(|way| {
        let mut bench = Bench::of_jobs();
        for line in way.split('|') {
            assert!(bench.line(line).starts_with("0,"), "{way}");
        }
        assert!(bench.0.machine.queues.is_empty(), "{way}");
        bench
    })
    .into()
}

#[test]
fn jobs_are_taken_in_turn() {
    let mut bench = Bench::of_jobs();
    queue_reads(&mut bench, &[(2, 0x20), (2, 0x21), (0, 0x00), (0, 0x01)]);
    queue_reads(&mut bench, &[(3, 0x30), (1, 0x10), (0, 0x02)]);
    let handed: Vec<u8> = (0..7).map(|_| hand_read(&mut bench)).collect();
    assert_eq!(handed, [0x00, 0x10, 0x20, 0x30, 0x01, 0x21, 0x02]);
    // Job 0 was served last: 1 is next, and so on round.
    queue_reads(&mut bench, &[(0, 0x03), (3, 0x31)]);
    assert_eq!(hand_read(&mut bench), 0x31);
    queue_reads(&mut bench, &[(3, 0x32), (2, 0x22)]);
    let handed: Vec<u8> = (0..3).map(|_| hand_read(&mut bench)).collect();
    assert_eq!(handed, [0x03, 0x22, 0x32]);
    bench.says("H", "0,-,,,-");
}

/// A store with j of its own job's before it is handed over within 4(j + 1) handings not refused.
#[test]
fn no_store_waits_longer_than_its_bound() {
    for seed in 0..200 {
        let mut random = Random::new(seed);
        let mut machine = Machine::fresh();
        // For each queued store the handings that are left to it.
        let mut left: [VecDeque<usize>; JOBS] = Default::default();
        for _ in 0..2000 {
            let job = random.below(JOBS);
            if random.chance(60) {
                let store = Store {
                    address: 0x18,
                    operand: [0; 4],
                };
                let before = left[job].len();
                match machine.queue(job as u8, store) {
                    Ok(_) => left[job].push_back(4 * (before + 1)),
                    Err(refusal) => {
                        assert_eq!((refusal, before), (Refusal::QueueFull, QUEUE_LIMIT))
                    }
                }
                continue;
            }
            machine.hand().unwrap();
            for waiting in left.iter_mut().flatten() {
                *waiting -= 1;
            }
            let served = machine.queues.last_served;
            if left.iter().any(|queue| !queue.is_empty()) {
                left[served].pop_front().unwrap();
            }
            assert!(left.iter().flatten().all(|&waiting| waiting > 0));
            for (queue, left) in machine.queues.of_job.iter().zip(&left) {
                assert_eq!(queue.len(), left.len());
            }
        }
    }
}

#[test]
fn a_queue_holds_eight() {
    for job in 0..JOBS {
        let mut bench = Bench::of_jobs();
        for place in 0..8 {
            queue_reads(&mut bench, &[(job, place)]);
        }
        bench.says(&format!("Q,{job},{READ}"), "17,-,,,-");
        // The other jobs have their own.
        for other in (0..JOBS).filter(|&other| other != job) {
            bench.says(&format!("Q,{other},{READ}"), "0,-,,,-");
        }
        // 16 comes first.
        bench.says(&format!("Q,{job},40,00000000"), "16,-,,,-");
        bench.says(&format!("Q,{job},08,00000000"), "16,-,,,-");
        // A store handed over makes room for one.
        while bench.0.machine.queues.last_served != job {
            hand_read(&mut bench);
        }
        while bench.0.machine.queues.of_job[job].len() == 8 {
            hand_read(&mut bench);
        }
        bench.says(&format!("Q,{job},{READ}"), "0,-,,,-");
        bench.says(&format!("Q,{job},{READ}"), "17,-,,,-");
    }
}

#[test]
fn point_8_1_what_may_be_queued() {
    for job in 0..=255u8 {
        for address in 0..=255u8 {
            let mut machine = Machine::fresh();
            let store = Store {
                address,
                operand: [0xFF, 0, 0x5A, 0x24],
            };
            let names = address & 0x08 != 0;
            let reset = address >> 4 & 7 == 0;
            let refused = job > 3 || !names || reset;
            let before = machine.clone();
            match machine.queue(job, store) {
                Ok(action) => {
                    assert!(!refused, "{job} {address:02X}");
                    assert_eq!(action, Action::None);
                    assert_eq!(machine.queues.of_job[job as usize], [store]);
                }
                Err(refusal) => {
                    assert!(refused, "{job} {address:02X}");
                    assert_eq!((refusal, &machine), (Refusal::Store, &before));
                }
            }
        }
    }
    // One that names drive 4-7 ends with code 01.
    let mut bench = Bench::of_jobs();
    bench.says("Q,1,4E,00000000", "0,-,,,-");
    bench.says("H", "0,-,,,01:0:0");
    assert_eq!(bench.0.machine.selected, 0);
}

#[test]
fn point_8_2_idle_and_not() {
    for mut bench in phases() {
        let before = bench.0.machine.clone();
        bench.says("H", "4,-,,,-");
        assert_eq!(bench.0.machine, before);
        bench.says(&format!("Q,3,{READ}"), "0,-,,,-");
        let before = bench.0.machine.clone();
        bench.says("H", "4,-,,,-");
        assert_eq!(bench.0.machine, before);
    }
    // Nothing queued: no review either, though a report has changed.
    let mut bench = Bench::of_jobs();
    bench.says("Q,1,B8,00000008", "0,-,,,-");
    assert!(bench.line("H").starts_with("0,P,69"));
    bench.says("B,06", "0,-,,,-");
    bench.says("S,2,04", "0,-,,,-");
    let before = bench.0.machine.clone();
    bench.says("H", "0,-,,,-");
    assert_eq!(bench.0.machine, before);
    // Nor does a hand that finds a store review before it.
    bench.says(&format!("Q,1,{READ}"), "0,-,,,-");
    assert!(bench.line("H").starts_with("0,M,40"));
    assert!(!bench.0.machine.changed);
}

#[test]
fn point_8_4_queueing_in_every_phase() {
    for mut bench in phases() {
        let phase = bench.0.machine.phase;
        bench.says("Q,2,5F,00000001", "0,-,,,-");
        bench.says("Q,2,57,00000001", "16,-,,,-");
        assert_eq!(bench.0.machine.phase, phase);
        bench.says("Z", "0,-,,,-");
        bench.says("H", "0,-,,,01:0:0");
    }
}

#[test]
fn point_8_4a_served_whatever_the_store_ends_as() {
    // Codes 01 to 04, and one that goes on.
    let stores = ["4F,00000000", "18,00000000", "38,00000007", "4B,00000000"];
    for store in stores.iter().chain(&[READ]) {
        let mut bench = Bench::of_jobs();
        bench.says("S,3,04", "0,-,,,-");
        bench.says(&format!("Q,2,{store}"), "0,-,,,-");
        assert!(bench.line("H").starts_with("0,"));
        assert_eq!(bench.0.machine.queues.last_served, 2);
        assert!(bench.0.machine.queues.is_empty());
    }
    // A reset store in the queue of a state handed in is carried out as one.
    let mut machine = Machine::fresh();
    machine.drives[1].track = 2;
    machine.queues.of_job[1] = [0x09, 0x48].map(read_at).into();
    assert_eq!((machine.hand(), machine.record), (Ok(Action::None), None));
    assert_eq!(machine.drives[1].track, 0);
    assert_eq!(machine.queues.of_job[1], [read_at(0x48)]);
    assert_eq!(machine.queues.last_served, 1);
}

fn read_at(address: u8) -> Store {
    Store {
        address,
        operand: [0; 4],
    }
}

#[test]
fn point_8_5_a_reset_keeps_queues_and_turn() {
    for store in [false, true] {
        let mut bench = Bench::of_jobs();
        queue_reads(&mut bench, &[(0, 1), (1, 2), (2, 3), (0, 4)]);
        assert_eq!(hand_read(&mut bench), 1);
        let queues = bench.0.machine.queues.clone();
        if store {
            for byte in ["64", "00", "00", "00", "00", "00", "00"] {
                bench.says(&format!("B,{byte}"), "0,-,,,-");
            }
            bench.says("B,64", "0,A,06,,-");
            bench.says("T", "0,-,,,-");
        } else {
            bench.says("Z", "0,-,,,-");
        }
        assert_eq!(bench.0.machine.queues, queues);
        assert_eq!(hand_read(&mut bench), 2);
    }
    // In the middle of a handed store too.
    let mut bench = Bench::of_jobs();
    queue_reads(&mut bench, &[(0, 1), (1, 2)]);
    bench.says("H", "0,M,400000000001,,-");
    bench.says("Z", "0,-,,,-");
    assert_eq!(hand_read(&mut bench), 2);
}

/// From states of all kinds: action, record and next state are those of a taken of the same store.
#[test]
fn a_store_handed_over_is_carried_out_as_if_taken() {
    let mut compared = 0;
    for seed in 0..40 {
        let mut random = Random::new(1000 + seed);
        let mut generator = Generator::of_jobs(seed);
        let mut session = Session::of_jobs(None);
        for _ in 0..400 {
            session.answer(&generator.line(), &mut Vec::new());
            let idle = matches!(session.machine.phase, Phase::Collecting { length: 0, .. });
            if !idle {
                continue;
            }
            let store = Store {
                address: random.byte(),
                operand: [random.pick(&[0, 0, 0x40, 0x80]), 0, 0, random.byte()],
            };
            let mut handed = session.machine.clone();
            let (job, kept) = (random.below(JOBS), handed.queues.clone());
            handed.queues = Queues::fresh();
            handed.queues.of_job[job] = [store].into();
            let mut taken = session.machine.clone();
            let [a, b, c, d] = store.operand;
            taken.phase = Phase::AckOffered {
                string: [0x64, store.address, a, b, c, d, 0, 0],
            };
            assert_eq!(handed.hand(), taken.taken());
            assert_eq!(handed.queues.last_served, job);
            handed.queues = kept;
            assert_eq!(handed, taken);
            compared += 1;
        }
    }
    assert!(compared > 2000, "{compared}");
}

#[test]
fn point_4_each_way_that_a_store_ends() {
    let mut bench = Bench::of_jobs();
    // A result; its count is what secondary holds.
    bench.talk(
        "Q,0,49,00000000 > 0,-,,,-
        H > 0,M,400100000000,,-
        R,00,0,0,800248454C4C4F,,16384 > 0,A,45,48454C4C4F,00:1:5
        B,06 > 0,-,,,-",
    );
    // Setting stores and codes 01 to 04: secondary stays as it was.
    for (store, code) in [
        ("38,00000002", "00"),
        ("38,00000009", "00"),
        ("38,0000000B", "00"),
        ("38,0000000D", "00"),
        ("4C,00000000", "01"),
        ("78,00000000", "02"),
        ("38,00000005", "03"),
        ("58,00000001", "04"),
    ] {
        bench.says(&format!("Q,0,{store}"), "0,-,,,-");
        bench.says("H", &format!("0,-,,,{code}:0:5"));
    }
    // With an interrupt the record comes with the store's end, not with the acceptance.
    bench.talk(
        "Q,0,B8,00000008 > 0,-,,,-
        H > 0,P,6988000122C2,,00:0:5
        B,06 > 0,-,,,-",
    );
    // A GO no by a byte and broken; past the test the count is 0.
    for no in ["B,15", "X"] {
        bench.says("Q,2,59,00000003", "0,-,,,-");
        bench.says("H", "0,A,47,,-");
        bench.says(no, "0,A,45,,05:0:0");
        bench.says("B,06", "0,-,,,-");
    }
    // A GO yes and data settle nothing; the write's result has its count.
    bench.talk(
        "Q,2,59,00000003 > 0,-,,,-
        H > 0,A,47,,-
        B,06 > 0,-,,,-
        D,414243 > 0,M,500100000003,8001414243,-
        R,0B,0,0,,,0 > 0,A,45,,0B:1:0
        B,06 > 0,-,,,-
        Q,2,59,00000003 > 0,-,,,-
        H > 0,A,47,,-
        B,06 > 0,-,,,-
        D,414243 > 0,M,500100000003,8001414243,-
        R,00,1,0,,,0 > 8,-,,,-
        R,00,0,0,,,0 > 0,A,45,,00:1:3
        B,06 > 0,-,,,-",
    );
    // Motions 10 and 11; a rewind leaves the count of the store before it.
    bench.talk(
        "Q,3,39,00000010 > 0,-,,,-
        H > 0,M,100100000010,,-
        R,00,0,0,,,0 > 0,-,,,00:2:3
        Q,3,39,00000020 > 0,-,,,-
        H > 0,M,200100000020,,-
        S,1,04 > 0,-,,,-
        R,00,0,0,0000,,0 > 0,-,,,07:3:0",
    );
}

#[test]
fn point_4_1_stores_from_the_link_too() {
    let mut bench = Bench::of_jobs();
    let mut store = |bytes: &str, answer: &str| {
        for byte in bytes.split(' ') {
            bench.says(&format!("B,{byte}"), "0,-,,,-");
        }
        let check = bytes
            .split(' ')
            .fold(0, |sum, byte| sum ^ u8::from_str_radix(byte, 16).unwrap());
        bench.says(&format!("B,{check:02X}"), "0,A,06,,-");
        bench.says("T", answer);
    };
    store("64 38 00 00 00 0D 00", "0,-,,,00:0:0");
    store("64 7F 00 00 00 00 00", "0,-,,,01:0:0");
    store("64 00 00 00 00 00 00", "0,-,,,-");
    store("62 10 00", "0,P,6680000022C4,,-");
}

#[test]
fn lines_of_jobs() {
    let run = |text: &str| String::from_utf8(lines::run_of_jobs(text.as_bytes(), None)).unwrap();
    assert_eq!(run(""), "");
    assert_eq!(run("\nH"), "?,-,,,-\n0,-,,,-\n");
    for line in [
        "H,",
        "h",
        " H",
        "H\r",
        "Q",
        "Q,0,48",
        "Q,0,48,",
        "Q,,48,00000000",
        "Q,256,48,00000000",
        "Q,0,4a,00000000",
        "Q,0,048,00000000",
        "Q,0,48,0000000",
        "Q,0,48,000000000",
        "Q,0,48,0000000000",
        "Q,0,48,0000000f",
        "Q,0,48,00000000,",
    ] {
        assert_eq!(run(line), "?,-,,,-\n", "{line}");
    }
    for line in ["H", "Q,0255,48,00000000", "Q,0000,00,FFFFFFFF", "S,0,22"] {
        assert_ne!(run(line), "?,-,,,-\n", "{line}");
    }
    // The session program knows neither.
    for line in ["H", "Q,0,48,00000000"] {
        assert_eq!(lines::run(line.as_bytes(), None), b"?,-,,\n");
    }
}
