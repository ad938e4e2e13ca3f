//! Records of 65,535 bytes: document 02's third wish, by the points of READING-02.md.

mod common;

use common::{gcr_bytes, gcr_image, hex, record, Bench};
use machine::lines;
use machine::machine::{link, primary, Action, Machine, Phase, Refusal, Reported};
use machine::records::{self, Density, Kind, NO_PLACE};

/// 256k - 1, 256k and 256k + 1 up to the limit, and the one below the limit.
fn edges() -> Vec<usize> {
    let mut counts: Vec<usize> = (1..=256)
        .flat_map(|k| [256 * k - 1, 256 * k, 256 * k + 1])
        .filter(|&count| count <= 65_535)
        .collect();
    counts.push(65_534);
    counts
}

/// The machine by itself, which is lent spaces that a session does not have. Drive 0 is ready.
struct Core {
    machine: Machine,
    check_store: [u8; 512],
}

impl Core {
    fn new(density: Density) -> Core {
        let mut machine = Machine::fresh();
        machine.report(0, 0x22).unwrap();
        machine.drives[0].density = density;
        Core {
            machine,
            check_store: [0xBB; 512],
        }
    }

    /// A store carried out.
    fn store(&mut self, address: u8, operand: u32) -> Action {
        let [a, b, c, d] = operand.to_be_bytes();
        let string = [0x64, address, a, b, c, d, 0];
        let check = string.iter().fold(0, |sum, byte| sum ^ byte);
        for byte in string.into_iter().chain([check]) {
            self.machine.byte(byte).unwrap();
        }
        self.machine.taken().unwrap()
    }

    /// A write up to its data.
    fn write(&mut self, count: usize) {
        let go = self.store(0x50, count as u32);
        assert_eq!(go, Action::Byte(link::GO), "{count}");
        self.machine.byte(link::ACK).unwrap();
    }

    /// A result with code 0; gives the bytes delivered, and has EOR accepted.
    fn result(&mut self, image: &[u8], marks: &[u8], space: usize) -> Result<Vec<u8>, Refusal> {
        let reported = Reported {
            code: 0,
            mark: false,
            late: 0,
            image,
            marks,
        };
        let mut host = vec![0xAA; space];
        let (action, delivered) =
            (self.machine).result(reported, &mut host, &mut self.check_store)?;
        if action != Action::None {
            assert_eq!(action, Action::Byte(link::EOR));
            self.machine.byte(link::ACK).unwrap();
        }
        assert!(host[delivered..].iter().all(|&byte| byte == 0xAA));
        host.truncate(delivered);
        Ok(host)
    }
}

/// Drive 0 of a session ready and GCR.
fn gcr() -> Bench {
    let mut bench = Bench::ready();
    assert_eq!(bench.store(0x30, 0x0D), "0,-,,");
    bench
}

#[test]
fn point_3_1_blockettes_255_to_0() {
    assert_eq!(records::image_length(65_535, Density::Gcr), 66_050);
    assert_eq!(records::image_length(65_535, Density::Mfm), 65_537);
    assert_eq!(records::marks_length(65_535, Density::Gcr), 258);
    for (place, number, kind) in [
        (0, 255, Kind::Data),
        (1, 254, Kind::Data),
        (127, 128, Kind::Data),
        (128, 127, Kind::Data),
        (255, 0, Kind::Data),
        (256, 1, Kind::Check),
        (257, 0, Kind::Check),
    ] {
        assert_eq!(records::blockette_at(place, 256), (number, kind));
    }
}

#[test]
fn every_count_offers_go() {
    for count in (0..=65_535u32)
        .step_by(251)
        .chain([16_384, 16_385, 65_534, 65_535])
    {
        for density in [Density::Mfm, Density::Gcr] {
            let mut core = Core::new(density);
            core.write(count as usize);
            assert!(matches!(core.machine.phase, Phase::DataAwaited(_)));
            // On a drive that is not ready it is 04, never 02.
            let mut core = Core::new(density);
            core.machine.report(0, 0x04).unwrap();
            assert_eq!(core.store(0x50, count), Action::None);
            assert_eq!(core.machine.code(), 4, "{count}");
        }
    }
}

#[test]
fn writes_at_every_edge() {
    for count in edges() {
        let data = record(count);
        for density in [Density::Mfm, Density::Gcr] {
            let expected = match density {
                Density::Gcr => gcr_bytes(&data),
                Density::Mfm => [&gcr_bytes(&data)[..2], &data].concat(),
            };
            let mut core = Core::new(density);
            core.write(count);
            // One byte short: refused, and still awaited.
            let before = core.machine.clone();
            let mut space = vec![0xAA; expected.len() - 1];
            let answer = (core.machine).data(&data, NO_PLACE, &mut space, &mut core.check_store);
            assert_eq!(answer, Err(Refusal::ImageSpace), "{count}");
            assert_eq!(core.machine, before, "{count}");
            assert!(space.iter().all(|&byte| byte == 0xAA), "{count}");
            assert_eq!(core.check_store, [0xBB; 512], "{count}");

            let mut space = vec![0xAA; expected.len() + 1];
            let answer = (core.machine).data(&data, NO_PLACE, &mut space, &mut core.check_store);
            let [high, low] = (count as u16).to_be_bytes();
            let order = [0x50, 0, 0, (density == Density::Gcr) as u8, high, low];
            assert_eq!(answer, Ok((Action::Order(order), expected.len())));
            assert!(space[..expected.len()] == expected, "{count}");
            assert_eq!(space[expected.len()], 0xAA, "{count}");
            if density == Density::Gcr {
                assert!(expected.ends_with(&core.check_store), "{count}");
            }
            assert_eq!(core.result(&[], &[], 0), Ok(vec![]));
            assert_eq!(core.machine.secondary as usize, count);
            assert_eq!(core.machine.outcome, 0x0020_0200, "{count}");
        }
    }
}

#[test]
fn reads_at_every_edge() {
    for count in edges() {
        let data = record(count);
        let image = gcr_bytes(&data);
        let marks = vec![15; count.div_ceil(256) + 2];
        let mut core = Core::new(Density::Gcr);
        core.store(0x40, 0);
        assert_eq!(core.result(&image, &marks[1..], 0), Err(Refusal::Length));
        assert_eq!(core.result(&image[1..], &marks, 0), Err(Refusal::Length));
        assert!(core.result(&image, &marks, count + 1) == Ok(data.clone()));
        assert_eq!(core.machine.secondary as usize, count);
        assert_eq!(core.machine.outcome, 0x0020_0200, "{count}");
        assert!(image.ends_with(&core.check_store), "{count}");

        // The same bytes with a supplied count: the first blockette is torn.
        let mut torn = data.clone();
        torn[..count.min(256)].fill(0);
        core.store(0x40, 0x8000_0000 | count as u32);
        assert_eq!(core.result(&image, &marks[1..], 0), Err(Refusal::Length));
        assert!(core.result(&image, &marks, count) == Ok(torn));
        assert_eq!(core.machine.secondary as usize, count);
        let number = count.div_ceil(256) as u32 - 1;
        let tertiary = (0x0100 | number) << if number % 2 == 1 { 16 } else { 0 };
        assert_eq!(core.machine.tertiary, tertiary, "{count}");

        let mut core = Core::new(Density::Mfm);
        core.store(0x40, 0);
        let image = [&image[..2], &data].concat();
        assert!(core.result(&image, &[], count) == Ok(data));
        assert_eq!(core.machine.secondary as usize, count);
    }
}

/// Tertiary's half for an error of the longest record: mark, kind, number.
fn half(mark: u8, place: usize) -> u32 {
    let (kind, number) = match place {
        0..=255 => (1, 255 - place),
        _ => (2, 257 - place),
    };
    (mark as u32) << 12 | kind << 8 | number as u32
}

#[test]
fn errors_at_every_place_of_the_longest_record() {
    let data = record(65_535);
    let image = gcr_bytes(&data);
    let mut core = Core::new(Density::Gcr);
    for place in 0..258 {
        let odd = place % 2 == 0;
        let mut marks = [15; 258];
        marks[place] = 7;
        core.store(0x40, 0);
        assert!(core.result(&image, &marks, 65_535) == Ok(data.clone()));
        assert_eq!(core.machine.code(), 0x15);
        let tertiary = half(7, place) << if odd { 16 } else { 0 };
        assert_eq!(core.machine.tertiary, tertiary, "{place}");
        assert_eq!(core.machine.quintary, 0, "{place}");
        // The next of its parity stops the scan; what stands before is delivered.
        if place + 2 < 258 {
            marks[place + 2] = 9;
            core.store(0x40, 0);
            let before = (256 * (place + 2)).min(65_535);
            assert!(core.result(&image, &marks, 65_535) == Ok(data[..before].to_vec()));
            assert_eq!(core.machine.code(), 0x16);
            assert_eq!(core.machine.tertiary, tertiary, "{place}");
            assert_eq!(core.machine.quintary, half(9, place + 2), "{place}");
        }
        marks[place] = 10;
        core.store(0x40, 0);
        assert_eq!(core.result(&image, &marks, 0), Err(Refusal::MarkValue));
        core.machine.reset().unwrap();
        core.machine.drives[0].density = Density::Gcr;
    }
}

#[test]
fn host_space_short_of_the_longest_record() {
    let data = record(65_535);
    let image = gcr_bytes(&data);
    let mut core = Core::new(Density::Gcr);
    for (space, overflow) in [
        (65_535, 0),
        (65_534, primary::OVERFLOW),
        (0, primary::OVERFLOW),
    ] {
        core.store(0x40, 0);
        assert!(core.result(&image, &[15; 258], space) == Ok(data[..space].to_vec()));
        assert_eq!(core.machine.outcome & primary::OVERFLOW, overflow);
    }
}

#[test]
fn point_3_2_reverse_skips_tell_any_count() {
    let mut core = Core::new(Density::Gcr);
    for count in 0..=65_535u16 {
        core.store(0x30, 0x21);
        let image = count.rotate_right(1).to_be_bytes();
        assert_eq!(core.result(&image, &[], 0), Ok(vec![]));
        assert_eq!(core.machine.secondary, count);
        assert_eq!(core.machine.outcome, 0x0040_0200);
    }
}

/// A write of a session, up to its data.
#[track_caller]
fn awaits_data(bench: &mut Bench, count: u32) {
    assert_eq!(bench.store(0x50, count), "0,A,47,");
    bench.says("B,06", "0,-,,");
}

#[test]
fn point_3_2_a_write_above_the_image_space() {
    for count in [16_385, 16_640, 16_896, 16_897, 32_768, 65_534, 65_535] {
        let mut bench = gcr();
        // Something for the check store first.
        awaits_data(&mut bench, 1);
        assert!(bench.line("D,5A").starts_with("0,M,500000010001,"));
        bench.talk("R,00,0,0,,,0 > 0,A,45,\nB,06 > 0,-,,");
        awaits_data(&mut bench, count);
        let longest = format!("D,{}", "41".repeat(16_384));
        for line in ["D,", "D,41", &longest, "D,"] {
            bench.says(line, "11,-,,");
        }
        // Nothing but a reset goes on; a line that is too long is unreadable as ever.
        bench.says(&format!("D,{}", "41".repeat(16_385)), "?,-,,");
        bench.talk("B,06 > 2,-,,\nB,15 > 2,-,,\nT > 2,-,,\nX > 2,-,,\nK > 4,-,,");
        bench.talk("R,00,0,0,,,0 > 3,-,,\nS,0,04 > 0,-,,\nD, > 11,-,,\nS,0,22 > 0,-,,");
        bench.talk("Z > 0,-,,\nD, > 3,-,,\nK > 0,-,,");
        assert_eq!(bench.primary(), "80000022", "{count}");
        // The refused calls left the check store alone.
        assert_eq!(bench.store(0x40, 0x4000_0000), "0,-,,");
        let mut checks = [0; 512];
        checks[256] = 0x5A;
        bench.says("R,00,0,0,,,512", &format!("0,A,45,{}", hex(&checks)));
    }
    let mut bench = gcr();
    awaits_data(&mut bench, 16_384);
    let image = gcr_image(&[0; 16_384]);
    bench.says("D,", &format!("0,M,500000014000,{image}"));
}

#[test]
fn point_3_2_mfm_writes() {
    for count in [16_385, 16_895, 16_896] {
        let mut bench = Bench::ready();
        awaits_data(&mut bench, count);
        // No line has so many host bytes: zeros fill, bit 18.
        let line = format!("D,{}", "41".repeat(16_384));
        let image = hex(&(count as u16).rotate_right(1).to_be_bytes())
            + &"41".repeat(16_384)
            + &"00".repeat(count as usize - 16_384);
        bench.says(&line, &format!("0,M,50000000{count:04X},{image}"));
        bench.talk("R,00,0,0,,,0 > 0,A,45,\nB,06 > 0,-,,");
        assert_eq!(bench.primary(), "A0202222", "{count}");
        assert_eq!(bench.load(2), format!("{count:08X}"));
    }
    for count in [16_897, 65_535] {
        let mut bench = Bench::ready();
        awaits_data(&mut bench, count);
        bench.talk("D, > 11,-,,\nD,41 > 11,-,,\nX > 2,-,,\nZ > 0,-,,\nX > 0,-,,");
    }
}

#[test]
fn mfm_reads_of_a_session() {
    for count in [16_385, 16_896] {
        let data = record(count);
        let mut bench = Bench::ready();
        let image = hex(&(count as u16).rotate_right(1).to_be_bytes()) + &hex(&data);
        assert_eq!(bench.store(0x40, 0), "0,M,400000000000,");
        // The host's space goes to 16,384: bit 17.
        let answer = format!("0,A,45,{}", hex(&data[..16_384]));
        bench.says(&format!("R,00,0,0,{image},,16384"), &answer);
        bench.says("B,06", "0,-,,");
        assert_eq!(bench.primary(), "A0204222");
        assert_eq!(bench.load(2), format!("{count:08X}"));
        assert_eq!(bench.store(0x30, 0x20), "0,M,200000000020,");
        bench.says(&format!("R,00,0,0,{image},,0"), "0,-,,");
        assert_eq!(bench.primary(), "80200222");
    }
    // A line has no image of 16,897 bytes.
    let image = "00".repeat(16_899);
    assert_eq!(lines::read(format!("R,00,0,0,{image},,0").as_bytes()), None);
}

#[test]
fn a_supplied_count_that_no_line_brings() {
    for count in [16_385, 65_535] {
        let mut bench = gcr();
        let order = format!("0,M,80000001{count:04X},");
        assert_eq!(bench.store(0x40, 0x8000_0000 | count), order);
        // Whatever a line brings with code 0 is too short.
        let own = hex(&(count as u16).rotate_right(1).to_be_bytes());
        let longest = own.clone() + &"00".repeat(16_896);
        for (image, marks) in [("", 0), (&own, 0), (&longest, 66), (&longest, 0), ("", 66)] {
            let line = format!("R,00,0,0,{image},{},16384", "0F".repeat(marks));
            bench.says(&line, "9,-,,");
        }
        bench.says("R,00,1,0,,,0", "8,-,,");
        bench.says("R,0C,0,0,,,0", "7,-,,");
        for (code, primary) in [("14", "A0340722"), ("07", "A0670722"), ("17", "A0770722")] {
            bench.says(&format!("R,{code},0,0,,,0"), "0,A,45,");
            bench.says("B,06", "0,-,,");
            assert_eq!(bench.primary(), primary);
            assert_eq!(bench.load(2), format!("{count:08X}"));
            assert_eq!(bench.store(0x40, 0x8000_0000 | count), order);
        }
        // Tested as handed in, where no tape is there too.
        bench.says("S,0,04", "0,-,,");
        bench.says("R,00,0,0,,,0", "9,-,,");
        bench.says("R,13,0,0,,,0", "0,A,45,");
        bench.says("B,06", "0,-,,");
        assert_eq!(bench.primary(), "A0670704");
        assert_eq!(bench.load(2), format!("{count:08X}"));
    }
}
