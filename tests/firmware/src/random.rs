//! Random calls, many of them at a border of the rules.

use crate::{Call, Lent};
use machine::generator::Random;
use machine::records::{image_length, Density, CHECK_BYTES, NO_PLACE, RECORD_LIMIT};

/// Places that would do in 16 or 32 bits, and the highest.
const FAR: [usize; 5] = [
    1 << 16,
    (1 << 16) + NO_PLACE,
    1 << 32,
    (1 << 32) + NO_PLACE,
    usize::MAX,
];

/// A number near another, or 0 where that would be below it.
fn near(number: usize, random: &mut Random) -> usize {
    (number + random.below(5)).saturating_sub(2)
}

fn count(random: &mut Random) -> usize {
    match random.below(20) {
        0 => random.below(RECORD_LIMIT + 1),
        1 => random.pick(&[
            16_384, 16_385, 32_768, 65_279, 65_280, 65_281, 65_534, 65_535,
        ]),
        2..6 => random.below(1200),
        _ => random.pick(&[0, 0, 1, 1, 2, 3, 255, 256, 257, 511, 512, 513]),
    }
}

fn host_length(thrown: usize, needed: usize, random: &mut Random) -> usize {
    match random.below(20) {
        0 => 0,
        // long enough that the value for none is the place of a byte
        1 => near(NO_PLACE, random) + random.below(3),
        2 => needed + random.below(1000),
        3..7 => random.below(needed + 1),
        7..9 => near(thrown, random),
        _ => near(needed, random),
    }
}

fn place(thrown: usize, needed: usize, host: usize, random: &mut Random) -> usize {
    match random.below(20) {
        0..3 => NO_PLACE,
        3 => near(NO_PLACE, random),
        4 => near(RECORD_LIMIT, random),
        5 => random.pick(&FAR),
        6..9 => near(thrown, random),
        9..12 => near(needed, random),
        12..14 => near(host, random),
        14..16 => random.below(thrown + 1),
        16..18 => thrown + random.below(needed - thrown + 1),
        _ => random.below(host + 1),
    }
}

/// Mostly the right length, at times a little or much off.
fn length(right: usize, random: &mut Random) -> usize {
    match random.below(20) {
        0 => random.below(right),
        1 => right - 1,
        2 => right + 1,
        3..6 => right + random.below(300),
        _ => right,
    }
}

pub fn call(random: &mut Random) -> Call {
    let density = if random.chance(2) {
        random.byte()
    } else {
        random.below(2) as u8
    };
    let thrown = if random.chance(30) {
        random.byte()
    } else {
        random.pick(&[0, 0, 1, 2, 254, 255])
    };
    let count = count(random);
    let needed = thrown as usize + count;
    let host = host_length(thrown as usize, needed, random);
    let image = image_length(
        count,
        if density == 0 {
            Density::Mfm
        } else {
            Density::Gcr
        },
    );
    let space = length(image, random);
    let check = if random.chance(5) {
        length(CHECK_BYTES, random)
    } else {
        CHECK_BYTES
    };
    Call {
        density,
        thrown,
        count: count as u16,
        place: place(thrown as usize, needed, host, random),
        host: random.bytes(host),
        lent: Lent {
            space: random.bytes(space),
            check: random.bytes(check),
        },
    }
}
