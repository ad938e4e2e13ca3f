//! Random numbers by a seed (SplitMix64), so that a failing case can be run again.

use std::env;

pub struct Random {
    seed: u64,
    state: u64,
}

impl Random {
    /// The numbers of one test. RECORDS_SEED in the environment gives others; the test's own number
    /// keeps two tests from using the same ones.
    pub fn of_test(test: u64) -> Random {
        let seed = match env::var("RECORDS_SEED") {
            Ok(text) => text.parse().expect("RECORDS_SEED is a number"),
            Err(_) => 8000,
        };
        Random {
            seed,
            state: seed.wrapping_mul(1_000_003).wrapping_add(test),
        }
    }

    pub fn word(&mut self) -> u64 {
        self.state = self.state.wrapping_add(0x9E37_79B9_7F4A_7C15);
        let mut z = self.state;
        z = (z ^ (z >> 30)).wrapping_mul(0xBF58_476D_1CE4_E5B9);
        z = (z ^ (z >> 27)).wrapping_mul(0x94D0_49BB_1331_11EB);
        z ^ (z >> 31)
    }

    /// A number from `low` to `high`, both included.
    pub fn between(&mut self, low: usize, high: usize) -> usize {
        low + (self.word() % (high - low + 1) as u64) as usize
    }

    pub fn byte(&mut self) -> u8 {
        self.word() as u8
    }

    pub fn bytes(&mut self, length: usize) -> Vec<u8> {
        let mut bytes = Vec::with_capacity(length + 8);
        while bytes.len() < length {
            bytes.extend(self.word().to_le_bytes());
        }
        bytes.truncate(length);
        bytes
    }

    /// A mark that is an error.
    pub fn error(&mut self) -> u8 {
        self.between(1, 9) as u8
    }
}

impl Drop for Random {
    fn drop(&mut self) {
        if std::thread::panicking() {
            eprintln!("failed with RECORDS_SEED={}", self.seed);
        }
    }
}
