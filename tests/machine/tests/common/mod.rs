//! A session that a test goes through line by line.
#![allow(dead_code)] // Each test file uses its part of this.

pub mod compared;

use machine::lines::Session;

pub struct Bench(pub Session);

impl Bench {
    pub fn new() -> Bench {
        Bench(Session::new(None))
    }

    /// A session of jobs, with tape in all drives.
    pub fn of_jobs() -> Bench {
        let mut bench = Bench(Session::of_jobs(None));
        for drive in 0..4 {
            bench.says(&format!("S,{drive},22"), "0,-,,,-");
        }
        bench
    }

    /// With tape in drive 0, ready for everything.
    pub fn ready() -> Bench {
        let mut bench = Bench::new();
        bench.says("S,0,22", "0,-,,");
        bench
    }

    pub fn line(&mut self, line: &str) -> String {
        let mut out = Vec::new();
        self.0.answer(line.as_bytes(), &mut out);
        assert_eq!(out.pop(), Some(b'\n'));
        String::from_utf8(out).unwrap()
    }

    #[track_caller]
    pub fn says(&mut self, line: &str, answer: &str) {
        let shown = &line[..line.len().min(60)];
        assert_eq!(self.line(line), answer, "to {shown}");
    }

    /// Each line with its answer behind ` > `, one pair a line.
    #[track_caller]
    pub fn talk(&mut self, pairs: &str) {
        for pair in pairs.lines().map(str::trim).filter(|pair| !pair.is_empty()) {
            let (line, answer) = pair.split_once(" > ").unwrap();
            self.says(line, answer);
        }
    }

    /// Sends a string with its check byte and has it ACKed.
    #[track_caller]
    pub fn string(&mut self, bytes: &[u8]) {
        for byte in bytes {
            self.says(&format!("B,{byte:02X}"), "0,-,,");
        }
        let check = bytes.iter().fold(0, |sum, byte| sum ^ byte);
        self.says(&format!("B,{check:02X}"), "0,A,06,");
    }

    /// A store carried out, and what its taken answers.
    #[track_caller]
    pub fn store(&mut self, address: u8, operand: u32) -> String {
        let [a, b, c, d] = operand.to_be_bytes();
        self.string(&[0x64, address, a, b, c, d, 0]);
        self.line("T")
    }

    /// The word that a load replies with; the reply is accepted.
    #[track_caller]
    pub fn load(&mut self, operation: u8) -> String {
        self.string(&[0x62, operation << 4, 0]);
        let reply = self.line("T");
        let word = reply.strip_prefix("0,P,66").unwrap()[..8].to_string();
        self.says("B,06", "0,-,,");
        word
    }

    #[track_caller]
    pub fn primary(&mut self) -> String {
        self.load(1)
    }

    /// The code field of primary.
    #[track_caller]
    pub fn code(&mut self) -> u32 {
        u32::from_str_radix(&self.primary(), 16).unwrap() >> 16 & 0x1F
    }

    /// Takes the changed bit away: a store that does nothing, with its interrupt accepted.
    #[track_caller]
    pub fn clear_changed(&mut self) {
        assert!(self.store(0x80 | 0x30, 0x08).starts_with("0,P,69"));
        self.says("B,06", "0,-,,");
        assert!(!self.0.machine.changed);
    }
}

/// A GCR image in hexadecimal.
pub fn gcr_image(record: &[u8]) -> String {
    hex(&gcr_bytes(record))
}

/// A GCR image, made without the machine's own builder.
pub fn gcr_bytes(record: &[u8]) -> Vec<u8> {
    let count = record.len() as u16;
    let mut image = count.rotate_right(1).to_be_bytes().to_vec();
    let n = record.len().div_ceil(256);
    let mut data = record.to_vec();
    data.resize(n * 256, 0);
    let mut checks = vec![0; 512];
    for (place, byte) in data.iter().enumerate() {
        let number = n - 1 - place / 256;
        checks[(1 - number % 2) * 256 + place % 256] ^= byte;
    }
    image.extend_from_slice(&data);
    if n > 0 {
        image.extend_from_slice(&checks);
    }
    image
}

pub fn hex(bytes: &[u8]) -> String {
    bytes.iter().map(|byte| format!("{byte:02X}")).collect()
}

/// Bytes that differ from place to place.
pub fn record(length: usize) -> Vec<u8> {
    (0..length)
        .map(|place| (place * 7 + place / 256 * 31 + 1) as u8)
        .collect()
}
