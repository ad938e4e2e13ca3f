//! Random sessions that go deep: the generator runs the machine, so it knows what is awaited.

use crate::jobs::{Store, JOBS, QUEUE_LIMIT};
use crate::lines::{write_hex, Session, HOST_LIMIT, IMAGE_LIMIT, MARKS_LIMIT};
use crate::machine::{
    address, code, link, report, Drive, Entry, Job, Operation, Phase, OPERATIONS,
};
use crate::records::{self, Density, BLOCKETTE, GOOD, RECORD_LIMIT, TORN};
use std::collections::VecDeque;

/// Xorshift with a multiplied output; the seed is stirred so that near seeds differ at once.
pub struct Random(u64);

impl Random {
    pub fn new(seed: u64) -> Random {
        let mut stirred = seed.wrapping_add(0x9E37_79B9_7F4A_7C15);
        stirred = (stirred ^ stirred >> 30).wrapping_mul(0xBF58_476D_1CE4_E5B9);
        stirred = (stirred ^ stirred >> 27).wrapping_mul(0x94D0_49BB_1331_11EB);
        Random((stirred ^ stirred >> 31).max(1))
    }

    pub fn number(&mut self) -> u64 {
        self.0 ^= self.0 >> 12;
        self.0 ^= self.0 << 25;
        self.0 ^= self.0 >> 27;
        self.0.wrapping_mul(0x2545_F491_4F6C_DD1D)
    }

    /// A number below `end`.
    pub fn below(&mut self, end: usize) -> usize {
        ((self.number() >> 32) as usize) % end
    }

    pub fn byte(&mut self) -> u8 {
        (self.number() >> 56) as u8
    }

    /// True `of_hundred` times in a hundred.
    pub fn chance(&mut self, of_hundred: usize) -> bool {
        self.below(100) < of_hundred
    }

    pub fn pick<T: Copy>(&mut self, from: &[T]) -> T {
        from[self.below(from.len())]
    }

    /// Random bytes, or one byte over and over, so that sums cancel now and then.
    pub fn bytes(&mut self, length: usize) -> Vec<u8> {
        if self.chance(10) {
            return vec![self.byte(); length];
        }
        let mut bytes = Vec::with_capacity(length + 8);
        while bytes.len() < length {
            bytes.extend_from_slice(&self.number().to_le_bytes());
        }
        bytes.truncate(length);
        bytes
    }
}

/// A result line before it is printed; spoiling changes its fields.
struct ResultLine {
    code: u8,
    mark: bool,
    late: usize,
    image: Vec<u8>,
    marks: Vec<u8>,
    space: usize,
}

impl ResultLine {
    fn print(&self) -> Vec<u8> {
        let ResultLine {
            code, mark, late, ..
        } = self;
        let mut line = format!("R,{code:02X},{},{late},", *mark as u8).into_bytes();
        write_hex(&self.image, &mut line);
        line.push(b',');
        write_hex(&self.marks, &mut line);
        line.extend_from_slice(format!(",{}", self.space).as_bytes());
        line
    }
}

pub struct Generator {
    random: Random,
    session: Session,
    /// Whether stores with a supplied count are made.
    supplied: bool,
    /// Whether jobs queue most of the stores.
    jobs: bool,
    /// Lines that were decided on together, such as the bytes of a string.
    planned: VecDeque<Vec<u8>>,
    /// Loads still to be made after a result, to see what it left.
    looks: usize,
    /// Whether the next of them is primary, which alone has the retry bit.
    look_at_primary: bool,
    /// A report to be taken back after so many lines, so that a review between shows.
    take_back: Option<(usize, Vec<u8>)>,
    answer: Vec<u8>,
}

impl Generator {
    pub fn new(seed: u64, supplied: bool) -> Generator {
        Generator::playing(seed, supplied, false)
    }

    pub fn of_jobs(seed: u64) -> Generator {
        Generator::playing(seed, true, true)
    }

    fn playing(seed: u64, supplied: bool, jobs: bool) -> Generator {
        let mut generator = Generator {
            random: Random::new(seed),
            session: if jobs {
                Session::of_jobs(None)
            } else {
                Session::new(None)
            },
            supplied,
            jobs,
            planned: VecDeque::new(),
            looks: 0,
            look_at_primary: false,
            take_back: None,
            answer: Vec::new(),
        };
        // Most sessions start with tape in most drives.
        for drive in 0..4 {
            if generator.random.chance(70) {
                let line = generator.good_report(drive);
                generator.planned.push_back(line);
            }
        }
        generator
    }

    /// The next line of the session, without its #0A.
    pub fn line(&mut self) -> Vec<u8> {
        let line = if let Some((0, line)) = &self.take_back {
            let line = line.clone();
            self.take_back = None;
            line
        } else if self.jobs && self.disturbed_by_jobs() {
            self.of_jobs_at_any_time()
        } else if self.random.below(50) == 0 {
            self.disturbance()
        } else if self.planned.is_empty() && self.may_show_review() && self.random.chance(6) {
            self.report_and_take_back(1)
        } else if let Some(line) = self.planned.pop_front() {
            line
        } else {
            self.sensible()
        };
        if let Some((lines, _)) = &mut self.take_back {
            *lines -= 1;
        }
        let before = self.session.machine.phase;
        self.answer.clear();
        self.session.answer(&line, &mut self.answer);
        // The counts and the check bytes are worth a look; winding and erasing leave none.
        if let Phase::ResultAwaited(job) = before {
            let moved = self.session.machine.phase != before;
            let bad = self.session.machine.code() >= code::RECOVERABLE;
            if moved && (bad || job.supplied().is_some()) {
                self.looks = 2;
            } else if moved && (job.operation.offers_eor() || job.operation.is_skip()) {
                self.looks = self.random.pick(&[0, 0, 1, 1, 2]);
            }
            // An interrupt shows primary anyway.
            if moved && !job.interrupt && self.random.chance(60) {
                self.looks = self.looks.max(1);
                self.look_at_primary = true;
            }
        }
        line
    }

    /// A line that suits the phase, most of the time.
    fn sensible(&mut self) -> Vec<u8> {
        match self.session.machine.phase {
            Phase::Collecting { length: 0, .. } => self.when_idle(),
            // The string's end got lost.
            Phase::Collecting { .. } => match self.random.below(4) {
                0 => b"X".to_vec(),
                _ => byte_line(self.random.byte()),
            },
            Phase::AckOffered { .. } => match self.random.below(50) {
                0 => b"X".to_vec(),
                1 => {
                    let byte = self
                        .random
                        .pick(&[link::ACK, link::NACK, link::LOAD, link::STORE]);
                    byte_line(byte)
                }
                2 => byte_line(self.random.byte()),
                _ => b"T".to_vec(),
            },
            Phase::Sending { .. } => self.when_sending(),
            Phase::GoOffered(_) => match self.random.below(20) {
                0 => b"X".to_vec(),
                1 | 2 => byte_line(self.no()),
                3 => self.data_line(300),
                _ => byte_line(link::ACK),
            },
            Phase::DataAwaited(job) => match self.random.below(20) {
                0 => self.stray(),
                // No data will do: only a reset goes on.
                1..=9 if !self.image_fits(job) => self.reset_and_look(),
                // The guard was looked at when the store was carried out, and is not again.
                10..=16 if self.selected().guard => self.gap_gone(),
                _ => {
                    let length = self.host_length(job);
                    self.data_line(length)
                }
            },
            Phase::ResultAwaited(job) => match self.random.below(40) {
                0 => self.stray(),
                1..=3 if job.operation.moves_tape() => self.tape_gone(),
                10 | 11 if job.supplied().is_some() || job.operation.is_skip() => self.tape_gone(),
                4..=9 if job.supplied().is_some() && self.random.chance(60) => {
                    let mut line = self.result_for(job);
                    self.spoil_supplied(job.count(), &mut line);
                    line.print()
                }
                4..=9 => {
                    let mut line = self.result_for(job);
                    self.spoil(&mut line);
                    line.print()
                }
                _ => self.result_for(job).print(),
            },
            Phase::EorOffered { .. } => match self.random.below(10) {
                0 => b"X".to_vec(),
                1 | 2 => byte_line(self.no()),
                _ => byte_line(link::ACK),
            },
        }
    }

    /// Whether the image of a write has room in the program's image space.
    fn image_fits(&self, job: Job) -> bool {
        records::image_length(job.count(), self.selected().density) <= IMAGE_LIMIT
    }

    fn selected(&self) -> &Drive {
        let machine = &self.session.machine;
        &machine.drives[machine.selected]
    }

    /// A reset and a look at the check bytes, which it keeps.
    fn reset_and_look(&mut self) -> Vec<u8> {
        if self.random.chance(60) {
            self.plan_check_bytes();
            self.planned.push_back(b"T".to_vec());
        }
        b"Z".to_vec()
    }

    fn plan_check_bytes(&mut self) {
        let drive = self.random.below(8) as u8;
        self.plan_string(vec![link::STORE, 0x40 | drive, 0x40, 0, 0, 0, 0]);
    }

    /// The tape goes while a result is awaited.
    fn tape_gone(&mut self) -> Vec<u8> {
        let gone = self.random.byte() & !report::INSTALLED;
        let drive = self.session.machine.selected;
        report_line(drive, if self.random.chance(50) { 4 } else { gone })
    }

    /// What would make a write refused if its guard were looked at now: the gap or the warning goes.
    fn gap_gone(&mut self) -> Vec<u8> {
        if self.random.chance(30) {
            self.tape_gone()
        } else {
            report_line(self.session.machine.selected, READY)
        }
    }

    fn when_idle(&mut self) -> Vec<u8> {
        if self.looks > 0 {
            self.looks -= 1;
            self.plan_look();
        } else if self.jobs && self.random.chance(60) {
            return self.of_jobs_when_idle();
        } else if !self.session.machine.changed && self.random.chance(15) {
            self.plan_review();
        } else if self.session.machine.enable && self.random.chance(30) {
            let line = self.any_report();
            self.planned.push_back(line);
            self.planned.push_back(b"K".to_vec());
        } else if self.gcr_drives() < 2 && self.random.chance(25) {
            // Resets make all drives MFM; the deeper rules are those of GCR.
            let drive = self.random.below(4);
            self.plan_control(drive, 0x0D);
        } else if let Some(line) = self.plan_anything() {
            return line;
        }
        self.planned.pop_front().unwrap_or_default()
    }

    fn gcr_drives(&self) -> usize {
        let drives = &self.session.machine.drives;
        drives
            .iter()
            .filter(|drive| drive.density == Density::Gcr)
            .count()
    }

    /// Something that shows what the last result left: a status word or the check bytes.
    fn plan_look(&mut self) {
        let drive = self.random.below(8) as u8;
        if self.look_at_primary {
            self.look_at_primary = false;
            self.plan_string(vec![link::LOAD, 0x10 | drive, 0]);
        } else if self.random.chance(15) {
            self.plan_check_bytes();
        } else {
            let operation: u8 = self.random.pick(&[1, 1, 2, 3, 5]);
            self.plan_string(vec![link::LOAD, operation << 4 | drive, 0]);
        }
    }

    /// A report, something that should or should not review it, and a look at the changed bit.
    fn plan_review(&mut self) {
        let drive = self.random.below(4);
        let before = report_line(drive, self.session.machine.drives[drive].report);
        let report = self.any_report();
        self.planned.push_back(report);
        let events: [&[&str]; 11] = [
            &["B,00"],
            &["B,15"],
            &["X"],
            &["K"],
            &["T"],
            &["B,62", "X"],
            &["B,62", "B,00", "B,00", "B,00"],
            &["B,62", "B,00", "B,00", "B,62", "B,06"],
            &["B,62", "B,00", "B,00", "B,62", "X"],
            &["B,62", "B,60", "B,00", "B,02", "T"],
            &[
                "B,64", "B,70", "B,00", "B,00", "B,00", "B,00", "B,00", "B,14", "T",
            ],
        ];
        for line in self.random.pick(&events) {
            self.planned.push_back(line.as_bytes().to_vec());
        }
        if self.random.chance(50) {
            self.planned.push_back(before);
        }
        self.plan_string(vec![link::LOAD, 0x10, 0]);
    }

    /// Plans a string, or gives a single line.
    fn plan_anything(&mut self) -> Option<Vec<u8>> {
        match self.random.below(600) {
            0..=429 => self.plan_store(),
            430..=479 => self.plan_load(),
            480..=529 => return Some(b"K".to_vec()),
            530..=549 => return Some(self.any_report()),
            550..=559 => {
                let byte = self
                    .random
                    .pick(&[link::NACK, link::ACK, 0, 0x63, 0x65, 0xFF]);
                return Some(byte_line(byte));
            }
            560..=569 => return Some(byte_line(self.random.byte())),
            570..=584 => return Some(self.stray()),
            585..=594 => return Some(self.unreadable()),
            595 => return Some(b"Z".to_vec()),
            _ => return Some(b"X".to_vec()),
        }
        None
    }

    /// Something that does not belong here but that may come at any time.
    fn disturbance(&mut self) -> Vec<u8> {
        match self.random.below(12) {
            0..=2 => self.any_report(),
            3..=5 => {
                let lines = 1 + self.random.below(3);
                self.report_and_take_back(lines)
            }
            6 | 7 => b"K".to_vec(),
            8 | 9 => self.unreadable(),
            _ => self.stray(),
        }
    }

    /// Whether a review that comes too early would set the changed bit.
    fn may_show_review(&self) -> bool {
        let machine = &self.session.machine;
        !machine.changed && !matches!(machine.phase, Phase::Collecting { .. })
    }

    /// A report that is taken back when so many lines have come between.
    fn report_and_take_back(&mut self, lines: usize) -> Vec<u8> {
        let drive = self.random.below(4);
        let before = self.session.machine.drives[drive].report;
        self.take_back = Some((lines + 1, report_line(drive, before)));
        // A bit that no test looks at, so that what goes on is not hindered.
        report_line(drive, before ^ report::EOT_WARNING)
    }

    /// A call out of phase, whatever the phase.
    fn stray(&mut self) -> Vec<u8> {
        match self.random.below(12) {
            0 | 1 => b"T".to_vec(),
            2 => b"X".to_vec(),
            3 => b"K".to_vec(),
            4 | 5 => self.data_line(20),
            6 | 7 => {
                let operation = self.random.pick(self.operations());
                let job = Job {
                    operation,
                    operand: [0; 4],
                    interrupt: false,
                };
                self.result_for(job).print()
            }
            8 if self.random.chance(20) => b"Z".to_vec(),
            9 => format!("S,{},22", 4 + self.random.below(252)).into_bytes(),
            // Needless zeros are readable.
            10 => format!("S,{:05},A2", self.random.below(6)).into_bytes(),
            _ => byte_line(self.random.byte()),
        }
    }

    /// The operations that stores may start.
    fn operations(&self) -> &'static [Operation] {
        match OPERATIONS.split_last() {
            Some((Operation::SuppliedCount, others)) if !self.supplied => others,
            _ => &OPERATIONS,
        }
    }

    // Strings -----------------------------------------------------------------------------------

    fn plan_load(&mut self) {
        let address = self.random.byte();
        let unused = self.random.pick(&[0, 0, 0xFF, link::LOAD]);
        self.plan_string(vec![link::LOAD, address, unused]);
    }

    fn plan_store(&mut self) {
        if self.supplied && self.random.chance(16) {
            return self.plan_supplied();
        }
        if self.random.chance(10) {
            return self.plan_guarded();
        }
        let operations = self.operations();
        let random = &mut self.random;
        let mut address = 0;
        let mut operand = [0; 4];
        if random.chance(40) {
            operand = [random.byte(), random.byte(), random.byte(), random.byte()];
        }
        if random.chance(45) {
            address |= 0x80;
        }
        let mut drive = self.session.machine.selected;
        match random.below(20) {
            0 => address |= 0x0C | random.below(4) as u8,
            1..=14 => {
                drive = random.below(4);
                address |= 0x08 | drive as u8;
            }
            // Not named: the low bits are not looked at.
            _ => address |= random.below(8) as u8,
        }
        let control = |operand: &mut [u8; 4], value| {
            operand[3] = value;
            3
        };
        let mut started = None;
        let operation = match random.below(100) {
            0..=2 => control(&mut operand, random.below(4) as u8),
            3 => control(&mut operand, 4 + random.below(4) as u8),
            4..=7 => control(&mut operand, 0x09),
            8 => control(&mut operand, 0x08),
            9 | 10 => control(&mut operand, 0x0C),
            11..=13 => control(&mut operand, 0x0D),
            14 => control(&mut operand, random.byte()),
            15 => random.pick(&[1, 2, 7]),
            16 => 4,
            17..=19 | 23 => {
                started = Some(Operation::Write);
                operand[2..].copy_from_slice(&long_count(random).to_be_bytes());
                5
            }
            20 if random.chance(30) => 0,
            21 => control(&mut operand, 0x0A),
            22 => control(&mut operand, 0x0B),
            other => {
                let operation = match other {
                    20..=39 => Operation::Read,
                    40..=48 => Operation::Write,
                    49..=61 => Operation::SkipForward,
                    62..=66 => Operation::SkipReverse,
                    67 => Operation::CheckBytes,
                    68..=74 => Operation::SearchForward,
                    75 | 76 => Operation::SearchReverse,
                    77..=79 => Operation::WriteMark,
                    _ => random.pick(operations),
                };
                started = Some(operation);
                match operation {
                    Operation::Read | Operation::CheckBytes => {
                        operand[0] = if operation == Operation::Read {
                            0
                        } else {
                            0x40
                        };
                        4
                    }
                    Operation::Write => {
                        let thrown_away = random.byte();
                        operand[1] = random.pick(&[0, 0, 0, 1, 2, 255, thrown_away]);
                        let short = operand[1] > 0 && random.chance(20);
                        let count = if short {
                            0
                        } else {
                            record_length(random) as u16
                        };
                        operand[2..].copy_from_slice(&count.to_be_bytes());
                        5
                    }
                    Operation::Erase => 6,
                    Operation::SuppliedCount => return self.plan_supplied(),
                    other => control(&mut operand, other.order()),
                }
            }
        };
        // Most operations are to start: the drive is made ready where it is not.
        if let Some(operation) = started {
            let state = self.session.machine.drives[drive];
            if !operation.passes_report(&state) && self.random.chance(75) {
                let line = self.good_report(drive);
                self.planned.push_back(line);
            } else if !operation.may_start(&state) && self.random.chance(60) {
                self.plan_control(drive, 0x0A);
            }
        }
        // Chance may have made one.
        if !self.supplied && operation == 4 && operand[0] == 0x80 {
            operand[0] = 0x81;
        }
        let unused = self.random.pick(&[0, 0, 0, 0x5A]);
        let address = address | operation << 4;
        self.plan_given(Store { address, operand }, unused);
    }

    /// A store that comes over the link or that a job queues.
    fn plan_given(&mut self, store: Store, unused: u8) {
        if self.jobs && self.waiting() < 3 * JOBS && self.random.chance(70) {
            let line = self.queued(store);
            self.planned.push_back(line);
            return;
        }
        let mut string = vec![link::STORE, store.address];
        string.extend_from_slice(&store.operand);
        string.push(unused);
        self.plan_string(string);
    }

    /// A read with a supplied count: mostly in GCR, with tape, and of a count that may be.
    fn plan_supplied(&mut self) {
        let mut drive = self.random.below(4);
        let named = self.random.chance(85);
        if !named {
            drive = self.session.machine.selected;
        }
        let state = self.session.machine.drives[drive];
        if state.density == Density::Mfm && self.random.chance(80) {
            self.plan_control(drive, 0x0D);
        }
        if !Operation::SuppliedCount.may_start(&state) && self.random.chance(75) {
            let line = self.good_report(drive);
            self.planned.push_back(line);
        }
        let random = &mut self.random;
        let mut address = 0x40
            | match named {
                true if random.chance(4) => 0x0C | random.below(4),
                true => 0x08 | drive,
                // The low bits are not looked at.
                false => random.below(8),
            } as u8;
        if random.chance(45) {
            address |= 0x80;
        }
        // Another byte than 80 asks nothing that is known.
        let first = match random.below(25) {
            0 => random.pick(&[0x81, 0x88, 0x90, 0xA0, 0xC0, 0xFF]),
            _ => 0x80,
        };
        let second = random.byte();
        let second = random.pick(&[0, 0, 0x80, second]);
        let count = match random.below(20) {
            0..=2 => 0,
            3 | 10 => long_count(random),
            // Enough blockettes for a scan to stop among them.
            4..=9 => 600 + random.below(2000) as u16,
            _ => record_length(random) as u16,
        };
        let [high, low] = count.to_be_bytes();
        let unused = random.pick(&[0, 0, 0, 0x5A]);
        let operand = [first, second, high, low];
        self.plan_given(Store { address, operand }, unused);
    }

    /// A gap of some kind, a guard, what may come between, and something that changes the tape.
    fn plan_guarded(&mut self) {
        let drive = self.random.below(4);
        self.planned.push_back(report_line(drive, READY));
        self.plan_gap(drive);
        let guard = 0x0A | self.random.chance(85) as u8;
        self.plan_control(drive, guard);
        let other = self.random.below(4);
        match self.random.below(16) {
            0 => self.planned.push_back(b"Z".to_vec()),
            1 => {
                self.plan_string(vec![link::STORE, other as u8, 0, 0, 0, 0, 0]);
                self.planned.push_back(b"T".to_vec());
            }
            2 | 3 => {
                let value = self.random.pick(&[0x0A, 0x0B]);
                self.plan_control(other, value);
            }
            4 => self.planned.push_back(report_line(drive, 0)),
            5 => {
                let value = self.random.pick(&[0, 1, 2, 3, 0x0C, 0x0D]);
                self.plan_control(drive, value);
            }
            6 | 7 => self.plan_gap(drive),
            _ => {}
        }
        let warning = report::BOT_WARNING;
        let hindrance = self.random.pick(&[report::PROTECTED, report::EOT]);
        let bits = match self.random.below(12) {
            0..=2 => 0,
            3 => hindrance,
            4..=6 => warning,
            7 | 8 => warning | hindrance,
            9 | 10 => report::BOT,
            _ => 1 << self.random.below(8),
        };
        self.planned.push_back(report_line(drive, READY ^ bits));
        let drive = if self.random.chance(85) { drive } else { other };
        let named = 0x08 | drive as u8;
        let count = self.random.below(4) as u8;
        let others = [Operation::FastForward, Operation::SkipReverse];
        let (address, value) = match self.random.below(14) {
            0..=4 => (0x50, count),
            5..=7 => (0x30, Operation::WriteMark.order()),
            8..=10 => (0x60, count),
            11 => (0x40, 0),
            _ => (0x30, self.random.pick(&others).order()),
        };
        self.plan_string(vec![link::STORE, address | named, 0, 0, 0, value, 0]);
        self.looks = 1;
        self.look_at_primary = true;
    }

    /// Brings a drive with tape to a gap of some kind.
    fn plan_gap(&mut self, drive: usize) {
        let mut moves = Vec::new();
        match self.random.below(7) {
            0 | 1 => moves.push((Operation::Rewind, code::GOOD)),
            2 => moves.push((Operation::SkipForward, 0x0A)),
            3 | 4 => {
                // A guard lets nothing out of a bad gap that could spoil it further.
                if self.session.machine.drives[drive].guard {
                    moves.push((Operation::Rewind, code::GOOD));
                }
                moves.push((Operation::WriteMark, 0x0B));
            }
            5 => {
                self.planned.push_back(report_line(drive, 0));
                self.planned.push_back(report_line(drive, READY));
            }
            _ => {}
        }
        for (operation, code) in moves {
            self.plan_control(drive, operation.order());
            let result = format!("R,{code:02X},0,0,,,0");
            self.planned.push_back(result.into_bytes());
        }
    }

    /// Plans a store to operation 3 that names the drive, and its taken.
    fn plan_control(&mut self, drive: usize, value: u8) {
        self.plan_string(vec![link::STORE, 0x38 | drive as u8, 0, 0, 0, value, 0]);
        self.planned.push_back(b"T".to_vec());
    }

    /// Plans the bytes with their check byte, now and then a wrong one or a break.
    fn plan_string(&mut self, mut string: Vec<u8>) {
        let check = string.iter().fold(0, |sum, byte| sum ^ byte);
        let wrong = self.random.chance(2);
        string.push(if wrong {
            check ^ 1 << self.random.below(8)
        } else {
            check
        });
        let broken_at = if self.random.chance(2) {
            self.random.below(string.len())
        } else {
            99
        };
        for (index, byte) in string.into_iter().enumerate() {
            if index == broken_at {
                self.planned.push_back(b"X".to_vec());
                return;
            }
            self.planned.push_back(byte_line(byte));
        }
    }

    // Jobs --------------------------------------------------------------------------------------

    /// What the dispatcher is asked while nothing else goes on: mostly to hand over.
    fn of_jobs_when_idle(&mut self) -> Vec<u8> {
        match self.random.below(24) {
            0..=3 if self.waiting() < 2 * JOBS => self.plan_burst(),
            5 => self.plan_full_queue(),
            6 => {
                // Neither the queues nor the turn go with a reset.
                if self.random.chance(50) {
                    self.planned.push_back(b"Z".to_vec());
                } else {
                    self.plan_string(vec![link::STORE, 0, 0, 0, 0, 0, 0]);
                    self.planned.push_back(b"T".to_vec());
                }
                self.planned.push_back(HAND.to_vec());
            }
            7 => return self.refused_store(),
            8..=11 if !self.session.machine.changed => {
                // A hand does not review.
                self.planned.push_front(HAND.to_vec());
                self.looks = 1;
                self.look_at_primary = true;
                return self.report_and_take_back(1);
            }
            12..=15 if self.waiting() == 0 => self.plan_burst(),
            _ => return HAND.to_vec(),
        }
        self.planned.pop_front().unwrap_or_default()
    }

    /// Seldom where strings are collected, which is most of the time.
    fn disturbed_by_jobs(&mut self) -> bool {
        let collecting = matches!(self.session.machine.phase, Phase::Collecting { .. });
        self.random.chance(if collecting { 4 } else { 12 })
    }

    /// Stores are queued, and handings refused, whatever goes on.
    fn of_jobs_at_any_time(&mut self) -> Vec<u8> {
        match self.random.below(20) {
            0..=7 => {
                let store = self.short_store();
                self.queued(store)
            }
            8 => self.refused_store(),
            9 | 10 => {
                let lines: Vec<&[u8]> = UNREADABLE_OF_JOBS.split(|&byte| byte == b'|').collect();
                self.random.pick(&lines).to_vec()
            }
            11 if self.random.chance(30) => b"Z".to_vec(),
            _ => HAND.to_vec(),
        }
    }

    /// How many stores are queued.
    fn waiting(&self) -> usize {
        let queues = &self.session.machine.queues.of_job;
        queues.iter().map(VecDeque::len).sum()
    }

    /// Some stores of some jobs.
    fn plan_burst(&mut self) {
        for _ in 0..1 + self.random.below(6) {
            let store = self.short_store();
            let line = self.queued(store);
            self.planned.push_back(line);
        }
    }

    /// As many stores of one job as its queue holds, one more or less, then one handed over and another queued.
    fn plan_full_queue(&mut self) {
        let job = self.random.below(JOBS);
        let there = self.session.machine.queues.of_job[job].len();
        let more = QUEUE_LIMIT - there + self.random.below(3);
        for _ in 0..more.saturating_sub(1) {
            let store = self.short_store();
            self.planned.push_back(queue_line(job, store));
        }
        if self.random.chance(30) {
            let line = self.refused_store();
            self.planned.push_back(line);
        }
        if self.random.chance(50) {
            self.planned.push_back(HAND.to_vec());
            let store = self.short_store();
            self.planned.push_back(queue_line(job, store));
        }
    }

    fn queued(&mut self, store: Store) -> Vec<u8> {
        let job = self.random.below(JOBS);
        // Needless zeros are readable.
        if self.random.chance(2) {
            let line = queue_line(job, store);
            return [b"Q,00", &line[2..]].concat();
        }
        queue_line(job, store)
    }

    /// A store that may be queued and takes few lines; its last bytes tell it from others.
    fn short_store(&mut self) -> Store {
        let random = &mut self.random;
        let [high, low] = [random.byte(), random.byte()];
        let small = random.below(4) as u8;
        let control = random.pick(&[0, 1, 3, 4, 8, 9, 0x0A, 0x0B, 0x0C, 0x0D, 0x0D, 0x10, 0x11]);
        let (operation, operand) = match random.below(16) {
            0..=4 => (4, [0, 0, high, low]),
            5 => (4, [0x40, 0, 0, 0]),
            6 | 7 => (5, [0, random.pick(&[0, 0, 1]), 0, small]),
            8 => (6, [0, 0, high, low]),
            9 => (random.pick(&[1, 2, 7]), [0, 0, high, low]),
            10 | 11 => (3, [0, 0, high, 0x20 | small]),
            12 => (4, [0x80, 0, 0, small]),
            _ => (3, [0, 0, high, control]),
        };
        let mut address = operation << 4 | address::NAMES_DRIVE | random.below(4) as u8;
        if random.chance(6) {
            address |= 4;
        }
        if random.chance(30) {
            address |= address::INTERRUPT;
        }
        Store { address, operand }
    }

    /// A store that no queue takes: of a job above 3, without a drive, or a reset, alone or together.
    fn refused_store(&mut self) -> Vec<u8> {
        let mut store = self.short_store();
        let mut job = self.random.below(JOBS);
        let full = &self.session.machine.queues.of_job;
        if let Some(of_full) = full.iter().position(|queue| queue.len() == QUEUE_LIMIT) {
            job = of_full;
        }
        let drive = store.address & address::DRIVE;
        match self.random.below(6) {
            0 => job = self.random.pick(&[4, 5, 6, 7, 8, 128, 255]),
            1 | 2 => store.address &= !address::NAMES_DRIVE,
            3 => store.address = address::NAMES_DRIVE | drive & 3,
            4 => store.address = address::NAMES_DRIVE | drive | 4,
            _ => store.address = drive,
        }
        queue_line(job, store)
    }

    // Sends -------------------------------------------------------------------------------------

    /// A number of noes, then acceptance, with a report between now and then.
    fn when_sending(&mut self) -> Vec<u8> {
        let noes = match self.random.below(20) {
            0..=14 => 0,
            15 => return b"X".to_vec(),
            16 => 5,
            17 => 4,
            _ => 1 + self.random.below(6),
        };
        for _ in 0..noes {
            if self.random.chance(15) {
                let line = self.any_report();
                self.planned.push_back(line);
            }
            let no = self.no();
            self.planned.push_back(byte_line(no));
        }
        if self.random.chance(10) {
            let line = self.any_report();
            self.planned.push_back(line);
        }
        let end = if self.random.chance(90) {
            byte_line(link::ACK)
        } else {
            b"X".to_vec()
        };
        self.planned.push_back(end);
        self.planned.pop_front().unwrap_or_default()
    }

    fn no(&mut self) -> u8 {
        let byte = self.random.byte();
        match self
            .random
            .pick(&[link::NACK, link::NACK, link::LOAD, link::STORE, 0, byte])
        {
            link::ACK => link::NACK,
            no => no,
        }
    }

    // Reports -----------------------------------------------------------------------------------

    fn good_report(&mut self, drive: usize) -> Vec<u8> {
        let warning = self
            .random
            .pick(&[0, 0, 0, report::EOT_WARNING, report::BOT_WARNING]);
        report_line(drive, READY | warning)
    }

    fn any_report(&mut self) -> Vec<u8> {
        let drive = self.random.below(4);
        match self.random.below(10) {
            0 => {
                let byte = self.random.byte();
                report_line(drive, byte)
            }
            1 => report_line(drive, self.random.pick(&[0, 2, report::POSITION_UNKNOWN])),
            // Ready but for one bit.
            2..=4 => {
                let bit = 1 << self.random.below(8);
                report_line(drive, READY ^ bit)
            }
            _ => self.good_report(drive),
        }
    }

    // Transfers ---------------------------------------------------------------------------------

    fn data_line(&mut self, length: usize) -> Vec<u8> {
        let bytes = self.random.bytes(length);
        let mut line = b"D,".to_vec();
        write_hex(&bytes, &mut line);
        line
    }

    /// Host bytes: what the write needs, or near it, or any length.
    fn host_length(&mut self, job: Job) -> usize {
        let needed = job.thrown_away() + job.count();
        // No line has all that it needs, so a short one mostly does.
        if job.count() > HOST_LIMIT && self.random.chance(90) {
            return self.random.below(300);
        }
        let length = match self.random.below(12) {
            0..=4 => needed,
            5 => needed.saturating_sub(1),
            6 => needed + 1,
            7 => job.thrown_away(),
            8 => job.thrown_away().saturating_sub(1),
            9 => self.random.below(needed + 1),
            10 => needed + self.random.below(300),
            _ => record_length(&mut self.random),
        };
        length.min(HOST_LIMIT)
    }

    /// A result that the machine takes for this job.
    fn result_for(&mut self, job: Job) -> ResultLine {
        if let Some(count) = job.supplied() {
            return self.supplied_result(count);
        }
        let density = self.selected().density;
        let random = &mut self.random;
        let operation = job.operation;
        let mut codes = operation.listed().to_vec();
        // Those that ask no retry are few among the others.
        let excused = |code: &u8| operation.entry(*code) == Entry::NoRetry;
        if random.chance(35) && codes[1..].iter().any(excused) {
            codes = codes[1..].iter().copied().filter(excused).collect();
        }
        let code = match random.below(10) {
            0..=2 => 0,
            3 if !operation.is_search() => 0,
            _ => random.pick(&codes),
        };
        let seeks = operation == Operation::Read || operation.is_skip();
        let mark = code == 0 && (operation.is_search() || seeks && random.chance(15));
        let mut line = ResultLine {
            code,
            mark,
            late: late(random, operation),
            image: Vec::new(),
            marks: Vec::new(),
            space: 0,
        };
        let mut wanted = if operation == Operation::CheckBytes {
            512
        } else {
            0
        };
        if operation.reads_record() && matches!(code, 0 | 0x10..=0x12) && !mark {
            let count = match density {
                // Enough blockettes for a scan to stop among them.
                Density::Gcr if random.chance(40) => 600 + random.below(2000),
                // More than the host has space for, up to the longest that a line brings.
                Density::Mfm if random.chance(6) => {
                    let any = HOST_LIMIT + 1 + random.below(IMAGE_LIMIT - 2 - HOST_LIMIT);
                    random.pick(&[HOST_LIMIT + 1, IMAGE_LIMIT - 2, any])
                }
                _ => record_length(random),
            };
            line.image = self.image(count, density);
            line.marks = self.marks(records::marks_length(count, density));
            let verdict = records::scan(&line.marks, None).verdict;
            wanted = records::readable(count, verdict);
        } else if operation == Operation::SkipReverse
            && density == Density::Gcr
            && code == 0
            && !mark
        {
            let count = match random.below(3) {
                0 => record_length(random) as u16,
                _ => long_count(random),
            };
            line.image = records::count_bytes(count).to_vec();
        }
        line.space = space(&mut self.random, wanted);
        line
    }

    /// A result of a read with a supplied count, whose own count may be anything. No line brings
    /// the image of a long one, so code 0 is refused there.
    fn supplied_result(&mut self, count: usize) -> ResultLine {
        let random = &mut self.random;
        let long = count > HOST_LIMIT;
        let mut line = ResultLine {
            code: if random.chance(if long { 25 } else { 65 }) {
                code::GOOD
            } else {
                random.pick(Operation::SuppliedCount.listed())
            },
            mark: false,
            late: late(random, Operation::SuppliedCount),
            image: Vec::new(),
            marks: Vec::new(),
            space: 0,
        };
        let mut wanted = 0;
        if line.code == code::GOOD && long {
            // Nothing, or a shorter record that says the count.
            let brought = self.random.pick(&[0, 1, count % HOST_LIMIT, 600]);
            if self.random.chance(50) {
                line.image = self.image(brought, Density::Gcr);
                line.marks = self.marks(records::marks_length(brought, Density::Gcr));
                line.image[..2].copy_from_slice(&records::count_bytes(count as u16));
            }
        } else if line.code == code::GOOD && count > 0 {
            line.image = self.image(count, Density::Gcr);
            line.marks = self.marks(records::marks_length(count, Density::Gcr));
            let random = &mut self.random;
            let any = random.below(65_536);
            let own_count = random.pick(&[count, count, 0, count ^ 1, count ^ 256, 65_535, any]);
            line.image[..2].copy_from_slice(&records::count_bytes(own_count as u16));
            if random.chance(40) {
                line.marks[0] = 1 + random.below(9) as u8;
            }
            let mut marks = line.marks.clone();
            marks[0] = TORN;
            wanted = records::readable(count, records::scan(&marks, None).verdict);
        }
        line.space = space(&mut self.random, wanted);
        line
    }

    /// A whole image, its check blockettes right or, since nobody compares them, any bytes.
    fn image(&mut self, count: usize, density: Density) -> Vec<u8> {
        let mut image = vec![0; IMAGE_LIMIT];
        let record = self.random.bytes(count);
        let length = records::build(&record, density, &mut image);
        image.truncate(length);
        if self.random.chance(30) {
            let spoilt = self.random.bytes(length - 2);
            image[2..].copy_from_slice(&spoilt);
        }
        image
    }

    /// Legal marks: none bad, one, one of each parity, two of one, check blockettes beside data or
    /// alone, many.
    fn marks(&mut self, length: usize) -> Vec<u8> {
        let mut marks = vec![GOOD; length];
        if length == 0 {
            return marks;
        }
        let random = &mut self.random;
        let first = random.below(length);
        let error = |random: &mut Random| 1 + random.below(9) as u8;
        match random.below(13) {
            0 | 1 => {}
            2 | 3 => marks[first] = error(random),
            4 => {
                marks[first] = error(random);
                let other = (first + 1) % length;
                marks[other] = error(random);
            }
            5 => {
                marks[first] = error(random);
                let other = if first + 2 < length {
                    first + 2
                } else {
                    first % 2
                };
                marks[other] = error(random);
            }
            6 | 12 => {
                marks[first] = error(random);
                let check = length - 1 - random.below(2);
                marks[check] = error(random);
            }
            7 | 8 => {
                let (from, to) = random.pick(&[(2, 1), (2, 0), (1, 0)]);
                for mark in &mut marks[length - from..length - to] {
                    *mark = error(random);
                }
            }
            9 | 10 => {
                let bad = 1 + random.below(5);
                for _ in 0..bad {
                    let place = random.below(length);
                    marks[place] = error(random);
                }
            }
            _ => {
                for mark in &mut marks {
                    if random.chance(50) {
                        *mark = error(random);
                    }
                }
            }
        }
        marks
    }

    /// Makes one field or two wrong, so that refusals 7 to 10 come alone and together.
    fn spoil(&mut self, line: &mut ResultLine) {
        let times = 1 + self.random.chance(25) as usize;
        for _ in 0..times {
            let random = &mut self.random;
            match random.below(18) {
                0 => line.code = random.byte(),
                1 => line.code = random.below(32) as u8,
                2 | 3 => line.mark = !line.mark,
                4 => line.late = 4 + random.below(252),
                5 => {
                    line.image.pop();
                }
                6 if line.image.len() < IMAGE_LIMIT => line.image.push(random.byte()),
                7 => line.image.clear(),
                8 => {
                    let length = 1 + random.below(4);
                    line.image = random.bytes(length);
                }
                // Another count than the length was made for.
                9 if line.image.len() >= 2 => {
                    let near = records::count_of(&line.image).unwrap_or(0);
                    let any = random.below(65_536);
                    let count = random.pick(&[16_385, 65_535, any, near ^ 1, near ^ 256]);
                    line.image[..2].copy_from_slice(&records::count_bytes(count as u16));
                }
                10 => {
                    line.marks.pop();
                }
                11 if line.marks.len() < MARKS_LIMIT => line.marks.push(GOOD),
                _ if !line.marks.is_empty() => {
                    let any = random.byte();
                    let place = random.below(line.marks.len());
                    line.marks[place] = random.pick(&[0, 10, 14, 16, 0xF0, 0xFF, any]);
                }
                _ => line.marks = random.bytes(1),
            }
        }
    }

    /// What would be right for a read, or for another count, and is wrong for a supplied one.
    fn spoil_supplied(&mut self, count: usize, line: &mut ResultLine) {
        match self.random.below(8) {
            0 => line.code = self.random.pick(Operation::Read.listed()),
            1 => line.mark = true,
            2 => {
                let space = line.space;
                *line = ResultLine {
                    code: code::GOOD,
                    mark: true,
                    late: 0,
                    image: Vec::new(),
                    marks: Vec::new(),
                    space,
                };
            }
            // A whole record of another count, which its own count tells.
            3 | 4 => {
                let any = record_length(&mut self.random);
                let less = count.saturating_sub(BLOCKETTE);
                let more = count + BLOCKETTE;
                let other = self.random.pick(&[any, less, more, 0]).min(HOST_LIMIT);
                line.code = code::GOOD;
                line.image = self.image(other, Density::Gcr);
                line.marks = self.marks(records::marks_length(other, Density::Gcr));
            }
            // An image with a code that brings none, or none with the code that brings one.
            5 if line.image.is_empty() => line.code = code::GOOD,
            5 => line.code = self.random.pick(&Operation::SuppliedCount.listed()[1..]),
            6 => line.marks.clear(),
            _ if !line.marks.is_empty() => {
                line.marks[0] = self.random.pick(&[TORN, 10, 14, 16, 0xFF]);
            }
            _ => line.marks = vec![GOOD; 2],
        }
    }

    // Unreadable lines --------------------------------------------------------------------------

    fn unreadable(&mut self) -> Vec<u8> {
        match self.random.below(10) {
            0..=4 => {
                let lines: Vec<&[u8]> = UNREADABLE.split(|&byte| byte == b'|').collect();
                self.random.pick(&lines).to_vec()
            }
            // One field of a result made unreadable.
            5..=7 => {
                let mut fields = ["R", "00", "0", "0", "8002AABBCCDDEE", "", "5"];
                let (field, with) = self.random.pick(&[
                    (1, ""),
                    (1, "0"),
                    (1, "000"),
                    (1, "1c"),
                    (2, ""),
                    (2, "2"),
                    (2, "-0"),
                    (3, ""),
                    (3, "256"),
                    (3, "1.0"),
                    (3, "0x1"),
                    (4, "8"),
                    (4, "800"),
                    (4, "80 2"),
                    (4, "8002aa"),
                    (5, "F"),
                    (5, "0f"),
                    (5, "15 "),
                    (6, ""),
                    (6, "16385"),
                    (6, "-1"),
                    (6, "5 "),
                    (6, "99999999999999999999"),
                    (6, "18446744073709551617"),
                ]);
                fields[field] = with;
                fields.join(",").into_bytes()
            }
            8 => {
                let over = 1 + self.random.below(3);
                let marks = "0F".repeat(MARKS_LIMIT + over);
                format!("R,00,0,0,,{marks},0").into_bytes()
            }
            _ => {
                // Over a limit by a byte or two; rare, since the lines are long.
                let over = 1 + self.random.below(2);
                match self.random.below(8) {
                    0 => self.data_line(HOST_LIMIT + over),
                    1 => {
                        let mut line = b"R,00,0,0,".to_vec();
                        let image = self.random.bytes(IMAGE_LIMIT + over);
                        write_hex(&image, &mut line);
                        line.extend_from_slice(b",,0");
                        line
                    }
                    // Bytes of any kind, but for the one that ends a line.
                    _ => {
                        let length = self.random.below(12);
                        let mut line = self.random.bytes(length);
                        line.retain(|&byte| byte != b'\n');
                        line
                    }
                }
            }
        }
    }
}

/// Lines parted by bars; the first is empty.
const UNREADABLE: &[u8] = b"|T,|T,06| T|T |T\r|t|TT|,T|T\0|X,|x|X,0|K,|k|KK|K\t|Z,|z|Z,00|\
B|B,|B,6|B,622|B,0x62|B,6a|B,6G|B,62,|B,62,00|B 62|B,62\r|B, 62|B,/0|B,:0|B,@0|b,62|B,\xFF\xFE|\
S|S,0|S,,22|S,256,22|S,-1,22|S,+1,22|S,0,2|S,0,222|S,0,22,|S,A,22|S, 0,22|\
S,99999999999999999999999,22|S,18446744073709551616,22|\
D|D,0|D,000|D,0g|D,AA,|D,AA,BB|D,aa|D,A A|Q|?|#K|\xEF\xBB\xBFK|\
R|R,|R,00,0,0,,|R,00,0,0,,,0,|R,,0,0,,,0";

/// The same of jobs.
const UNREADABLE_OF_JOBS: &[u8] = b"H,|h|HH|H | H|H\r|H,0|H,00|q,0,48,00000000|\
Q|Q,|Q,0|Q,0,48|Q,0,48,|Q,,48,00000000|Q,0,,00000000|Q,0,48,00000000,|Q,0,48,00000000,0|\
Q,256,48,00000000|Q,-1,48,00000000|Q,+1,48,00000000|Q,A,48,00000000|Q, 0,48,00000000|Q,0 ,48,00000000|\
Q,18446744073709551616,48,00000000|Q,99999999999999999999,48,00000000|\
Q,0,4,00000000|Q,0,048,00000000|Q,0,4a,00000000|Q,0,4G,00000000|Q,0,0x48,00000000|\
Q,0,48,0000000|Q,0,48,000000|Q,0,48,000000000|Q,0,48,0000000000|Q,0,48,0000000a|Q,0,48,0000000G|\
Q,0,48,0000 0000|Q,0,48,00,00,00,00|Q,0,48,00000000\r|Q,0,48, 00000000|#H|H#";

const HAND: &[u8] = b"H";

/// The report of a drive that passes every test.
const READY: u8 = report::INSTALLED | report::SELECTABLE;

fn byte_line(byte: u8) -> Vec<u8> {
    format!("B,{byte:02X}").into_bytes()
}

fn queue_line(job: usize, store: Store) -> Vec<u8> {
    let mut line = format!("Q,{job},{:02X},", store.address).into_bytes();
    write_hex(&store.operand, &mut line);
    line
}

fn report_line(drive: usize, report: u8) -> Vec<u8> {
    format!("S,{drive},{report:02X}").into_bytes()
}

/// Late flags, more of them in a skip, where 1 asks no retry.
fn late(random: &mut Random, operation: Operation) -> usize {
    if operation.is_skip() {
        random.pick(&[0, 0, 1, 1, 2, 2, 3])
    } else if random.chance(65) {
        0
    } else {
        1 + random.below(3)
    }
}

/// Host space: what is wanted, or near it, or any.
fn space(random: &mut Random, wanted: usize) -> usize {
    let space = match random.below(12) {
        0 => wanted.saturating_sub(1),
        1 => wanted + 1,
        2 => random.pick(&[0, 1, 255, 256, 257, 511, 512, 513]),
        3 => random.below(wanted + 1),
        4 => random.below(HOST_LIMIT + 1),
        5 => HOST_LIMIT,
        _ => wanted,
    };
    space.min(HOST_LIMIT)
}

/// Lengths around the edges of blockettes, with long ones seldom: a line brings their images.
fn record_length(random: &mut Random) -> usize {
    match random.below(40) {
        0..=2 => 0,
        3..=7 => 1,
        8..=13 => BLOCKETTE - 1 + random.below(3),
        14..=18 => 2 * BLOCKETTE - 1 + random.below(3),
        19..=21 => random.below(1000),
        22..=29 => 600 + random.below(1400),
        30 | 31 => 1024 + random.below(4000),
        32 if random.chance(25) => HOST_LIMIT - random.below(2),
        _ => random.below(40),
    }
}

/// Counts above those: around the longest MFM record that fits the program's image space, around the
/// edges of blockettes and of 15 and 16 bits, or any.
fn long_count(random: &mut Random) -> u16 {
    let first = HOST_LIMIT + 1;
    let fits = IMAGE_LIMIT - 2;
    let count = match random.below(12) {
        0 | 1 => first,
        2 | 10 => first + random.below(fits - first),
        3 => fits,
        4 => fits + 1,
        5 => 0x7FFF + random.below(2),
        6 | 7 => RECORD_LIMIT - random.below(2),
        8 | 9 => BLOCKETTE * (65 + random.below(192)) - 1 + random.below(3),
        _ => first + random.below(RECORD_LIMIT - HOST_LIMIT),
    };
    count.min(RECORD_LIMIT) as u16
}

/// A session of so many lines. The last #0A is left out in every second session.
pub fn session(seed: u64, lines: usize) -> Vec<u8> {
    write_session(Generator::new(seed, true), seed, lines)
}

/// The same without stores that supply a count, for a program that does not know them.
pub fn session_without_supplied(seed: u64, lines: usize) -> Vec<u8> {
    write_session(Generator::new(seed, false), seed, lines)
}

/// A session of jobs.
pub fn session_of_jobs(seed: u64, lines: usize) -> Vec<u8> {
    write_session(Generator::of_jobs(seed), seed, lines)
}

fn write_session(mut generator: Generator, seed: u64, lines: usize) -> Vec<u8> {
    let mut text = Vec::new();
    for _ in 0..lines {
        text.extend_from_slice(&generator.line());
        text.push(b'\n');
    }
    // An empty last line is one only if its #0A is there.
    if seed % 2 == 1 && !text.ends_with(b"\n\n") && text.len() > 1 {
        text.pop();
    }
    text
}
