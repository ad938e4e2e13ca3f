//! Passing over what lies on a track, forward and in reverse: what is found, and what a fault makes of it.

use super::{code, operation, Answer, Order, Seen, Transport, Wrong, GOOD_MARK};
use crate::cartridge::{
    blockettes, byte_place, image_count, Image, Segment, What, BLOCKETTE, GCR, IMPROPER, LEAD, LOAD_POINT, MFM, PROPER,
};
use crate::faults::{Fault, Place, INCH};

/// How much erased tape is passed before a record must have come.
const SYNC_LIMIT: Place = 25 * INCH;

impl Transport {
    /// Reads, skips or searches forward over the next object.
    pub(super) fn forward(&mut self, track: usize, order: Order, answer: &mut Answer) {
        let begin = self.place.max(LOAD_POINT);
        let ahead = self.track(track).ahead(self.place);
        let within = |segment: &Segment| segment.start <= begin + SYNC_LIMIT;
        let found =
            ahead.map(|index| (index, &self.track(track).segments[index])).filter(|(_, segment)| within(segment));
        let Some((object, start, end)) = found.map(|(index, segment)| (index, segment.start, segment.end())) else {
            answer.code = self.travel(track, begin + SYNC_LIMIT, answer).err().unwrap_or(code::SYNC_LATE);
            return;
        };
        let before = self.place;
        let torn_in = start < before;
        if let Err(code) = self.travel(track, end + PROPER, answer) {
            answer.code = code;
            return;
        }
        if torn_in {
            answer.code = code::IDENTIFICATION_LATE;
        } else {
            match &self.track(track).segments[object].what {
                What::Scrap => answer.code = code::IDENTIFICATION_BAD,
                What::Mark => answer.mark = true,
                What::Record { density, .. } if *density != order.density => answer.code = code::IDENTIFICATION_BAD,
                What::Record { .. } => self.pass(track, object, (start, end), order, answer),
            }
        }
        if order.operation == operation::READ_SUPPLIED && (answer.mark || answer.code != code::GOOD) {
            answer.mark = false;
            if !matches!(answer.code, code::BLOCKETTE_NUMBER | code::GAP_UNEXPECTED) {
                answer.code = code::SUPPLIED_NOT_FOUND;
            }
        }
        if answer.code == code::GAP_UNEXPECTED && self.wrong == Some(Wrong::GapStays) {
            self.place = before;
        } else if answer.code != code::GOOD {
            self.place += IMPROPER - PROPER;
        }
    }

    /// Passes over a record that was recognized, from its start to its end. Its image and marks go to the answer where
    /// the code lets them.
    fn pass(&mut self, track: usize, object: usize, lies: (Place, Place), order: Order, answer: &mut Answer) {
        let density = order.density;
        let supplied = order.operation == operation::READ_SUPPLIED;
        let search = order.operation == operation::SEARCH_FORWARD;
        if self.finds_gap(track, object) {
            answer.code = code::GAP_UNEXPECTED;
            return;
        }
        if let (Some(code), false) = (self.torn(track, object, lies.0, density), supplied) {
            // a search looks at no count
            answer.code = if search { code::IDENTIFICATION_BAD } else { code };
            return;
        }
        let What::Record { image, .. } = &self.track(track).segments[object].what else {
            return;
        };
        if search {
            return;
        }
        let mut read = image.clone();
        let mut marks = if density == GCR { vec![GOOD_MARK; blockettes_of(&read)] } else { Vec::new() };
        let silent = self.silence(track, object, density, &mut read);
        let spoiled = self.spoil(track, object, lies, &mut read, &mut marks, density);
        // a skip gives the host nothing of what it passes
        if self.keeps && order.operation != operation::SKIP_FORWARD {
            let count = if supplied { usize::from(order.operand) } else { image_count(&read).unwrap_or(0) };
            let first = marks.len().saturating_sub(blockettes(count));
            self.passes.push(Seen {
                track: track as u8,
                object,
                density,
                code: if spoiled && density == MFM { code::CRC_BAD } else { code::GOOD },
                late: false,
                first,
                supplied,
                marks: marks.get(first..).unwrap_or(&[]).to_vec(),
                silent,
            });
        }
        if spoiled && density == MFM {
            answer.code = code::CRC_BAD;
            return;
        }
        if self.wrong == Some(Wrong::MarksReversed) {
            marks.reverse();
        }
        if supplied {
            match tail_of(&read, &marks, usize::from(order.operand), self.wrong) {
                Ok((image, tail)) => {
                    answer.image = image.into();
                    answer.marks = tail;
                }
                Err(code) => answer.code = code,
            }
            return;
        }
        for met in self.faults.iter_mut() {
            if let Fault::Trailing { track: on, object: number, code } = met.fault {
                // the reverse count belongs to GCR
                if (usize::from(on), number) == (track, object) && (density == GCR || code != code::REVERSE_COUNT_BAD) {
                    met.times += 1;
                    answer.code = code;
                }
            }
        }
        answer.image = read;
        answer.marks = marks;
    }

    /// Whether the drive takes a place within a record for a gap.
    fn finds_gap(&mut self, track: usize, object: usize) -> bool {
        let at = |on: u8, number: usize| (usize::from(on), number) == (track, object);
        let found = self.meets(|fault| matches!(fault, Fault::Gap { track, object, .. } if at(*track, *object)));
        let by_chance = self.chance.in_thousand(self.chances.gap);
        self.by_chance[5] += u32::from(by_chance);
        found || by_chance
    }

    /// The code of a record whose beginning is not to be had.
    fn torn(&mut self, track: usize, object: usize, start: Place, density: u8) -> Option<u8> {
        let mut found = None;
        for met in self.faults.iter_mut() {
            match met.fault {
                Fault::Torn { track: on, object: number, code } if (usize::from(on), number) == (track, object) => {
                    met.times += 1;
                    found = Some(code);
                }
                Fault::Stretched { track: on, from, to, chance }
                    if usize::from(on) == track
                        && (from..to).contains(&start)
                        && self.chance.below(400) < u64::from(chance) =>
                {
                    met.times += 1;
                    found = Some(code::COUNT_BAD);
                }
                _ => {}
            }
        }
        if self.chance.in_thousand(self.chances.torn) {
            self.by_chance[1] += 1;
            found = Some(if density == GCR { code::COUNT_BAD } else { code::IDENTIFICATION_LATE });
        }
        found
    }

    /// Changes a byte that no mark tells of. In MFM the CRC would tell.
    fn silence(&mut self, track: usize, object: usize, density: u8, image: &mut Image) -> bool {
        let mut changed = false;
        if density == MFM {
            return false;
        }
        for met in self.faults.iter_mut().filter(|met| met.is_on()) {
            if let Fault::Silent { track: on, object: number, byte, .. } = met.fault {
                if (usize::from(on), number) == (track, object) && byte >= 2 && byte < image.len() {
                    met.times += 1;
                    image.own()[byte] ^= 0x5A;
                    changed = true;
                }
            }
        }
        if image.len() > 2 && self.chance.in_thousand(self.chances.silent) {
            self.by_chance[4] += 1;
            let byte = 2 + self.chance.below(image.len() as u64 - 2) as usize;
            image.own()[byte] ^= 1 + self.chance.below(255) as u8;
            changed = true;
        }
        changed
    }

    /// Spoils what this pass reads badly, and marks it. Says whether anything was.
    fn spoil(
        &mut self,
        track: usize,
        object: usize,
        lies: (Place, Place),
        image: &mut Image,
        marks: &mut [u8],
        density: u8,
    ) -> bool {
        let mut spoiled = false;
        if self.faults.is_empty() && self.chances.bad == 0 {
            return false;
        }
        // in MFM the whole record is one piece
        let pieces = if density == GCR { marks.len() } else { 1 };
        let piece_place = |piece: usize| match density {
            MFM => lies,
            _ => {
                let at = |piece: usize| lies.0 + byte_place(2 + BLOCKETTE * piece, GCR);
                (at(piece), at(piece + 1))
            }
        };
        for piece in 0..pieces {
            let (from, to) = piece_place(piece);
            let mut mark = None;
            for met in self.faults.iter_mut() {
                match met.fault {
                    Fault::Stretched { track: on, from: start, to: end, chance }
                        if usize::from(on) == track
                            && start < to
                            && from < end
                            && self.chance.below(100) < u64::from(chance) =>
                    {
                        met.times += 1;
                        mark = Some(1 + self.chance.below(9) as u8);
                    }
                    Fault::Bad { track: on, object: number, blockette, mark: bad }
                        if (usize::from(on), number) == (track, object) && (blockette == piece || density == MFM) =>
                    {
                        met.times += 1;
                        mark = Some(bad);
                    }
                    _ => {}
                }
            }
            if self.chance.in_thousand(self.chances.bad) {
                self.by_chance[2] += 1;
                mark = Some(1 + self.chance.below(9) as u8);
            }
            if let Some(mark) = mark {
                spoiled = true;
                if density == GCR {
                    let start = 2 + BLOCKETTE * piece;
                    for byte in &mut image.own()[start..start + BLOCKETTE] {
                        *byte ^= self.chance.next() as u8;
                    }
                    if self.wrong != Some(Wrong::MarkLost) {
                        marks[piece] = mark;
                    }
                }
            }
        }
        spoiled
    }

    /// Skips or searches back over the object before.
    pub(super) fn reverse(&mut self, track: usize, order: Order, answer: &mut Answer) {
        let from = self.place;
        let behind = self.track(track).behind(from);
        let within = |segment: &Segment| segment.end() >= from - SYNC_LIMIT;
        let found =
            behind.map(|index| (index, &self.track(track).segments[index])).filter(|(_, segment)| within(segment));
        let Some((object, start, end)) = found.map(|(index, segment)| (index, segment.start, segment.end())) else {
            answer.code = self.travel(track, from - SYNC_LIMIT, answer).err().unwrap_or(code::SYNC_LATE);
            return;
        };
        let stop = if self.wrong == Some(Wrong::ReverseStays) { end + 1 } else { start - LEAD };
        if let Err(code) = self.travel(track, stop, answer) {
            answer.code = code;
            return;
        }
        if end > from {
            answer.code = code::IDENTIFICATION_LATE;
            return;
        }
        let tells = order.operation == operation::SKIP_REVERSE && order.density == GCR;
        match &self.track(track).segments[object].what {
            What::Scrap => answer.code = code::IDENTIFICATION_BAD,
            What::Mark => answer.mark = true,
            What::Record { density, .. } if *density != order.density => answer.code = code::IDENTIFICATION_BAD,
            What::Record { image, .. } if tells => {
                let mut count = [image[0], image[1]];
                if self.wrong == Some(Wrong::CountUnrotated) {
                    count = u16::from_be_bytes(count).rotate_left(1).to_be_bytes();
                }
                if self.reverse_count_bad(track, object, end) {
                    answer.code = code::COUNT_BAD;
                } else {
                    answer.image = count.to_vec().into();
                }
            }
            What::Record { .. } => {}
        }
    }

    fn reverse_count_bad(&mut self, track: usize, object: usize, end: Place) -> bool {
        let mut bad = false;
        for met in self.faults.iter_mut() {
            match met.fault {
                Fault::Trailing { track: on, object: number, code: code::REVERSE_COUNT_BAD }
                    if (usize::from(on), number) == (track, object) =>
                {
                    met.times += 1;
                    bad = true;
                }
                Fault::Stretched { track: on, from, to, chance }
                    if usize::from(on) == track
                        && (from..to).contains(&end)
                        && self.chance.below(400) < u64::from(chance) =>
                {
                    met.times += 1;
                    bad = true;
                }
                _ => {}
            }
        }
        bad
    }
}

fn blockettes_of(image: &[u8]) -> usize {
    blockettes(image_count(image).unwrap_or(0))
}

/// What a supplied count reads of a record: from the second blockette of that count on, by its number. What stands for
/// the first is not looked at.
fn tail_of(image: &[u8], marks: &[u8], count: usize, wrong: Option<Wrong>) -> Result<(Vec<u8>, Vec<u8>), u8> {
    if count == 0 {
        return Err(code::BLOCKETTE_NUMBER);
    }
    let wanted = blockettes(count);
    let held = marks.len();
    if held == 0 || wanted > held + 1 {
        return Err(code::SUPPLIED_NOT_FOUND);
    }
    let mut read = (count as u16).rotate_right(1).to_be_bytes().to_vec();
    read.extend([0; BLOCKETTE]);
    let skipped = if wrong == Some(Wrong::SuppliedFromStart) { 1.min(held + 1 - wanted) } else { held + 1 - wanted };
    read.extend(&image[2 + BLOCKETTE * skipped..]);
    read.truncate(2 + BLOCKETTE * wanted);
    read.resize(2 + BLOCKETTE * wanted, 0);
    let mut tail = vec![1];
    tail.extend(&marks[skipped..]);
    tail.truncate(wanted);
    Ok((read, tail))
}
