//! Writing and erasing: what is passed is gone, and what is cut or broken off stays as a scrap.

use super::{code, Answer, Transport, Wrong};
use crate::cartridge::{Segment, What, FIRST, GAP, LEAD, LOAD_POINT, PROPER};
use crate::faults::{Fault, Place, INCH};

/// An erase with this bit goes to the end of the tape.
const TO_THE_END: u16 = 0x8000;

impl Transport {
    pub(super) fn write(&mut self, track: usize, length: Place, what: What, answer: &mut Answer) {
        let from = self.place;
        let lead = if self.wrong == Some(Wrong::WritesTooEarly) { -GAP } else { LEAD };
        let start = if from < LOAD_POINT { FIRST } else { from + lead };
        let end = start + length;
        let mut drop_out = None;
        let chance = self.chance.in_thousand(self.chances.drop_out);
        if chance {
            self.by_chance[0] += 1;
            drop_out = Some(start + self.chance.below(length as u64) as Place);
        }
        for met in self.faults.iter_mut().filter(|met| met.is_on()) {
            if let Fault::DropOut { track: on, at, .. } = met.fault {
                if usize::from(on) == track && (start..end).contains(&at) {
                    met.times += 1;
                    drop_out = Some(drop_out.map_or(at, |other: Place| other.min(at)));
                }
            }
        }
        let to = drop_out.map_or(end + PROPER, |at| at.max(start + 1));
        let moved = self.travel(track, to, answer);
        let place = self.place;
        let fault = match moved {
            Err(code) => Some(code),
            Ok(()) if drop_out.is_some() && self.wrong != Some(Wrong::DropOutUntold) => Some(code::DROP_OUT),
            Ok(()) => None,
        };
        let Some(cartridge) = self.cartridge.as_mut().or(self.taken.as_mut()) else {
            return;
        };
        let track = &mut cartridge.tracks[track];
        // from before the load point all is erased up to the record
        let erased = if from < LOAD_POINT { 0 } else { from.min(start) };
        match fault {
            Some(code::LOAD_POINT_LATE) => answer.code = code::LOAD_POINT_LATE,
            Some(code) => {
                answer.code = code;
                track.erase(erased, place + GAP);
                if place > start {
                    track.put(Segment { start, length: place - start, what: What::Scrap });
                }
            }
            None => {
                track.erase(erased, end + GAP);
                let what = if drop_out.is_some() { What::Scrap } else { what };
                track.put(Segment { start, length, what });
                self.place = end + PROPER;
            }
        }
    }

    pub(super) fn erase(&mut self, track: usize, operand: u16, answer: &mut Answer) {
        let from = self.place;
        let length = self.cartridge.as_ref().map_or(0, |cartridge| cartridge.length);
        if operand == 0 {
            return;
        }
        let to_the_end = operand & TO_THE_END != 0;
        let to = match to_the_end {
            true => length,
            false => from.max(FIRST - LEAD) + Place::from(operand) * INCH,
        };
        match self.travel(track, to, answer) {
            Err(code::EOT) if to_the_end && self.place == length => {}
            // an end that is found early
            Err(code::EOT) if to_the_end => answer.code = code::END_LATE,
            Err(code) => answer.code = code,
            Ok(()) => {}
        }
        let place = self.place;
        if let Some(cartridge) = self.cartridge.as_mut().or(self.taken.as_mut()) {
            if answer.code != code::LOAD_POINT_LATE {
                cartridge.tracks[track].erase(from, place.max(from + 1));
            }
        }
    }
}
