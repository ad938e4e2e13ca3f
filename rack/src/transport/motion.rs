//! How the tape moves, and what stops it: both ends, faults on the way, and a report wherever a bit changes.

use super::{code, Answer, Moved, Transport, Wrong};
use crate::cartridge::{FIRST, LOAD_POINT, TRACKS};
use crate::faults::{Fault, Place, INCH};

impl Transport {
    /// Puts the report among the answer's where it is another one.
    pub(super) fn tell(&mut self, answer: &mut Answer) {
        let report = self.report();
        if report != self.last_report {
            self.last_report = report;
            answer.reports.push(report);
        }
    }

    /// Moves the tape to a place, with a report where a bit changes on the way. What stops it gives its code.
    pub(super) fn travel(&mut self, track: usize, to: Place, answer: &mut Answer) -> Moved {
        let from = self.place;
        let Some(cartridge) = &self.cartridge else {
            return Err(code::TAPE_GONE);
        };
        let length = cartridge.length;
        let forward = to > from;
        if forward && from < LOAD_POINT && self.meets(|fault| matches!(fault, Fault::LoadPointLate { .. })) {
            self.place = LOAD_POINT + INCH;
            self.tell(answer);
            return Err(code::LOAD_POINT_LATE);
        }
        // the nearest of what may stop it
        let (mut stop, mut stopped) = (to, None);
        if to >= length && self.wrong != Some(Wrong::EndPassed) {
            (stop, stopped) = (length, Some(code::EOT));
        } else if to < 0 {
            (stop, stopped) = (0, Some(code::BOT));
        }
        let mut meeting = None;
        for (index, met) in self.faults.iter().enumerate().filter(|(_, met)| met.is_on()) {
            let on_way = |at: Place| if forward { from < at && at <= stop } else { stop <= at && at < from };
            match met.fault {
                Fault::EarlyEnd { at, .. } if forward && on_way(at) => {
                    (stop, stopped, meeting) = (at, Some(code::EOT), Some(index));
                }
                Fault::Gone { track: on, at } if (usize::from(on) == track || track == TRACKS) && on_way(at) => {
                    (stop, stopped, meeting) = (at, Some(code::TAPE_GONE), Some(index));
                }
                _ => {}
            }
        }
        if let Some(index) = meeting {
            self.faults[index].times += 1;
        }
        self.at_end = false;
        if self.known {
            let mut between = [1, LOAD_POINT, length - LOAD_POINT];
            if !forward {
                between.reverse();
            }
            for at in between {
                if from.min(stop) < at && at < from.max(stop) {
                    self.place = if forward { at } else { at - 1 };
                    self.tell(answer);
                }
            }
        }
        self.place = stop;
        self.at_end = stopped == Some(code::EOT);
        if stopped == Some(code::TAPE_GONE) {
            self.taken = self.cartridge.take();
            self.known = false;
            self.at_end = false;
            if self.wrong == Some(Wrong::GoneUnreported) {
                self.last_report = self.report();
            }
        }
        self.tell(answer);
        stopped.map_or(Ok(()), Err)
    }

    pub(super) fn wind(&mut self, to: Place, answer: &mut Answer) {
        if self.meets(|fault| matches!(fault, Fault::EndLate { .. })) {
            answer.code = code::END_LATE;
            return;
        }
        let length = self.cartridge.as_ref().map_or(0, |cartridge| cartridge.length);
        let short = if self.wrong == Some(Wrong::RewindShort) { FIRST + INCH } else { 0 };
        let to = if to == 0 { short } else { length };
        // winding passes over all tracks
        match self.travel(TRACKS, to, answer) {
            Err(code::TAPE_GONE) => answer.code = code::TAPE_GONE,
            // an end that is found early is not the one that is looked for
            Err(code::EOT) if self.place < length => answer.code = code::END_LATE,
            _ => self.known = true,
        }
    }
}
