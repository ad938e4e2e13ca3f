//! What several passes over a GCR record tell together: a blockette that one of them read well is known, and at most
//! one of each parity is restored from the check blockettes.

use super::Driver;
use crate::cartridge::{blockettes, BLOCKETTE};
use crate::host::Wrong;
use ctc_words::interface::{merge, restore, verify};

/// A blockette of which nothing is known counts as bad, with this mark.
const NOT_KNOWN: u8 = 9;
pub(super) const GOOD_MARK: u8 = 15;

/// What is known of a record: its image, and marks that tell which blockettes are known.
pub(super) type Pass = (Vec<u8>, Vec<u8>);

impl Driver {
    /// What a read with errors tells of a record of `count` bytes. A supplied count, `read_count`, reads its end.
    #[allow(clippy::too_many_arguments)]
    pub(super) fn pass(
        &self,
        count: usize,
        read_count: usize,
        delivered: &[u8],
        tertiary: u32,
        quintary: u32,
        checks: &[u8],
        unrestorable: bool,
    ) -> Pass {
        let marks = blockettes(count);
        let data = marks.saturating_sub(2);
        let first = data.saturating_sub(read_count.div_ceil(BLOCKETTE));
        let mut image = vec![0; 2 + BLOCKETTE * marks];
        image[..2].copy_from_slice(&(count as u16).rotate_right(1).to_be_bytes());
        let mut known = vec![NOT_KNOWN; marks];
        // blockettes count downward, the check blockettes 1 and 0 behind them
        let index = |kind: u8, number: u8| match kind {
            1 if self.wrong == Some(Wrong::CountedUpward) => Some(usize::from(number)),
            1 => (data - 1).checked_sub(usize::from(number)),
            2 if number < 2 => Some(data + 1 - usize::from(number)),
            _ => None,
        };
        let [odd, odd_number, even, even_number] = tertiary.to_be_bytes();
        let [_, _, stop, stop_number] = quintary.to_be_bytes();
        let end = match unrestorable {
            true => index(stop & 15, stop_number).unwrap_or(0),
            false => marks,
        };
        for place in first..end.min(marks) {
            let start = 2 + BLOCKETTE * place;
            if place < data {
                let from = BLOCKETTE * (place - first);
                let bytes = &delivered[from.min(delivered.len())..(from + BLOCKETTE).min(delivered.len())];
                image[start..start + bytes.len()].copy_from_slice(bytes);
            } else {
                let from = BLOCKETTE * (place - data);
                image[start..start + BLOCKETTE].copy_from_slice(&checks[from..from + BLOCKETTE]);
            }
            known[place] = GOOD_MARK;
        }
        let even = if self.wrong == Some(Wrong::EvenErrorIgnored) { 0 } else { even };
        for (digits, number) in [(odd, odd_number), (even, even_number)] {
            if let Some(place) = index(digits & 15, number) {
                if digits & 15 != 0 && place < marks {
                    known[place] = NOT_KNOWN;
                }
            }
        }
        (image, known)
    }

    /// What is known of a record after another pass.
    pub(super) fn merged(&self, gathered: Option<Pass>, pass: Pass) -> Pass {
        let Some((image, marks)) = gathered else {
            return pass;
        };
        if self.wrong == Some(Wrong::PassesForgotten) {
            return pass;
        }
        match merge((&image, &marks), (&pass.0, &pass.1)) {
            Ok(merged) => {
                self.count(|ledger| &mut ledger.merged);
                self.note("merged with what earlier passes had");
                merged
            }
            // two passes that cannot both be right: the last one is held to the checks
            Err(_) => {
                self.count(|ledger| &mut ledger.unlike);
                self.note("two passes are unlike; the earlier is dropped");
                pass
            }
        }
    }

    /// The record, where at most one blockette of each parity is not known, and all that is known fits its checks.
    pub(super) fn restored(&self, gathered: &mut Option<Pass>) -> Option<Vec<u8>> {
        let (image, marks) = gathered.as_ref()?;
        let record = restore(image, marks).ok()?;
        let unfit = verify(image).ok()?;
        // of a parity with a bad blockette the checks tell nothing; blockettes count downward to 0, the last on tape
        let all_good = |parity: usize| marks.iter().rev().skip(parity).step_by(2).all(|&mark| mark == GOOD_MARK);
        let fits = !(unfit.even && all_good(0) || unfit.odd && all_good(1));
        if fits || self.wrong == Some(Wrong::Unverified) {
            self.count(|ledger| &mut ledger.restored);
            self.note("restored by its check bytes");
            return Some(record);
        }
        self.count(|ledger| &mut ledger.unlike);
        self.note("the check bytes do not fit what was read; all passes are dropped");
        *gathered = None;
        None
    }
}
