//! Rules made wrong on purpose, one at a time, to show that the comparison notices each.

use crate::machine::{code, primary, report, Drive, Entry, Gap, Operation, OPERATIONS};

#[derive(Clone, Copy, Debug, PartialEq, Eq)]
pub enum Mutant {
    FourthNoGivesUp,
    ChangedClearedUnaccepted,
    CountValidLeft,
    DensityOfLastDrive,
    CountedUpward,
    CheckBlocketteNotCounted,
    SendMadeAnew,
    NoReviewAfterNack,
    EnableKeptAtCompletion,
    ScanRunsOn,
    TapeGoneUnnoticed,
    ThrownAwayNotMissed,
    OverflowAgainstCount,
    SecondaryKeptByReverseSkip,
    CheckStoreKeptByMark,
    ReviewAtEorOffer,
    ReviewBeforePrimary,
    // Reading with a supplied count.
    /// First operand byte 80 is code 02, as before.
    SuppliedNotKnown,
    /// Every first operand byte from 80 on will do.
    SuppliedByOneBit,
    /// It starts in MFM too.
    SuppliedInMfm,
    /// The density is that of the drive selected before.
    SuppliedDensityOfLastDrive,
    /// 04 before 02.
    SuppliedTestBeforeDecode,
    /// Tested as a rewind: the end of tape and the position do not count.
    SuppliedTestOfWind,
    /// Past the test secondary stays as it was.
    SuppliedSecondaryKept,
    /// The order begins with 40.
    SuppliedOrderOfRead,
    /// The listed codes are those of a read.
    SuppliedCodesOfRead,
    /// The mark flag goes with code 0, as in a read.
    SuppliedMarkFlag,
    /// The lengths, and the bytes delivered, go by the image's own count.
    SuppliedOwnCount,
    /// 0 supplied takes the two bytes of a record of 0 bytes.
    SuppliedNoneAsRecord,
    /// The first mark may have any value.
    SuppliedFirstMarkUnread,
    /// The first blockette is good if its mark says so.
    SuppliedFirstGoodKept,
    /// A bad first blockette is told with the mark that came.
    SuppliedFirstErrorKept,
    /// The first blockette is delivered as the image has it.
    SuppliedFirstDelivered,
    /// 256 zeros are delivered for a count below 256 too.
    SuppliedWholeFirst,
    /// 0 supplied and code 0 ends as 0.
    SuppliedNoneIsGood,
    /// 0 supplied and code 0 ends as 13 without a tape too.
    SuppliedNoneFirst,
    /// 0 supplied sets bits 21 and 22.
    SuppliedNoneTold,
    /// Bits 21 and 22 and secondary come with a used image only.
    SuppliedToldIfUsed,
    /// Bit 21 is never set.
    SuppliedBitMissing,
    /// Tertiary, quintary and check store are zeroed for a used image only.
    SuppliedCorrectionKept,
    /// The check store stays zeros.
    SuppliedChecksUnread,
    /// No EOR.
    SuppliedNoEor,
    // The retry bit.
    /// This entry of the table has its retry the other way round.
    RetryEntry(Operation, u8),
    /// This bit of primary counts where it must not, or does not count where it must.
    RetryBit(Operation, u8),
    /// 15 with check blockettes alone sets it.
    RetryChecksAlone(Operation),
    /// 15 with a data blockette leaves it clear.
    RetryDataBad(Operation),
    /// 16 leaves it clear.
    RetryStopped(Operation),
    /// An odd data blockette is taken for a check blockette.
    RetryOddUnread,
    /// An even one is.
    RetryEvenUnread,
    /// The first blockette of a record whose count is supplied is not data.
    RetryTornUnread,
    /// A bad check blockette beside a bad data blockette leaves it clear.
    RetryCheckExcuses,
    /// 7 in place of another code goes by the code that was reported.
    RetryBeforeTapeGone,
    /// 13 of a supplied 0 goes by the 0 that was reported.
    RetryBeforeNoneFound,
    /// A 10, 11 or 12 that the scan makes 15 goes by its own entry.
    RetryBeforeRecoverable,
    /// A 10, 11 or 12 that the scan makes 16 goes by its own entry.
    RetryBeforeUnrecoverable,
    /// Bits 16-20 count with code 0 only.
    RetryBitsWithGood,
    /// Late flag 1 of a skip leaves it clear whatever the code.
    RetryLateOneExcuses,
    /// Late flag 1 of a skip does not even set bit 19.
    RetryLateOneUntold,
    /// 01-04 have no entry, and leave it clear.
    RetryNotByStore,
    /// 05 has no entry, and leaves it clear.
    RetryNotByNoGo,
    // Records of 65,535 bytes.
    /// Here a count may not be above this one.
    LowLimit(Limited, usize),
    /// A supplied count above 16,384 takes an empty image with code 0.
    LongSuppliedEmpty,
    /// Secondary has the low fifteen bits of the count.
    LongCountCut,
    /// The image of an MFM record needs the space of a GCR record.
    LongMfmAsGcr,
    /// A write whose image does not fit is given up.
    LongWriteDropped,
    /// It zeroes the check store before it is refused.
    LongWriteClears,
    /// It is refused with 9.
    LongWriteIsLength,
    // Host parity errors.
    /// The bad byte is zero as well.
    PlaceZeroed,
    /// What comes after it is written as it came.
    PlaceNotZeroed,
    /// Its place is counted from the record's first byte.
    PlaceOfRecord,
    /// It is held to the count without the bytes thrown away.
    PlaceAgainstCount,
    /// It does not set bit 16.
    PlaceUntold,
    /// Bit 18 stands beside bit 16 where the host ran out.
    PlaceUnderflow,
    /// Bit 18 stands beside bit 16 where the bad byte is not the last.
    PlaceUnderflowByBad,
    /// A place past the bytes that the store needs sets bit 16.
    PlaceBehind,
    /// The place right behind them does.
    PlaceRightBehind,
    /// A place past them is refused.
    PlaceBehindRefused,
    /// A bad byte among those thrown away counts as none.
    PlaceThrownAwayIgnored,
    /// It sets bit 16, and the record is written as it came.
    PlaceThrownAwayKept,
    /// With count 0 nothing is bad.
    PlaceOfNoRecord,
    /// The place behind the last host byte is not refused.
    PlaceAtEnd,
    /// 65,535 stands for none.
    PlaceAtLimit,
    /// 65,791 is refused where the host bytes do not reach it.
    PlaceNoneOutside,
    /// 15 before 11.
    PlaceBeforeSpace,
    // The write guard.
    /// 0A and 0B are code 02, as before.
    GuardNotKnown,
    /// 0A sets it and 0B clears it.
    GuardExchanged,
    /// A reset by this way keeps it.
    GuardKept(Way),
    /// A reset sets it.
    GuardSetByReset,
    /// A store that selects a drive takes the guard of the last one along.
    GuardOfLastDrive,
    /// It is set on the drive that was selected before.
    GuardStoreOfLastDrive,
    /// That of drive 1 is set on drive 0.
    GuardOfDrive1OnDrive0,
    /// There is one for all drives.
    GuardOfAllDrives,
    /// This operation does not look at it though it must, or does though it must not.
    GuardTest(Operation),
    /// This gap is taken for a good one, or gap 0 for a bad one.
    GuardGap(Gap),
    /// This bit of the report lets a write through, in place of BOT warning.
    GuardBit(u8),
    /// BOT warning does nothing for it.
    GuardNoWarning,
    /// While it is set, the other conditions are not looked at.
    GuardAlone,
    /// It is tested at the data call of a write, and not at the store.
    GuardAtData,
    /// It is tested at the data call as well.
    GuardAtDataToo,
    /// A report without 32 clears it.
    GuardClearedByReport,
    /// A new track clears it.
    GuardClearedByTrack,
    /// A density clears it.
    GuardClearedByDensity,
    /// It holds until the next result of the drive.
    GuardClearedByResult,
    /// Its store loses the gap.
    GuardLosesGap,
    /// Its store needs a tape.
    GuardTested,
    /// Its store gives no interrupt.
    GuardStoreSilent,
    // The record of code, motion and count.
    /// A store that ends this way hands none back.
    RecordMissing(Way),
    /// A refused call hands back that of the last store.
    RecordByRefused,
    /// A result's has the count that secondary held before.
    RecordCountBefore,
    // Four jobs.
    /// Job 1 comes first at the start.
    JobsStartWith1,
    /// The turn begins with the last served job itself.
    JobsLastServedFirst,
    /// The turn always begins with job 0.
    JobsFromJob0,
    /// The turn goes downward.
    JobsDownward,
    /// An empty queue is not passed over: nothing is handed over.
    JobsEmptyNotPassed,
    /// A hand that is refused counts the job that it would have served.
    JobsServedByRefused,
    /// A hand that finds nothing passes the turn on.
    JobsServedByNothing,
    /// A queue holds nine.
    JobsNinthTaken,
    /// A queue holds seven.
    JobsEighthRefused,
    /// All queues together hold eight.
    JobsOneLimitForAll,
    /// A store handed over leaves a full queue full.
    JobsPlaceKept,
    /// A queue hands over its last store first.
    JobsLastInFirstOut,
    /// 17 before 16.
    JobsFullFirst,
    /// A job above 3 is counted over from 0.
    JobsWrapped,
    /// A store that names no drive is queued.
    JobsNoDriveQueued,
    /// A reset store is queued.
    JobsResetQueued,
    /// A reset store is queued where it names drive 4-7.
    JobsHighResetQueued,
    /// Any store that names drive 4-7 is refused.
    JobsHighDriveRefused,
    /// Stores are queued while idle only.
    JobsQueuedWhenIdle,
    /// A hand is not refused, whatever is under way.
    JobsHandedWhenBusy,
    /// A hand drops what was collected.
    JobsHandedWhenCollecting,
    /// A hand with nothing queued is never refused.
    JobsNothingWhenBusy,
    /// A hand with nothing queued reviews.
    JobsNothingReviewed,
    /// A hand reviews before its store.
    JobsReviewedFirst,
    /// A reset by this way empties the queues.
    JobsEmptied(Way),
    /// After a reset by this way job 0 comes first.
    JobsServedAnew(Way),
}

/// How a reset comes, or by which call a store ends.
#[derive(Clone, Copy, Debug, PartialEq, Eq)]
pub enum Way {
    Call,
    Taken,
    Hand,
    NoGo,
    Result,
}

/// What bears a count: a store, the image of a read or forward skip, that of a reverse skip.
#[derive(Clone, Copy, Debug, PartialEq, Eq)]
pub enum Limited {
    Write,
    Supplied,
    Image,
    ReverseSkip,
}

impl Mutant {
    /// The code by which a retry is judged.
    pub fn deciding(self, reported: u8, code: u8) -> u8 {
        match (self, code) {
            (Mutant::RetryBeforeTapeGone, code::TAPE_GONE)
            | (Mutant::RetryBeforeNoneFound, code::BLOCKETTE_NUMBER) => reported,
            (Mutant::RetryBeforeRecoverable, code::RECOVERABLE)
            | (Mutant::RetryBeforeUnrecoverable, code::UNRECOVERABLE)
                if reported != code::GOOD =>
            {
                reported
            }
            _ => code,
        }
    }

    /// Whether it turns round what the final code says of a retry.
    pub fn turns_code(self, operation: Operation, code: u8, data_bad: bool) -> bool {
        match self {
            Mutant::RetryEntry(row, listed) => (row, listed) == (operation, code),
            Mutant::RetryChecksAlone(row) => {
                row == operation && code == code::RECOVERABLE && !data_bad
            }
            Mutant::RetryDataBad(row) => row == operation && code == code::RECOVERABLE && data_bad,
            Mutant::RetryStopped(row) => row == operation && code == code::UNRECOVERABLE,
            _ => false,
        }
    }

    /// The bits of primary that count, where these are the right ones.
    pub fn counted(self, operation: Operation, code: u8, right: u32) -> u32 {
        match self {
            Mutant::RetryBit(row, number) if row == operation => {
                right ^ primary::bit(number as u32)
            }
            Mutant::RetryBitsWithGood if code != code::GOOD => 0,
            _ => right,
        }
    }

    /// Whether a drive passes the test of an operation.
    pub fn passes_test(self, operation: Operation, drive: &Drive) -> bool {
        let looks = match self {
            Mutant::GuardAtData => operation.is_recording() && operation != Operation::Write,
            _ => operation.is_recording() != (self == Mutant::GuardTest(operation)),
        };
        let bad_gap = (drive.gap != Gap::Proper) != (self == Mutant::GuardGap(drive.gap));
        let lets_through = match self {
            Mutant::GuardBit(bit) => bit,
            Mutant::GuardNoWarning => 0,
            _ => report::BOT_WARNING,
        };
        let guarded = drive.guard && bad_gap && !drive.reports(lets_through);
        let alone = self == Mutant::GuardAlone && looks && drive.guard;
        (alone || operation.passes_report(drive)) && !(looks && guarded)
    }

    /// Whether a bit of the outcome keeps the final code from asking a retry.
    pub fn excuses(self, operation: Operation, outcome: u32) -> bool {
        let late = outcome & primary::LATE_1 != 0;
        self == Mutant::RetryLateOneExcuses && operation.is_skip() && late
    }
}

/// All that decides about a retry, turned round one by one: each entry, what the scan's codes say,
/// and each bit that a session can set.
pub fn retry_turned_round() -> Vec<Mutant> {
    let mut mutants = Vec::new();
    for operation in OPERATIONS {
        // With a supplied count every final code asks a retry, so that nothing else shows.
        let supplied = operation == Operation::SuppliedCount;
        for code in 0..32 {
            let last = code != code::GOOD || !supplied;
            if operation.entry(code) != Entry::Never && last {
                mutants.push(Mutant::RetryEntry(operation, code));
            }
        }
        if !supplied {
            mutants.extend([19, 20].map(|bit| Mutant::RetryBit(operation, bit)));
        }
        if matches!(operation, Operation::Read | Operation::CheckBytes) {
            mutants.push(Mutant::RetryBit(operation, 17));
        }
        if operation == Operation::Write {
            mutants.push(Mutant::RetryBit(operation, 18));
        }
        if operation.reads_record() {
            mutants.push(Mutant::RetryChecksAlone(operation));
        }
        if operation.reads_record() || supplied {
            mutants.push(Mutant::RetryDataBad(operation));
            mutants.push(Mutant::RetryStopped(operation));
        }
    }
    mutants
}

/// Every place where a count may be long, with the limit that was, one bit less, and one byte less;
/// a line brings no whole image above 16,896 bytes.
pub fn limits_lowered() -> Vec<Mutant> {
    let mut mutants = vec![
        Mutant::LowLimit(Limited::Image, 16_384),
        Mutant::LowLimit(Limited::Image, 16_895),
    ];
    for place in [Limited::Write, Limited::Supplied, Limited::ReverseSkip] {
        for limit in [16_384, 32_767, 65_534] {
            mutants.push(Mutant::LowLimit(place, limit));
        }
    }
    mutants
}

/// All that decides about a guard, turned round one by one: which operations look at it, each gap,
/// and every bit of the report that could stand for BOT warning.
pub fn guards_turned_round() -> Vec<Mutant> {
    let gaps = [Gap::Proper, Gap::Improper, Gap::UnfinishedWrite, Gap::Lost];
    let bits = (0..8).map(|place| 1 << place);
    let mut mutants = gaps.map(Mutant::GuardGap).to_vec();
    // Check bytes have no test at all.
    let tested = OPERATIONS
        .into_iter()
        .filter(|operation| operation.moves_tape());
    mutants.extend(tested.map(Mutant::GuardTest));
    mutants.extend(
        bits.filter(|&bit| bit != report::BOT_WARNING)
            .map(Mutant::GuardBit),
    );
    mutants
}

/// Wrong rules of the place of a bad byte, which no session hands in.
pub const PLACES: [Mutant; 18] = [
    Mutant::PlaceZeroed,
    Mutant::PlaceNotZeroed,
    Mutant::PlaceOfRecord,
    Mutant::PlaceAgainstCount,
    Mutant::PlaceUntold,
    Mutant::PlaceUnderflow,
    Mutant::PlaceUnderflowByBad,
    Mutant::PlaceBehind,
    Mutant::PlaceRightBehind,
    Mutant::PlaceBehindRefused,
    Mutant::PlaceThrownAwayIgnored,
    Mutant::PlaceThrownAwayKept,
    Mutant::PlaceOfNoRecord,
    Mutant::PlaceAtEnd,
    Mutant::PlaceAtLimit,
    Mutant::PlaceNoneOutside,
    Mutant::PlaceBeforeSpace,
    // Bit 16 does not set bit 2.
    Mutant::RetryBit(Operation::Write, 16),
];

/// `--mutant N` counts from 1 in this order.
pub const MUTANTS: [Mutant; 107] = [
    Mutant::FourthNoGivesUp,
    Mutant::ChangedClearedUnaccepted,
    Mutant::CountValidLeft,
    Mutant::DensityOfLastDrive,
    Mutant::CountedUpward,
    Mutant::CheckBlocketteNotCounted,
    Mutant::SendMadeAnew,
    Mutant::NoReviewAfterNack,
    Mutant::EnableKeptAtCompletion,
    Mutant::ScanRunsOn,
    Mutant::TapeGoneUnnoticed,
    Mutant::ThrownAwayNotMissed,
    Mutant::OverflowAgainstCount,
    Mutant::SecondaryKeptByReverseSkip,
    Mutant::CheckStoreKeptByMark,
    Mutant::ReviewAtEorOffer,
    Mutant::ReviewBeforePrimary,
    Mutant::SuppliedNotKnown,
    Mutant::SuppliedByOneBit,
    Mutant::SuppliedInMfm,
    Mutant::SuppliedDensityOfLastDrive,
    Mutant::SuppliedTestBeforeDecode,
    Mutant::SuppliedTestOfWind,
    Mutant::SuppliedSecondaryKept,
    Mutant::SuppliedOrderOfRead,
    Mutant::SuppliedCodesOfRead,
    Mutant::SuppliedMarkFlag,
    Mutant::SuppliedOwnCount,
    Mutant::SuppliedNoneAsRecord,
    Mutant::SuppliedFirstMarkUnread,
    Mutant::SuppliedFirstGoodKept,
    Mutant::SuppliedFirstErrorKept,
    Mutant::SuppliedFirstDelivered,
    Mutant::SuppliedWholeFirst,
    Mutant::SuppliedNoneIsGood,
    Mutant::SuppliedNoneFirst,
    Mutant::SuppliedNoneTold,
    Mutant::SuppliedToldIfUsed,
    Mutant::SuppliedBitMissing,
    Mutant::SuppliedCorrectionKept,
    Mutant::SuppliedChecksUnread,
    Mutant::SuppliedNoEor,
    Mutant::RetryEntry(Operation::SkipForward, 0x0C),
    Mutant::RetryEntry(Operation::SkipForward, 0x0F),
    Mutant::RetryEntry(Operation::SkipForward, 0x12),
    Mutant::RetryEntry(Operation::Read, 0x10),
    Mutant::RetryEntry(Operation::SearchForward, 0x11),
    // The skip's row, or 001's rules, in place of its own.
    Mutant::RetryEntry(Operation::Read, 0x0C),
    Mutant::RetryEntry(Operation::SkipReverse, 0x0D),
    Mutant::RetryEntry(Operation::SkipForward, 0x0A),
    Mutant::RetryBit(Operation::SkipForward, 19),
    Mutant::RetryBit(Operation::SkipReverse, 19),
    Mutant::RetryBit(Operation::SkipForward, 20),
    Mutant::RetryBit(Operation::SkipReverse, 20),
    Mutant::RetryBit(Operation::SearchReverse, 19),
    Mutant::RetryChecksAlone(Operation::SkipForward),
    Mutant::RetryDataBad(Operation::SkipForward),
    Mutant::RetryOddUnread,
    Mutant::RetryEvenUnread,
    Mutant::RetryTornUnread,
    Mutant::RetryCheckExcuses,
    Mutant::RetryBeforeTapeGone,
    Mutant::RetryBeforeNoneFound,
    Mutant::RetryBeforeRecoverable,
    Mutant::RetryBeforeUnrecoverable,
    Mutant::RetryBitsWithGood,
    Mutant::RetryLateOneExcuses,
    Mutant::RetryLateOneUntold,
    Mutant::RetryNotByStore,
    Mutant::RetryNotByNoGo,
    Mutant::LowLimit(Limited::Write, 16_384),
    Mutant::LowLimit(Limited::Image, 16_384),
    Mutant::LongSuppliedEmpty,
    Mutant::LongCountCut,
    Mutant::LongMfmAsGcr,
    Mutant::LongWriteDropped,
    Mutant::LongWriteClears,
    Mutant::LongWriteIsLength,
    Mutant::GuardNotKnown,
    Mutant::GuardExchanged,
    Mutant::GuardKept(Way::Call),
    Mutant::GuardKept(Way::Taken),
    Mutant::GuardSetByReset,
    Mutant::GuardOfLastDrive,
    Mutant::GuardStoreOfLastDrive,
    Mutant::GuardOfDrive1OnDrive0,
    Mutant::GuardOfAllDrives,
    Mutant::GuardTest(Operation::Write),
    Mutant::GuardTest(Operation::WriteMark),
    Mutant::GuardTest(Operation::Erase),
    Mutant::GuardTest(Operation::Read),
    Mutant::GuardGap(Gap::Proper),
    Mutant::GuardGap(Gap::Improper),
    Mutant::GuardGap(Gap::UnfinishedWrite),
    Mutant::GuardGap(Gap::Lost),
    Mutant::GuardBit(report::BOT),
    Mutant::GuardNoWarning,
    Mutant::GuardAlone,
    Mutant::GuardAtData,
    Mutant::GuardAtDataToo,
    Mutant::GuardClearedByReport,
    Mutant::GuardClearedByTrack,
    Mutant::GuardClearedByDensity,
    Mutant::GuardClearedByResult,
    Mutant::GuardLosesGap,
    Mutant::GuardTested,
    Mutant::GuardStoreSilent,
];

/// Wrong rules that only sessions of jobs show; `--jobs --mutant N` counts from 1 in this order.
pub const JOB_MUTANTS: [Mutant; 34] = [
    Mutant::RecordMissing(Way::Taken),
    Mutant::RecordMissing(Way::Hand),
    Mutant::RecordMissing(Way::NoGo),
    Mutant::RecordMissing(Way::Result),
    Mutant::RecordByRefused,
    Mutant::RecordCountBefore,
    Mutant::JobsStartWith1,
    Mutant::JobsLastServedFirst,
    Mutant::JobsFromJob0,
    Mutant::JobsDownward,
    Mutant::JobsEmptyNotPassed,
    Mutant::JobsServedByRefused,
    Mutant::JobsServedByNothing,
    Mutant::JobsNinthTaken,
    Mutant::JobsEighthRefused,
    Mutant::JobsOneLimitForAll,
    Mutant::JobsPlaceKept,
    Mutant::JobsLastInFirstOut,
    Mutant::JobsFullFirst,
    Mutant::JobsWrapped,
    Mutant::JobsNoDriveQueued,
    Mutant::JobsResetQueued,
    Mutant::JobsHighResetQueued,
    Mutant::JobsHighDriveRefused,
    Mutant::JobsQueuedWhenIdle,
    Mutant::JobsHandedWhenBusy,
    Mutant::JobsHandedWhenCollecting,
    Mutant::JobsNothingWhenBusy,
    Mutant::JobsNothingReviewed,
    Mutant::JobsReviewedFirst,
    Mutant::JobsEmptied(Way::Call),
    Mutant::JobsEmptied(Way::Taken),
    Mutant::JobsServedAnew(Way::Call),
    Mutant::JobsServedAnew(Way::Taken),
];
