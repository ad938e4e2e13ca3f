//! Driver against tape: document 02's twelfth wish, played out by search. There is no formula here.

use crate::generator::Random;
use crate::lines;
use std::collections::HashMap;

/// "w and f go to 8, n to 32."
pub const WRITES: u8 = 8;
pub const STORES: u8 = 32;
pub const SPOILINGS: u8 = 8;

#[derive(Clone, Copy, Debug, PartialEq, Eq, Hash)]
pub enum Gap {
    Proper,
    Improper,
}

/// Where a contest stands.
#[derive(Clone, Copy, Debug, PartialEq, Eq, Hash)]
pub struct Position {
    pub gap: Gap,
    /// Good writes that the driver has yet to finish.
    pub writes: u8,
    /// Stores that it may still spend.
    pub stores: u8,
    /// Writes that the tape may still spoil.
    pub spoilings: u8,
}

#[derive(Clone, Copy, Debug, PartialEq, Eq)]
pub enum Store {
    Write,
    Skip,
}

/// 20: a number above its limit.
#[derive(Clone, Copy, Debug, PartialEq, Eq)]
pub struct Refused;

#[derive(Clone, Copy, Debug, PartialEq, Eq)]
pub struct Answer {
    /// Whether the driver can force all writes.
    pub forced: bool,
    /// The first store of a winning play.
    pub first: Option<Store>,
}

/// A rule made wrong on purpose, to show that the comparison notices it.
#[derive(Clone, Copy, Debug, PartialEq, Eq)]
pub enum Mutant {
    // The contest.
    SpoiledIsFree,
    SpoiledLeavesProper,
    SpoiledIsGood,
    SpoiledCostsTwo,
    GoodLeavesImproper,
    SkipIsFree,
    SkipCostsTwo,
    WriteInAnyGap,
    TapeNeverSpoils,
    TapeSpoilsOneMore,
    TapeSpoilsOnce,
    TapeSpoilsWithoutEnd,
    TapeNeverTwiceRunning,
    TapeHelps,
    OneStoreMore,
    OneStoreLess,
    LastStoreUnused,
    AlwaysProper,
    AlwaysImproper,
    GapsExchanged,
    // The answer.
    NothingToWriteIsNo,
    NothingToWriteIsPlayed,
    FirstWithNothingToWrite,
    FirstWithNo,
    SkipWhereBothWin,
    FirstExchanged,
    FirstAlwaysWrite,
    NoFirst,
    AnswerExchanged,
    // Limits.
    WritesTo7,
    WritesTo9,
    WritesCut,
    StoresTo31,
    StoresTo33,
    StoresCut,
    SpoilingsTo7,
    SpoilingsTo9,
    SpoilingsCut,
    LimitsAfterNothingToWrite,
    LimitsOnlyTogether,
    AboveLimitIsNo,
    // Lines.
    WritesAndStoresExchanged,
    StoresAndSpoilingsExchanged,
    NumbersCut8,
    Above255Refused,
    RefusedIsUnreadable,
    UnreadableIsRefused,
    ZerosUnreadable,
    LowerCase,
    Blanks,
    CarriageReturn,
    Signs,
    FieldMore,
    FieldMissing,
    EmptyField,
    OtherLetters,
    EmptyLineUnseen,
    CommentUnseen,
    UnreadableEnds,
    LastWithoutEndUnseen,
}

pub const MUTANTS: [Mutant; 60] = [
    Mutant::SpoiledIsFree,
    Mutant::SpoiledLeavesProper,
    Mutant::SpoiledIsGood,
    Mutant::SpoiledCostsTwo,
    Mutant::GoodLeavesImproper,
    Mutant::SkipIsFree,
    Mutant::SkipCostsTwo,
    Mutant::WriteInAnyGap,
    Mutant::TapeNeverSpoils,
    Mutant::TapeSpoilsOneMore,
    Mutant::TapeSpoilsOnce,
    Mutant::TapeSpoilsWithoutEnd,
    Mutant::TapeNeverTwiceRunning,
    Mutant::TapeHelps,
    Mutant::OneStoreMore,
    Mutant::OneStoreLess,
    Mutant::LastStoreUnused,
    Mutant::AlwaysProper,
    Mutant::AlwaysImproper,
    Mutant::GapsExchanged,
    Mutant::NothingToWriteIsNo,
    Mutant::NothingToWriteIsPlayed,
    Mutant::FirstWithNothingToWrite,
    Mutant::FirstWithNo,
    Mutant::SkipWhereBothWin,
    Mutant::FirstExchanged,
    Mutant::FirstAlwaysWrite,
    Mutant::NoFirst,
    Mutant::AnswerExchanged,
    Mutant::WritesTo7,
    Mutant::WritesTo9,
    Mutant::WritesCut,
    Mutant::StoresTo31,
    Mutant::StoresTo33,
    Mutant::StoresCut,
    Mutant::SpoilingsTo7,
    Mutant::SpoilingsTo9,
    Mutant::SpoilingsCut,
    Mutant::LimitsAfterNothingToWrite,
    Mutant::LimitsOnlyTogether,
    Mutant::AboveLimitIsNo,
    Mutant::WritesAndStoresExchanged,
    Mutant::StoresAndSpoilingsExchanged,
    Mutant::NumbersCut8,
    Mutant::Above255Refused,
    Mutant::RefusedIsUnreadable,
    Mutant::UnreadableIsRefused,
    Mutant::ZerosUnreadable,
    Mutant::LowerCase,
    Mutant::Blanks,
    Mutant::CarriageReturn,
    Mutant::Signs,
    Mutant::FieldMore,
    Mutant::FieldMissing,
    Mutant::EmptyField,
    Mutant::OtherLetters,
    Mutant::EmptyLineUnseen,
    Mutant::CommentUnseen,
    Mutant::UnreadableEnds,
    Mutant::LastWithoutEndUnseen,
];

// ---------------------------------------------------------------------------------------------
// The search
// ---------------------------------------------------------------------------------------------

/// All plays from a position, with what is already known of others.
pub struct Search {
    mutant: Option<Mutant>,
    known: HashMap<Position, bool>,
}

impl Search {
    pub fn new(mutant: Option<Mutant>) -> Search {
        Search {
            mutant,
            known: HashMap::new(),
        }
    }

    fn wrong(&self, rule: Mutant) -> bool {
        self.mutant == Some(rule)
    }

    /// Whether the driver can force all writes from here.
    pub fn forces(&mut self, position: Position) -> bool {
        if position.writes == 0 {
            return true;
        }
        if let Some(&known) = self.known.get(&position) {
            return known;
        }
        let forced = self.wins(position, Store::Write) || self.wins(position, Store::Skip);
        self.known.insert(position, forced);
        forced
    }

    /// Whether a store is open to the driver and wins, whatever the tape does.
    pub fn wins(&mut self, position: Position, store: Store) -> bool {
        let Some(stores) = position.stores.checked_sub(1) else {
            return false;
        };
        if stores == 0 && self.wrong(Mutant::LastStoreUnused) {
            return false;
        }
        let paid = Position { stores, ..position };
        match store {
            // "a skip reverse, which always works here, makes it proper"
            Store::Skip => {
                let skipped = Position {
                    gap: Gap::Proper,
                    ..paid
                };
                match self.mutant {
                    Some(Mutant::SkipIsFree) if position.gap == Gap::Improper => {
                        self.forces(Position {
                            stores: position.stores,
                            ..skipped
                        })
                    }
                    Some(Mutant::SkipCostsTwo) => {
                        stores > 0
                            && self.forces(Position {
                                stores: stores - 1,
                                ..skipped
                            })
                    }
                    _ => self.forces(skipped),
                }
            }
            // "The driver may write only in a proper gap"
            Store::Write if position.gap == Gap::Improper && !self.wrong(Mutant::WriteInAnyGap) => {
                false
            }
            Store::Write => {
                let good = Position {
                    gap: match self.mutant {
                        Some(Mutant::GoodLeavesImproper) => Gap::Improper,
                        _ => Gap::Proper,
                    },
                    writes: position.writes - 1,
                    ..paid
                };
                // "the tape may spoil at most f writes"
                if position.spoilings == 0 || self.wrong(Mutant::TapeNeverSpoils) {
                    return self.forces(good);
                }
                let mut spoiled = Position {
                    gap: Gap::Improper,
                    spoilings: position.spoilings - 1,
                    ..paid
                };
                match self.mutant {
                    Some(Mutant::SpoiledIsFree) => spoiled.stores = position.stores,
                    Some(Mutant::SpoiledLeavesProper) => spoiled.gap = Gap::Proper,
                    Some(Mutant::SpoiledIsGood) => spoiled.writes -= 1,
                    Some(Mutant::SpoiledCostsTwo) => match stores.checked_sub(1) {
                        Some(stores) => spoiled.stores = stores,
                        None => return false,
                    },
                    Some(Mutant::TapeSpoilsOnce) => spoiled.spoilings = 0,
                    Some(Mutant::TapeSpoilsWithoutEnd) => spoiled.spoilings = position.spoilings,
                    // Only every other writing can be spoiled: the next one after the skip is good.
                    Some(Mutant::TapeNeverTwiceRunning) => {
                        return self.forces(good)
                            && match stores.checked_sub(2) {
                                Some(stores) => self.forces(Position {
                                    stores,
                                    spoilings: position.spoilings - 1,
                                    ..good
                                }),
                                None => false,
                            };
                    }
                    Some(Mutant::TapeHelps) => return self.forces(good) || self.forces(spoiled),
                    _ => {}
                }
                self.forces(good) && self.forces(spoiled)
            }
        }
    }

    /// The answer to a question: the gap, w, n and f.
    pub fn answer(&mut self, asked: Position) -> Result<Answer, Refused> {
        let mut asked = asked;
        let (mut writes, mut stores, mut spoilings) = (WRITES, STORES, SPOILINGS);
        match self.mutant {
            Some(Mutant::WritesTo7) => writes = 7,
            Some(Mutant::WritesTo9) => writes = 9,
            Some(Mutant::WritesCut) => asked.writes = asked.writes.min(writes),
            Some(Mutant::StoresTo31) => stores = 31,
            Some(Mutant::StoresTo33) => stores = 33,
            Some(Mutant::StoresCut) => asked.stores = asked.stores.min(stores),
            Some(Mutant::SpoilingsTo7) => spoilings = 7,
            Some(Mutant::SpoilingsTo9) => spoilings = 9,
            Some(Mutant::SpoilingsCut) => asked.spoilings = asked.spoilings.min(spoilings),
            _ => {}
        }
        let above = [
            asked.writes > writes,
            asked.stores > stores,
            asked.spoilings > spoilings,
        ];
        let refused = match self.mutant {
            Some(Mutant::LimitsAfterNothingToWrite) if asked.writes == 0 => false,
            Some(Mutant::LimitsOnlyTogether) => {
                above.iter().filter(|above| **above).count() > 1 || asked.stores > 64
            }
            _ => above.contains(&true),
        };
        // "Refused: 20 a number above its limit."
        if refused {
            return match self.mutant {
                Some(Mutant::AboveLimitIsNo) => Ok(Answer {
                    forced: false,
                    first: None,
                }),
                _ => Err(Refused),
            };
        }
        match (self.mutant, asked.gap) {
            (Some(Mutant::OneStoreMore), _) => asked.stores += 1,
            (Some(Mutant::OneStoreLess), _) => asked.stores = asked.stores.saturating_sub(1),
            (Some(Mutant::TapeSpoilsOneMore), _) => asked.spoilings += 1,
            (Some(Mutant::AlwaysProper), _) | (Some(Mutant::GapsExchanged), Gap::Improper) => {
                asked.gap = Gap::Proper;
            }
            (Some(Mutant::AlwaysImproper), _) | (Some(Mutant::GapsExchanged), Gap::Proper) => {
                asked.gap = Gap::Improper;
            }
            _ => {}
        }
        let nothing = asked.writes == 0;
        let forced = match self.mutant {
            Some(Mutant::NothingToWriteIsNo) if nothing => false,
            Some(Mutant::NothingToWriteIsPlayed) if nothing => {
                asked.stores > 0 && {
                    let one_less = Position { writes: 1, ..asked };
                    self.forces(one_less)
                }
            }
            Some(Mutant::AnswerExchanged) => !self.forces(asked),
            _ => self.forces(asked),
        };
        let mut first = None;
        // "none where w is 0 or the answer is no, and a write where both stores win"
        if !nothing {
            let writing = self.wins(asked, Store::Write);
            let skipping = self.wins(asked, Store::Skip);
            first = match (writing, skipping) {
                (true, true) if self.wrong(Mutant::SkipWhereBothWin) => Some(Store::Skip),
                (_, true) if self.wrong(Mutant::FirstAlwaysWrite) => Some(Store::Write),
                (true, _) => Some(Store::Write),
                (false, true) => Some(Store::Skip),
                (false, false) => None,
            };
        }
        let by_gap = match asked.gap {
            Gap::Proper => Store::Write,
            Gap::Improper => Store::Skip,
        };
        match self.mutant {
            Some(Mutant::FirstWithNothingToWrite) if nothing => first = Some(by_gap),
            Some(Mutant::FirstWithNo) if !forced => first = Some(by_gap),
            Some(Mutant::NoFirst) => first = None,
            Some(Mutant::FirstExchanged) => {
                first = first.map(|store| match store {
                    Store::Write => Store::Skip,
                    Store::Skip => Store::Write,
                });
            }
            _ => {}
        }
        Ok(Answer { forced, first })
    }
}

// ---------------------------------------------------------------------------------------------
// Lines
// ---------------------------------------------------------------------------------------------

/// What a line asks.
enum Asked {
    Question(Position),
    /// Wrong on purpose: to be refused at once.
    Refused,
    Unreadable,
}

/// The answers to questions, one a line.
pub fn answers(input: &[u8], mutant: Option<Mutant>) -> Vec<u8> {
    let wrong = |rule| mutant == Some(rule);
    let mut search = Search::new(mutant);
    let mut text = String::new();
    let mut lines: Vec<&[u8]> = lines::split(input).collect();
    if wrong(Mutant::LastWithoutEndUnseen) && !input.ends_with(b"\n") {
        lines.pop();
    }
    for line in lines {
        if wrong(Mutant::EmptyLineUnseen) && line.is_empty()
            || wrong(Mutant::CommentUnseen) && line.starts_with(b"#")
        {
            continue;
        }
        let answer = match read(line, mutant) {
            Asked::Question(question) => search.answer(question),
            Asked::Refused => Err(Refused),
            Asked::Unreadable => {
                text += match mutant {
                    Some(Mutant::UnreadableIsRefused) => "20,-,-\n",
                    _ => "?,-,-\n",
                };
                if wrong(Mutant::UnreadableEnds) {
                    break;
                }
                continue;
            }
        };
        text += match answer {
            Err(Refused) if wrong(Mutant::RefusedIsUnreadable) => "?,-,-\n",
            Err(Refused) => "20,-,-\n",
            Ok(answer) => match (answer.forced, answer.first) {
                (true, None) => "0,Y,-\n",
                (true, Some(Store::Write)) => "0,Y,W\n",
                (true, Some(Store::Skip)) => "0,Y,S\n",
                (false, None) => "0,N,-\n",
                (false, Some(Store::Write)) => "0,N,W\n",
                (false, Some(Store::Skip)) => "0,N,S\n",
            },
        };
    }
    text.into_bytes()
}

/// `P,w,n,f` or `I,w,n,f`, with numbers 0-255 in decimal.
fn read(line: &[u8], mutant: Option<Mutant>) -> Asked {
    let wrong = |rule| mutant == Some(rule);
    let line = match mutant {
        Some(Mutant::Blanks) => line.trim_ascii(),
        Some(Mutant::CarriageReturn) => line.strip_suffix(b"\r").unwrap_or(line),
        _ => line,
    };
    let mut fields: Vec<&[u8]> = line.split(|&byte| byte == b',').collect();
    if fields.len() > 4 && wrong(Mutant::FieldMore) {
        fields.truncate(4);
    }
    if fields.len() == 3 && wrong(Mutant::FieldMissing) {
        fields.push(b"0");
    }
    let [letter, numbers @ ..] = &fields[..] else {
        return Asked::Unreadable;
    };
    let gap = match *letter {
        b"P" => Gap::Proper,
        b"I" => Gap::Improper,
        b"p" if wrong(Mutant::LowerCase) => Gap::Proper,
        b"i" if wrong(Mutant::LowerCase) => Gap::Improper,
        [_] if wrong(Mutant::OtherLetters) => Gap::Improper,
        _ => return Asked::Unreadable,
    };
    let mut values = Vec::new();
    for field in numbers {
        match number(field, mutant) {
            Some(value @ 0..=255) => values.push(value as u8),
            Some(value) if wrong(Mutant::NumbersCut8) => values.push(value as u8),
            Some(_) if wrong(Mutant::Above255Refused) => return Asked::Refused,
            _ => return Asked::Unreadable,
        }
    }
    match mutant {
        Some(Mutant::WritesAndStoresExchanged) if values.len() == 3 => values.swap(0, 1),
        Some(Mutant::StoresAndSpoilingsExchanged) if values.len() == 3 => values.swap(1, 2),
        _ => {}
    }
    match values[..] {
        [writes, stores, spoilings] => Asked::Question(Position {
            gap,
            writes,
            stores,
            spoilings,
        }),
        _ => Asked::Unreadable,
    }
}

/// As in a session: one digit or more, no sign; zeros before it are readable, and the value counts.
fn number(field: &[u8], mutant: Option<Mutant>) -> Option<u64> {
    let field = match mutant {
        Some(Mutant::Signs) => field.strip_prefix(b"+").unwrap_or(field),
        Some(Mutant::EmptyField) if field.is_empty() => b"0",
        Some(Mutant::ZerosUnreadable) if field.len() > 1 && field[0] == b'0' => return None,
        _ => field,
    };
    if field.is_empty() || !field.iter().all(u8::is_ascii_digit) {
        return None;
    }
    Some(field.iter().fold(0, |value: u64, byte| {
        value
            .saturating_mul(10)
            .saturating_add((byte - b'0') as u64)
    }))
}

// ---------------------------------------------------------------------------------------------
// Questions
// ---------------------------------------------------------------------------------------------

/// Every question of these numbers, from both gaps.
fn questions_of(
    writes: impl IntoIterator<Item = u8> + Clone,
    stores: impl IntoIterator<Item = u8> + Clone,
    spoilings: impl IntoIterator<Item = u8> + Clone,
) -> Vec<Position> {
    let mut questions = Vec::new();
    for gap in [Gap::Proper, Gap::Improper] {
        for writes in writes.clone() {
            for stores in stores.clone() {
                for spoilings in spoilings.clone() {
                    questions.push(Position {
                        gap,
                        writes,
                        stores,
                        spoilings,
                    });
                }
            }
        }
    }
    questions
}

/// Every question within the limits.
pub fn whole_range() -> Vec<Position> {
    questions_of(0..=WRITES, 0..=STORES, 0..=SPOILINGS)
}

/// Questions about the limits, on both sides of each.
pub fn about_the_limits() -> Vec<Position> {
    const TO_8: [u8; 11] = [0, 1, 7, 8, 9, 10, 16, 32, 127, 128, 255];
    const TO_32: [u8; 11] = [0, 1, 8, 31, 32, 33, 34, 64, 127, 128, 255];
    questions_of(TO_8, TO_32, TO_8)
}

/// Lines that cannot be read.
pub const UNREADABLE: [&str; 66] = [
    "",
    " ",
    ",",
    ",,,",
    ",1,2,3",
    "#",
    "# P,1,2,3",
    "P",
    "I",
    "P,",
    "P,1",
    "P,1,2",
    "I,1,2",
    "P,1,2,",
    "P,,2,3",
    "P,1,,3",
    "P,,,",
    "P,1,2,3,",
    "P,1,2,3,4",
    "P,P,1,2,3",
    "PI,1,2,3",
    "PP,1,2,3",
    "p,1,2,3",
    "i,1,2,3",
    "W,1,2,3",
    "S,1,2,3",
    "Q,1,2,3",
    "1,2,3",
    "0,1,2,3",
    "1,1,2,3",
    "P 1 2 3",
    "P;1;2;3",
    "P:1:2:3",
    "P.1.2.3",
    "P1,2,3",
    " P,1,2,3",
    "P ,1,2,3",
    "P, 1,2,3",
    "P,1 ,2,3",
    "P,1,2,3 ",
    "P,1,2,3\r",
    "P,1,2,3\0",
    "P,1,2,3\t",
    "\u{feff}P,1,2,3",
    "P,-1,2,3",
    "P,+1,2,3",
    "P,1,+2,3",
    "P,1,2,+3",
    "P,1,2,-0",
    "P,1.0,2,3",
    "P,1e0,2,3",
    "P,0x1,2,3",
    "P,A,2,3",
    "P,1,A,3",
    "P,1,2,A",
    "P,256,2,3",
    "P,1,256,3",
    "I,1,2,256",
    "P,257,2,0",
    "P,0256,2,3",
    "P,1,1000,3",
    "P,65537,2,0",
    "P,4294967297,2,0",
    "P,18446744073709551617,2,0",
    "P,1,18446744073709551618,0",
    "P,1,2,340282366920938463463374607431768211456",
];

fn put(question: Position, text: &mut Vec<u8>) {
    let letter = match question.gap {
        Gap::Proper => 'P',
        Gap::Improper => 'I',
    };
    let (writes, stores, spoilings) = (question.writes, question.stores, question.spoilings);
    text.extend_from_slice(format!("{letter},{writes},{stores},{spoilings}").as_bytes());
}

/// Questions as lines: with seed 1 the whole range, with 2 those about the limits, with 3 lines that cannot be read;
/// else random ones.
pub fn questions(seed: u64, count: usize) -> Vec<u8> {
    let mut text = Vec::new();
    match seed {
        1 | 2 => {
            let questions = match seed {
                1 => whole_range(),
                _ => about_the_limits(),
            };
            for question in questions {
                put(question, &mut text);
                text.push(b'\n');
            }
        }
        3 => {
            // A question stands after each, so that one can see that the line changed nothing.
            for line in UNREADABLE {
                text.extend_from_slice(line.as_bytes());
                text.extend_from_slice(b"\nI,2,7,2\n");
            }
            text.extend_from_slice(b"P,1,1,0");
        }
        _ => {
            let mut random = Random::new(seed);
            for place in 0..count {
                if place > 0 {
                    text.push(b'\n');
                }
                put_random(&mut random, &mut text);
            }
            if random.chance(70) {
                text.push(b'\n');
            }
        }
    }
    text
}

fn put_random(random: &mut Random, text: &mut Vec<u8>) {
    if random.chance(6) {
        text.extend_from_slice(random.pick(&UNREADABLE).as_bytes());
        return;
    }
    let start = text.len();
    text.push(random.pick(b"PI"));
    for limit in [WRITES, STORES, SPOILINGS] {
        text.push(b',');
        if random.chance(4) {
            let zeros = random.pick(&[1, 1, 2, 4, 20, 40]);
            text.extend(std::iter::repeat_n(b'0', zeros));
        }
        let number = match random.below(50) {
            0 => random.byte() as usize,
            1 => limit as usize + 1,
            2 => 250 + random.below(20),
            _ => random.below(limit as usize + 1),
        };
        text.extend_from_slice(number.to_string().as_bytes());
    }
    // A byte lost, doubled or exchanged.
    if random.chance(6) {
        let at = start + random.below(text.len() - start);
        match random.below(3) {
            0 => {
                text.remove(at);
            }
            1 => text.insert(at, text[at]),
            _ => text[at] = random.pick(b"PIpiWS0159,,.: -+\r\x00\xFF"),
        }
    }
}
