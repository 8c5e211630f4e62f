//! The playback program: a recording read record by record, and played on the line that its
//! cards make.

use super::book::{Book, Rule, Slip};
use super::chip::{part_of, Chip, Step, DS28EC20, PF};
use super::line::{Line, MOST};
use super::memory::{IMAGE, PAD};

/// The kind of a run of slots.
pub const RUN: u16 = 16;
/// The kind of a reset.
pub const RESET: u16 = 17;
/// The kind of a power on.
pub const POWER_ON: u16 = 18;
/// The kind of outside levels.
pub const LEVELS: u16 = 19;
/// Most slots of a run.
pub const MOST_SLOTS: usize = 65_535;

/// A body of more bytes than this is counted as long.
pub const LONG: usize = 20_000;

/// Added to the refusal that a slip puts behind the bits of a run, to give it when they are played.
const LATE: u8 = 100;

/// A record that is there as a whole.
enum Record {
    Card(Chip),
    /// The host's bits.
    Run(Vec<u8>),
    Reset,
    PowerOn,
    /// The chip's number and its levels.
    Levels(u8, u8),
    /// A record that only a slip passes over.
    Passed,
}

/// What is at the front of the bytes left.
enum Front {
    /// A whole record, and its bytes in all.
    Whole(Record, usize),
    /// Too few bytes to tell, and more may come.
    Short,
}

/// How a record begins.
struct Head {
    kind: u16,
    length: usize,
    /// Whether all of its bytes are there.
    whole: bool,
    /// Whether no more bytes come.
    ended: bool,
}

/// The playback program under way.
pub struct Playback {
    /// Bytes taken of records that are not whole yet.
    left: Vec<u8>,
    /// The offset of the first of them.
    at: usize,
    /// The chips of the card records.
    table: Vec<Chip>,
    /// The line, from the first record of kinds 16 to 19 on.
    line: Option<Line>,
    /// Records before the one at hand.
    records: usize,
    /// Slots of the record before the one at hand, if that is a run.
    run: Option<Vec<u8>>,
    /// The lengths of the runs since the last record of another kind.
    row: Vec<usize>,
    /// Where the first of them stands.
    row_at: usize,
    /// Whether the recording has had a power on.
    powered: bool,
    /// Answers given.
    answers: usize,
    /// A refusal that a slip puts off, and its place.
    put_off: Option<(u8, usize)>,
    /// What is printed and not handed on yet.
    held: Vec<u8>,
    /// How many characters the last record has printed.
    last: usize,
    over: bool,
}

impl Playback {
    /// A playback that has read nothing.
    pub fn new() -> Playback {
        Playback {
            left: Vec::new(),
            at: 0,
            table: Vec::new(),
            line: None,
            records: 0,
            run: None,
            row: Vec::new(),
            row_at: 0,
            powered: false,
            answers: 0,
            put_off: None,
            held: Vec::new(),
            last: 0,
            over: false,
        }
    }

    /// Whether the last line is printed.
    pub fn is_over(&self) -> bool {
        self.over
    }

    /// Takes more of the recording, or its end: what is printed now.
    pub fn take(&mut self, bytes: &[u8], ended: bool, book: &mut Book) -> Vec<u8> {
        let begun = self.left.len();
        self.left.extend(bytes);
        let left = std::mem::take(&mut self.left);
        let mut from = 0;
        while !self.over {
            let rest = &left[from..];
            let ended = ended || book.slips(Slip::ReadOnce);
            match self.front(rest, ended, book) {
                Ok(Front::Short) => {
                    if ended {
                        self.end(book);
                    }
                    break;
                }
                Ok(Front::Whole(record, length)) => {
                    let before = self.held.len();
                    if let Err(refusal) = self.play(record, book) {
                        if book.slips(Slip::RefusedPassed) {
                            self.held.push(b'1');
                        } else if book.slips(Slip::Ahead) {
                            self.put_off = self.put_off.or(Some((refusal, self.at)));
                        } else {
                            self.refuse(refusal, rest, book);
                            break;
                        }
                    }
                    self.last = self.held.len() - before;
                    from += length;
                    self.at += length;
                    self.records += 1;
                }
                Err(refusal) => {
                    self.put_off = None;
                    self.refuse(refusal, rest, book);
                }
            }
        }
        let lost = book.slips(Slip::PieceLost) && from == 0 && begun > 0;
        self.left = left[if lost { begun } else { from }..].to_vec();
        self.handed_on(book)
    }

    /// What is printed and may leave now.
    fn handed_on(&mut self, book: &Book) -> Vec<u8> {
        let until_end = [
            Slip::HeldToEnd,
            Slip::AnswersDropped,
            Slip::RecordDropped,
            Slip::Ahead,
        ];
        let kept = if self.over {
            0
        } else if until_end.iter().any(|slip| book.slips(*slip)) {
            self.held.len()
        } else if book.slips(Slip::HeldHalf) && !self.left.is_empty() {
            self.held.len()
        } else if book.slips(Slip::HeldOne) {
            self.last.min(self.held.len())
        } else {
            0
        };
        self.held.drain(..self.held.len() - kept).collect()
    }

    /// The end of a recording without a refusal.
    fn end(&mut self, book: &mut Book) {
        self.over = true;
        if let Some((refusal, at)) = self.put_off {
            self.held
                .extend(format!("\nrefused {refusal} at {at}\n").bytes());
            return;
        }
        book.saw_if(self.records == 0, Rule::PlayNothing);
        let cards = self.line.is_none() && self.records > 0;
        book.saw_if(cards, Rule::PlayCardsAlone);
        let none = self.answers == 0 && self.line.is_some();
        book.saw_if(none, Rule::PlayNoSlots);
        if self.answers > 0 || !book.slips(Slip::NoLine) {
            self.held.push(b'\n');
        }
    }

    /// The line that a refusal of the record at hand ends, and the one that tells it.
    fn refuse(&mut self, refusal: u8, rest: &[u8], book: &mut Book) {
        self.over = true;
        self.note_refusal(rest, book);
        if book.slips(Slip::AnswersDropped) {
            self.held.clear();
        }
        if book.slips(Slip::RecordDropped) {
            self.held.truncate(self.held.len() - self.last);
        }
        let length = |bytes: &[u8]| 2 + usize::from(u16::from_le_bytes([bytes[0], bytes[1]]));
        let mut at = self.at;
        if book.slips(Slip::PlaceNext) {
            at += rest.get(..2).map_or(rest.len(), length).min(rest.len());
        } else if book.slips(Slip::PlaceRecord) {
            at = self.records;
        } else if book.slips(Slip::PlaceEvents) {
            at -= 12 * self.table.len();
        } else if book.slips(Slip::PlaceBody) {
            at += 4;
        } else if book.slips(Slip::PlaceLow) {
            at &= 0xFFFF;
        } else if book.slips(Slip::PlaceRow) && !self.row.is_empty() {
            at = self.row_at;
        }
        let empty = self.answers == 0 && book.slips(Slip::EmptyLineLeft);
        if !empty && !book.slips(Slip::SameLine) {
            self.held.push(b'\n');
        }
        self.held
            .extend(format!("refused {refusal} at {at}\n").bytes());
    }

    /// Counts where a refusal stands.
    fn note_refusal(&self, rest: &[u8], book: &mut Book) {
        let place = match (self.records, &self.line, self.answers) {
            (0, ..) => Rule::PlayRefusedFirst,
            (_, None, _) => Rule::PlayRefusedAfterCards,
            (_, Some(_), 0) => Rule::PlayRefusedNoAnswer,
            _ => Rule::PlayRefusedAfterAnswers,
        };
        book.saw(place);
        book.saw_if(self.at > 0xFFFF, Rule::PlayRefusedFar);
        book.saw_if(self.row.len() > 1, Rule::PlayRefusedRow);
        let length = rest
            .get(..2)
            .map(|two| u16::from_le_bytes([two[0], two[1]]));
        let behind = length.is_some_and(|length| rest.len() > 2 + usize::from(length));
        book.saw_if(behind, Rule::PlayRefusedBefore);
    }

    /// The record at the front of what is left, judged up to refusal 10, or its refusal.
    fn front(&self, left: &[u8], ended: bool, book: &mut Book) -> Result<Front, u8> {
        if left.is_empty() {
            return Ok(Front::Short);
        }
        // Refusal 3 where bytes are missing and none follow.
        let cut = |rule: Rule, book: &mut Book| {
            if !ended || book.slips(Slip::CutPassed) {
                return Ok(Front::Short);
            }
            book.saw(rule);
            Err(3)
        };
        if left.len() < 4 {
            if book.slips(Slip::TailPassed) {
                return Ok(Front::Short);
            }
            let tails = [Rule::Play3Tail1, Rule::Play3Tail2, Rule::Play3Tail3];
            return cut(tails[left.len() - 1], book);
        }
        let length = usize::from(u16::from_le_bytes([left[0], left[1]]));
        let there = left.len() >= 2 + length;
        if !there && !ended && book.slips(Slip::JudgedWhole) {
            return Ok(Front::Short);
        }
        let mut kind = u16::from_le_bytes([left[2], left[3]]);
        if book.slips(Slip::RecordKindLow) {
            kind &= 0xFF;
        }
        let head = |length: usize| Head {
            kind,
            length,
            whole: left.len() >= 2 + length,
            ended,
        };
        let card = part_of(kind.into()).is_some();
        if !card && !(RUN..=LEVELS).contains(&kind) {
            return self.unknown(&head(length), book);
        }
        let length = if book.slips(Slip::LengthLow) {
            length & 0xFF
        } else {
            length
        };
        if card && self.line.is_some() && book.slips(Slip::NineFirst) {
            return Err(9);
        }
        let count = left
            .get(4..6)
            .map(|two| u16::from_le_bytes([two[0], two[1]]));
        let mut count = count.map(usize::from);
        let right = match kind {
            // Of length 3 and four bytes so far, one more is awaited.
            RUN if length < 4 && (there || ended) => {
                if book.slips(Slip::CountNone) {
                    count = Some(0);
                    length
                } else {
                    book.saw(Rule::Play3CountLength);
                    return Err(3);
                }
            }
            RUN => {
                if book.slips(Slip::CountSigned) && count > Some(32_767) {
                    return Err(3);
                }
                if book.slips(Slip::CountLow) {
                    count = count.map(|count| count & 0xFF);
                }
                match count {
                    Some(count) => 4 + count.div_ceil(8),
                    None => return cut(Rule::Play3CountCut, book),
                }
            }
            RESET | POWER_ON => 2,
            LEVELS => 4,
            _ => 10,
        };
        let longer = length > right && kind == RUN && book.slips(Slip::RunLonger);
        if length != right && !longer {
            return self.wrong_length(&head(length), book);
        }
        let Some(body) = left.get(4..2 + length) else {
            if kind == RUN && book.slips(Slip::CutPlayed) && ended {
                let slots = 8 * (left.len() - 6);
                let mut run = bits_of(&left[6..], slots, book);
                run.push(LATE + 3);
                return Ok(Front::Whole(Record::Run(run), left.len()));
            }
            let rule = match kind {
                RUN => Rule::Play3CutRun,
                LEVELS => Rule::Play3CutLevels,
                _ if self.line.is_some() => Rule::Play3CutCardLate,
                _ if self.table.len() == MOST => Rule::Play3CutCard17,
                _ => Rule::Play3CutCard,
            };
            return cut(rule, book);
        };
        let record = match kind {
            RUN => self.run(body, count.unwrap_or(0), book)?,
            RESET => Record::Reset,
            POWER_ON => Record::PowerOn,
            LEVELS => Record::Levels(body[0], body[1]),
            _ => self.card(kind, body, book)?,
        };
        Ok(Front::Whole(record, 2 + length))
    }

    /// A kind that is not named: refusal 2, whatever its length and body.
    fn unknown(&self, head: &Head, book: &mut Book) -> Result<Front, u8> {
        let Head { kind, length, .. } = *head;
        let cut = !head.whole;
        if book.slips(Slip::KindLate) && length < 2 {
            return Err(3);
        }
        if cut && book.slips(Slip::KindCut) {
            return if head.ended { Err(3) } else { Ok(Front::Short) };
        }
        if !cut && book.slips(Slip::KindPassed) && length > 1 {
            return Ok(Front::Whole(Record::Passed, 2 + length));
        }
        let low = kind & 0xFF;
        book.saw(match kind {
            0 => Rule::Play2None,
            _ if kind < RUN => Rule::Play2Between,
            20..=255 => Rule::Play2Above,
            _ if part_of(low.into()).is_some() => Rule::Play2HighCard,
            _ if (RUN..=LEVELS).contains(&low) => Rule::Play2HighEvent,
            _ => Rule::Play2High,
        });
        book.saw_if(length < 2, Rule::Play2Length);
        book.saw_if(cut && head.ended, Rule::Play2Cut);
        book.saw_if(!cut && length > 2 + LONG, Rule::Play2Long);
        Err(2)
    }

    /// A length that its kind does not have: refusal 3.
    fn wrong_length(&self, head: &Head, book: &mut Book) -> Result<Front, u8> {
        let Head { kind, length, .. } = *head;
        let late = self.line.is_some();
        let whole = head.whole;
        let long = length > 2 + LONG;
        let passed = long && book.slips(Slip::LongPassed);
        if !whole && !head.ended && (passed || book.slips(Slip::LengthWhole)) {
            return Ok(Front::Short);
        }
        if whole && passed {
            return Ok(Front::Whole(Record::Passed, 2 + length));
        }
        book.saw(match kind {
            RUN => Rule::Play3LengthRun,
            RESET => Rule::Play3LengthReset,
            POWER_ON => Rule::Play3LengthPower,
            LEVELS => Rule::Play3LengthLevels,
            _ if late => Rule::Play3LengthCardLate,
            _ if self.table.len() == MOST => Rule::Play3LengthCard17,
            _ => Rule::Play3LengthCard,
        });
        book.saw_if(whole, Rule::Play3LengthWhole);
        let long_rule = match kind {
            RUN => Rule::Play3LongRun,
            RESET => Rule::Play3LongReset,
            POWER_ON => Rule::Play3LongPower,
            LEVELS => Rule::Play3LongLevels,
            _ => Rule::Play3LongCard,
        };
        book.saw_if(long && whole, long_rule);
        Err(3)
    }

    /// A whole card record: refusals 1 and 9.
    fn card(&self, kind: u16, body: &[u8], book: &mut Book) -> Result<Record, u8> {
        let late = self.line.is_some();
        if late && book.slips(Slip::NineBeforeOne) {
            return Err(9);
        }
        let places = MOST - usize::from(book.slips(Slip::FifteenCards));
        if self.table.len() >= places {
            book.saw(if late { Rule::Play1Late } else { Rule::Play1 });
            return Err(1);
        }
        if late && book.slips(Slip::NinePassed) {
            return Ok(Record::Passed);
        }
        if late && !book.slips(Slip::NineTaken) {
            book.saw(if self.answers == 0 {
                Rule::Play9NoSlots
            } else {
                Rule::Play9
            });
            return Err(9);
        }
        let code = u64::from_le_bytes(body.try_into().expect("eight code bytes"));
        Ok(Record::Card(Chip::at_set_up(kind.into(), code)))
    }

    /// A run that is there as a whole: refusal 10.
    fn run(&self, body: &[u8], count: usize, book: &mut Book) -> Result<Record, u8> {
        let bytes = body.get(2..).unwrap_or(&[]);
        if count == 0 && book.slips(Slip::NoSlotsRefused) {
            return Err(3);
        }
        let unused = match bytes.get(count / 8) {
            Some(last) if count % 8 > 0 => last >> (count % 8) << (count % 8),
            Some(_) | None => 0,
        };
        let judged = match unused {
            _ if book.slips(Slip::SpareFree) || book.slips(Slip::SpareLate) => 0,
            _ if book.slips(Slip::SpareTop) => unused & 0x80,
            _ if book.slips(Slip::SpareNext) => unused & 1 << (count % 8),
            _ if book.slips(Slip::SpareWhole) && count % 8 == 0 => {
                bytes.last().copied().unwrap_or(0)
            }
            _ => unused,
        };
        if judged != 0 {
            let places = [
                Rule::Play10Bit1,
                Rule::Play10Bit2,
                Rule::Play10Bit3,
                Rule::Play10Bit4,
                Rule::Play10Bit5,
                Rule::Play10Bit6,
                Rule::Play10Bit7,
            ];
            for (bit, rule) in (1..).zip(places) {
                book.saw_if(unused == 1 << bit, rule);
            }
            book.saw_if(count > 8, Rule::Play10Long);
            return Err(10);
        }
        let mut bits = bits_of(bytes, count, book);
        if let Some(before) = &self.run {
            if book.slips(Slip::RunAgain) {
                bits.iter_mut()
                    .zip(before)
                    .for_each(|(bit, old)| *bit = *old);
            }
            if book.slips(Slip::RunCarries) {
                bits.rotate_left(before.len() % 8 % count.max(1));
            }
        }
        if unused != 0 && book.slips(Slip::SpareLate) {
            bits.push(LATE + 10);
        }
        Ok(Record::Run(bits))
    }

    /// Plays a record: its answers are printed, or its event is refused.
    fn play(&mut self, record: Record, book: &mut Book) -> Result<(), u8> {
        let free = matches!(&record, Record::Run(bits) if bits.is_empty());
        match &record {
            Record::Card(chip) if self.line.is_none() => {
                self.table.push(chip.clone());
                return Ok(());
            }
            Record::Passed => return Ok(()),
            _ if free && book.slips(Slip::NoSlotsFree) => return Ok(()),
            _ => {}
        }
        if self.line.is_none() {
            self.set_up(book);
        }
        if self.put_off.is_some() {
            return Ok(());
        }
        let run = self.run.take();
        let ends_row = !matches!(record, Record::Run(_));
        let line = self.line.as_mut().expect("a line that is set up");
        match record {
            Record::Run(bits) => {
                note_run(&bits, run.is_some(), book);
                let before: usize = self.row.iter().sum();
                if self.row.is_empty() {
                    self.row_at = self.at;
                }
                self.row.push(bits.len());
                note_row(&self.row, book);
                if book.slips(Slip::RowLost) && before + bits.len() > MOST_SLOTS {
                    return Ok(());
                }
                if bits.is_empty() && book.slips(Slip::NoSlotsAnswer) {
                    self.held.push(b'1');
                }
                for bit in &bits {
                    let answer = line.event(u64::from(*bit), 0, 0, book);
                    let answer = answer.map_err(|_| bit - LATE)?;
                    self.held.push(b'0' + answer);
                    self.answers += 1;
                }
                let fresh = |chip: &Chip| chip.es == PF && chip.step == Step::SendCrc;
                let fresh = !self.powered && line.table.iter().any(fresh);
                book.saw_if(fresh, Rule::PlayFreshPad);
                self.run = Some(bits);
            }
            Record::Reset => {
                book.saw(Rule::PlayReset);
                self.answer(2, 0, 0, book)?;
            }
            Record::PowerOn => {
                book.saw(Rule::PlayPowerOn);
                self.powered = true;
                self.answer(3, 0, 0, book)?;
            }
            Record::Levels(chip, levels) => {
                let (chip, levels) = match (chip, levels) {
                    _ if book.slips(Slip::LevelsTurned) => (levels, chip),
                    _ if book.slips(Slip::ChipLow) => (chip & 0x0F, levels),
                    _ if book.slips(Slip::LevelsLow) => (chip, levels & 0x0F),
                    both => both,
                };
                let memory = line.table.get(usize::from(chip));
                let memory = memory.is_some_and(|chip| chip.is(DS28EC20));
                self.answer(4, chip, levels, book).inspect_err(|_| {
                    book.saw(match (memory, chip, levels) {
                        (true, ..) => Rule::Play7Kind,
                        (_, 16.., _) => Rule::Play7AbsentHigh,
                        (_, _, 16..) => Rule::Play7LevelsHigh,
                        (_, _, 4..) => Rule::Play7Levels,
                        _ => Rule::Play7Absent,
                    });
                })?;
                book.saw(Rule::PlayLevels);
            }
            Record::Card(chip) => {
                // Only by a slip: a card record behind an event.
                if chip.is(DS28EC20) {
                    line.images.extend([0xFF; IMAGE]);
                    line.pads.extend([0xFF; PAD]);
                }
                line.table.push(chip.clone());
                self.table.push(chip);
            }
            Record::Passed => {}
        }
        if ends_row {
            self.row.clear();
        }
        Ok(())
    }

    /// Puts an event that is no slot on the line and prints its answer.
    fn answer(&mut self, event: u64, chip: u8, levels: u8, book: &mut Book) -> Result<(), u8> {
        let line = self.line.as_mut().expect("a line that is set up");
        let bit = line.event(event, chip.into(), levels.into(), book)?;
        self.answers += 1;
        let silent = match event {
            2 => Slip::ResetSilent,
            3 => Slip::PowerSilent,
            _ => Slip::LevelsSilent,
        };
        if !book.slips(silent) {
            self.held.push(b'0' + bit);
        }
        Ok(())
    }

    /// The line of the cards: images and scratchpads FFh, chips as after power on.
    fn set_up(&mut self, book: &mut Book) {
        book.saw_if(self.table.is_empty(), Rule::PlayNoCards);
        book.saw_if(self.table.len() == MOST, Rule::PlaySixteen);
        let mut line = Line::set_up(self.table.clone(), book);
        if book.slips(Slip::FreshPadZero) {
            line.pads.fill(0);
        }
        if book.slips(Slip::FreshImageZero) {
            line.images.fill(0);
        }
        if book.slips(Slip::FreshTakes) {
            line.event(2, 0, 0, book).expect("set up in range");
        }
        if book.slips(Slip::FreshAnswers) {
            self.held.push(b'1');
        }
        self.line = Some(line);
    }
}

/// Counts the length of a run.
fn note_run(bits: &[u8], behind: bool, book: &mut Book) {
    book.saw(match bits.len() {
        0 => Rule::PlayRunNone,
        MOST_SLOTS => Rule::PlayRunMost,
        count if count % 8 == 0 => Rule::PlayRunWhole,
        _ => Rule::PlayRunPart,
    });
    book.saw_if(bits.len() > 255, Rule::PlayRunOver255);
    book.saw_if(bits.len() > 8192, Rule::PlayRunOver8192);
    book.saw_if(behind, Rule::PlayRunBehind);
}

/// Counts what runs in a row come to, after each of them.
fn note_row(row: &[usize], book: &mut Book) {
    let slots: usize = row.iter().sum();
    let more = row.len() > 1;
    book.saw_if(more && slots == MOST_SLOTS, Rule::PlayRowMost);
    book.saw_if(more && slots > MOST_SLOTS, Rule::PlayRowOver);
    if let [.., before, 0, after] = row {
        book.saw_if(*before > 0 && *after > 0, Rule::PlayRowNone);
    }
}

/// So many bits, least significant first.
fn bits_of(bytes: &[u8], count: usize, book: &Book) -> Vec<u8> {
    let turned = if book.slips(Slip::HighFirst) { 7 } else { 0 };
    let bit = |at: usize| bytes[at / 8] >> ((at % 8) ^ turned) & 1;
    (0..count).map(bit).collect()
}

/// All that the playback program prints for a recording.
pub fn playback(recording: &[u8], book: &mut Book) -> Vec<u8> {
    Playback::new().take(recording, true, book)
}
