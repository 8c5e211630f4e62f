//! One chip of either kind, moved by one slot, reset or power on at a time.

use std::collections::VecDeque;

use super::book::{Book, Rule, Slip};
use super::crc::crc16;
use super::memory::{
    control, is_closed, is_mark, rule_of_byte, BLOCK_LOCK, CONTROLS, LAST, PAD, PAGE_LOCK,
    READ_ONLY,
};

/// Kind of a DS28EC20, and its number as a part.
pub const DS28EC20: u32 = 1;
/// Kind of a DS2413, and its number as a part.
pub const DS2413: u32 = 2;
/// The last kind that is known; the first is 1.
pub const LAST_KIND: u32 = 2;

/// The part that a kind is; none for a kind that is not known.
pub fn part_of(kind: u32) -> Option<u32> {
    match kind {
        1 => Some(DS28EC20),
        2 => Some(DS2413),
        _ => None,
    }
}

/// E/S: the flag of a cut byte or a short address.
pub const PF: u8 = 0x20;
/// E/S: the flag of a copy carried out.
pub const AA: u8 = 0x80;
/// E/S: the bit that no rule sets.
const BS: u8 = 0x40;

/// What a chip is doing.
#[derive(Clone, Copy, PartialEq, Eq, Debug)]
pub enum Step {
    /// Waits for a reset.
    Wait,
    /// Takes the 8 bits of a ROM command.
    RomCommand,
    /// 33h: sends its code.
    SendCode,
    /// 55h: takes 64 bits.
    MatchCode,
    /// F0h: sends the bit at a place of its code.
    SearchBit(usize),
    /// F0h: sends the complement of that bit.
    SearchComplement(usize),
    /// F0h: takes a bit for that place.
    SearchTake(usize),
    /// Takes the 8 bits of a function command.
    FunctionCommand,
    /// Sends ones until reset.
    Ones,
    /// 0Fh: takes TA1 and TA2.
    WriteAddress,
    /// 0Fh: takes the data byte for an offset.
    WriteData(usize),
    /// AAh: sends TA1, TA2 and E/S.
    SendRegisters,
    /// AAh: sends the scratchpad byte at an offset.
    SendPad(usize),
    /// 0Fh and AAh: sends the CRC-16.
    SendCrc,
    /// 55h: takes TA1, TA2 and E/S.
    CopyBytes,
    /// 55h: sends 0 and 1 in turn.
    CopyDone,
    /// F0h: takes TA1 and TA2.
    ReadAddress,
    /// F0h: sends the byte at an address.
    ReadData(usize),
    /// F5h: sends a status byte.
    PioRead,
    /// 5Ah: takes a byte and its complement.
    PioPair,
    /// 5Ah: sends AAh.
    PioConfirm,
    /// 5Ah: sends a status byte.
    PioStatus,
}

/// What the rule counters and one slip remember of the past; without a slip nothing of it shows.
#[derive(Clone, Default)]
struct Trace {
    /// The Match ROM under way found RC 1.
    lost_rc: bool,
    /// The last ROM command was a Resume.
    resumed: bool,
    /// No reset since power on.
    powered: bool,
    /// The function level was reached by Search ROM.
    searched: bool,
    /// Read Memory since the last Write Scratchpad.
    read: bool,
    /// No data byte since the last Write Scratchpad's address.
    address_only: bool,
    /// A short address has set PF, and no whole one has come since.
    short: bool,
    /// The rule of a byte changed a data byte of this write.
    changed: bool,
    /// The place at which the last reset found a search, by a slip; else 0.
    broken_at: usize,
    /// What led to ones.
    ones: Option<Rule>,
}

/// The record of one chip.
#[derive(Clone)]
pub struct Chip {
    pub kind: u32,
    pub code: u64,
    pub rc: bool,
    /// T of a DS28EC20.
    pub t: u16,
    /// E/S of a DS28EC20.
    pub es: u8,
    /// Latches of a DS2413: bit 0 for A, bit 1 for B.
    pub latches: u8,
    /// Outside levels of a DS2413.
    pub levels: u8,
    pub step: Step,
    /// Bits taken in a step that takes; bits still to send in one that sends.
    pub bits: VecDeque<u8>,
    /// What a lent record has in its register below the bits taken; each bit taken drives one out.
    pub(super) below: VecDeque<u8>,
    /// The status byte that is being sent.
    pub(super) sampled: u8,
    /// The bytes that a CRC-16 is taken of.
    pub(super) summed: Vec<u8>,
    trace: Trace,
}

/// The bit of a code at a place.
fn code_bit(code: u64, place: usize) -> u8 {
    (code >> place & 1) as u8
}

/// The bits of bytes, least significant first.
fn bits_of(bytes: &[u8]) -> VecDeque<u8> {
    bytes
        .iter()
        .flat_map(|byte| (0..8).map(move |place| byte >> place & 1))
        .collect()
}

/// The start of the page that holds an address.
fn page_of(address: usize) -> usize {
    address - address % PAD
}

impl Chip {
    /// A chip as set-up writes it.
    pub fn at_set_up(kind: u32, code: u64) -> Chip {
        Chip {
            kind,
            code,
            rc: false,
            t: 0,
            es: PF,
            latches: 3,
            levels: 3,
            step: Step::Wait,
            bits: VecDeque::new(),
            below: VecDeque::new(),
            sampled: 0,
            summed: Vec::new(),
            trace: Trace {
                powered: true,
                ..Trace::default()
            },
        }
    }

    /// Whether the chip is this part.
    pub fn is(&self, part: u32) -> bool {
        part_of(self.kind) == Some(part)
    }

    /// How many bits the step takes, if it takes.
    fn takes(&self) -> Option<usize> {
        match self.step {
            Step::RomCommand | Step::FunctionCommand | Step::WriteData(_) => Some(8),
            Step::MatchCode => Some(64),
            Step::WriteAddress | Step::ReadAddress | Step::PioPair => Some(16),
            Step::CopyBytes => Some(24),
            Step::SearchTake(_) => Some(1),
            _ => None,
        }
    }

    /// Whether the chip takes a bit in the next slot.
    pub fn is_taking(&self) -> bool {
        self.takes().is_some()
    }

    /// The bit that the chip sends in the next slot, if it is sending.
    pub fn sends(&self) -> Option<u8> {
        match self.step {
            Step::SearchBit(place) => Some(code_bit(self.code, place)),
            Step::SearchComplement(place) => Some(1 - code_bit(self.code, place)),
            Step::Ones => Some(1),
            Step::SendCode
            | Step::SendRegisters
            | Step::SendPad(_)
            | Step::SendCrc
            | Step::CopyDone
            | Step::ReadData(_)
            | Step::PioRead
            | Step::PioConfirm
            | Step::PioStatus => Some(self.bits[0]),
            _ => None,
        }
    }

    /// Whether every field lies in its range.
    pub fn is_in_range(&self) -> bool {
        let own = match self.step {
            Step::WriteAddress
            | Step::WriteData(_)
            | Step::SendRegisters
            | Step::SendPad(_)
            | Step::SendCrc
            | Step::CopyBytes
            | Step::CopyDone
            | Step::ReadAddress
            | Step::ReadData(_) => self.is(DS28EC20),
            Step::PioRead | Step::PioPair | Step::PioConfirm | Step::PioStatus => self.is(DS2413),
            _ => true,
        };
        let place = match self.step {
            Step::SearchBit(place) | Step::SearchComplement(place) | Step::SearchTake(place) => {
                place < 64
            }
            Step::WriteData(offset) | Step::SendPad(offset) => offset < PAD,
            Step::ReadData(address) => address <= LAST,
            _ => true,
        };
        let count = match (self.takes(), self.step) {
            (Some(most), _) => self.bits.len() < most,
            (None, Step::SendCode) => (1..=64).contains(&self.bits.len()),
            (None, Step::SendCrc) => (1..=16).contains(&self.bits.len()),
            (None, Step::SendRegisters) => (1..=24).contains(&self.bits.len()),
            (None, Step::CopyDone) => self.bits.len() == 1,
            (
                None,
                Step::SendPad(_)
                | Step::ReadData(_)
                | Step::PioRead
                | Step::PioConfirm
                | Step::PioStatus,
            ) => (1..=8).contains(&self.bits.len()),
            _ => self.bits.is_empty(),
        };
        part_of(self.kind).is_some()
            && self.es & BS == 0
            && self.latches <= 3
            && self.levels <= 3
            && own
            && place
            && count
    }

    /// Whether the chip is before the 16th address bit of Write Scratchpad. That a reset there sets
    /// PF is a rule of the DS28EC20.
    fn is_short(&self) -> bool {
        self.is(DS28EC20) && self.step == Step::WriteAddress
    }

    /// Power on: waits for a reset, RC 0, registers and scratchpad or latches anew.
    pub fn power_on(&mut self, pad: &mut [u8], book: &mut Book) {
        self.note_power_on(pad, book);
        let short = self.is_short();
        self.step = if book.slips(Slip::PowerTakes) {
            Step::RomCommand
        } else {
            Step::Wait
        };
        self.bits.clear();
        self.below.clear();
        self.trace.powered = true;
        self.trace.short = false;
        if !book.slips(Slip::PowerKeepsRc) {
            self.rc = false;
        }
        if self.is(DS28EC20) {
            if short && book.slips(Slip::ShortPower) {
                self.es |= PF;
            } else if !book.slips(Slip::PowerKeepsT) {
                self.t = 0;
                self.es = PF;
            }
            if !book.slips(Slip::PowerKeepsPad) {
                pad.fill(0xFF);
            }
        } else {
            if !book.slips(Slip::PowerKeepsLatches) {
                self.latches = 3;
            }
            if book.slips(Slip::PowerOpensLevels) {
                self.levels = 3;
            }
        }
    }

    /// Reset: takes a ROM command next; inside a data byte and at a short address PF is set.
    pub fn reset(&mut self, book: &mut Book) {
        self.note_reset(book);
        if self.is_short() {
            self.cut_address(book);
        }
        if self.is_taken_for_short(book) {
            self.es |= PF;
        }
        if let Step::WriteData(offset) = self.step {
            let inside = !self.bits.is_empty();
            if inside && !book.slips(Slip::NoPf) || !inside && book.slips(Slip::PfBetween) {
                self.es |= PF;
            }
            if inside && book.slips(Slip::PfByteKept) {
                self.set_e(offset);
            }
        }
        if book.slips(Slip::RcReset) {
            self.rc = false;
        }
        if self.is(DS2413) && book.slips(Slip::ResetOpensLatches) {
            self.latches = 3;
        }
        self.trace.broken_at = self.resumes_at(book);
        self.step = if self.is_copying() && book.slips(Slip::CopyDeaf) {
            Step::Wait
        } else {
            Step::RomCommand
        };
        self.bits.clear();
        self.below.clear();
        self.trace.powered = false;
        self.trace.searched = false;
    }

    /// Whether the chip is in the middle of a copy: before its 24th bit, or after a copy carried out.
    fn is_copying(&self) -> bool {
        matches!(self.step, Step::CopyBytes | Step::CopyDone)
    }

    /// The place of Search ROM at which a slip goes on after a reset.
    fn resumes_at(&self, book: &Book) -> usize {
        match self.step {
            Step::SearchBit(place) | Step::SearchComplement(place) | Step::SearchTake(place)
                if book.slips(Slip::SearchResumes) =>
            {
                place
            }
            _ => 0,
        }
    }

    /// Whether a slip keeps the chip from answering F0h.
    fn is_deaf(&self, book: &Book) -> bool {
        let held_low = self.is(DS2413) && self.levels < 3;
        self.rc && book.slips(Slip::RcDeaf) || held_low && book.slips(Slip::PinDeaf)
    }

    /// A reset at a short address: PF is set, the address bits are lost, T, E and AA stay.
    fn cut_address(&mut self, book: &Book) {
        self.trace.short |= self.es & PF == 0;
        let unheard = match self.bits.len() {
            0 => Slip::ShortNone,
            1..=7 => Slip::ShortInTa1,
            8 => Slip::ShortAfterTa1,
            _ => Slip::ShortInTa2,
        };
        let leaves_pf = [Slip::ShortIgnored, Slip::ShortLate, unheard];
        if book.slips(Slip::ShortTurnsPf) {
            self.es ^= PF;
        } else if !leaves_pf.iter().any(|slip| book.slips(*slip)) {
            self.es |= PF;
        }
        if book.slips(Slip::ShortTaken) {
            self.t = self.half_taken();
        }
        if book.slips(Slip::ShortSetsE) {
            self.set_e(usize::from(self.t) % PAD);
        }
        if book.slips(Slip::ShortClearsAa) {
            self.es &= !AA;
        }
    }

    /// T with the address bits that came in place of its lowest.
    fn half_taken(&self) -> u16 {
        let put = |t: u16, (place, bit): (usize, &u8)| t & !(1 << place) | u16::from(*bit) << place;
        self.bits.iter().enumerate().fold(self.t, put)
    }

    /// Whether the bits taken are the first ones of this byte, and one at least.
    fn has_begun(&self, byte: u8) -> bool {
        let mut pairs = self.bits.iter().zip(bits_of(&[byte]));
        !self.bits.is_empty() && pairs.all(|(bit, own)| *bit == own)
    }

    /// Whether a slip takes a reset here for one at a short address.
    fn is_taken_for_short(&self, book: &Book) -> bool {
        match self.step {
            Step::FunctionCommand => self.has_begun(0x0F) && book.slips(Slip::ShortCommand),
            Step::WriteData(offset) => {
                let first = offset == usize::from(self.t) % PAD && self.bits.is_empty();
                first && book.slips(Slip::ShortWhole)
            }
            Step::CopyBytes => self.bits.len() < 16 && book.slips(Slip::ShortCopy),
            Step::ReadAddress => book.slips(Slip::ShortRead),
            _ => false,
        }
    }

    /// New outside levels of a DS2413.
    pub fn set_levels(&mut self, levels: u8, book: &mut Book) {
        let before = self.status(book);
        self.levels = levels;
        let moved = self.status(book) != before;
        let fresh = self.bits.len() == 8;
        match self.step {
            Step::PioRead if fresh => book.saw_if(moved, Rule::PioReadBetween),
            Step::PioRead => book.saw_if(moved, Rule::PioReadInside),
            Step::PioConfirm => book.saw_if(moved, Rule::PioWriteStatus),
            Step::PioStatus if fresh => book.saw_if(moved, Rule::PioWriteLate),
            _ => {}
        }
        if book.slips(Slip::LateStatus)
            && fresh
            && matches!(self.step, Step::PioRead | Step::PioStatus)
        {
            self.send_status(self.step, self.status(book));
        }
    }

    /// One slot of this value.
    pub fn slot(&mut self, value: u8, memory: &mut [u8], pad: &mut [u8], book: &mut Book) {
        if self.sends() == Some(1) && value == 0 {
            if book.slips(Slip::SenderStalls) {
                return;
            }
            if book.slips(Slip::LoserWaits) {
                return self.wait();
            }
        }
        match self.step {
            Step::Wait => book.saw(if self.trace.powered {
                Rule::PowerOnWaits
            } else {
                Rule::WaitIgnores
            }),
            Step::RomCommand => {
                if let Some(bytes) = self.take(value) {
                    self.rom_command(bytes[0], book);
                }
            }
            Step::SendCode => {
                if self.all_sent() {
                    book.saw(Rule::RomRead);
                    if book.slips(Slip::ReadWaits) {
                        self.wait();
                    } else {
                        self.function_level();
                    }
                }
            }
            Step::MatchCode => self.match_bit(value, book),
            Step::SearchBit(place) => self.step = Step::SearchComplement(place),
            Step::SearchComplement(place) => self.step = Step::SearchTake(place),
            Step::SearchTake(place) => self.search_bit(place, value, book),
            Step::FunctionCommand => {
                if let Some(bytes) = self.take(value) {
                    book.saw_if(self.trace.searched, Rule::RomSearchFunction);
                    if self.is(DS28EC20) {
                        self.memory_command(bytes[0], book);
                    } else {
                        self.pio_command(bytes[0], book);
                    }
                }
            }
            Step::Ones => {
                if let Some(rule) = self.trace.ones {
                    book.saw(rule);
                }
            }
            Step::WriteAddress => {
                if let Some(bytes) = self.take(value) {
                    self.write_address(bytes[0], bytes[1], book);
                }
            }
            Step::WriteData(offset) => {
                if let Some(bytes) = self.take(value) {
                    self.write_byte(offset, bytes[0], memory, pad, book);
                }
            }
            Step::SendRegisters => {
                if self.all_sent() {
                    let whole = book.slips(Slip::PadFromZero);
                    let start = if whole { 0 } else { usize::from(self.t) % PAD };
                    self.send(Step::SendPad(start), &pad[start..=start]);
                }
            }
            Step::SendPad(offset) => {
                if self.all_sent() {
                    self.pad_byte_sent(offset, pad, book);
                }
            }
            Step::SendCrc => {
                if self.all_sent() {
                    self.crc_sent(book);
                }
            }
            Step::CopyBytes => {
                if let Some(bytes) = self.take(value) {
                    self.copy(&bytes, memory, pad, book);
                }
            }
            Step::CopyDone => {
                let sent = self.bits[0];
                book.saw_if(sent == 1, Rule::CopyAlternates);
                if sent == 1 && book.slips(Slip::CopyOnce) {
                    self.ones(Rule::CopyAlternates);
                } else {
                    self.bits = VecDeque::from([1 - sent]);
                }
            }
            Step::ReadAddress => {
                if let Some(bytes) = self.take(value) {
                    self.read_address(bytes[0], bytes[1], memory, book);
                }
            }
            Step::ReadData(address) => {
                if self.all_sent() {
                    let last = address == LAST && memory[address] != 0xFF;
                    book.saw(Rule::ReadMemory);
                    book.saw_if(last, Rule::ReadMemoryLast);
                    book.saw_if((address + 1) % PAD == 0, Rule::ReadMemoryBlock);
                    self.read_at(address + 1, Rule::ReadMemoryEnd, memory, book);
                }
            }
            Step::PioRead => {
                if self.all_sent() {
                    book.saw(Rule::PioReadNext);
                    self.send_status(Step::PioRead, self.status(book));
                }
            }
            Step::PioPair => {
                if let Some(bytes) = self.take(value) {
                    self.pio_pair(bytes[0], bytes[1], book);
                }
            }
            Step::PioConfirm => {
                if self.all_sent() {
                    book.saw(Rule::PioWriteConfirm);
                    self.pio_confirmed(book);
                }
            }
            Step::PioStatus => {
                if self.all_sent() {
                    if book.slips(Slip::PioOnce) {
                        self.ones(Rule::PioWriteNext);
                    } else {
                        book.saw(Rule::PioWriteNext);
                        self.step = Step::PioPair;
                    }
                }
            }
        }
    }

    /// Takes a bit; gives the bytes when the step's last bit is in.
    fn take(&mut self, value: u8) -> Option<Vec<u8>> {
        self.below.pop_front();
        self.bits.push_back(value);
        if Some(self.bits.len()) != self.takes() {
            return None;
        }
        let bits: Vec<u8> = self.bits.drain(..).collect();
        let byte = |part: &[u8]| part.iter().rev().fold(0, |byte, bit| byte << 1 | bit);
        Some(bits.chunks(8).map(byte).collect())
    }

    /// Moves past the bit just sent; whether it was the last.
    fn all_sent(&mut self) -> bool {
        self.bits.pop_front();
        self.bits.is_empty()
    }

    /// Waits for a reset.
    fn wait(&mut self) {
        self.step = Step::Wait;
        self.bits.clear();
    }

    /// Takes a function command next.
    fn function_level(&mut self) {
        self.step = Step::FunctionCommand;
        self.bits.clear();
    }

    /// Sends ones until reset; the rule is counted in each such slot.
    fn ones(&mut self, rule: Rule) {
        self.step = Step::Ones;
        self.bits.clear();
        self.trace.ones = Some(rule);
    }

    /// Sends bytes in this step.
    fn send(&mut self, step: Step, bytes: &[u8]) {
        self.step = step;
        self.bits = bits_of(bytes);
    }

    /// A whole ROM command.
    fn rom_command(&mut self, command: u8, book: &mut Book) {
        let rc = self.rc;
        let resumed = self.trace.resumed;
        self.trace.resumed = command == 0xA5 && rc;
        match command {
            0x33 => {
                book.saw_if(rc, Rule::RomReadClearsRc);
                self.rc = rc && book.slips(Slip::ReadKeepsRc);
                self.send(Step::SendCode, &self.code.to_le_bytes());
            }
            0x55 => {
                book.saw_if(rc, Rule::RomMatchClearsRc);
                self.trace.lost_rc = rc;
                self.rc = rc && book.slips(Slip::RcMatchLate);
                self.step = Step::MatchCode;
            }
            0xF0 if self.is_deaf(book) => self.wait(),
            0xF0 => {
                book.saw_if(rc, Rule::RomSearchClearsRc);
                self.rc = false;
                self.step = Step::SearchBit(self.trace.broken_at);
            }
            0xCC => {
                book.saw(Rule::RomSkip);
                book.saw_if(rc, Rule::RomSkipClearsRc);
                self.rc = rc && book.slips(Slip::SkipKeepsRc);
                self.function_level();
            }
            0xA5 if rc || book.slips(Slip::ResumeAlways) => {
                book.saw(Rule::RomResume);
                book.saw_if(resumed, Rule::RomResumeAgain);
                self.rc = rc && !book.slips(Slip::RcResume);
                self.function_level();
            }
            0xA5 => {
                book.saw(Rule::RomResumeWaits);
                self.wait();
            }
            0x3C if book.slips(Slip::OverdriveSkip) => self.function_level(),
            _ => {
                book.saw(match command {
                    0x3C => Rule::RomOverdriveSkip,
                    0x69 => Rule::RomOverdriveMatch,
                    _ => Rule::RomOther,
                });
                book.saw_if(rc, Rule::RomOtherKeepsRc);
                self.rc = rc && !book.slips(Slip::RcUnknown);
                self.wait();
            }
        }
    }

    /// One bit of Match ROM.
    fn match_bit(&mut self, value: u8, book: &mut Book) {
        let place = self.bits.len();
        let blind = place == 63 && book.slips(Slip::Match63);
        if value != code_bit(self.code, place) && !blind {
            book.saw(Rule::RomMatchDiffers);
            book.saw_if(place == 63, Rule::RomMatchLast);
            if book.slips(Slip::RcMatchLate) {
                self.rc = false;
            }
            self.wait();
            return;
        }
        self.bits.push_back(value);
        if self.bits.len() == 64 {
            book.saw(Rule::RomMatch);
            self.rc = true;
            self.function_level();
        }
    }

    /// The bit taken at one place of Search ROM.
    fn search_bit(&mut self, place: usize, value: u8, book: &mut Book) {
        if value != code_bit(self.code, place) {
            book.saw(Rule::RomSearchDiffers);
            self.wait();
        } else if place < 63 {
            self.step = Step::SearchBit(place + 1);
        } else {
            book.saw(Rule::RomSearch);
            self.rc = !book.slips(Slip::SearchNoRc);
            self.trace.searched = true;
            if book.slips(Slip::SearchWaits) {
                self.wait();
            } else {
                self.function_level();
            }
        }
    }

    /// A whole function command of a DS28EC20.
    fn memory_command(&mut self, command: u8, book: &mut Book) {
        let late = self.trace.short && book.slips(Slip::ShortLate);
        if late || command == 0x0F && book.slips(Slip::ShortEarly) {
            self.es |= PF;
        }
        match command {
            0x0F => {
                self.summed = vec![0x0F];
                self.step = Step::WriteAddress;
            }
            0xAA => self.read_pad(book),
            0x55 => self.step = Step::CopyBytes,
            0xF0 => self.step = Step::ReadAddress,
            0xA5 if book.slips(Slip::ExtendedRead) => self.step = Step::ReadAddress,
            0xA5 => self.ones(Rule::OtherExtended),
            _ => self.ones(Rule::OtherMemory),
        }
    }

    /// Sets E.
    fn set_e(&mut self, offset: usize) {
        self.es = self.es & !0x1F | offset as u8 & 0x1F;
    }

    /// The bytes of a CRC-16 as they are sent.
    fn crc_bytes(summed: &[u8], book: &Book) -> [u8; 2] {
        let summed = if book.slips(Slip::CrcNoCommand) {
            &summed[1..]
        } else {
            summed
        };
        let mut crc = crc16(summed);
        if !book.slips(Slip::CrcPlain) {
            crc = !crc;
        }
        if book.slips(Slip::CrcHighFirst) {
            crc.to_be_bytes()
        } else {
            crc.to_le_bytes()
        }
    }

    /// Write Scratchpad: all 16 address bits are in.
    fn write_address(&mut self, ta1: u8, ta2: u8, book: &mut Book) {
        book.saw(Rule::WriteAddress);
        book.saw_if(self.es & PF != 0, Rule::WriteClearsPf);
        book.saw_if(self.es & AA != 0, Rule::WriteClearsAa);
        self.t = u16::from_le_bytes([ta1, ta2]);
        if usize::from(self.t) > LAST && book.slips(Slip::AddressClip) {
            self.t &= 0x0FFF;
        }
        let offset = usize::from(self.t) % PAD;
        book.saw_if(offset == 31, Rule::WriteLast);
        let mut kept = 0;
        if book.slips(Slip::PfKept) {
            kept |= self.es & PF;
        }
        if book.slips(Slip::AaKept) {
            kept |= self.es & AA;
        }
        self.es = kept;
        if !book.slips(Slip::EZero) {
            self.set_e(offset);
        }
        self.summed.extend([ta1, ta2]);
        self.step = Step::WriteData(offset);
        self.trace.address_only = true;
        self.trace.short = false;
        self.trace.changed = false;
        self.trace.read = false;
    }

    /// Write Scratchpad: a whole data byte is in.
    fn write_byte(
        &mut self,
        offset: usize,
        byte: u8,
        memory: &[u8],
        pad: &mut [u8],
        book: &mut Book,
    ) {
        book.saw(Rule::WriteByte);
        let start = usize::from(self.t) % PAD;
        let foreign = pad[..start].iter().any(|&other| other != 0xFF);
        book.saw_if(foreign, Rule::WriteSparesOthers);
        let address = page_of(usize::from(self.t)) + offset;
        let ruled = rule_of_byte(address, byte, memory, book);
        pad[offset] = if book.slips(Slip::PadFree) {
            byte
        } else {
            ruled
        };
        self.trace.changed |= ruled != byte;
        self.trace.address_only = false;
        self.set_e(offset + usize::from(book.slips(Slip::ENext)));
        self.summed.push(if book.slips(Slip::CrcRuled) {
            ruled
        } else {
            byte
        });
        if offset < 31 {
            self.step = Step::WriteData(offset + 1);
        } else {
            self.send(Step::SendCrc, &Self::crc_bytes(&self.summed, book));
        }
    }

    /// Read Scratchpad: the command is in.
    fn read_pad(&mut self, book: &mut Book) {
        let start = usize::from(self.t) % PAD;
        let e = usize::from(self.es & 0x1F);
        book.saw_if(start > 0, Rule::PadOffset);
        book.saw_if(e < 31, Rule::PadPastE);
        book.saw_if(self.es & PF != 0, Rule::PadPf);
        book.saw_if(self.es & AA != 0, Rule::PadAa);
        let [ta1, ta2] = self.t.to_le_bytes();
        self.summed = vec![0xAA, ta1, ta2, self.es];
        self.send(Step::SendRegisters, &[ta1, ta2, self.es]);
    }

    /// Read Scratchpad: the byte at an offset is sent.
    fn pad_byte_sent(&mut self, offset: usize, pad: &[u8], book: &mut Book) {
        self.summed.push(pad[offset]);
        let e = usize::from(self.es & 0x1F);
        let end = if book.slips(Slip::PadToE) { e } else { 31 };
        if offset < end {
            self.send(Step::SendPad(offset + 1), &pad[offset + 1..=offset + 1]);
        } else {
            self.send(Step::SendCrc, &Self::crc_bytes(&self.summed, book));
        }
    }

    /// The CRC-16 of Read or Write Scratchpad is sent.
    fn crc_sent(&mut self, book: &mut Book) {
        if self.summed.first() == Some(&0xAA) {
            book.saw(Rule::PadWhole);
            return self.ones(Rule::PadOnes);
        }
        book.saw(Rule::WriteCrc);
        book.saw_if(self.trace.changed, Rule::WriteCrcAsTaken);
        self.ones(Rule::WriteOnes);
    }

    /// Copy Scratchpad: all 24 bits are in.
    fn copy(&mut self, bytes: &[u8], memory: &mut [u8], pad: &[u8], book: &mut Book) {
        let [ta1, ta2] = self.t.to_le_bytes();
        let mut es = self.es;
        let mut third = bytes[2];
        if book.slips(Slip::AaIgnored) {
            es &= !AA;
            third &= !AA;
        }
        let right =
            bytes[0] == ta1 && bytes[1] == ta2 && (third == es || book.slips(Slip::EsIgnored));
        let cut = self.es & PF != 0 && !book.slips(Slip::PfCopies);
        let page = page_of(usize::from(self.t));
        let closed = is_closed(page, memory, book);
        let stopped = self.trace.read && book.slips(Slip::ReadStopsCopy);
        self.note_copy(bytes, memory, pad, book);
        if right && !cut && page > LAST && book.slips(Slip::AboveCopies) {
            self.es |= AA;
            self.send_alternating(book);
            return;
        }
        if !right || cut || closed || stopped {
            self.ones_after_copy(bytes);
            return;
        }
        let before = memory.to_vec();
        let start = if book.slips(Slip::CopyFromZero) {
            0
        } else {
            usize::from(self.t) % PAD
        };
        let end = if book.slips(Slip::CopyPastE) {
            31
        } else {
            usize::from(self.es & 0x1F)
        };
        for (offset, &byte) in pad.iter().enumerate().take(end + 1).skip(start) {
            let address = page + offset;
            memory[address] = if book.slips(Slip::TrustPad) {
                byte
            } else {
                rule_of_byte(address, byte, &before, book)
            };
        }
        self.note_copied(&before, memory, pad, book);
        if book.slips(Slip::JudgeLate) && is_closed(page, memory, book) {
            self.ones_after_copy(bytes);
            return;
        }
        if !book.slips(Slip::AaUnset) {
            self.es |= AA;
        }
        self.send_alternating(book);
    }

    /// A copy was carried out: 0, 1, 0, 1.
    fn send_alternating(&mut self, book: &Book) {
        self.step = Step::CopyDone;
        self.bits = VecDeque::from([u8::from(book.slips(Slip::CopyOneFirst))]);
    }

    /// A copy was not carried out: ones, counted under what stopped it.
    fn ones_after_copy(&mut self, bytes: &[u8]) {
        let [ta1, ta2] = self.t.to_le_bytes();
        self.ones(if bytes[0] != ta1 {
            Rule::CopyWrongTa1
        } else if bytes[1] != ta2 {
            Rule::CopyWrongTa2
        } else if self.es & AA != 0 && bytes[2] == self.es & !AA {
            Rule::CopyStale
        } else if bytes[2] != self.es {
            Rule::CopyWrongEs
        } else if self.trace.short {
            Rule::CopyShort
        } else if self.es == PF && self.t == 0 {
            Rule::CopyAfterPowerOn
        } else if self.es & PF != 0 {
            Rule::CopyPf
        } else {
            match page_of(usize::from(self.t)) {
                0x0000..=0x09FF => Rule::CopyClosedBlock,
                0x0A00 => Rule::CopyClosedRegister,
                READ_ONLY => Rule::CopyClosedReadOnly,
                _ => Rule::CopyClosedAbove,
            }
        });
    }

    /// Read Memory: all 16 address bits are in.
    fn read_address(&mut self, ta1: u8, ta2: u8, memory: &[u8], book: &mut Book) {
        let mut address = u16::from_le_bytes([ta1, ta2]);
        if usize::from(address) > LAST && book.slips(Slip::AddressClip) {
            address &= 0x0FFF;
        }
        book.saw_if(address != self.t, Rule::ReadMemoryKeeps);
        if book.slips(Slip::ReadSetsT) {
            self.t = address;
        }
        self.trace.read = true;
        self.read_at(usize::from(address), Rule::ReadMemoryAbove, memory, book);
    }

    /// Sends the byte at an address, or ones past the last.
    fn read_at(&mut self, address: usize, past: Rule, memory: &[u8], book: &Book) {
        let last = LAST - usize::from(book.slips(Slip::ReadShort));
        if address <= last {
            self.send(Step::ReadData(address), &memory[address..=address]);
        } else if book.slips(Slip::ReadWraps) {
            self.send(Step::ReadData(0), &memory[..1]);
        } else {
            self.ones(past);
        }
    }

    /// A whole function command of a DS2413.
    fn pio_command(&mut self, command: u8, book: &mut Book) {
        match command {
            0xF5 => {
                book.saw(Rule::PioRead);
                self.send_status(Step::PioRead, self.status(book));
            }
            0x5A => self.step = Step::PioPair,
            _ => self.ones(Rule::OtherPio),
        }
    }

    /// The status byte of a DS2413 as it is now.
    fn status(&self, book: &mut Book) -> u8 {
        let latches = self.latches;
        let pins = if book.slips(Slip::PinLevel) {
            self.levels
        } else if book.slips(Slip::PinLatch) {
            latches
        } else {
            latches & self.levels
        };
        book.saw_if(latches & !self.levels != 0, Rule::PioPinLow);
        book.saw_if(!latches & self.levels & 3 != 0, Rule::PioLatchLow);
        let (a, b) = if book.slips(Slip::StatusSwapped) {
            (1, 0)
        } else {
            (0, 1)
        };
        let low = (pins >> a & 1)
            | (latches >> a & 1) << 1
            | (pins >> b & 1) << 2
            | (latches >> b & 1) << 3;
        low | (!low & 0x0F) << 4
    }

    /// PIO Access Write: a byte and what should be its complement are in.
    fn pio_pair(&mut self, byte: u8, complement: u8, book: &mut Book) {
        let agree = complement == !byte || book.slips(Slip::PioBlind);
        if !agree || byte >> 2 != 0x3F && book.slips(Slip::PioHighOnes) {
            return self.ones(Rule::PioWriteDiffers);
        }
        book.saw(Rule::PioWrite);
        book.saw_if(byte >> 2 != 0x3F, Rule::PioWriteFree);
        if book.slips(Slip::LatchLate) {
            self.summed = vec![byte & 3];
        } else {
            self.latches = byte & 3;
        }
        if book.slips(Slip::EarlyStatus) {
            self.summed = vec![self.status(book)];
        }
        self.send(Step::PioConfirm, &[0xAA]);
    }

    /// PIO Access Write: AAh is sent, the status is sampled.
    fn pio_confirmed(&mut self, book: &mut Book) {
        if book.slips(Slip::LatchLate) {
            self.latches = self.summed[0];
        }
        let status = if book.slips(Slip::EarlyStatus) {
            self.summed[0]
        } else {
            self.status(book)
        };
        self.send_status(Step::PioStatus, status);
    }

    /// Sends a status byte in this step.
    fn send_status(&mut self, step: Step, status: u8) {
        self.sampled = status;
        self.send(step, &[status]);
    }

    /// Counts what a power on meets.
    fn note_power_on(&self, pad: &[u8], book: &mut Book) {
        book.saw_if(self.rc, Rule::PowerOnClearsRc);
        if self.is(DS28EC20) {
            book.saw_if(self.t != 0 || self.es != PF, Rule::PowerOnRegisters);
            book.saw_if(
                pad.iter().any(|&byte| byte != 0xFF),
                Rule::PowerOnScratchpad,
            );
            let inside = matches!(self.step, Step::WriteData(_)) && !self.bits.is_empty();
            book.saw_if(inside, Rule::PowerOnCutsByte);
            let kept = self.t != 0 || self.es & !PF != 0;
            book.saw_if(self.is_short() && kept, Rule::PowerOnShort);
        } else {
            book.saw_if(self.latches != 3, Rule::PowerOnLatches);
            book.saw_if(self.levels != 3, Rule::PowerOnLevels);
        }
    }

    /// Counts what a reset meets.
    fn note_reset(&self, book: &mut Book) {
        let begun = !self.bits.is_empty();
        let no_pf = self.es & PF == 0;
        book.saw_if(self.rc, Rule::ResetKeepsRc);
        if self.is(DS28EC20) {
            book.saw_if(self.t != 0, Rule::ResetKeepsRegisters);
        } else {
            book.saw_if(self.latches != 3, Rule::ResetKeepsLatches);
        }
        match self.step {
            Step::Wait => book.saw(Rule::LinePresenceWaits),
            Step::RomCommand => book.saw_if(begun && self.rc, Rule::RomCommandCut),
            Step::MatchCode => book.saw_if(self.trace.lost_rc, Rule::RomMatchCut),
            Step::FunctionCommand => {
                book.saw_if(begun, Rule::FunctionCut);
                let write = self.is(DS28EC20) && self.has_begun(0x0F);
                book.saw_if(write && no_pf, Rule::WriteCommandCut);
            }
            _ if self.is_short() => self.note_short(book),
            Step::WriteData(_) => book.saw(match (begun, self.trace.address_only) {
                (true, false) => Rule::WriteCutPf,
                (true, true) => Rule::WriteCutFirst,
                (false, false) => Rule::WriteCutBetween,
                (false, true) => Rule::WriteCutNone,
            }),
            Step::CopyBytes => {
                book.saw_if(begun, Rule::CopyCut);
                let address = self.bits.len() < 16;
                book.saw_if(address && no_pf, Rule::CopyAddressCut);
            }
            Step::ReadAddress => book.saw_if(no_pf, Rule::ReadMemoryCut),
            Step::PioPair => book.saw_if(begun, Rule::PioWriteCut),
            Step::PioConfirm => book.saw(Rule::PioConfirmCut),
            _ => {}
        }
    }

    /// Counts what a reset at a short address meets; with PF 1 only that it stays.
    fn note_short(&self, book: &mut Book) {
        if self.es & PF != 0 {
            return book.saw(Rule::WriteShortPf);
        }
        book.saw(match self.bits.len() {
            0 => Rule::WriteShortNone,
            1..=7 => Rule::WriteShortInTa1,
            8 => Rule::WriteShortAfterTa1,
            _ => Rule::WriteShortInTa2,
        });
        let e = usize::from(self.es & 0x1F);
        book.saw_if(self.half_taken() != self.t, Rule::WriteShortT);
        book.saw_if(e != usize::from(self.t) % PAD, Rule::WriteShortE);
        book.saw_if(self.es & AA != 0, Rule::WriteShortAa);
    }

    /// Counts what the three bytes of a copy meet.
    fn note_copy(&self, bytes: &[u8], memory: &[u8], pad: &[u8], book: &mut Book) {
        let [ta1, ta2] = self.t.to_le_bytes();
        let right = bytes == [ta1, ta2, self.es];
        book.saw_if(!right && self.es & AA != 0, Rule::CopyRefusedAa);
        let page = page_of(usize::from(self.t));
        if !right || self.es & PF != 0 || is_closed(page, memory, book) {
            return;
        }
        let start = usize::from(self.t) % PAD;
        let e = usize::from(self.es & 0x1F);
        book.saw(Rule::CopyDone);
        book.saw_if(self.es & AA != 0, Rule::CopyAgain);
        book.saw_if(self.trace.read, Rule::CopyAfterRead);
        book.saw_if(self.trace.address_only, Rule::CopyAddressOnly);
        book.saw_if(start > 0, Rule::CopyFromOffset);
        book.saw_if(e < start, Rule::CopyBelow);
        let past = e + 1..PAD;
        let differs = past.clone().any(|at| pad[at] != memory[page + at]);
        book.saw_if(differs, Rule::CopyStopsAtE);
    }

    /// Counts what a copy carried out has done.
    fn note_copied(&self, before: &[u8], memory: &[u8], pad: &[u8], book: &mut Book) {
        let page = page_of(usize::from(self.t));
        let start = usize::from(self.t) % PAD;
        let end = usize::from(self.es & 0x1F);
        let ruled = (start..=end).any(|at| pad[at] != memory[page + at]);
        book.saw_if(ruled, Rule::CopyJudgedAgain);
        if page == CONTROLS {
            let marked = |at: usize| !is_mark(before[at]) && is_mark(memory[at]);
            book.saw_if(marked(PAGE_LOCK), Rule::CopyOwnLock);
            book.saw_if((CONTROLS..=0x0A09).any(marked), Rule::CopyControl);
            return;
        }
        let locked = is_mark(before[BLOCK_LOCK]);
        match control(page, before) {
            0x55 => {
                book.saw_if(ruled, Rule::CopyHeld);
                book.saw(Rule::CopyHeldNoLock);
            }
            0xAA => {
                book.saw(Rule::CopyFalls);
                book.saw_if(locked, Rule::CopyFallsUnderLock);
            }
            _ => book.saw_if(locked, Rule::CopyOpenUnderLock),
        }
    }
}
