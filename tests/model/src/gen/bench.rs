//! A host that writes event scripts, with the model's answers beside them.

use super::rng::Rng;
use crate::model::book::Book;
use crate::model::chip::{Chip, AA, DS2413, DS28EC20, PF};
use crate::model::memory::{is_mark, CONTROLS, IMAGE, LAST, PAD};
use crate::model::programs::Wire;
use crate::model::search::Host;

/// A script: its characters and the answers that the model gives.
#[derive(Clone, Default)]
pub struct Script {
    pub text: Vec<u8>,
    pub answers: Vec<u8>,
}

/// The host, the model's line and the script under way.
pub struct Bench<'a> {
    pub wire: Wire,
    book: &'a mut Book,
    pub rng: Rng,
    script: Script,
    /// Slots left before a cut, if this exchange is to be cut.
    left: Option<usize>,
    /// Whether exchanges are cut and disturbed at random.
    pub wild: bool,
}

impl<'a> Bench<'a> {
    /// A bench on a good card.
    pub fn new(card: &[u8], rng: Rng, book: &'a mut Book) -> Bench<'a> {
        let wire = Wire::open(card, book).expect("a good card");
        Bench {
            wire,
            book,
            rng,
            script: Script::default(),
            left: None,
            wild: false,
        }
    }

    /// Hands over the script written so far.
    pub fn take_script(&mut self) -> Script {
        std::mem::take(&mut self.script)
    }

    /// Ends the input, now and then inside an event.
    pub fn end(mut self) -> Script {
        let tail: &[u8] = self.rng.pick(&[b"", b"4", b"40", b"\n", b"4F"]);
        for character in tail {
            self.put(*character);
        }
        self.script.answers.extend(self.wire.end(self.book));
        self.script
    }

    /// Puts one character and gives the answer, if there is one.
    fn put(&mut self, character: u8) -> Option<u8> {
        self.script.text.push(character);
        let answer = self.wire.take(character, self.book);
        self.script.answers.extend(answer);
        answer
    }

    /// Puts characters.
    pub fn put_all(&mut self, text: &[u8]) {
        for character in text {
            self.put(*character);
        }
    }

    /// One slot, unless the exchange is cut already.
    pub fn slot(&mut self, bit: u8) -> u8 {
        match &mut self.left {
            Some(0) => return 1,
            Some(left) => *left -= 1,
            None => {}
        }
        let mut bit = bit;
        if self.wild {
            if self.rng.below(120) == 0 {
                self.stray();
            }
            if self.rng.below(600) == 0 {
                bit ^= 1;
            }
        }
        self.put(b'0' + bit).map_or(1, |answer| answer - b'0')
    }

    /// Writes bits, low bit of the first byte first.
    pub fn write_bits(&mut self, bytes: &[u8], count: usize) {
        for at in 0..count {
            self.slot(bytes[at / 8] >> (at % 8) & 1);
        }
    }

    /// Writes bytes.
    pub fn write(&mut self, bytes: &[u8]) {
        self.write_bits(bytes, 8 * bytes.len());
    }

    /// Reads so many bits, with read slots.
    pub fn read_bits(&mut self, count: usize) {
        for _ in 0..count {
            self.slot(1);
        }
    }

    /// Reads so many bytes.
    pub fn read(&mut self, count: usize) {
        self.read_bits(8 * count);
    }

    /// Reset, or power on and reset where an exchange was cut; its answer.
    pub fn reset(&mut self) -> u8 {
        if self.left.take() == Some(0) && self.rng.chance(12) {
            self.power_on();
        }
        let answer = self.put(b'2');
        if self.wild && self.rng.chance(12) {
            let most = self.rng.pick(&[10, 40, 110, 200, 400]);
            self.left = Some(self.rng.below(most));
        }
        answer.map_or(1, |answer| answer - b'0')
    }

    /// Power on.
    pub fn power_on(&mut self) {
        self.left = None;
        self.put(b'3');
    }

    /// Event 4; a digit over 9 in either case.
    pub fn levels(&mut self, chip: usize, levels: usize) {
        let digits = self.rng.pick(&[b"0123456789abcdef", b"0123456789ABCDEF"]);
        self.put_all(&[b'4', digits[chip % 16], digits[levels % 16]]);
    }

    /// Something beside the slots: levels, a refused event, a space.
    pub fn stray(&mut self) {
        match self.rng.below(9) {
            0..=3 => {
                if let Some(chip) = self.some(DS2413) {
                    let levels = self.rng.below(4);
                    self.levels(chip, levels);
                }
            }
            4 => {
                let (chip, levels) = (self.rng.below(16), self.rng.below(16));
                self.levels(chip, levels);
            }
            5 => self.no_event(),
            6 => self.no_digit(),
            _ => {
                let space = self.rng.pick(b" \r\n");
                self.put(space);
            }
        }
    }

    /// A character that is no event.
    pub fn no_event(&mut self) {
        let character = self.rng.pick(b"56789abcdefgABCDEFGxyz.,-+/#!~@");
        self.put(character);
    }

    /// Event 4 with an operand that is no digit.
    pub fn no_digit(&mut self) {
        let other = self.rng.pick(b"gxyzGZ.-+/:@`");
        let digit = self.rng.pick(b"0123");
        if self.rng.chance(50) {
            self.put_all(&[b'4', other, digit]);
        } else {
            self.put_all(&[b'4', digit, other]);
        }
    }

    /// A chip's record in the model.
    pub fn chip(&self, chip: usize) -> &Chip {
        &self.wire.line.table[chip]
    }

    /// The number of chips.
    pub fn chips(&self) -> usize {
        self.wire.line.table.len()
    }

    /// Some chip of a part.
    pub fn some(&mut self, part: u32) -> Option<usize> {
        let chips = (0..self.chips()).filter(|chip| self.chip(*chip).is(part));
        let chips: Vec<usize> = chips.collect();
        (!chips.is_empty()).then(|| self.rng.pick(&chips))
    }

    /// Some chip.
    pub fn any(&mut self) -> Option<usize> {
        (self.chips() > 0).then(|| self.rng.below(self.chips()))
    }

    /// The image of a DS28EC20 in the model.
    pub fn memory(&self, chip: usize) -> &[u8] {
        let before = self.wire.line.table[..chip].iter();
        let at = before.filter(|chip| chip.is(DS28EC20)).count();
        &self.wire.line.images[IMAGE * at..IMAGE * (at + 1)]
    }

    /// Reset and Match ROM with a chip's code.
    pub fn match_rom(&mut self, chip: usize) {
        let code = self.chip(chip).code;
        self.match_code(code);
    }

    /// Reset and Match ROM with any code.
    pub fn match_code(&mut self, code: u64) {
        self.reset();
        self.write(&[0x55]);
        self.write(&code.to_le_bytes());
    }

    /// Reset and Search ROM along a code.
    pub fn search_code(&mut self, code: u64) {
        self.reset();
        self.write(&[0xF0]);
        for place in 0..64 {
            self.read_bits(2);
            self.slot((code >> place & 1) as u8);
        }
    }

    /// Reset and a ROM command.
    pub fn rom(&mut self, command: u8) {
        self.reset();
        self.write(&[command]);
    }

    /// Brings a chip to the function level in one of the ways.
    pub fn reach(&mut self, chip: usize) {
        let alone = self.chips() == 1;
        match self.rng.below(20) {
            0 | 1 => {
                let code = self.chip(chip).code;
                self.search_code(code);
            }
            2..=5 if self.chip(chip).rc => self.rom(0xA5),
            6..=9 if alone => self.rom(0xCC),
            10 | 11 if alone => {
                self.rom(0x33);
                self.read(8);
            }
            12 if self.wild => self.rom(0xCC),
            _ => self.match_rom(chip),
        }
    }

    /// A command that makes a chip at the function level speak, and some of what it says.
    pub fn speak(&mut self, chip: usize) {
        let command = if self.chip(chip).is(DS28EC20) {
            0xAA
        } else {
            0xF5
        };
        self.write(&[command]);
        self.read(4);
    }

    /// Write Scratchpad of bytes at an address.
    pub fn write_pad(&mut self, chip: usize, address: usize, data: &[u8]) {
        self.reach(chip);
        self.write(&[0x0F, address as u8, (address >> 8) as u8]);
        self.write(data);
    }

    /// Write Scratchpad with so many address bits, each other than T's.
    pub fn short_address(&mut self, chip: usize, bits: usize) {
        self.reach(chip);
        self.write(&[0x0F]);
        let other = !self.chip(chip).t;
        self.write_bits(&other.to_le_bytes(), bits);
    }

    /// Read Scratchpad, so many bytes.
    pub fn read_pad(&mut self, chip: usize, bytes: usize) {
        self.reach(chip);
        self.write(&[0xAA]);
        self.read(bytes);
    }

    /// Copy Scratchpad with three bytes, and some of what follows.
    pub fn copy(&mut self, chip: usize, bytes: [u8; 3]) {
        self.reach(chip);
        self.write(&[0x55]);
        self.write(&bytes);
        let bits = self.rng.between(3, 12);
        self.read_bits(bits);
    }

    /// The three bytes that a chip expects.
    pub fn right(&self, chip: usize) -> [u8; 3] {
        let chip = self.chip(chip);
        let [ta1, ta2] = chip.t.to_le_bytes();
        [ta1, ta2, chip.es]
    }

    /// Copy Scratchpad with the right bytes.
    pub fn copy_right(&mut self, chip: usize) {
        let right = self.right(chip);
        self.copy(chip, right);
    }

    /// Three bytes that are right, stale or wrong.
    pub fn authorization(&mut self, chip: usize) -> [u8; 3] {
        let mut bytes = self.right(chip);
        match self.rng.below(16) {
            0 => bytes[2] ^= AA,
            1 => bytes[2] ^= PF,
            2 => bytes[2] ^= 1 << self.rng.below(8),
            3 => bytes[0] ^= 1 << self.rng.below(8),
            4 => bytes[1] ^= 1 << self.rng.below(8),
            5 => bytes = [self.rng.byte(), self.rng.byte(), self.rng.byte()],
            _ => {}
        }
        bytes
    }

    /// Writes, copies and leaves the bytes in memory where nothing stands against it.
    pub fn commit(&mut self, chip: usize, address: usize, data: &[u8]) {
        self.write_pad(chip, address, data);
        self.copy_right(chip);
    }

    /// Read Memory, so many bytes.
    pub fn read_memory(&mut self, chip: usize, address: usize, bytes: usize) {
        self.reach(chip);
        self.write(&[0xF0, address as u8, (address >> 8) as u8]);
        self.read(bytes);
    }

    /// Reads the page that holds an address.
    pub fn read_page(&mut self, chip: usize, address: usize) {
        self.read_memory(chip, address - address % PAD, PAD);
    }

    /// A block whose control byte is FFh, or any if there is none.
    pub fn free_block(&mut self, chip: usize) -> usize {
        let memory = self.memory(chip);
        let free = (0..10).filter(|block| memory[CONTROLS + block] == 0xFF);
        let free: Vec<usize> = free.collect();
        if free.is_empty() {
            self.rng.below(10)
        } else {
            self.rng.pick(&free)
        }
    }

    /// An address in a block.
    pub fn in_block(&mut self, block: usize) -> usize {
        256 * block + self.rng.pick(&[0, 6, 31, 32, 0x7F, 0xE0, 0xFF])
    }

    /// An address above the last.
    pub fn above(&mut self) -> usize {
        let any = self.rng.between(LAST + 1, 0xFFFF);
        let page = self.rng.between(LAST + 1, LAST + 32);
        self.rng.pick(&[
            0x0A40, 0x0A5F, 0x0B00, 0x0FFF, 0x1000, 0x1006, 0x1A00, 0x8000, 0xFA1F, 0xFFE0, 0xFFFF,
            any, page,
        ])
    }

    /// Any address, mostly one that has a meaning.
    pub fn address(&mut self) -> usize {
        match self.rng.below(20) {
            0..=7 => {
                let block = self.rng.pick(&[0, 0, 0, 1, 1, 2, 5, 9]);
                self.in_block(block)
            }
            8 | 9 => self.rng.below(CONTROLS),
            10..=12 => CONTROLS + self.rng.pick(&[0, 0, 1, 1, 2, 5, 9]),
            13 => CONTROLS + self.rng.between(0x0A, 0x1D),
            14 => CONTROLS + self.rng.between(0x1D, 0x1F),
            15 => CONTROLS,
            16 | 17 => self.rng.between(0x0A20, LAST),
            _ => self.above(),
        }
    }

    /// An address in a block whose control byte holds a mark, or any if there is none.
    pub fn protected(&mut self, chip: usize) -> usize {
        let memory = self.memory(chip);
        let marked = (0..10).filter(|block| is_mark(memory[CONTROLS + block]));
        let marked: Vec<usize> = marked.collect();
        if marked.is_empty() {
            return self.address();
        }
        let block = self.rng.pick(&marked);
        self.in_block(block)
    }

    /// A byte, often one that has a meaning.
    pub fn byte(&mut self) -> u8 {
        let any = self.rng.byte();
        self.rng.pick(&[
            0x00, 0xFF, 0x55, 0xAA, 0x55, 0xAA, 0xF0, 0x3C, any, any, any, any,
        ])
    }

    /// So many such bytes.
    pub fn bytes(&mut self, count: usize) -> Vec<u8> {
        (0..count).map(|_| self.byte()).collect()
    }

    /// Bytes to fill a page from an address, or fewer, or a few too many.
    pub fn data_for(&mut self, address: usize) -> Vec<u8> {
        let room = PAD - address % PAD;
        let count = match self.rng.below(10) {
            0 => 0,
            1..=6 => self.rng.between(1, room.min(4)),
            7 => self.rng.between(1, room),
            8 => room,
            _ => room + self.rng.below(4),
        };
        self.bytes(count)
    }
}

impl Host for Bench<'_> {
    fn put(&mut self, event: u64) -> u8 {
        match event {
            2 => self.reset(),
            _ => self.slot(event as u8),
        }
    }

    fn book(&mut self) -> &mut Book {
        self.book
    }
}
