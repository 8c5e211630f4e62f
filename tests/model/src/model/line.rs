//! The line: events 0 to 4 and their refusals.

use super::book::{Book, Rule, Slip};
use super::chip::{Chip, Step, DS2413, DS28EC20};
use super::memory::{IMAGE, PAD};

/// Most chips on a line.
pub const MOST: usize = 16;

/// The table, images and scratchpads of a line, as a caller lends them.
#[derive(Clone)]
pub struct Line {
    pub table: Vec<Chip>,
    /// The image of each kind-1 chip, in table order.
    pub images: Vec<u8>,
    /// The scratchpad of each kind-1 chip, in table order.
    pub pads: Vec<u8>,
}

impl Line {
    /// A line as the programs set it up: images FFh, then power on.
    pub fn set_up(table: Vec<Chip>, book: &mut Book) -> Line {
        let memories = table.iter().filter(|chip| chip.is(DS28EC20)).count();
        let mut line = Line {
            table,
            images: vec![0xFF; IMAGE * memories],
            pads: vec![0x00; PAD * memories],
        };
        line.event(3, 0, 0, book).expect("set up in range");
        line
    }

    /// Refusal 8 or 5, if one holds.
    pub fn refusal(&self) -> Option<u8> {
        let memories = self.table.iter().filter(|chip| chip.is(DS28EC20));
        let memories = memories.count();
        if self.table.len() > MOST || !self.table.iter().all(Chip::is_in_range) {
            Some(8)
        } else if self.images.len() != IMAGE * memories || self.pads.len() != PAD * memories {
            Some(5)
        } else {
            None
        }
    }

    /// One event: the answer, or the number of the refusal.
    pub fn event(
        &mut self,
        number: u64,
        chip: u64,
        levels: u64,
        book: &mut Book,
    ) -> Result<u8, u8> {
        if let Some(refusal) = self.refusal() {
            book.saw(if refusal == 8 {
                Rule::Refusal8
            } else {
                Rule::Refusal5
            });
            return Err(refusal);
        }
        match number {
            0 => Ok(self.slot(0, book)),
            1 => Ok(self.slot(1, book)),
            2 => Ok(self.reset(book)),
            3 => Ok(self.power_on(book)),
            4 => self.levels(chip, levels, book),
            _ => {
                book.saw(Rule::Refusal6);
                Err(6)
            }
        }
    }

    /// A slot in which the host writes a bit: its value.
    fn slot(&mut self, host: u8, book: &mut Book) -> u8 {
        let mut sent: Vec<u8> = self.table.iter().filter_map(Chip::sends).collect();
        if book.slips(Slip::FirstHeard) {
            sent.truncate(1);
        }
        let value = sent.iter().fold(host, |value, bit| value & bit);
        self.note_slot(host, value, &sent, book);
        let taken = if book.slips(Slip::HostBit) {
            host
        } else {
            value
        };
        let mut matched = 0;
        self.each(|chip, memory, pad| {
            let matching = chip.step == Step::MatchCode;
            let given = if chip.is_taking() { taken } else { value };
            chip.slot(given, memory, pad, book);
            if matching && chip.step == Step::FunctionCommand {
                matched += 1;
            }
        });
        book.saw_if(matched > 1, Rule::RomMatchTwins);
        value
    }

    /// A reset: 0 if any chip is there.
    fn reset(&mut self, book: &mut Book) -> u8 {
        let waiting_silent = book.slips(Slip::WaitingSilent);
        let heard = |chip: &Chip| !(waiting_silent && chip.step == Step::Wait);
        let presence = self.table.iter().any(heard) || book.slips(Slip::PresenceAlways);
        self.each(|chip, _, _| chip.reset(book));
        book.saw(if self.table.is_empty() {
            Rule::LineEmptyReset
        } else {
            Rule::LinePresence
        });
        u8::from(!presence)
    }

    /// Power on of every chip.
    fn power_on(&mut self, book: &mut Book) -> u8 {
        book.saw(Rule::LinePowerOn);
        self.each(|chip, _, pad| chip.power_on(pad, book));
        1
    }

    /// Outside levels of one DS2413.
    fn levels(&mut self, chip: u64, levels: u64, book: &mut Book) -> Result<u8, u8> {
        let known = self.table.get(chip as usize);
        let absent = known.is_none();
        let other = known.is_some_and(|chip| !chip.is(DS2413));
        if absent && !book.slips(Slip::LevelsAbsent) {
            book.saw(Rule::Refusal7Absent);
            return Err(7);
        }
        if other && !book.slips(Slip::LevelsAnyKind) {
            book.saw(Rule::Refusal7Kind);
            return Err(7);
        }
        if levels > 3 && !book.slips(Slip::LevelsMasked) {
            book.saw(Rule::Refusal7Levels);
            return Err(7);
        }
        book.saw(Rule::LineLevels);
        if let Some(chip) = self.table.get_mut(chip as usize) {
            chip.set_levels((levels & 3) as u8, book);
        }
        Ok(1)
    }

    /// Each chip in turn with its image and scratchpad, empty for a DS2413.
    fn each(&mut self, mut act: impl FnMut(&mut Chip, &mut [u8], &mut [u8])) {
        let mut images = self.images.chunks_mut(IMAGE);
        let mut pads = self.pads.chunks_mut(PAD);
        for chip in &mut self.table {
            if chip.is(DS28EC20) {
                let image = images.next().expect("an image for each memory");
                let pad = pads.next().expect("a scratchpad for each memory");
                act(chip, image, pad);
            } else {
                act(chip, &mut [], &mut []);
            }
        }
    }

    /// Counts what a slot meets.
    fn note_slot(&self, host: u8, value: u8, sent: &[u8], book: &mut Book) {
        book.saw_if(self.table.is_empty(), Rule::LineEmptySlot);
        book.saw_if(host == 1 && value == 0, Rule::LineAnd);
        book.saw_if(sent.contains(&0) && sent.contains(&1), Rule::LineMixed);
        book.saw_if(host == 0 && sent.contains(&1), Rule::LineHostZero);
        let taking = self.table.iter().any(Chip::is_taking);
        book.saw_if(value != host && taking, Rule::LineTakesValue);
    }
}
