//! The functions of include/toemsakun.h over lent bytes, as the model answers them.

use super::book::Book;
use super::card::read_card;
use super::chip::{part_of, Chip, DS28EC20};
use super::line::{Line, MOST};
use super::memory::{IMAGE, PAD};
use super::record::{is_in_range, is_record, pack, unpack, KIND, RECORD};
use super::search::search_line;

/// What a caller lends.
#[derive(Clone, Default)]
pub struct Lent {
    pub table: Vec<u8>,
    pub images: Vec<u8>,
    pub pads: Vec<u8>,
}

/// What a caller lends for a run of slots beside the line: bits of the host, and room for those on the bus.
#[derive(Clone)]
pub struct Run {
    pub slots: u64,
    pub bits: Vec<u8>,
    pub answers: Vec<u8>,
}

/// The most slots in a run.
pub const MOST_SLOTS: u64 = 65_535;

/// What a search answers.
#[derive(Debug, PartialEq, Eq)]
pub struct Searched {
    pub answer: i32,
    pub resets: u64,
    pub slots: u64,
}

/// How many records of a table are DS28EC20s.
fn memories(table: &[u8]) -> usize {
    let records = table.chunks_exact(RECORD);
    records
        .filter(|record| part_of(record[KIND].into()) == Some(DS28EC20))
        .count()
}

/// Whether a table has whole records, at most 16, that all pass.
fn all_records(table: &[u8], pass: fn(&[u8]) -> bool) -> bool {
    let records = table.chunks_exact(RECORD);
    records.remainder().is_empty() && records.len() <= MOST && records.clone().all(pass)
}

/// The bytes of a table of so many chips.
pub fn table_size(chips: u64) -> u64 {
    chips.min(MOST as u64) * RECORD as u64
}

/// How many memories' images and scratchpads a table asks for.
pub fn memories_asked(table: &[u8]) -> usize {
    if all_records(table, is_record) {
        memories(table)
    } else {
        0
    }
}

/// Set-up from a card: the answer and the offset; the table changes only without a refusal.
pub fn card(card: &[u8], table: &mut [u8], book: &mut Book) -> (i32, u64) {
    let places = (table.len() / RECORD).min(MOST);
    match read_card(card, places, book) {
        Ok(chips) => {
            let places = table.chunks_exact_mut(RECORD);
            for (place, chip) in places.zip(&chips) {
                place.copy_from_slice(&pack(chip));
            }
            (chips.len() as i32, 0)
        }
        Err((refusal, offset)) => (-i32::from(refusal), offset as u64),
    }
}

impl Lent {
    /// The line of whole chips, or refusal 8 or 5.
    pub fn line(&self) -> Result<Line, u8> {
        if !all_records(&self.table, is_in_range) {
            return Err(8);
        }
        let count = memories(&self.table);
        if self.images.len() != count * IMAGE || self.pads.len() != count * PAD {
            return Err(5);
        }
        let mut images = self.images.chunks_exact(IMAGE);
        let mut pads = self.pads.chunks_exact(PAD);
        let chip = |record: &[u8]| -> Chip {
            if part_of(record[KIND].into()) == Some(DS28EC20) {
                let image = images.next().expect("an image for each memory");
                unpack(
                    record,
                    image,
                    pads.next().expect("a scratchpad for each memory"),
                )
            } else {
                unpack(record, &[], &[])
            }
        };
        Ok(Line {
            table: self.table.chunks_exact(RECORD).map(chip).collect(),
            images: self.images.clone(),
            pads: self.pads.clone(),
        })
    }

    /// Takes over a line that events have changed.
    fn take(&mut self, line: Line) {
        self.table = line.table.iter().flat_map(pack).collect();
        self.images = line.images;
        self.pads = line.pads;
    }

    /// One event: the bit, or minus the refusal.
    pub fn event(&mut self, number: u32, chip: u32, levels: u32, book: &mut Book) -> i32 {
        let mut line = match self.line() {
            Ok(line) => line,
            Err(refusal) => return -i32::from(refusal),
        };
        let answer = line.event(number.into(), chip.into(), levels.into(), book);
        self.take(line);
        match answer {
            Ok(bit) => i32::from(bit),
            Err(refusal) => -i32::from(refusal),
        }
    }

    /// A run of slots, the first bit of a byte its lowest: how many, or minus the refusal.
    pub fn run(&mut self, run: &mut Run, book: &mut Book) -> i32 {
        let mut line = match self.line() {
            Ok(line) => line,
            Err(refusal) => return -i32::from(refusal),
        };
        let asked = run.slots.div_ceil(8);
        let fits = |piece: &[u8]| piece.len() as u64 == asked;
        if run.slots > MOST_SLOTS || !fits(&run.bits) || !fits(&run.answers) {
            return -5;
        }
        run.answers.fill(0);
        for slot in 0..run.slots as usize {
            let host = run.bits[slot / 8] >> (slot % 8) & 1;
            let value = line.event(host.into(), 0, 0, book);
            let value = value.expect("a slot is not refused on a line in range");
            run.answers[slot / 8] |= value << (slot % 8);
        }
        self.take(line);
        run.slots as i32
    }

    /// A search into a list.
    pub fn search(&mut self, list: &mut [u64], book: &mut Book) -> Searched {
        let mut line = match self.line() {
            Ok(line) => line,
            Err(refusal) => {
                return Searched {
                    answer: -i32::from(refusal),
                    resets: 0,
                    slots: 0,
                }
            }
        };
        let found = search_line(&mut line, list.len(), book);
        self.take(line);
        list[..found.list.len()].copy_from_slice(&found.list);
        let listed = found.list.len() as i32;
        Searched {
            answer: found.refusal.map_or(listed, |refusal| -i32::from(refusal)),
            resets: found.resets,
            slots: found.slots,
        }
    }
}
