//! The morning round (M-108): a search of the line, then page 0 of each code that a DS28EC20 bears.

pub mod notes;
pub mod served;
mod slips;
pub mod words;

use std::collections::BTreeSet;

use super::book::{Book, Slip};
use super::chip::{Chip, DS28EC20};
use super::line::Line;
use super::memory::IMAGE;
use super::search::{search, Host};

/// Bytes of a page.
pub const PAGE: usize = 32;

/// What a page reads as.
pub type Page = [u8; PAGE];

/// What a round has brought.
#[derive(Clone, PartialEq, Eq, Debug, Default)]
pub struct Round {
    /// The refusal, if there is one.
    pub refusal: Option<u8>,
    /// The codes in branch order.
    pub list: Vec<u64>,
    /// The pages in list order, one for each code that is borne.
    pub pages: Vec<Page>,
    /// The resets put on the line.
    pub resets: u64,
    /// The slots put on the line.
    pub slots: u64,
}

/// A line with a meter: every event that a host puts on it is counted here, and nothing else is.
struct Metered<'a> {
    line: &'a mut Line,
    book: &'a mut Book,
    resets: u64,
    slots: u64,
}

impl Host for Metered<'_> {
    fn put(&mut self, event: u64) -> u8 {
        match event {
            2 => self.resets += 1,
            _ => self.slots += 1,
        }
        let answer = self.line.event(event, 0, 0, self.book);
        answer.expect("a line in range")
    }

    fn book(&mut self) -> &mut Book {
        self.book
    }
}

impl Metered<'_> {
    /// Eight slots, the lowest bit first: what the host writes, and what was on the line.
    fn byte(&mut self, byte: u8) -> u8 {
        let slot = |place: u8| self.put(u64::from(byte >> place & 1)) << place;
        (0..8).map(slot).sum()
    }

    /// Page 0 by a reset, Match ROM with the code (family first), Read Memory from 0000h on, and 32 bytes.
    fn page(&mut self, code: u64) -> Page {
        if !self.book.slips(Slip::RoundNoReset) {
            self.put(2);
        }
        let sent = [&[0x55], &code.to_le_bytes()[..], &[0xF0, 0x00, 0x00]].concat();
        for byte in slips::sent(sent, self.book) {
            self.byte(byte);
        }
        [(); PAGE].map(|()| self.byte(0xFF))
    }
}

/// The chips of the table with a code.
fn sharing(table: &[Chip], code: u64) -> impl Iterator<Item = &Chip> {
    table.iter().filter(move |chip| chip.code == code)
}

/// Whether a DS28EC20 of the table bears a code.
pub fn is_borne(table: &[Chip], code: u64) -> bool {
    sharing(table, code).any(|chip| chip.is(DS28EC20))
}

/// The distinct codes of the table.
pub fn codes(table: &[Chip]) -> BTreeSet<u64> {
    table.iter().map(|chip| chip.code).collect()
}

/// The distinct codes of the table that a DS28EC20 bears.
pub fn borne(table: &[Chip]) -> BTreeSet<u64> {
    let all = codes(table).into_iter();
    all.filter(|code| is_borne(table, *code)).collect()
}

/// How many memories the table has.
pub fn memories(table: &[Chip]) -> usize {
    table.iter().filter(|chip| chip.is(DS28EC20)).count()
}

/// The bytes that a page buffer must have: a page for each borne code of the whole table.
pub fn pages_asked(table: &[Chip]) -> usize {
    PAGE * borne(table).len()
}

/// A refusal before any event.
fn refused(refusal: u8) -> Round {
    Round {
        refusal: Some(refusal),
        ..Round::default()
    }
}

/// A round of a line with so many places in its list, and a page buffer of so many bytes, or of the right number.
pub fn round(line: &mut Line, places: usize, buffer: Option<usize>, book: &mut Book) -> Round {
    if let Some(refusal) = line.refusal() {
        return refused(refusal);
    }
    let asked = slips::asked(pages_asked(&line.table), &line.table, book);
    let buffer = buffer.unwrap_or(asked);
    let fits = buffer == asked || slips::fits(buffer, asked, book);
    if !fits && !slips::is_judged_late(book) {
        return refused(5);
    }
    let mut metered = Metered {
        line,
        book,
        resets: 0,
        slots: 0,
    };
    let found = search(&mut metered, places);
    let mut done = Round {
        refusal: found.refusal,
        list: found.list,
        ..Round::default()
    };
    if slips::is_refused(&done, &metered.line.table, places, metered.book) {
        done.refusal = Some(4);
    }
    if done.refusal.is_none() && fits {
        for code in &done.list {
            let table = &metered.line.table;
            if slips::is_read(is_borne(table, *code), table, *code, metered.book) {
                done.pages.push(metered.page(*code));
            }
        }
    }
    done.resets = metered.resets;
    done.slots = metered.slots;
    slips::spoilt(done, line, buffer, fits, book)
}

/// The images of the memories with a code, in table order.
fn images_of(line: &Line, code: u64) -> Vec<&[u8]> {
    let memories = line.table.iter().filter(|chip| chip.is(DS28EC20));
    let images = memories.zip(line.images.chunks(IMAGE));
    let own = images.filter(|(chip, _)| chip.code == code);
    own.map(|(_, image)| image).collect()
}
