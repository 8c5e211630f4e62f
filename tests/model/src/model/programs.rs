//! What the two programs answer.

use std::collections::BTreeSet;
use std::fs::File;
use std::io;

use super::book::{Book, Rule, Slip};
use super::card::read_card;
use super::chip::{DS2413, DS28EC20};
use super::crc::{check_of, Check};
use super::line::{Line, MOST};
use super::search::search_line;

/// The line that a refused card gets.
fn refused(refusal: u8, offset: usize) -> String {
    format!("refused {refusal} at {offset}\n")
}

/// The word for the check of a code.
fn word_of(code: u64, book: &mut Book) -> &'static str {
    let seven_zeros = code.to_le_bytes()[..7] == [0; 7];
    book.saw_if(code == u64::MAX, Rule::ListOnes);
    book.saw_if(code.count_ones() == 1, Rule::ListNearZero);
    book.saw_if(seven_zeros && code != 0, Rule::ListSevenZeros);
    if seven_zeros && book.slips(Slip::ZeroSeven) {
        return "zero";
    }
    match check_of(code) {
        Check::Good => {
            book.saw(Rule::ListOk);
            "ok"
        }
        Check::Bad => {
            book.saw(Rule::ListNo);
            "no"
        }
        Check::Zeros => {
            book.saw(Rule::ListZero);
            if book.slips(Slip::ZeroOk) {
                "ok"
            } else {
                "zero"
            }
        }
    }
}

/// Opens a file. The programs' paths are text in UTF-8: a name that is none leads to no file.
pub fn open_file(name: &[u8]) -> io::Result<File> {
    match std::str::from_utf8(name) {
        Ok(path) => File::open(path),
        Err(_) => Err(io::Error::from_raw_os_error(2)),
    }
}

/// The list program: its whole output for a card.
pub fn list(card: &[u8], book: &mut Book) -> String {
    let table = match read_card(card, MOST, book) {
        Ok(table) => table,
        Err((refusal, offset)) => return refused(refusal, offset),
    };
    let codes: Vec<u64> = table.iter().map(|chip| chip.code).collect();
    let both = [DS28EC20, DS2413].map(|kind| table.iter().any(|chip| chip.kind == kind));
    let mut line = Line::set_up(table, book);
    let mut found = search_line(&mut line, MOST, book);
    let distinct: BTreeSet<u64> = codes.iter().copied().collect();
    book.saw_if(distinct.len() < codes.len(), Rule::SearchTwins);
    book.saw_if(both == [true, true], Rule::SearchKinds);
    let zeros = codes.iter().filter(|code| **code == 0).count();
    book.saw_if(zeros > 1, Rule::ListZeros);
    if book.slips(Slip::SearchTwice) {
        let times = |code: &u64| codes.iter().filter(|other| *other == code).count();
        let list = found.list.iter();
        found.list = list.flat_map(|code| vec![*code; times(code)]).collect();
    }
    if book.slips(Slip::BadCrcLeft) {
        found.list.retain(|code| check_of(*code) != Check::Bad);
    }
    if book.slips(Slip::ZeroLeft) {
        found.list.retain(|code| *code != 0);
    }
    if book.slips(Slip::SlotsPlus) {
        found.slots += found.resets;
    }
    let mut text = String::new();
    for code in &found.list {
        let word = word_of(*code, book);
        text += &if book.slips(Slip::LowHex) {
            format!("{code:016x} {word}\n")
        } else {
            format!("{code:016X} {word}\n")
        };
    }
    let count = found.list.len();
    let word = if count == 1 && book.slips(Slip::OneCode) {
        "code"
    } else {
        "codes"
    };
    text += &format!("{count} {word} {} slots\n", found.slots);
    text
}

/// The wire program after its set-up.
#[derive(Clone)]
pub struct Wire {
    pub line: Line,
    /// The characters of an event that is not yet whole.
    begun: Vec<u8>,
}

impl Wire {
    /// Sets up from a card, or gives the line that refuses it.
    pub fn open(card: &[u8], book: &mut Book) -> Result<Wire, String> {
        match read_card(card, MOST, book) {
            Ok(table) => Ok(Wire {
                line: Line::set_up(table, book),
                begun: Vec::new(),
            }),
            Err((refusal, offset)) => Err(refused(refusal, offset)),
        }
    }

    /// Takes one character; the answer if it ends an event.
    pub fn take(&mut self, character: u8, book: &mut Book) -> Option<u8> {
        if matches!(character, b' ' | b'\r' | b'\n') {
            book.saw(Rule::WireSpaces);
            return None;
        }
        self.begun.push(character);
        if self.begun[0] == b'4' && self.begun.len() < 3 {
            return None;
        }
        let event = std::mem::take(&mut self.begun);
        Some(self.answer(&event, book))
    }

    /// The end of the input; an answer only by a slip.
    pub fn end(&mut self, book: &mut Book) -> Option<u8> {
        book.saw_if(!self.begun.is_empty(), Rule::WireCutEvent);
        if book.slips(Slip::EndLine) {
            return Some(b'\n');
        }
        (!self.begun.is_empty() && book.slips(Slip::CutAnswered)).then_some(b'G')
    }

    /// The answer to a whole event.
    fn answer(&mut self, event: &[u8], book: &mut Book) -> u8 {
        let digit = |at: usize| char::from(event[at]).to_digit(16).map(u64::from);
        let answer = match event[0] {
            b'4' => match (digit(1), digit(2)) {
                (Some(chip), Some(levels)) => self.line.event(4, chip, levels, book),
                _ => {
                    book.saw(Rule::Refusal7Operand);
                    Err(7)
                }
            },
            known @ b'0'..=b'3' => self.line.event(u64::from(known - b'0'), 0, 0, book),
            _ => self.line.event(5, 0, 0, book),
        };
        match answer {
            Ok(bit) => b'0' + bit,
            Err(refusal) if book.slips(Slip::LowLetter) => b'a' + refusal - 1,
            Err(refusal) => b'A' + refusal - 1,
        }
    }
}
