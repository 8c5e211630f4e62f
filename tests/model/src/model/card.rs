//! The card: a run of records that sets up the table.

use super::book::{Book, Rule, Slip};
use super::chip::{part_of, Chip, DS2413, DS28EC20};

/// Reads a card into a table of so many places: the chips, or the refusal and the offset
/// of the refused record.
pub fn read_card(card: &[u8], places: usize, book: &mut Book) -> Result<Vec<Chip>, (u8, usize)> {
    let places = places - usize::from(book.slips(Slip::Fifteen));
    let mut table = Vec::new();
    let mut at = 0;
    book.saw_if(card.is_empty(), Rule::CardEmpty);
    while at < card.len() {
        match read_record(&card[at..], table.len() == places, book) {
            Ok(Some(chip)) => table.push(chip),
            Ok(None) => break,
            Err(refusal) => {
                book.saw_if(at > 0, Rule::CardOffset);
                book.saw_if(table.len() == 16 && refusal != 1, Rule::CardFaulty17);
                let offset = at + if book.slips(Slip::OffsetOfKind) { 2 } else { 0 };
                return Err((refusal, offset));
            }
        }
        at += 12;
    }
    book.saw_if(table.len() == 16, Rule::CardSixteen);
    Ok(table)
}

/// The record at the front of what is left; none where a slip passes over a tail.
fn read_record(left: &[u8], full: bool, book: &mut Book) -> Result<Option<Chip>, u8> {
    if left.len() < 4 {
        if book.slips(Slip::TailIgnored) {
            return Ok(None);
        }
        book.saw(Rule::CardShort);
        return Err(3);
    }
    let length = u16::from_le_bytes([left[0], left[1]]);
    let mut kind = u32::from(u16::from_le_bytes([left[2], left[3]]));
    if full && book.slips(Slip::ManyFirst) {
        return Err(1);
    }
    if length != 10 && book.slips(Slip::LengthFirst) {
        return Err(3);
    }
    if book.slips(Slip::KindLow) {
        kind &= 0xFF;
    }
    if part_of(kind).is_none() {
        book.saw(Rule::CardKind);
        book.saw_if(matches!(kind & 0xFF, 1 | 2), Rule::CardKindHigh);
        book.saw_if(length != 10, Rule::CardKindFirst);
        return Err(2);
    }
    if length != 10 {
        book.saw(Rule::CardLength);
        return Err(3);
    }
    let Some(code) = left.get(4..12) else {
        book.saw(Rule::CardCut);
        return Err(3);
    };
    if full {
        book.saw(Rule::CardSeventeen);
        return Err(1);
    }
    book.saw_if(kind == DS28EC20 && code[0] == 0x3A, Rule::CardFamily1);
    book.saw_if(kind == DS2413 && code[0] == 0x43, Rule::CardFamily2);
    if book.slips(Slip::FamilyGuess) {
        kind = match code[0] {
            0x43 => DS28EC20,
            0x3A => DS2413,
            _ => kind,
        };
    }
    let code = u64::from_le_bytes(code.try_into().expect("eight code bytes"));
    Ok(Some(Chip::at_set_up(kind, code)))
}
