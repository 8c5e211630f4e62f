//! Which rules the reader or the writer has met.

use super::form::digit_of;
use super::{Record, DATA, END, IMAGE, LINE};
use crate::model::book::{Book, Rule};

/// A file is long from so many characters on.
const LONG: usize = 1_000_000;

/// What a file has had so far.
#[derive(Default)]
pub struct Marks {
    characters: usize,
    lf: bool,
    crlf: bool,
    capitals: bool,
    small: bool,
    /// The address of the last record with data, and whether a later record had a lower one.
    last: u16,
    falling: bool,
    twice: bool,
    changed: bool,
}

/// How a line's letters are spelt: whether there are capitals, and small ones.
fn letters(line: &[u8]) -> (bool, bool) {
    let capitals = line.iter().any(u8::is_ascii_uppercase);
    let small = line.iter().any(u8::is_ascii_lowercase);
    (capitals, small)
}

impl Marks {
    /// A record that is taken.
    pub fn note(
        &mut self,
        line: &[u8],
        record: &Record,
        image: &[u8],
        given: &[bool],
        book: &mut Book,
    ) {
        let address = usize::from(record.address);
        let data = &record.data;
        let crlf = line.ends_with(b"\r\n");
        let (capitals, small) = letters(line);
        self.characters += line.len();
        self.crlf |= crlf;
        self.lf |= !crlf;
        self.capitals |= capitals;
        self.small |= small;
        book.saw_if(capitals && small, Rule::HexMixed);
        book.saw_if(line.len() == LINE, Rule::HexLongest);
        if record.kind == END {
            book.saw_if(crlf, Rule::HexEndCrlf);
            book.saw_if(small, Rule::HexEndSmall);
            return;
        }
        book.saw(match data.len() {
            0 => Rule::HexData0,
            1 => Rule::HexData1,
            2..=15 => Rule::HexData15,
            16 => Rule::HexData16,
            17..=127 => Rule::HexData127,
            128..=254 => Rule::HexData254,
            _ => Rule::HexData255,
        });
        if data.is_empty() {
            book.saw_if(address == IMAGE, Rule::HexEmptyNext);
            book.saw_if(address > IMAGE, Rule::HexEmptyAbove);
            book.saw_if(address == 0xFFFF, Rule::HexEmptyOnes);
            return;
        }
        let end = address + data.len();
        book.saw_if(end == IMAGE && data.len() == 1, Rule::HexExactByte);
        book.saw_if(end == IMAGE && data.len() > 1, Rule::HexExact);
        book.saw_if(record.check == 0, Rule::HexCheck0);
        self.falling |= record.address < self.last;
        self.last = record.address;
        for (place, byte) in (address..).zip(data) {
            // A slip may let an address pass that is none of the image.
            let before = given.get(place) == Some(&true);
            self.twice |= before;
            self.changed |= before && image[place] != *byte;
        }
    }

    /// A file that is read.
    pub fn note_end(&self, given: &[bool], lines: u64, book: &mut Book) {
        let all = given.iter().all(|given| *given);
        let none = given.iter().all(|given| !given);
        book.saw_if(lines == 1, Rule::HexEndAtOnce);
        book.saw_if(all, Rule::HexFull);
        book.saw_if(!all && !none, Rule::HexGap);
        book.saw_if(self.lf && !self.crlf, Rule::HexLf);
        book.saw_if(self.crlf && !self.lf, Rule::HexCrlf);
        book.saw_if(self.lf && self.crlf, Rule::HexBothEnds);
        book.saw_if(self.capitals && !self.small, Rule::HexCapitals);
        book.saw_if(self.small && !self.capitals, Rule::HexSmall);
        book.saw_if(self.falling, Rule::HexFalling);
        book.saw_if(self.twice, Rule::HexTwice);
        book.saw_if(self.changed, Rule::HexChanged);
        book.saw_if(self.characters >= LONG, Rule::HexFar);
        book.saw_if(lines > 0x1_0000, Rule::HexManyLines);
    }
}

/// The file ends inside a line.
pub fn note_open(begun: &[u8], is_end: bool, book: &mut Book) {
    book.saw(match begun {
        _ if begun.ends_with(b"\r") => Rule::Hex16OpenCr,
        _ if is_end => Rule::Hex16OpenEnd,
        _ => Rule::Hex16Open,
    });
}

/// A line of 523 characters without an LF.
pub fn note_long(begun: &[u8], book: &mut Book) {
    let digits = begun[1..]
        .iter()
        .all(|character| digit_of(*character).is_some());
    book.saw_if(begun[0] == b':' && digits, Rule::Hex16LongDigits);
    book.saw_if(begun[0] != b':' && !digits, Rule::Hex16LongAny);
}

/// A line with a character out of form, an odd number of digits or fewer than five bytes.
pub fn note_chars(line: &[u8], book: &mut Book) {
    let text = line.strip_suffix(b"\n").unwrap_or(line);
    let text = match text.strip_suffix(b"\r") {
        Some(b"") => return book.saw(Rule::Hex16EmptyCr),
        Some(text) => text,
        None => text,
    };
    if text.is_empty() {
        return book.saw(Rule::Hex16Empty);
    }
    let is_wrong = |(place, character): &(usize, &u8)| match place {
        0 => **character != b':',
        _ => digit_of(**character).is_none(),
    };
    let mut wrong = text.iter().enumerate().filter(is_wrong);
    let Some((place, character)) = wrong.next() else {
        return book.saw(match text.len() - 1 {
            digits if digits % 2 == 1 => Rule::Hex16Odd,
            0 => Rule::Hex16Bytes0,
            2 => Rule::Hex16Bytes1,
            4 => Rule::Hex16Bytes2,
            6 => Rule::Hex16Bytes3,
            _ => Rule::Hex16Bytes4,
        });
    };
    // Every other character is in form.
    let alone = wrong.next().is_none();
    let last = text.len() - 1;
    if *character == b'\r' {
        return book.saw(match place {
            _ if place == last => Rule::Hex16CrTwice,
            _ => Rule::Hex16CrInside,
        });
    }
    let kept = digit_of(*character).is_some() || *character == b':';
    book.saw_if(place == 0 && kept, Rule::Hex16NoColon);
    let rule = match character {
        0 => Some(Rule::Hex16Nul),
        b' ' => Some(Rule::Hex16Space),
        b'\t' => Some(Rule::Hex16Tab),
        b'/' => Some(Rule::Hex16Slash),
        b':' => Some(Rule::Hex16Colon),
        b'@' => Some(Rule::Hex16At),
        b'G' => Some(Rule::Hex16G),
        b'`' => Some(Rule::Hex16Tick),
        b'g' => Some(Rule::Hex16SmallG),
        0x80.. => Some(Rule::Hex16High),
        _ => None,
    };
    if let Some(rule) = rule {
        book.saw(rule);
    }
    if !alone {
        return;
    }
    book.saw(match place {
        0 => Rule::Hex16AtColon,
        1 | 2 => Rule::Hex16AtCount,
        3..=6 => Rule::Hex16AtAddress,
        7 | 8 => Rule::Hex16AtType,
        _ if place == last => Rule::Hex16AtLast,
        _ => Rule::Hex16AtData,
    });
}

/// A record whose characters are in form, with the number by which it is refused.
pub fn note_fault(record: &Record, number: u8, book: &mut Book) {
    let sum = record.sum();
    let above = usize::from(record.address) + record.data.len() > IMAGE && !record.data.is_empty();
    match number {
        16 => note_length(record, above, book),
        17 => {
            let bits = [
                Rule::Hex17Bit0,
                Rule::Hex17Bit1,
                Rule::Hex17Bit2,
                Rule::Hex17Bit3,
                Rule::Hex17Bit4,
                Rule::Hex17Bit5,
                Rule::Hex17Bit6,
                Rule::Hex17Bit7,
            ];
            for (place, rule) in bits.into_iter().enumerate() {
                book.saw_if(sum == 1 << place, rule);
            }
            book.saw_if(sum == 0xFF, Rule::Hex17Less);
            book.saw_if(sum == record.check.wrapping_mul(2), Rule::Hex17Plain);
            book.saw_if(record.check == 0, Rule::Hex17Zero);
            book.saw_if(record.kind == END, Rule::Hex17End);
            book.saw_if(
                record.kind == DATA && record.data.is_empty(),
                Rule::Hex17Empty,
            );
            book.saw_if(record.data.len() == 255, Rule::Hex17Longest);
            book.saw_if(record.kind > END, Rule::Hex17Type);
            book.saw_if(record.kind == DATA && above, Rule::Hex17Above);
        }
        18 => {
            book.saw(match record.kind {
                2 => Rule::Hex18Type2,
                3 => Rule::Hex18Type3,
                4 => Rule::Hex18Type4,
                5 => Rule::Hex18Type5,
                0xFF => Rule::Hex18Ones,
                0x10 | 0x11 => Rule::Hex18Low,
                0x80 | 0x81 => Rule::Hex18Top,
                _ => Rule::Hex18Other,
            });
            book.saw_if(above, Rule::Hex18Above);
            book.saw_if(record.data.is_empty(), Rule::Hex18Empty);
        }
        _ => note_above(record, book),
    }
}

/// A count that is not that of the data, or an end record that is not as it should be.
fn note_length(record: &Record, above: bool, book: &mut Book) {
    let count = usize::from(record.count);
    let data = record.data.len();
    let sum = record.sum();
    if count != data {
        book.saw_if(count + 1 == data, Rule::Hex16CountLess);
        book.saw_if(count == data + 1, Rule::Hex16CountMore);
        book.saw_if(count + 1 < data, Rule::Hex16CountFarLess);
        book.saw_if(count > data + 1, Rule::Hex16CountFarMore);
        book.saw_if(sum != 0, Rule::Hex16CountSum);
        book.saw_if(record.kind > END, Rule::Hex16CountType);
        book.saw_if(record.kind == DATA && above, Rule::Hex16CountAbove);
        return;
    }
    let [high, low] = record.address.to_be_bytes();
    book.saw(match (data, high, low) {
        (0, 0, _) => Rule::Hex16EndLow,
        (0, _, 0) => Rule::Hex16EndHigh,
        (0, ..) => Rule::Hex16EndBoth,
        (_, 0, 0) => Rule::Hex16EndCount,
        _ => Rule::Hex16EndAll,
    });
    book.saw_if(sum != 0, Rule::Hex16EndSum);
    book.saw_if(sum == 0, Rule::Hex16EndGood);
    book.saw_if(above, Rule::Hex16EndAbove);
}

/// A data byte above the image.
fn note_above(record: &Record, book: &mut Book) {
    let address = usize::from(record.address);
    let data = record.data.len();
    let fits = |address: usize| address + data <= IMAGE;
    book.saw_if(address == IMAGE, Rule::Hex19Next);
    let past = (address + data).saturating_sub(IMAGE);
    book.saw_if(address < IMAGE && past == 1, Rule::Hex19Byte);
    book.saw_if(address < IMAGE && past > 1, Rule::Hex19Part);
    book.saw_if(fits(address & 0x0FFF), Rule::Hex19Low12);
    book.saw_if(fits(address & 0xFF) && address > IMAGE, Rule::Hex19Low);
    book.saw_if(
        fits(usize::from(record.address.swap_bytes())),
        Rule::Hex19Turned,
    );
    book.saw_if(address > 0x7FFF, Rule::Hex19Signed);
    book.saw_if(address == 0xFFFF && data == 1, Rule::Hex19Ones);
    book.saw_if(address + data == 0x1_0000 && data > 1, Rule::Hex19To);
    book.saw_if(address == 0xFFFF && data == 2, Rule::Hex19Round);
    book.saw_if(address == 0xFFFF && data == 255, Rule::Hex19RoundFar);
}

/// What the writer has met.
pub fn note_write(image: &[u8], book: &mut Book) {
    let same = |byte: u8| image.iter().all(|other| *other == byte);
    let size = image.len();
    book.saw(match size {
        IMAGE if same(0xFF) => Rule::HexWroteOnes,
        IMAGE if same(0) => Rule::HexWroteZeros,
        IMAGE => Rule::HexWrote,
        0 => Rule::Hex5Empty,
        _ if size + 1 == IMAGE => Rule::Hex5Less,
        _ if size == IMAGE + 1 => Rule::Hex5More,
        _ if size % 65_536 == IMAGE => Rule::Hex5Two,
        _ if size % IMAGE == 0 => Rule::Hex5Times,
        _ if size < IMAGE => Rule::Hex5FarLess,
        _ => Rule::Hex5FarMore,
    });
}
