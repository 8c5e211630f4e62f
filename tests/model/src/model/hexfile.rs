//! Intel HEX files of a memory image: their reader and their writer.

mod form;
mod notes;
pub mod served;
pub mod words;

use super::book::{Book, Rule, Slip};
pub use super::memory::IMAGE;
use form::bytes_of;
use notes::{note_chars, note_fault, note_long, note_open, note_write, Marks};

/// Characters of the text of an image.
pub const TEXT: usize = 7228;
/// Characters of the longest line in form, its CR and LF counted.
pub const LINE: usize = 523;
/// Data bytes of a record that is written.
const ROW: usize = 16;
/// The types: data, and the end of the file.
pub const DATA: u8 = 0;
pub const END: u8 = 1;

/// A refusal, and the line at fault, counted from 1.
#[derive(Clone, Copy, PartialEq, Eq, Debug)]
pub struct Refusal {
    pub number: u8,
    pub line: u64,
}

/// A record: what its bytes say.
struct Record {
    count: u8,
    address: u16,
    kind: u8,
    data: Vec<u8>,
    check: u8,
}

impl Record {
    /// The record of at least five bytes.
    fn of(bytes: &[u8]) -> Record {
        let last = bytes.len() - 1;
        Record {
            count: bytes[0],
            address: u16::from_be_bytes([bytes[1], bytes[2]]),
            kind: bytes[3],
            data: bytes[4..last].to_vec(),
            check: bytes[last],
        }
    }

    /// All its bytes.
    fn bytes(&self) -> Vec<u8> {
        let [high, low] = self.address.to_be_bytes();
        let head = [self.count, high, low, self.kind];
        [&head[..], &self.data, &[self.check]].concat()
    }

    /// The sum of all its bytes, as a byte.
    fn sum(&self) -> u8 {
        sum(&self.bytes())
    }
}

/// A sum, as a byte.
pub fn sum(bytes: &[u8]) -> u8 {
    bytes.iter().fold(0, |sum, byte| sum.wrapping_add(*byte))
}

/// Reads a file as it comes.
pub struct Reader {
    image: Vec<u8>,
    /// Which bytes of the image were given.
    given: Vec<bool>,
    /// The characters of the line that has begun.
    begun: Vec<u8>,
    /// What has come after the end record.
    after: Vec<u8>,
    /// Lines taken.
    lines: u64,
    /// The address of the last record with data.
    last: usize,
    /// Whether the end record was taken.
    ended: bool,
    /// The first refusal, or by some slips every one.
    refusals: Vec<Refusal>,
    /// What the file has had so far.
    marks: Marks,
}

impl Reader {
    pub fn new(book: &Book) -> Reader {
        let fill = match () {
            () if book.slips(Slip::HexFillZero) => 0,
            () if book.slips(Slip::HexFillSpace) => b' ',
            () => 0xFF,
        };
        Reader {
            image: vec![fill; IMAGE],
            given: vec![false; IMAGE],
            begun: Vec::new(),
            after: Vec::new(),
            lines: 0,
            last: 0,
            ended: false,
            refusals: Vec::new(),
            marks: Marks::default(),
        }
    }

    /// Takes more of the file; the refusal, where it is decided.
    pub fn take(&mut self, text: &[u8], book: &mut Book) -> Option<Refusal> {
        for character in text {
            self.take_one(*character, book);
            if let Some(refusal) = self.refusal(book) {
                return Some(refusal);
            }
        }
        None
    }

    /// What goes wrong between two reads by a slip; the next one gives this piece.
    fn slip_between(&mut self, piece: &[u8], book: &Book) {
        if book.slips(Slip::HexPieceLost) {
            self.begun.clear();
        }
        if book.slips(Slip::HexPieceLine) && !self.begun.is_empty() {
            self.lines += 1;
        }
        if book.slips(Slip::HexPieceCr) && self.begun.ends_with(b"\r") && piece.starts_with(b"\n") {
            self.begun.push(b'\r');
        }
    }

    /// The refusal that is decided before the file has ended.
    fn refusal(&self, book: &Book) -> Option<Refusal> {
        let waits = [
            Slip::HexLastFault,
            Slip::HexFormFirst,
            Slip::HexLowestFirst,
            Slip::HexEndFirst,
            Slip::HexHeld,
        ];
        if waits.iter().any(|slip| book.slips(*slip)) {
            return None;
        }
        self.refusals.first().copied()
    }

    /// Takes the end of the file: the image, or the refusal.
    pub fn end(mut self, book: &mut Book) -> Result<Vec<u8>, Refusal> {
        if !self.begun.is_empty() {
            self.end_begun(book);
        }
        if !self.after.is_empty() && book.slips(Slip::HexAfterLine) {
            self.refuse(20, self.lines + 1, book);
        } else if !self.after.is_empty() && book.slips(Slip::HexAfterOpen) {
            self.refuse(16, self.lines + 1, book);
        }
        let none = !self.ended;
        if none && self.refusals.is_empty() {
            book.saw_if(self.lines == 0, Rule::Hex20Empty);
            book.saw_if(self.lines > 0, Rule::Hex20NoEnd);
        }
        let forgiven = book.slips(Slip::HexNoEnd)
            || book.slips(Slip::HexEmptyTaken) && self.lines == 0
            || book.slips(Slip::HexFullTaken) && self.given.iter().all(|given| *given);
        if none && !forgiven {
            let line = match () {
                () if book.slips(Slip::HexLineEnd) => self.lines,
                () => self.lines + 1,
            };
            self.refuse(20, line, book);
        }
        let gap = self.given.iter().any(|given| !given);
        if gap && book.slips(Slip::HexGapRefused) {
            self.refuse(20, self.lines, book);
        }
        let decided = match () {
            () if book.slips(Slip::HexLastFault) => self.refusals.last(),
            () if book.slips(Slip::HexFormFirst) => {
                let form = self.refusals.iter().find(|refusal| refusal.number == 16);
                form.or(self.refusals.first())
            }
            () if book.slips(Slip::HexLowestFirst) => {
                self.refusals.iter().min_by_key(|refusal| refusal.number)
            }
            () if book.slips(Slip::HexEndFirst) => {
                let end = self.refusals.iter().find(|refusal| refusal.number == 20);
                end.or(self.refusals.first())
            }
            () => self.refusals.first(),
        };
        if let Some(refusal) = decided {
            return Err(*refusal);
        }
        self.marks.note_end(&self.given, self.lines, book);
        Ok(self.image)
    }

    /// The file ends inside a line.
    fn end_begun(&mut self, book: &mut Book) {
        let begun = std::mem::take(&mut self.begun);
        let closed = [&begun[..], b"\n"].concat();
        let bytes = bytes_of(&closed, book).filter(|bytes| bytes.len() > 4);
        let kind = bytes.map(|bytes| bytes[3]);
        match kind {
            Some(END) if book.slips(Slip::HexEndOpen) => return self.take_line(&closed, book),
            Some(DATA) if book.slips(Slip::HexLastOpen) => return self.take_line(&closed, book),
            None if book.slips(Slip::HexPartOpen) => return,
            _ => note_open(&begun, kind == Some(END), book),
        }
        let number = if book.slips(Slip::HexOpen20) { 20 } else { 16 };
        self.refuse(number, self.lines + 1, book);
    }

    /// Keeps a refusal.
    fn refuse(&mut self, number: u8, line: u64, book: &Book) {
        let line = match number {
            _ if book.slips(Slip::HexLine0) => line - 1,
            _ if book.slips(Slip::HexLineNext) => line + 1,
            _ if book.slips(Slip::HexLineByte) => line & 0xFF,
            _ if book.slips(Slip::HexLineTwo) => line & 0xFFFF,
            20 if book.slips(Slip::HexLineAfter) && self.ended => line - 1,
            _ => line,
        };
        self.refusals.push(Refusal { number, line });
    }

    /// Takes one character.
    fn take_one(&mut self, character: u8, book: &mut Book) {
        if self.ended && !book.slips(Slip::HexAfterRecord) {
            self.after.push(character);
            self.judge_after(book);
            return;
        }
        let longest = match () {
            () if book.slips(Slip::HexLongest521) => 521,
            () if book.slips(Slip::HexLongest522) => 522,
            () if book.slips(Slip::HexLongest256) => 256,
            () if book.slips(Slip::HexCount256) => 600,
            () => LINE,
        };
        self.begun.push(character);
        if character == b'\n' {
            let line = std::mem::take(&mut self.begun);
            if book.slips(Slip::HexLineCr) && line.ends_with(b"\r\n") {
                self.lines += 1;
            }
            self.take_line(&line, book);
        } else if self.begun.len() == longest && !book.slips(Slip::HexLongWaits) {
            if book.slips(Slip::HexLongCut) {
                self.begun.truncate(LINE - 2);
                return;
            }
            note_long(&self.begun, book);
            self.refuse(16, self.lines + 1, book);
            self.begun.clear();
        }
    }

    /// Something after the end record.
    fn judge_after(&mut self, book: &mut Book) {
        let after = &self.after;
        let all = |allowed: fn(&u8) -> bool| after.iter().all(allowed);
        let second = b":00000001FF\n".starts_with(after);
        let passed = match &after[..] {
            b"\n" => book.slips(Slip::HexAfterLf),
            b"\r" | b"\r\n" if book.slips(Slip::HexAfterCrlf) => true,
            b"\x1A" if book.slips(Slip::HexAfterZ) => true,
            _ => {
                book.slips(Slip::HexAfterNul) && all(|after| *after == 0)
                    || book.slips(Slip::HexAfterBlank) && all(u8::is_ascii_whitespace)
                    || book.slips(Slip::HexAfterText) && after[0] != b':'
                    || book.slips(Slip::HexAfterSecond) && second
            }
        };
        let open = !after.ends_with(b"\n")
            && (book.slips(Slip::HexAfterLine) || book.slips(Slip::HexAfterOpen));
        if passed || open || book.slips(Slip::HexAfterAny) {
            return;
        }
        let form = after[0] != b':';
        let number = if form && book.slips(Slip::HexAfter16) {
            16
        } else {
            20
        };
        self.refuse(number, self.lines + 1, book);
    }

    /// Takes a line with its LF.
    fn take_line(&mut self, line: &[u8], book: &mut Book) {
        self.lines += 1;
        let content = &line[..line.len() - 1];
        if book.slips(Slip::HexEmptyLine) && matches!(content, b"" | b"\r")
            || book.slips(Slip::HexComment) && matches!(content, [b';' | b'#', ..])
            || book.slips(Slip::HexColonAlone) && matches!(content, b":" | b":\r")
        {
            return;
        }
        if book.slips(Slip::HexCrEnds) && content[..content.len().max(1) - 1].contains(&b'\r') {
            for part in content.split(|character| *character == b'\r') {
                self.take_record(&[part, b"\n"].concat(), book);
            }
            return;
        }
        self.take_record(line, book);
    }

    /// Takes the record of a line.
    fn take_record(&mut self, line: &[u8], book: &mut Book) {
        let bytes = bytes_of(line, book);
        let few = bytes.as_ref().is_some_and(|bytes| bytes.len() < 5);
        if few && book.slips(Slip::HexFewPassed) {
            return;
        }
        let Some(bytes) = bytes.filter(|_| !few) else {
            note_chars(line, book);
            let number = if few && book.slips(Slip::HexFew17) {
                17
            } else {
                16
            };
            self.refuse(number, self.lines, book);
            return;
        };
        let mut record = Record::of(&bytes);
        let counted = usize::from(record.count);
        if book.slips(Slip::HexCountLonger) && record.data.len() > counted {
            record = Record::of(&bytes[..counted + 5]);
        }
        match self.fault_of(&record, book) {
            Some(number) => {
                note_fault(&record, number, book);
                self.refuse(number, self.lines, book);
            }
            None => {
                self.marks
                    .note(line, &record, &self.image, &self.given, book);
                self.set(&record, book);
            }
        }
    }

    /// What is at fault of a record whose characters are in form.
    fn fault_of(&self, record: &Record, book: &Book) -> Option<u8> {
        let kind = kind_of(record, book);
        let end = (16, kind == END && is_wrong_end(record, book));
        // What is at fault, in the order in which it is judged.
        let mut faults = vec![
            (16, is_wrong_count(record, book)),
            end,
            (17, is_wrong_sum(record, book)),
            (18, is_wrong_kind(record, book)),
            (19, kind != END && self.is_above(record, book)),
        ];
        let moved = [
            (Slip::HexEndLate, 1, 2),
            (Slip::HexSumFirst, 2, 0),
            (Slip::HexTypeFirst, 3, 2),
            (Slip::HexTypeAhead, 3, 0),
            (Slip::HexPlaceFirst, 4, 3),
            (Slip::HexPlaceSooner, 4, 2),
            (Slip::HexPlaceAhead, 4, 0),
        ];
        for (slip, from, to) in moved {
            if book.slips(slip) {
                let fault = faults.remove(from);
                faults.insert(to, fault);
            }
        }
        if book.slips(Slip::HexEnd18) && end.1 && !faults[0].1 {
            return Some(18);
        }
        if book.slips(Slip::HexRising) && kind == DATA && usize::from(record.address) < self.last {
            return Some(16);
        }
        let places = self.places(record, book);
        let mut given = places.filter_map(|place| self.given.get(place));
        if book.slips(Slip::HexTwiceRefused) && kind == DATA && given.any(|given| *given) {
            return Some(19);
        }
        let found = faults.iter().find(|(_, so)| *so);
        found.map(|(number, _)| *number)
    }

    /// Where a record's data bytes go.
    fn places(&self, record: &Record, book: &Book) -> impl Iterator<Item = usize> {
        let first = usize::from(address_of(record, book));
        let bits = match () {
            () if book.slips(Slip::HexRound) => 0xFFFF,
            () => usize::MAX,
        };
        (0..record.data.len()).map(move |more| (first + more) & bits)
    }

    /// Whether a data byte's address is above the image.
    fn is_above(&self, record: &Record, book: &Book) -> bool {
        let address = usize::from(address_of(record, book));
        let data = record.data.len();
        if data == 0 {
            return book.slips(Slip::HexEmptyAbove) && address >= IMAGE;
        }
        let top = match () {
            () if book.slips(Slip::HexLast0A3E) => IMAGE - 1,
            () if book.slips(Slip::HexLast0A40) => IMAGE + 1,
            () if book.slips(Slip::HexLast09FF) => 0x0A00,
            () if book.slips(Slip::HexLast0AFF) => 0x0B00,
            () => IMAGE,
        };
        if book.slips(Slip::HexExact) && address + data >= IMAGE
            || book.slips(Slip::HexByteAbove) && address >= IMAGE && data == 1
        {
            return book.slips(Slip::HexExact);
        }
        if book.slips(Slip::HexFirstAlone) {
            return address >= top;
        }
        if book.slips(Slip::HexLastAlone) {
            return (address + data - 1) & 0xFFFF >= top;
        }
        if book.slips(Slip::HexRound) {
            return (address + data) & 0xFFFF > top;
        }
        if book.slips(Slip::HexSigned) && address >= 0x8000 {
            return false;
        }
        if book.slips(Slip::HexOnesPassed) && address == 0xFFFF {
            return false;
        }
        self.places(record, book).any(|place| place >= top)
    }

    /// Puts the data of a record where it belongs.
    fn set(&mut self, record: &Record, book: &Book) {
        let kind = kind_of(record, book);
        if kind == END {
            self.ended = true;
            return;
        }
        if kind != DATA && !book.slips(Slip::HexTypeData) {
            return;
        }
        self.last = usize::from(record.address);
        let places: Vec<usize> = self.places(record, book).collect();
        for (place, byte) in places.into_iter().zip(&record.data) {
            let Some(found) = self.image.get_mut(place) else {
                continue;
            };
            let before = std::mem::replace(&mut self.given[place], true);
            *found = match *found {
                kept if before && book.slips(Slip::HexEarlier) => kept,
                kept if before && book.slips(Slip::HexAnd) => kept & *byte,
                kept if before && book.slips(Slip::HexOr) => kept | *byte,
                kept if book.slips(Slip::HexOnesKept) && *byte == 0xFF => kept,
                _ => *byte,
            };
        }
        if book.slips(Slip::HexLastByte) && record.data.len() == 255 {
            let last = self.image.get_mut(usize::from(record.address) + 254);
            last.into_iter().for_each(|byte| *byte = 0xFF);
        }
    }
}

/// The type as it is read.
fn kind_of(record: &Record, book: &Book) -> u8 {
    match record.kind {
        kind if book.slips(Slip::HexTypeLow) => kind & 0x0F,
        kind if book.slips(Slip::HexTypeTop) => kind & 0x7F,
        kind if book.slips(Slip::HexTypeBit) => kind & 1,
        kind => kind,
    }
}

/// The address as it is read.
fn address_of(record: &Record, book: &Book) -> u16 {
    match record.address {
        address if book.slips(Slip::HexAddressTurned) => address.swap_bytes(),
        address if book.slips(Slip::HexAddressLow) => address & 0xFF,
        address if book.slips(Slip::HexAddress12) => address & 0x0FFF,
        address if book.slips(Slip::HexAddress15) => address & 0x7FFF,
        address => address,
    }
}

/// Whether a count is not that of the data bytes.
fn is_wrong_count(record: &Record, book: &Book) -> bool {
    let count = usize::from(record.count);
    let data = record.data.len();
    let refused = book.slips(Slip::HexCount255) && count == 255
        || book.slips(Slip::HexCount128) && count > 127
        || book.slips(Slip::HexCount32) && count > 32
        || book.slips(Slip::HexCount16) && count > 16
        || book.slips(Slip::HexCountNone) && count == 0 && record.kind == DATA;
    let taken = book.slips(Slip::HexCountFree)
        || book.slips(Slip::HexCountLess) && count + 1 == data
        || book.slips(Slip::HexCountMore) && count == data + 1
        || book.slips(Slip::HexCountAll) && count == data + 5
        || book.slips(Slip::HexCount256) && count == data % 256
        || book.slips(Slip::HexCountZero) && count == 0;
    refused || count != data && !taken
}

/// Whether an end record's count or address is not 0.
fn is_wrong_end(record: &Record, book: &Book) -> bool {
    let address = match record.address {
        _ if book.slips(Slip::HexEndAddress) => 0,
        address if book.slips(Slip::HexEndLow) => address & 0xFF,
        address if book.slips(Slip::HexEndHigh) => address >> 8,
        address => address,
    };
    address != 0 || record.count != 0 && !book.slips(Slip::HexEndCount)
}

/// Whether a type is other than 00 and 01.
fn is_wrong_kind(record: &Record, book: &Book) -> bool {
    let kind = kind_of(record, book);
    let passed = [
        (Slip::HexType02, 2),
        (Slip::HexType03, 3),
        (Slip::HexType04, 4),
        (Slip::HexType05, 5),
        (Slip::HexTypeOnes, 0xFF),
    ];
    let slipped = passed
        .iter()
        .any(|(slip, of)| book.slips(*slip) && kind == *of);
    let all = book.slips(Slip::HexTypePassed) || book.slips(Slip::HexTypeData);
    kind > END && !slipped && !all
}

/// Whether the check byte is wrong.
fn is_wrong_sum(record: &Record, book: &Book) -> bool {
    let bytes = record.bytes();
    let all = record.sum();
    let before = sum(&bytes[..bytes.len() - 1]);
    let check = record.check;
    match () {
        () if book.slips(Slip::HexSumFree) => false,
        () if book.slips(Slip::HexSumPlain) => check != before,
        () if book.slips(Slip::HexSumOnes) => check != !before,
        () if book.slips(Slip::HexSumXor) => bytes.iter().fold(0, |sum, byte| sum ^ byte) != 0,
        () if book.slips(Slip::HexSumNoCount) => sum(&bytes[1..]) != 0,
        () if book.slips(Slip::HexSumNoHigh) => all != bytes[1],
        () if book.slips(Slip::HexSumNoLow) => all != bytes[2],
        () if book.slips(Slip::HexSumNoType) => all != bytes[3],
        () if book.slips(Slip::HexSumTop) => all & 0x7F != 0,
        () if book.slips(Slip::HexSumLow) => all & 0xFE != 0,
        () if book.slips(Slip::HexSumNear) => !matches!(all, 0 | 0xFF),
        () if book.slips(Slip::HexSumZero) => all != 0 && check != 0,
        () if book.slips(Slip::HexSumAllOnes) => all != 0 && check != 0xFF,
        () if book.slips(Slip::HexSumEnd) => all != 0 && record.kind != END,
        () if book.slips(Slip::HexSumEmpty) => all != 0 && record.count > 0,
        () if book.slips(Slip::HexSumLongest) => all != 0 && record.count < 255,
        () => all != 0,
    }
}

/// The bytes of a record, with its check byte.
pub fn record(address: u16, kind: u8, data: &[u8]) -> Vec<u8> {
    let [high, low] = address.to_be_bytes();
    let mut bytes = [&[data.len() as u8, high, low, kind], data].concat();
    bytes.push(sum(&bytes).wrapping_neg());
    bytes
}

/// Writes an image: the text, or the refusal.
pub fn write(image: &[u8], book: &mut Book) -> Result<Vec<u8>, u8> {
    let mut image = image.to_vec();
    note_write(&image, book);
    let size = image.len();
    let slipped = match size {
        0 => book.slips(Slip::HexWriteEmpty),
        2623 if book.slips(Slip::HexWrite2623) => true,
        2625 if book.slips(Slip::HexWrite2625) => true,
        _ => {
            book.slips(Slip::HexWriteShort) && size < IMAGE
                || book.slips(Slip::HexWriteLonger) && size > IMAGE
                || book.slips(Slip::HexWriteTwo) && size % 65_536 == IMAGE
                || book.slips(Slip::HexWriteTimes) && size > 0 && size % IMAGE == 0
        }
    };
    if slipped {
        image.resize(IMAGE, 0xFF);
    }
    if image.len() != IMAGE {
        return Err(5);
    }
    let row = match () {
        () if book.slips(Slip::HexWrite32) => 32,
        () if book.slips(Slip::HexWrite8) => 8,
        () => ROW,
    };
    let mut records = Vec::new();
    for (number, data) in image.chunks(row).enumerate() {
        let address = (number * row) as u16;
        let blank = data.iter().all(|byte| *byte == 0xFF);
        if blank && book.slips(Slip::HexWriteBlank) {
            continue;
        }
        let address = match address {
            address if book.slips(Slip::HexWriteTurned) => address.swap_bytes(),
            address if book.slips(Slip::HexWriteLow) => address & 0xFF,
            address => address,
        };
        records.push(record(address, DATA, data));
    }
    if book.slips(Slip::HexWriteFalling) {
        records.reverse();
    }
    if book.slips(Slip::HexWriteLess) {
        records.pop();
    }
    if book.slips(Slip::HexWriteExtended) {
        records.insert(0, record(0, 4, &[0, 0]));
    }
    if !book.slips(Slip::HexWriteNoEnd) {
        records.push(record(0, END, &[]));
    }
    let mut text = String::new();
    for mut bytes in records {
        let check = bytes.pop().unwrap_or(0);
        let before = check.wrapping_neg();
        bytes.push(match check {
            _ if book.slips(Slip::HexWriteSum) => before,
            _ if book.slips(Slip::HexWriteOnes) => !before,
            _ if book.slips(Slip::HexWriteNoCount) => check.wrapping_add(bytes[0]),
            _ if book.slips(Slip::HexWriteNoHigh) => check.wrapping_add(bytes[1]),
            0 if book.slips(Slip::HexWriteNot0) => 0xFF,
            _ => check,
        });
        let digits: String = bytes.iter().map(|byte| format!("{byte:02X}")).collect();
        let small = book.slips(Slip::HexWriteSmall);
        let line = if small { digits.to_lowercase() } else { digits };
        let end = if book.slips(Slip::HexWriteCrlf) {
            "\r\n"
        } else {
            "\n"
        };
        let colon = if book.slips(Slip::HexWriteNoColon) {
            ""
        } else {
            ":"
        };
        text += &format!("{colon}{line}{end}");
    }
    if book.slips(Slip::HexWriteOpen) {
        text.pop();
    }
    if book.slips(Slip::HexWriteLine) {
        text.push('\n');
    }
    Ok(text.into_bytes())
}

/// Reads a whole file: the image, or the refusal.
pub fn read(text: &[u8], book: &mut Book) -> Result<Vec<u8>, Refusal> {
    let mut reader = Reader::new(book);
    match reader.take(text, book) {
        Some(refusal) => Err(refusal),
        None => reader.end(book),
    }
}

/// How much of a file decides its refusal, where one is decided before the file's end.
pub fn decided_at(text: &[u8]) -> Option<usize> {
    let mut book = Book::new(None);
    let mut reader = Reader::new(&book);
    text.iter()
        .position(|character| reader.take(&[*character], &mut book).is_some())
        .map(|at| at + 1)
}
