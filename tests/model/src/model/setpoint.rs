//! The setpoint record at the front of page 0: its readers and its writers.

mod notes;
mod value;
pub mod words;

use super::book::{Book, Slip};
use notes::{note_read, note_write};

/// Bytes of a page.
pub const PAGE: usize = 32;
/// The kind of a record of whole degrees, in one byte.
pub const DEGREES: u16 = 101;
/// The kind of a record of tenths, in two bytes.
pub const TENTHS: u16 = 102;

/// The length of a kind's record, which counts its kind and its body.
pub fn length_of(kind: u16) -> u16 {
    if kind == DEGREES {
        3
    } else {
        4
    }
}

/// The first and the last value that a kind allows.
fn range_of(kind: u16) -> (i128, i128) {
    if kind == DEGREES {
        (10, 35)
    } else {
        (180, 270)
    }
}

/// Whether a kind allows a value.
pub fn is_allowed(kind: u16, value: i128) -> bool {
    let (first, last) = range_of(kind);
    (first..=last).contains(&value)
}

/// Slips at the ends of a range: of which kind, whether by its writer, and the ends it has then.
const ENDS: [(Slip, u16, bool, i128, i128); 16] = [
    (Slip::SetRead9, DEGREES, false, 9, 35),
    (Slip::SetRead10, DEGREES, false, 11, 35),
    (Slip::SetRead35, DEGREES, false, 10, 34),
    (Slip::SetRead36, DEGREES, false, 10, 36),
    (Slip::SetRead179, TENTHS, false, 179, 270),
    (Slip::SetRead180, TENTHS, false, 181, 270),
    (Slip::SetRead270, TENTHS, false, 180, 269),
    (Slip::SetRead271, TENTHS, false, 180, 271),
    (Slip::SetWrite9, DEGREES, true, 9, 35),
    (Slip::SetWrite10, DEGREES, true, 11, 35),
    (Slip::SetWrite35, DEGREES, true, 10, 34),
    (Slip::SetWrite36, DEGREES, true, 10, 36),
    (Slip::SetWrite179, TENTHS, true, 179, 270),
    (Slip::SetWrite180, TENTHS, true, 181, 270),
    (Slip::SetWrite270, TENTHS, true, 180, 269),
    (Slip::SetWrite271, TENTHS, true, 180, 271),
];

/// Whether a value is out of range to a reader or a writer.
fn is_out(kind: u16, value: i128, writes: bool, book: &Book) -> bool {
    if kind == TENTHS && value == -1 && !writes {
        return !book.slips(Slip::SetOnesTaken) && !book.slips(Slip::SetOnesLarge);
    }
    let made = |(slip, of, by, ..): &&(Slip, u16, bool, i128, i128)| {
        book.slips(*slip) && (*of, *by) == (kind, writes)
    };
    match ENDS.iter().find(made) {
        Some((.., first, last)) => !(*first..=*last).contains(&value),
        None => !is_allowed(kind, value),
    }
}

/// The page that is judged: the input as it came, but for slips in its size.
pub fn page_of(input: &[u8], book: &Book) -> Vec<u8> {
    let size = input.len();
    let slipped = match size {
        0 => book.slips(Slip::SetEmptyBlank),
        31 if book.slips(Slip::SetSize31) => true,
        33 if book.slips(Slip::SetSize33) => true,
        5.. if book.slips(Slip::SetSizeRecord) => size == 2 + usize::from(number_at(input, 0)),
        _ => {
            book.slips(Slip::SetSizeLonger) && size > PAGE
                || book.slips(Slip::SetSizePages) && size % PAGE == 0
                || book.slips(Slip::SetSizeByte) && size % 256 == PAGE
                || book.slips(Slip::SetSizeTwo) && size % 65_536 == PAGE
        }
    };
    let mut page = input.to_vec();
    if slipped {
        page.resize(PAGE, 0xFF);
    }
    page
}

/// Two bytes, the low one first; what a short page lacks is 0.
pub fn number_at(page: &[u8], place: usize) -> u16 {
    let byte = |place: usize| page.get(place).map_or(0, |byte| u16::from(*byte));
    byte(place) | byte(place + 1) << 8
}

/// The kind as it is read.
fn kind_of(page: &[u8], book: &Book) -> u16 {
    let kind = number_at(page, 2);
    match kind {
        100 if book.slips(Slip::SetKind100) => DEGREES,
        103 if book.slips(Slip::SetKind103) => TENTHS,
        _ if book.slips(Slip::SetKindLow) => kind & 0xFF,
        0x6500 | 0x6600 if book.slips(Slip::SetKindTurned) => kind >> 8,
        _ => kind,
    }
}

/// Whether the length is not that of any of these kinds.
fn is_wrong_length(page: &[u8], kinds: &[u16], book: &Book) -> bool {
    let length = number_at(page, 0);
    let right = |kind: &u16| {
        let right = length_of(*kind);
        length == right
            || book.slips(Slip::SetLengthFree)
            || book.slips(Slip::SetLengthLow) && length & 0xFF == right
            || book.slips(Slip::SetLengthTurned) && length == right << 8
            || book.slips(Slip::SetLengthLonger) && length > right
            || book.slips(Slip::SetLengthShorter) && length < right
            || book.slips(Slip::SetLengthEither) && matches!(length, 3 | 4)
            || book.slips(Slip::SetLengthPage) && length == 30
    };
    !kinds.iter().any(right)
}

/// The signed number in the body: degrees or tenths.
fn value_of(page: &[u8], kind: u16, book: &Book) -> i128 {
    let pair = number_at(page, 4);
    let [low, high] = pair.to_le_bytes();
    if kind == DEGREES && !book.slips(Slip::SetBytePair) {
        let signed = i128::from(low as i8);
        return match low {
            _ if book.slips(Slip::SetByteSign) => signed.abs(),
            _ if book.slips(Slip::SetByteTop) => i128::from(low & 0x7F),
            _ => signed,
        };
    }
    let signed = i128::from(pair as i16);
    match kind {
        _ if book.slips(Slip::SetPairSign) => signed.abs(),
        _ if book.slips(Slip::SetPairTop) => i128::from(pair & 0x7FFF),
        _ if book.slips(Slip::SetPairLow) => i128::from(low),
        _ if book.slips(Slip::SetPairTurned) => i128::from(pair.swap_bytes() as i16),
        _ if book.slips(Slip::SetPairSigned) => {
            i128::from(low as i8) + 256 * i128::from(high as i8)
        }
        _ => signed,
    }
}

/// The tenths that a reader gives for a value in range.
fn given(kind: u16, value: i128, book: &Book) -> i128 {
    match kind {
        DEGREES if book.slips(Slip::SetDegreesGiven) => value,
        DEGREES if book.slips(Slip::SetTenfoldByte) => i128::from((10 * value) as u8),
        DEGREES => 10 * value,
        _ if value == -1 && book.slips(Slip::SetOnesLarge) => 65_535,
        _ if book.slips(Slip::SetPairHigh) => value & 0xFF,
        _ => value,
    }
}

/// The kinds that a reader takes.
fn taken<'a>(wanted: &'a [u16], book: &Book) -> &'a [u16] {
    match wanted {
        [first, _] if book.slips(Slip::SetEither101) => std::slice::from_ref(first),
        [_, second] if book.slips(Slip::SetEither102) => std::slice::from_ref(second),
        [_] if book.slips(Slip::SetOtherTaken) => &[DEGREES, TENTHS],
        _ => wanted,
    }
}

/// The refusal that a slip gives to a reader where the papers have none, or another one.
fn misread(page: &[u8], kind: u16, book: &Book) -> Option<u8> {
    let same = |bytes: &[u8], byte: u8| bytes.iter().all(|other| *other == byte);
    let rest = page.get(2 + usize::from(length_of(kind))..).unwrap_or(&[]);
    let known = matches!(kind, DEGREES | TENTHS);
    let slipped = page.len() == PAGE
        && (book.slips(Slip::SetOnes14) && same(page, 0xFF)
            || book.slips(Slip::SetZeros14) && same(page, 0)
            || book.slips(Slip::SetRestOnes) && known && !same(rest, 0xFF)
            || book.slips(Slip::SetRestZeros) && known && !same(rest, 0));
    slipped.then_some(14)
}

/// The readers: the tenths that a page's record gives where it is of one of the kinds wanted, or the refusal.
pub fn read(page: &[u8], wanted: &[u16], book: &mut Book) -> Result<i128, u8> {
    let kinds = taken(wanted, book);
    let kind = kind_of(page, book);
    let known = kinds.contains(&kind);
    let own = [kind];
    let judged = if known { &own[..] } else { kinds };
    let value = value_of(page, kind, book);
    // What is at fault, in the order in which it is judged.
    let mut faults = [
        (14, page.len() != PAGE),
        (13, !known),
        (14, is_wrong_length(page, judged, book)),
        (15, known && is_out(kind, value, false, book)),
    ];
    note_read(page, wanted, faults.map(|(_, so)| so), book);
    if let Some(refusal) = misread(page, kind, book) {
        return Err(refusal);
    }
    if book.slips(Slip::SetOther14) && !known && matches!(kind, DEGREES | TENTHS) {
        return Err(14);
    }
    if book.slips(Slip::SetLengthFirst) {
        faults.swap(1, 2);
    } else if book.slips(Slip::SetRangeFirst) {
        faults.swap(2, 3);
    } else if book.slips(Slip::SetKindAhead) {
        faults.swap(0, 1);
    } else if book.slips(Slip::SetRangeAhead) {
        faults.rotate_right(1);
    }
    match faults.iter().find(|(_, so)| *so) {
        Some((refusal, _)) => Err(*refusal),
        None => Ok(given(kind, value, book)),
    }
}

/// The writers: the page with a record of this kind at its front, or the refusal.
pub fn write(page: &[u8], kind: u16, value: i128, book: &mut Book) -> Result<Vec<u8>, u8> {
    let mut faults = [
        (14, page.len() != PAGE),
        (15, is_out(kind, value, true, book)),
    ];
    note_write(page, kind, value, book);
    if book.slips(Slip::SetRangeSooner) {
        faults.swap(0, 1);
    }
    if let Some((refusal, _)) = faults.iter().find(|(_, so)| *so) {
        return Err(*refusal);
    }
    let same = |byte: u8| page.iter().all(|other| *other == byte);
    let [length, found] = [0, 2].map(|place| number_at(page, place));
    if found != kind && book.slips(Slip::SetAsksKind)
        || same(0xFF) && book.slips(Slip::SetOnesKept)
        || same(0) && book.slips(Slip::SetZerosKept)
    {
        return Err(13);
    }
    if found == kind && length != length_of(kind) && book.slips(Slip::SetAsksLength) {
        return Err(14);
    }
    let mut record = [length_of(kind), kind].map(u16::to_le_bytes).concat();
    match kind {
        DEGREES => record.push(value as u8),
        _ if book.slips(Slip::SetWroteTurned) => record.extend((value as u16).to_be_bytes()),
        _ if book.slips(Slip::SetHighKept) => record.push(value as u8),
        _ => record.extend((value as u16).to_le_bytes()),
    }
    if kind == DEGREES && book.slips(Slip::SetClearNext) {
        record.push(0);
    }
    if kind == DEGREES && book.slips(Slip::SetWroteFour) {
        record[0] = 4;
    }
    if book.slips(Slip::SetHeadKept) {
        record[..4].copy_from_slice(&page[..4]);
    }
    let mut after = page.to_vec();
    if book.slips(Slip::SetClearOnes) {
        after.fill(0xFF);
    } else if book.slips(Slip::SetClearZeros) {
        after.fill(0);
    } else if book.slips(Slip::SetClearLast) {
        after[PAGE - 1] = 0;
    }
    after[..record.len()].copy_from_slice(&record);
    if book.slips(Slip::SetWroteRecord) {
        after.truncate(record.len());
    }
    Ok(after)
}
