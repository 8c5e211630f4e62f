//! Which rules a reader or a writer has met.

use super::{is_allowed, length_of, number_at, DEGREES, PAGE, TENTHS};
use crate::model::book::{Book, Rule};

/// Whether a kind is one of the two.
fn is_known(kind: u16) -> bool {
    matches!(kind, DEGREES | TENTHS)
}

/// Whether all bytes are this one.
fn all(bytes: &[u8], byte: u8) -> bool {
    bytes.iter().all(|other| *other == byte)
}

/// The number in the body.
fn value_of(page: &[u8], kind: u16) -> i128 {
    let pair = number_at(page, 4);
    if kind == DEGREES {
        i128::from(pair.to_le_bytes()[0] as i8)
    } else {
        i128::from(pair as i16)
    }
}

/// What a reader has met: the kinds that it wants, and what is at fault of the page's size, the kind, the length and
/// the range.
pub fn note_read(page: &[u8], wanted: &[u16], faults: [bool; 4], book: &mut Book) {
    let kind = number_at(page, 2);
    match faults {
        [true, ..] => note_size(page, faults, book),
        [_, true, wrong, _] => note_kind(page, wanted, wrong, book),
        [_, _, true, out] => note_length(number_at(page, 0), length_of(kind), out, book),
        [.., true] => note_range(page, kind, book),
        _ => {
            let value = value_of(page, kind);
            book.saw(match value {
                10 => Rule::SetTen,
                35 => Rule::SetThirtyFive,
                180 => Rule::Set180,
                270 => Rule::Set270,
                _ if kind == DEGREES => Rule::SetDegrees,
                _ => Rule::SetTenths,
            });
            book.saw_if(value > 255, Rule::SetOver255);
            if wanted.len() > 1 {
                book.saw_if(kind == DEGREES, Rule::SetEither101);
                book.saw_if(kind == TENTHS, Rule::SetEither102);
            }
            let rest = &page[2 + usize::from(length_of(kind))..];
            book.saw(match rest {
                _ if all(rest, 0xFF) => Rule::SetRestOnes,
                _ if all(rest, 0) => Rule::SetRestZeros,
                _ => Rule::SetRestAny,
            });
        }
    }
}

/// A page of another size.
fn note_size(page: &[u8], faults: [bool; 4], book: &mut Book) {
    let [_, other, wrong, out] = faults;
    let size = page.len();
    let record = 2 + usize::from(length_of(number_at(page, 2)));
    let good = !other && !wrong && !out;
    book.saw_if(size == 0, Rule::Set14Empty);
    book.saw_if((1..4).contains(&size), Rule::Set14Head);
    book.saw_if(size > 3 && !other && size < record, Rule::Set14Body);
    book.saw_if(good && size == record, Rule::Set14Record);
    book.saw_if(size == 31, Rule::Set14Less);
    book.saw_if(size == 33, Rule::Set14More);
    book.saw_if(size == 64, Rule::Set14Pages);
    book.saw_if(size % 256 == PAGE, Rule::Set14Byte);
    book.saw_if(size % 65_536 == PAGE, Rule::Set14Two);
    book.saw_if(good && size > PAGE, Rule::Set14Good);
    book.saw_if(other && size > 3, Rule::Set14Kind);
    book.saw_if(out && !wrong && size >= record, Rule::Set14Range);
}

/// Another kind than a reader wants.
fn note_kind(page: &[u8], wanted: &[u16], wrong: bool, book: &mut Book) {
    let [length, kind] = [0, 2].map(|place| number_at(page, place));
    let low = kind & 0xFF;
    match wanted {
        [DEGREES] => book.saw_if(kind == TENTHS, Rule::Set13Of101),
        [TENTHS] => book.saw_if(kind == DEGREES, Rule::Set13Of102),
        _ => book.saw(Rule::Set13Either),
    }
    book.saw_if(matches!(kind, 100 | 103), Rule::Set13Near);
    book.saw_if(kind > 255 && is_known(low), Rule::Set13High);
    book.saw_if(is_known(kind.swap_bytes()), Rule::Set13Turned);
    book.saw_if(all(page, 0xFF), Rule::Set13Ones);
    book.saw_if(all(page, 0), Rule::Set13Zeros);
    book.saw_if(wrong, Rule::Set13Length);
    if is_known(kind) {
        let own = length == length_of(wanted[0]);
        book.saw_if(own, Rule::Set13OwnLength);
        let out = !is_allowed(kind, value_of(page, kind));
        book.saw_if(out, Rule::Set13Range);
    }
}

/// Another length than the kind has.
fn note_length(length: u16, right: u16, out: bool, book: &mut Book) {
    book.saw_if(length + 1 == right, Rule::Set14LengthLess);
    book.saw_if(length == right + 1, Rule::Set14LengthMore);
    book.saw_if(length & 0xFF == right, Rule::Set14LengthHigh);
    book.saw_if(length == right << 8, Rule::Set14LengthTurned);
    book.saw_if(length == 30, Rule::Set14LengthPage);
    book.saw_if(length == 0xFFFF, Rule::Set14LengthOnes);
    book.saw_if(out, Rule::Set14LengthRange);
}

/// A value out of range in a record.
fn note_range(page: &[u8], kind: u16, book: &mut Book) {
    let value = value_of(page, kind);
    let pair = number_at(page, 4);
    let low = pair & 0xFF;
    if kind == DEGREES {
        book.saw_if(value == 9, Rule::Set15Nine);
        book.saw_if(value == 36, Rule::Set15ThirtySix);
        book.saw_if(is_allowed(kind, -value), Rule::Set15ByteSign);
        let top = is_allowed(kind, i128::from(low & 0x7F));
        book.saw_if(top, Rule::Set15ByteTop);
        let tenths = is_allowed(TENTHS, low.into());
        book.saw_if(tenths, Rule::Set15ByteTenths);
        return;
    }
    book.saw_if(value == 179, Rule::Set15Under);
    book.saw_if(value == 271, Rule::Set15Over);
    book.saw_if(pair == 0xFFFF, Rule::Set15Ones);
    book.saw_if(is_allowed(kind, -value), Rule::Set15PairSign);
    for (number, rule) in [
        (pair & 0x7FFF, Rule::Set15PairTop),
        (low, Rule::Set15PairLow),
        (pair.swap_bytes(), Rule::Set15PairTurned),
    ] {
        book.saw_if(is_allowed(kind, number.into()), rule);
    }
    book.saw_if(is_allowed(DEGREES, value), Rule::Set15PairDegrees);
}

/// What a writer has met.
pub fn note_write(page: &[u8], kind: u16, value: i128, book: &mut Book) {
    let fits = is_allowed(kind, value);
    if page.len() != PAGE {
        book.saw(Rule::SetWrite14);
        book.saw_if(!fits, Rule::SetWrite14First);
        return;
    }
    let other = if kind == DEGREES { TENTHS } else { DEGREES };
    if !fits {
        let edges = [(DEGREES, 9), (DEGREES, 36), (TENTHS, 179), (TENTHS, 271)];
        let rules = [
            Rule::SetWrite9,
            Rule::SetWrite36,
            Rule::SetWrite179,
            Rule::SetWrite271,
        ];
        for (edge, rule) in edges.into_iter().zip(rules) {
            book.saw_if(edge == (kind, value), rule);
        }
        book.saw_if(value == 0, Rule::SetWriteZero);
        let minus = value > i128::MIN && is_allowed(kind, -value);
        book.saw_if(minus, Rule::SetWriteMinus);
        if is_allowed(other, value) {
            book.saw(match kind {
                DEGREES => Rule::SetWriteAsTenths,
                _ => Rule::SetWriteAsDegrees,
            });
        }
        return;
    }
    book.saw(match value {
        10 => Rule::SetWrote10,
        35 => Rule::SetWrote35,
        180 => Rule::SetWrote180,
        270 => Rule::SetWrote270,
        _ if kind == DEGREES => Rule::SetWroteDegrees,
        _ => Rule::SetWroteTenths,
    });
    let [length, found] = [0, 2].map(|place| number_at(page, place));
    book.saw(match found {
        _ if all(page, 0xFF) => Rule::SetOnOnes,
        _ if all(page, 0) => Rule::SetOnZeros,
        _ if is_known(found) && length != length_of(found) => Rule::SetOnLength,
        _ if found == kind => Rule::SetOnOwn,
        _ if found == other => Rule::SetOnOther,
        _ => Rule::SetOnAny,
    });
}
