//! The characters of a line.

use crate::model::book::{Book, Slip};

/// What a hex digit of either case stands for.
pub fn digit_of(character: u8) -> Option<u8> {
    match character {
        b'0'..=b'9' => Some(character - b'0'),
        b'A'..=b'F' => Some(character - b'A' + 10),
        b'a'..=b'f' => Some(character - b'a' + 10),
        _ => None,
    }
}

/// A digit, but for slips that take others or not all.
fn digit_taken(character: u8, book: &Book) -> Option<u8> {
    let slipped = [
        (Slip::HexDigitSlash, b'/', 15),
        (Slip::HexDigitColon, b':', 10),
        (Slip::HexDigitAt, b'@', 9),
        (Slip::HexDigitG, b'G', 0),
        (Slip::HexDigitTick, b'`', 9),
        (Slip::HexDigitSmallG, b'g', 0),
    ];
    for (slip, taken, value) in slipped {
        if book.slips(slip) && character == taken {
            return Some(value);
        }
    }
    match character {
        b'a'..=b'f' if book.slips(Slip::HexSmallRefused) => None,
        b'A'..=b'F' if book.slips(Slip::HexCapitalRefused) => None,
        b'a' if book.slips(Slip::HexSmallA) => None,
        b'f' if book.slips(Slip::HexSmallF) => None,
        0x80.. if book.slips(Slip::HexTopBit) => digit_of(character & 0x7F),
        0x10..=0x19 if book.slips(Slip::HexControl) => Some(character & 0x0F),
        _ if book.slips(Slip::HexDigitAny) => Some(digit_of(character).unwrap_or(0)),
        _ => digit_of(character),
    }
}

/// The characters that are judged: those before the line end, but for slips that pass over some.
fn judged(line: &[u8], book: &Book) -> Option<Vec<u8>> {
    let text = &line[..line.len() - 1];
    let mut text = match text.strip_suffix(b"\r") {
        Some(_) if book.slips(Slip::HexCrlfRefused) => return None,
        None if book.slips(Slip::HexLfRefused) => return None,
        stripped => stripped.unwrap_or(text).to_vec(),
    };
    if book.slips(Slip::HexCrTwice) && text.ends_with(b"\r") {
        text.pop();
    }
    if book.slips(Slip::HexCrAnywhere) {
        text.retain(|character| *character != b'\r');
    }
    if book.slips(Slip::HexSpaces) {
        text.retain(|character| *character != b' ');
    }
    if book.slips(Slip::HexTabs) {
        text.retain(|character| *character != b'\t');
    }
    if book.slips(Slip::HexNulPassed) {
        text.retain(|character| *character != 0);
    }
    if book.slips(Slip::HexSpaceBefore) {
        text = text.trim_ascii_start().to_vec();
    }
    if book.slips(Slip::HexSpaceBehind) {
        text = text.trim_ascii_end().to_vec();
    }
    let place_of = |wanted: u8| text.iter().position(|character| *character == wanted);
    if book.slips(Slip::HexNulEnds) {
        text.truncate(place_of(0).unwrap_or(text.len()));
    } else if book.slips(Slip::HexBefore) {
        text.drain(..place_of(b':').unwrap_or(0));
    }
    Some(text)
}

/// The bytes that a line with its LF spells, or nothing where a character is out of form or their number odd.
pub fn bytes_of(line: &[u8], book: &Book) -> Option<Vec<u8>> {
    let text = judged(line, book)?;
    let digits = match text.strip_prefix(b":") {
        Some(rest) if book.slips(Slip::HexColons) => rest.strip_prefix(b":").unwrap_or(rest),
        Some(rest) => rest,
        None if book.slips(Slip::HexNoColon) => &text,
        None if book.slips(Slip::HexColonAny) => text.get(1..)?,
        None => return None,
    };
    let small = digits.iter().any(u8::is_ascii_lowercase);
    let capital = digits.iter().any(u8::is_ascii_uppercase);
    if book.slips(Slip::HexMixedRefused) && small && capital {
        return None;
    }
    let mut values = Vec::new();
    for character in digits {
        match digit_taken(*character, book) {
            Some(value) => values.push(value),
            None if book.slips(Slip::HexBehind) && values.len() >= 10 => break,
            None => return None,
        }
    }
    if values.len() % 2 == 1 {
        let last = values.pop()?;
        if book.slips(Slip::HexOddTaken) {
            values.extend([0, last]);
        } else if !book.slips(Slip::HexOddDropped) {
            return None;
        }
    }
    let pair = |pair: &[u8]| match pair {
        [high, low] if book.slips(Slip::HexTurned) => low << 4 | high,
        pair => pair[0] << 4 | pair[1],
    };
    Some(values.chunks(2).map(pair).collect())
}
