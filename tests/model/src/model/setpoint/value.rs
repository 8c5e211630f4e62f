//! The value that a writer is given: a number of any length.

use super::{is_allowed, DEGREES, TENTHS};
use crate::model::book::{Book, Rule, Slip};

/// A value is long, or has many zeros before it, from so many digits on.
const LONG: usize = 100_000;

/// A number of any length.
#[derive(Clone, Copy)]
pub struct Number {
    /// Its value, or the end of the type that it is past.
    value: i128,
    /// Its low 128 bits.
    low: u128,
    minus: bool,
    digits: usize,
    /// Whether its first digit is a 0 that it does not need.
    zeros: bool,
}

impl Number {
    /// The value that a writer judges.
    pub fn judged(&self, kind: u16, book: &Book) -> i128 {
        let Number { value, low, .. } = *self;
        let tenfold = low.wrapping_mul(10);
        let wrapped = match kind {
            _ if book.slips(Slip::SetWrap8) => return i128::from(low as u8),
            _ if book.slips(Slip::SetWrap16) => return i128::from(low as i16),
            _ if book.slips(Slip::SetWrap32) => return i128::from(low as i32),
            _ if book.slips(Slip::SetWrap64) => return i128::from(low as i64),
            _ if book.slips(Slip::SetWrap128) => return low as i128,
            TENTHS if book.slips(Slip::SetAsDegrees) => return value.saturating_mul(10),
            DEGREES if book.slips(Slip::SetAsTenths) => return value / 10,
            DEGREES if book.slips(Slip::SetTenfold16) => i128::from(tenfold as i16),
            DEGREES if book.slips(Slip::SetTenfold32) => i128::from(tenfold as i32),
            DEGREES if book.slips(Slip::SetTenfold64) => i128::from(tenfold as i64),
            _ => return value,
        };
        wrapped / 10
    }

    /// What is met in a value that a writer refuses by 15 or has written.
    pub fn note(&self, kind: u16, written: bool, book: &mut Book) {
        let Number {
            value,
            low,
            minus,
            digits,
            zeros,
        } = *self;
        if written {
            book.saw_if(zeros, Rule::SetZeros);
            book.saw_if(zeros && digits > LONG, Rule::SetZerosMany);
            return;
        }
        let fits = |number: u128| is_allowed(kind, number as i128);
        let low_bits = |bits: u32| low & ((1 << bits) - 1);
        book.saw_if(value == 0 && minus, Rule::SetWriteMinusZero);
        book.saw_if(fits(low_bits(8)), Rule::SetWrap8);
        book.saw_if(fits(low_bits(16)), Rule::SetWrap16);
        book.saw_if(fits(low_bits(32)), Rule::SetWrap32);
        book.saw_if(fits(low_bits(64)), Rule::SetWrap64);
        book.saw_if(fits(low), Rule::SetWrap128);
        book.saw_if(minus && fits(low_bits(64)), Rule::SetWrapMinus);
        if kind == DEGREES {
            let tenfold = low.wrapping_mul(10);
            for (bits, rule) in [
                (16, Rule::SetWrapTenfold16),
                (32, Rule::SetWrapTenfold32),
                (64, Rule::SetWrapTenfold64),
            ] {
                book.saw_if(fits((tenfold & ((1 << bits) - 1)) / 10), rule);
            }
        }
        let long = digits >= LONG && !zeros;
        book.saw_if(long && !minus, Rule::SetLong);
        book.saw_if(long && minus, Rule::SetLongMinus);
    }
}

/// What decimal or other digits stand for, with a minus sign or none.
fn number(digits: &[u8], minus: bool, base: u8) -> Number {
    let [mut value, mut low] = [0i128, 0];
    for digit in digits {
        let digit = char::from(*digit).to_digit(base.into()).unwrap_or(0);
        value = value
            .saturating_mul(base.into())
            .saturating_add(digit.into());
        low = low.wrapping_mul(base.into()).wrapping_add(digit.into());
    }
    let [value, low] = if minus {
        [-value, low.wrapping_neg()]
    } else {
        [value, low]
    };
    Number {
        value,
        low: low as u128,
        minus,
        digits: digits.len(),
        zeros: digits.len() > 1 && digits[0] == b'0',
    }
}

/// A value as it is spelt, but for slips that take other spellings.
fn respelt(word: &[u8], book: &Book) -> Vec<u8> {
    let sign = usize::from(word.first() == Some(&b'-'));
    let digits = word[sign..]
        .iter()
        .take_while(|digit| digit.is_ascii_digit());
    let behind = sign + digits.count();
    let kept = match word {
        b"" if book.slips(Slip::SetEmptyTaken) => b"0",
        b"-" if book.slips(Slip::SetSignTaken) => b"0",
        [b'+', rest @ ..] if book.slips(Slip::SetPlusTaken) => rest,
        [b'-', b'-', rest @ ..] if book.slips(Slip::SetSignsTaken) => rest,
        _ if book.slips(Slip::SetSpaceTaken) => word.trim_ascii(),
        _ if book.slips(Slip::SetBehindTaken) => &word[..behind],
        _ if book.slips(Slip::SetPointTaken) && word.get(behind) == Some(&b'.') => &word[..behind],
        _ if book.slips(Slip::SetDigits256) => &word[..word.len().min(256)],
        _ if book.slips(Slip::SetDigits20) && behind == word.len() => {
            &word[sign.max(word.len().saturating_sub(20))..]
        }
        _ => word,
    };
    if book.slips(Slip::SetWideTaken) {
        let digit = |wide: char| match u32::from(wide) {
            code @ 0x660..=0x669 => char::from_digit(code - 0x660, 10).unwrap_or(wide),
            _ => wide,
        };
        let text = String::from_utf8_lossy(kept);
        return text.chars().map(digit).collect::<String>().into_bytes();
    }
    kept.to_vec()
}

/// The number that a word spells: decimal digits, with a minus sign or none. Nothing where it spells none.
pub fn number_of(word: &[u8], book: &Book) -> Option<Number> {
    let past = number(&[b'9'; 50], false, 10);
    if book.slips(Slip::SetLongUnread) && word.len() > 4096 {
        return Some(past);
    }
    if let Some(hex) = word.strip_prefix(b"0x") {
        if book.slips(Slip::SetHexTaken) && hex.iter().all(u8::is_ascii_hexdigit) {
            return Some(number(hex, false, 16));
        }
    }
    let word = respelt(word, book);
    let (minus, digits) = match word.strip_prefix(b"-") {
        Some(digits) => (true, digits),
        None => (false, &word[..]),
    };
    if digits.is_empty() || !digits.iter().all(u8::is_ascii_digit) {
        return book.slips(Slip::SetNoNumber15).then_some(past);
    }
    let found = number(digits, minus, 10);
    let octal = digits.iter().all(|digit| *digit < b'8');
    match found {
        _ if book.slips(Slip::SetMinusLost) => Some(number(digits, false, 10)),
        _ if found.zeros && book.slips(Slip::SetZerosNone) => None,
        _ if found.zeros && book.slips(Slip::SetOctal) => octal.then(|| number(digits, minus, 8)),
        _ if minus && found.value == 0 && book.slips(Slip::SetMinusZero) => None,
        _ if digits.len() > 18 && book.slips(Slip::SetDigits18) => None,
        _ if word.len() > 4096 && book.slips(Slip::SetDigits4096) => None,
        _ => Some(found),
    }
}

/// What is met in a value that is no number.
pub fn note_no_number(value: &[u8], kind: u16, book: &mut Book) {
    let digits = value.iter().take_while(|digit| digit.is_ascii_digit());
    let begun = &value[..digits.count()];
    let begins = !begun.is_empty() && is_allowed(kind, number(begun, false, 10).value);
    book.saw_if(begins, Rule::SetValueBegun);
    book.saw_if(begun.len() > LONG, Rule::SetValueLong);
    book.saw_if(value.is_empty(), Rule::SetValueEmpty);
    book.saw_if(value == b"-", Rule::SetValueSign);
    book.saw_if(value.starts_with(b"--"), Rule::SetValueSigns);
    book.saw_if(value.starts_with(b"+"), Rule::SetValuePlus);
    let space = value.iter().any(u8::is_ascii_whitespace);
    book.saw_if(space, Rule::SetValueSpace);
    book.saw_if(value.contains(&b'.'), Rule::SetValuePoint);
    book.saw_if(!value.is_ascii(), Rule::SetValueWide);
}
