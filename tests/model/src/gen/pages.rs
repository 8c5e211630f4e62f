//! Pages with a setpoint record at their front, right and wrong, and what is asked about them.

use super::rng::Rng;
use crate::model::setpoint::{length_of, DEGREES, PAGE, TENTHS};

/// One start of the program: its words and its input.
pub struct Trial {
    pub name: &'static str,
    pub words: Vec<Vec<u8>>,
    pub input: Vec<u8>,
}

/// The papers' worked pages: how each begins, and what each reader prints.
pub const WORKED: [(&[u8], [&str; 3]); 6] = [
    (&[3, 0, 0x65, 0, 0x15], ["210", "210", "refused 13"]),
    (
        &[3, 0, 0x65, 0, 0xFF],
        ["refused 15", "refused 15", "refused 13"],
    ),
    (&[4, 0, 0x66, 0, 0xD7, 0], ["215", "refused 13", "215"]),
    (
        &[4, 0, 0x66, 0, 0xFF, 0xFF],
        ["refused 15", "refused 13", "refused 15"],
    ),
    (
        &[4, 0, 0x65, 0, 0x15],
        ["refused 14", "refused 14", "refused 13"],
    ),
    (&[0xFF; 4], ["refused 13"; 3]),
];
/// The words of the readers.
pub const READERS: [&str; 3] = ["read", "read101", "read102"];
/// Pairs of kind 102 that are not around the ends of its range.
const PAIRS: [u16; 48] = [
    0, 1, 2, 9, 10, 11, 18, 21, 27, 34, 35, 36, 100, 127, 128, 350, 436, 471, 526, 1800, 2100,
    2150, 2700, 0x7FFE, 0x7FFF, 0x8000, 0x8001, 0x80B4, 0x80D7, 0x810E, 0xB400, 0xD700, 0xFF00,
    0x0E01, 0x01B4, 0x01FF, 0x0200, 0xFEF1, 0xFEF2, 0xFF29, 0xFF4C, 0xFF4D, 0xFFB4, 0xFFD7, 0xFFEB,
    0xFFF6, 0xFFFE, 0xFFFF,
];
/// Kinds around the right ones, in both bytes.
const KINDS: [u16; 15] = [
    0, 1, 100, 101, 102, 103, 0x0165, 0x0166, 0x8065, 0xFF66, 0x6500, 0x6600, 0x6565, 0x6665,
    0xFFFF,
];
/// Lengths around the right ones, in both bytes.
const LENGTHS: [u16; 18] = [
    0, 1, 2, 3, 4, 5, 6, 28, 30, 31, 32, 0x0103, 0x0104, 0x0300, 0x0400, 0x8003, 0xFF04, 0xFFFF,
];
/// Sizes of input that every content is given in.
const EDGES: [usize; 7] = [4, 5, 6, 31, 33, 37, 64];
/// Sizes over 70.
const LONG: [usize; 16] = [
    71, 96, 128, 255, 256, 257, 287, 288, 289, 544, 4096, 4128, 65_535, 65_536, 65_568, 100_000,
];

impl Trial {
    pub fn new(name: &'static str, words: &[&str], input: Vec<u8>) -> Trial {
        let words = words.iter().map(|word| word.as_bytes().to_vec()).collect();
        Trial { name, words, input }
    }
}

/// The word for the reader or the writer of a kind.
pub fn word_for(verb: &str, kind: u16) -> String {
    format!("{verb}{kind}")
}

/// Any bytes, or all of them the same.
fn filled(rng: &mut Rng, size: usize) -> Vec<u8> {
    match rng.below(4) {
        0 => vec![0xFF; size],
        1 => vec![0; size],
        _ => (0..size).map(|_| rng.byte()).collect(),
    }
}

/// A page that begins with a length, a kind and the bytes of a body.
pub(super) fn page(rng: &mut Rng, length: u16, kind: u16, body: &[u8]) -> Vec<u8> {
    let mut page = filled(rng, PAGE);
    page[..2].copy_from_slice(&length.to_le_bytes());
    page[2..4].copy_from_slice(&kind.to_le_bytes());
    page[4..4 + body.len()].copy_from_slice(body);
    page
}

/// The body of a kind with a value in range.
fn good_body(rng: &mut Rng, kind: u16) -> Vec<u8> {
    if kind == DEGREES {
        vec![rng.between(10, 35) as u8]
    } else {
        (rng.between(180, 270) as u16).to_le_bytes().to_vec()
    }
}

/// The body of a kind with a value out of range; past 255 a byte begins at 0 again.
pub(super) fn bad_body(rng: &mut Rng, kind: u16) -> Vec<u8> {
    if kind == DEGREES {
        vec![rng.between(36, 256 + 9) as u8]
    } else {
        (rng.between(271, 0xFFFF) as u16).to_le_bytes().to_vec()
    }
}

/// A page with a good record.
pub fn good(rng: &mut Rng, kind: u16) -> Vec<u8> {
    let body = good_body(rng, kind);
    page(rng, length_of(kind), kind, &body)
}

/// The worked pages, by every reader.
pub fn worked(rng: &mut Rng) -> Vec<Trial> {
    let mut all = Vec::new();
    for (begin, _) in WORKED {
        for reader in READERS {
            let mut page = filled(rng, PAGE);
            page[..begin.len()].copy_from_slice(begin);
            all.push(Trial::new("a worked page", &[reader], page));
        }
    }
    all
}

/// Every byte in kind 101, by every reader.
pub fn every_byte(rng: &mut Rng) -> Vec<Trial> {
    let mut all = Vec::new();
    for byte in 0..=255 {
        for reader in READERS {
            let page = page(rng, 3, DEGREES, &[byte]);
            all.push(Trial::new("a byte of kind 101", &[reader], page));
        }
    }
    all
}

/// Pairs in kind 102: around the range, at the ends of types, and any.
pub fn pairs(rng: &mut Rng) -> Vec<Trial> {
    let any = (0..40).map(|number| match number % 2 {
        0 => rng.bits() as u16,
        _ => rng.between(160, 290) as u16,
    });
    let any: Vec<u16> = any.collect();
    let mut all = Vec::new();
    for (number, pair) in (170..=280).chain(PAIRS).chain(any).enumerate() {
        for reader in ["read", "read102", "read101"] {
            // The reader of the other kind refuses them all.
            if reader == "read101" && number % 4 > 0 {
                continue;
            }
            let page = page(rng, 4, TENTHS, &pair.to_le_bytes());
            all.push(Trial::new("a pair of kind 102", &[reader], page));
        }
    }
    all
}

/// Lengths and kinds around the right ones, and every bit of a head turned.
pub fn heads(rng: &mut Rng) -> Vec<Trial> {
    let mut all = Vec::new();
    for kind in [DEGREES, TENTHS] {
        let own = word_for("read", kind);
        for bit in 0..32 {
            for reader in ["read", &own] {
                let mut page = good(rng, kind);
                page[bit / 8] ^= 1 << (bit % 8);
                all.push(Trial::new("a bit of the head turned", &[reader], page));
            }
        }
    }
    for (number, kind) in KINDS.into_iter().enumerate() {
        for (at, length) in LENGTHS.into_iter().enumerate() {
            let known = matches!(kind, DEGREES | TENTHS);
            let like = if kind & 1 == 1 { DEGREES } else { TENTHS };
            for (turn, reader) in READERS.into_iter().enumerate() {
                if !known && (number + at) % 3 != turn {
                    continue;
                }
                let body = good_body(rng, like);
                let wrong = bad_body(rng, like);
                for body in [body, wrong].iter().take(if known { 2 } else { 1 }) {
                    let page = page(rng, length, kind, body);
                    all.push(Trial::new("a length and a kind", &[reader], page));
                }
            }
        }
    }
    for byte in [0, 0xFF] {
        for reader in READERS {
            all.push(Trial::new("a blank page", &[reader], vec![byte; PAGE]));
        }
    }
    all
}

/// What a page of another size begins with: a good record of either kind, one out of range, or another kind.
fn front(rng: &mut Rng, content: usize) -> Vec<u8> {
    let kind = if content % 2 == 0 { DEGREES } else { TENTHS };
    match content / 2 {
        0 => good(rng, kind),
        1 => {
            let body = bad_body(rng, kind);
            page(rng, length_of(kind), kind, &body)
        }
        _ => {
            let other = rng.pick(&[0, 100, 103, 0x0165, 0xFFFF]);
            page(rng, length_of(kind), other, &[20])
        }
    }
}

/// The front of a page, made longer or shorter.
fn sized(rng: &mut Rng, content: usize, size: usize) -> Vec<u8> {
    let mut input = front(rng, content);
    let more = filled(rng, size.saturating_sub(PAGE));
    input.extend(more);
    input.truncate(size);
    input
}

/// Pages of every size from 0 to 70 bytes and of some more, by every reader and both writers.
pub fn sizes(rng: &mut Rng) -> Vec<Trial> {
    let mut all = Vec::new();
    for size in (0..=70).chain(LONG) {
        for (turn, reader) in READERS.into_iter().enumerate() {
            let contents = if EDGES.contains(&size) { 6 } else { 1 };
            for content in 0..contents {
                // Long ones have a good record of the reader's kind.
                let content = match size {
                    71.. => usize::from(reader == "read102"),
                    _ => (content + size + turn) % 6,
                };
                let input = sized(rng, content, size);
                all.push(Trial::new("a size", &[reader], input));
            }
        }
        for (turn, (writer, values)) in [("write101", ["21", "99"]), ("write102", ["210", "-1"])]
            .into_iter()
            .enumerate()
        {
            let value = values[(size + turn) % 2];
            let input = sized(rng, size % 6, size);
            all.push(Trial::new("a size", &[writer, value], input));
        }
    }
    all
}

/// Any page, mostly close to a right one, and any reader or writer.
pub fn any(rng: &mut Rng) -> Trial {
    let like = rng.pick(&[DEGREES, TENTHS]);
    let kind = if rng.chance(80) {
        like
    } else {
        rng.pick(&KINDS)
    };
    let length = if rng.chance(75) {
        length_of(like)
    } else {
        rng.pick(&LENGTHS)
    };
    let body = match rng.below(3) {
        0 => good_body(rng, like),
        1 => bad_body(rng, like),
        _ => rng.bits().to_le_bytes()[..2].to_vec(),
    };
    let mut input = page(rng, length, kind, &body);
    if rng.chance(15) {
        let size = rng.between(0, 70);
        input = filled(rng, size);
    } else if rng.chance(10) {
        input = filled(rng, PAGE);
    }
    let value = match rng.below(4) {
        0 => rng.between(0, 300) as i64,
        1 => rng.between(8, 37) as i64,
        2 => rng.between(175, 275) as i64,
        _ => rng.bits() as i64 >> rng.below(64),
    };
    let value = value.to_string();
    let words: &[&str] = match rng.below(6) {
        0 => &["read101"],
        1 => &["read102"],
        2 | 3 => &["read"],
        4 => &["write101", &value],
        _ => &["write102", &value],
    };
    Trial::new("any page", words, input)
}
