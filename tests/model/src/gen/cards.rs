//! Cards, good and damaged.

use super::rng::Rng;
use crate::model::chip::{part_of, DS28EC20, LAST_KIND};
use crate::model::crc::crc8;

/// What kind of line a card makes.
#[derive(Clone, Copy, PartialEq, Eq, Debug)]
pub enum Style {
    /// No chips.
    Empty,
    /// One DS28EC20.
    OneMemory,
    /// One DS2413.
    OnePio,
    /// Two of each kind, mixed, all codes different.
    Mixed,
    /// Chips of equal code, of one kind and of both.
    Twins,
    /// Any number of any chips.
    Any,
    /// 16 chips, all codes different.
    Full,
    /// Codes that differ in their last byte alone.
    Deep,
    /// The code of zeros once, among codes that differ from it in one bit, and the code of ones.
    OneZero,
    /// The code of zeros on several chips, of one kind or of both, among others; one of these differs
    /// from it in its eighth byte alone.
    Zeros,
    /// 16 codes that differ from zero in one bit: in every fourth one, from this one of 0 to 3 on.
    NearZero(usize),
}

/// One record of a card.
pub(super) fn record(kind: u16, code: u64) -> Vec<u8> {
    let mut record = vec![10, 0];
    record.extend(kind.to_le_bytes());
    record.extend(code.to_le_bytes());
    record
}

/// A code of this family with a good CRC.
pub(super) fn good_code(rng: &mut Rng, family: u8) -> u64 {
    let mut bytes = rng.bits().to_le_bytes();
    bytes[0] = family;
    bytes[7] = crc8(&bytes[..7]);
    u64::from_le_bytes(bytes)
}

/// The family that a kind usually has.
pub(super) fn family(kind: u16) -> u8 {
    if part_of(kind.into()) == Some(DS28EC20) {
        0x43
    } else {
        0x3A
    }
}

/// A code of any sort, good, bad, all zeros or ones, equal or close to others or to zero.
pub(super) fn any_code(rng: &mut Rng, kind: u16, others: &[u64]) -> u64 {
    match rng.below(14) {
        0 => 0,
        1 => 1 << rng.below(64),
        2 => rng.below(8) as u64,
        3 => u64::MAX,
        4 => rng.bits(),
        5 => good_code(rng, family(kind)) ^ 1 << rng.between(56, 63),
        6 => good_code(rng, family(kind) ^ 0x43 ^ 0x3A),
        7 if !others.is_empty() => rng.pick(others),
        8 if !others.is_empty() => rng.pick(others) ^ 1 << rng.below(64),
        9 if !others.is_empty() => rng.pick(others) ^ 1 << rng.between(56, 63),
        _ => good_code(rng, family(kind)),
    }
}

/// A good card of so many chips of any sort.
fn any_card(rng: &mut Rng, chips: usize) -> Vec<u8> {
    let mut codes = Vec::new();
    let mut card = Vec::new();
    for _ in 0..chips {
        let kind = rng.pick(&[1, 1, 2]);
        let code = any_code(rng, kind, &codes);
        codes.push(code);
        card.extend(record(kind, code));
    }
    card
}

/// A card of these codes, each of either kind.
fn any_kinds(rng: &mut Rng, codes: &[u64]) -> Vec<u8> {
    let chips = codes.iter();
    chips
        .flat_map(|code| record(rng.pick(&[1, 2]), *code))
        .collect()
}

/// A good card of a style.
pub fn good_card(rng: &mut Rng, style: Style) -> Vec<u8> {
    let mut own = |kind: u16| record(kind, good_code(rng, family(kind)));
    match style {
        Style::Empty => Vec::new(),
        Style::OneMemory => own(1),
        Style::OnePio => own(2),
        Style::Mixed => [own(1), own(2), own(1), own(2)].concat(),
        Style::Full => (0..16u16).flat_map(|at| own(1 + at % 2)).collect(),
        Style::Twins => {
            let codes = [good_code(rng, 0x43), good_code(rng, 0x3A)];
            let chips = [(1, 0), (1, 0), (2, 1), (2, 1), (2, 0), (1, 1)];
            let chips = chips.iter().take(rng.between(4, 6));
            chips
                .flat_map(|(kind, at)| record(*kind, codes[*at]))
                .collect()
        }
        Style::Deep => {
            let code = rng.bits();
            let codes: Vec<u64> = (0..8).map(|place| code ^ 1 << (56 + place)).collect();
            any_kinds(rng, &codes)
        }
        Style::OneZero => {
            let mut codes: Vec<u64> = (0..rng.between(1, 6)).map(|_| 1 << rng.below(64)).collect();
            codes.push(u64::MAX);
            codes.insert(rng.below(codes.len() + 1), 0);
            any_kinds(rng, &codes)
        }
        Style::Zeros => {
            let mut codes = vec![0; rng.between(2, 5)];
            for code in [good_code(rng, 0x43), 1 << 56, rng.bits()] {
                codes.insert(rng.below(codes.len() + 1), code);
            }
            any_kinds(rng, &codes)
        }
        Style::NearZero(first) => {
            let codes: Vec<u64> = (0..16).map(|at| 1 << (first + 4 * at)).collect();
            any_kinds(rng, &codes)
        }
        Style::Any => {
            let chips = rng.below(17);
            any_card(rng, chips)
        }
    }
}

/// A good card of exactly so many chips.
pub fn card_of(rng: &mut Rng, chips: usize) -> Vec<u8> {
    any_card(rng, chips)
}

/// The number of ways to damage a card.
pub const DAMAGES: usize = 15;

/// A kind that is not known.
fn wrong_kind(rng: &mut Rng) -> [u8; 2] {
    let odd = rng.bits() as u16 | 4;
    let next = LAST_KIND as u16 + 1;
    rng.pick(&[0, next, 0x0101, 0x0102, 0x0201, 0x0100, 0x8002, 0xFFFF, odd])
        .to_le_bytes()
}

/// A length that is not 10.
fn wrong_length(rng: &mut Rng) -> [u8; 2] {
    let odd = rng.bits() as u16 | 0x0100;
    rng.pick(&[0, 1, 8, 9, 11, 12, 0x010A, 0x0A00, 0x0A0A, 0xFFFF, odd])
        .to_le_bytes()
}

/// A card damaged in one of the ways, which now and then leaves it good.
pub fn damaged_card(rng: &mut Rng, damage: usize) -> Vec<u8> {
    let chips = rng.between(1, 16);
    let mut card = any_card(rng, chips);
    let at = 12 * rng.below(chips);
    match damage {
        0 => card.truncate(rng.below(card.len())),
        1 => card.truncate(at + rng.between(1, 11)),
        2 => card[at..at + 2].copy_from_slice(&wrong_length(rng)),
        3 => card[at + 2..at + 4].copy_from_slice(&wrong_kind(rng)),
        4 => card[at + 2..at + 4].copy_from_slice(&[rng.pick(&[1, 2]), rng.pick(&[1, 2, 0x80])]),
        5 => {
            card[at..at + 2].copy_from_slice(&wrong_length(rng));
            card[at + 2..at + 4].copy_from_slice(&wrong_kind(rng));
        }
        6 => card = any_card(rng, 17),
        7 => {
            card = any_card(rng, 17);
            card[194..196].copy_from_slice(&wrong_kind(rng));
        }
        8 => {
            card = any_card(rng, 17);
            card[192..194].copy_from_slice(&wrong_length(rng));
        }
        9 => {
            card = any_card(rng, 17);
            card.truncate(192 + rng.between(1, 11));
        }
        10 => {
            let many = rng.between(18, 60);
            card = any_card(rng, many);
        }
        11 => card = (0..rng.below(300)).map(|_| rng.byte()).collect(),
        12 => card.truncate(at + rng.between(1, 3)),
        13 => {
            card.remove(rng.below(card.len()));
        }
        _ => card.insert(rng.below(card.len() + 1), rng.byte()),
    }
    card
}
