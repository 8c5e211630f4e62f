//! Lent lines that no history need reach: any step in any chip, any register, any memory.

use super::classes::kinds_of;
use crate::gen::rng::Rng;
use crate::model::chip::{part_of, Chip, DS2413, DS28EC20};
use crate::model::lent::Lent;
use crate::model::line::MOST;
use crate::model::memory::{BLOCK_LOCK, CONTROLS, IMAGE, LAST, PAD, PAGE_LOCK};
use crate::model::record::{
    filling, pack, shape, word, A, B, C, ES, KIND, LATCHES, LEVELS, RC, RECORD, STEP, STEPS, T, W,
};

/// Commands that a ROM level or a function level knows, and a few that it does not.
const ROM_COMMANDS: [u8; 8] = [0x33, 0x55, 0xF0, 0xCC, 0xA5, 0x3C, 0x69, 0x0F];
const FUNCTIONS: [u8; 8] = [0x0F, 0xAA, 0x55, 0xF0, 0xF5, 0x5A, 0xA5, 0x33];

/// How many chips a line has.
fn count(rng: &mut Rng) -> usize {
    rng.pick(&[0, 1, 1, 1, 2, 2, 2, 3, 3, 4, 5, 8, 16])
}

/// Codes: any, ones that differ late, and equal ones.
fn code(rng: &mut Rng, before: &[u64]) -> u64 {
    let any = rng.bits();
    match (rng.below(6), before.last()) {
        (0, Some(last)) => *last,
        (1, Some(last)) => last ^ 1 << rng.below(64),
        (2, Some(last)) => last ^ 1 << rng.between(56, 63),
        (3, _) => any & 0xFF,
        _ => any,
    }
}

/// An address, often one with a meaning.
fn address(rng: &mut Rng) -> u16 {
    let any = rng.bits() as u16;
    let known = match rng.below(8) {
        0 => return any,
        1 => CONTROLS + rng.below(PAD),
        2 => rng.pick(&[BLOCK_LOCK, PAGE_LOCK, CONTROLS]),
        3 => rng.between(CONTROLS + PAD, LAST),
        4 => rng.between(LAST - 1, LAST + 40),
        5 => rng.below(0x0A00) / PAD * PAD,
        _ => rng.below(0x0A00),
    };
    known as u16
}

/// A number up to a most, often near it.
fn near(rng: &mut Rng, most: u8) -> u8 {
    let most = usize::from(most);
    let number = match rng.below(3) {
        0 => most,
        1 => most - rng.below(most.min(2) + 1),
        _ => rng.below(most + 1),
    };
    number as u8
}

/// A byte, often a mark or FFh.
fn byte(rng: &mut Rng) -> u8 {
    let any = rng.byte();
    rng.pick(&[0xFF, 0xFF, 0x55, 0xAA, any, any, any])
}

/// A memory whose register page often holds marks.
fn image(rng: &mut Rng) -> Vec<u8> {
    let words = (0..IMAGE / 8).flat_map(|_| rng.bits().to_le_bytes());
    let mut image: Vec<u8> = words.collect();
    for register in &mut image[CONTROLS..=PAGE_LOCK] {
        *register = byte(rng);
    }
    image
}

/// What a chip may well take whole in its step, as bits from the lowest on.
fn likely(rng: &mut Rng, record: &[u8]) -> u64 {
    let any = rng.bits();
    let t = u64::from(word(record, T));
    match record[STEP] {
        1 => rng.pick(&ROM_COMMANDS).into(),
        3 | 4 => u64::from_le_bytes(record[..8].try_into().expect("eight code bytes")),
        5 => rng.pick(&FUNCTIONS).into(),
        17 | 25 => address(rng).into(),
        22 => t,
        23 => record[ES].into(),
        34 => any & 0xFF | (!any & 0xFF) << 8,
        _ => any,
    }
}

/// A record in range at this step.
fn record_at(rng: &mut Rng, kind: u32, step: u8, code: u64) -> [u8; RECORD] {
    let shape = shape(step).expect("a step");
    let mut record = [0; RECORD];
    record[..8].copy_from_slice(&code.to_le_bytes());
    record[KIND] = kind as u8;
    record[RC] = rng.below(2) as u8;
    let t = address(rng);
    record[T..=T + 1].copy_from_slice(&t.to_le_bytes());
    let start = usize::from(t) % PAD;
    let ends = [rng.below(PAD), rng.between(start, 31), 31];
    let flags = rng.pick(&[0x00, 0x00, 0x00, 0x80, 0x80, 0x20, 0xA0]);
    record[ES] = rng.pick(&ends) as u8 | flags;
    record[LATCHES] = rng.below(4) as u8;
    record[LEVELS] = rng.below(4) as u8;
    record[STEP] = step;
    record[A] = near(rng, shape.a);
    record[B] = near(rng, shape.b);
    record[C] = near(rng, shape.c);
    let w = match step {
        23 if rng.chance(80) => t,
        26 => (rng.bits() as u16).min(address(rng)).min(shape.w),
        _ => rng.bits() as u16 & shape.w,
    };
    record[W..=W + 1].copy_from_slice(&w.to_le_bytes());
    fill(rng, &mut record);
    record
}

/// Often makes the bits taken those of something likely; what lies below them stays.
fn fill(rng: &mut Rng, record: &mut [u8; RECORD]) {
    let Some((register, width, taken)) = filling(record) else {
        return;
    };
    if rng.chance(30) {
        return;
    }
    let below = (1u64 << (width - taken)) - 1;
    let filled = u64::from(register) & below | likely(rng, record) << (width - taken);
    let [low, high, ..] = filled.to_le_bytes();
    match record[STEP] {
        1 | 5 | 23 => record[B] = low,
        18 => record[C] = low,
        _ => [record[W], record[W + 1]] = [low, high],
    }
}

/// The steps that a chip of this kind can be in.
fn steps_of(kind: u32) -> Vec<u8> {
    let own = |step: &u8| kinds_of(*step).contains(&kind);
    STEPS.into_iter().filter(own).collect()
}

/// Adds what a chip of this kind asks for: any memory and scratchpad for a DS28EC20.
fn lend_memory(rng: &mut Rng, lent: &mut Lent, kind: u32) {
    if part_of(kind) == Some(DS28EC20) {
        lent.images.extend(image(rng));
        lent.pads.extend((0..PAD).map(|_| byte(rng)));
    }
}

/// A line of chips of these kinds, each at any step.
pub fn line_of(rng: &mut Rng, kinds: &[u32]) -> Lent {
    let mut lent = Lent::default();
    let mut codes = Vec::new();
    for kind in kinds {
        // A copy is the step that does most.
        let copies = part_of(*kind) == Some(DS28EC20) && rng.chance(15);
        let step = if copies {
            23
        } else {
            rng.pick(&steps_of(*kind))
        };
        codes.push(code(rng, &codes));
        lent.table
            .extend(record_at(rng, *kind, step, codes[codes.len() - 1]));
        lend_memory(rng, &mut lent, *kind);
    }
    lent
}

/// A few chips of one kind, one of them at this step; the place of its record.
pub fn with_step(rng: &mut Rng, lent: &mut Lent, kind: u32, step: u8) -> usize {
    let count = rng.between(1, 4);
    *lent = line_of(rng, &vec![kind; count]);
    let at = rng.below(count) * RECORD;
    let code = rng.bits();
    lent.table[at..at + RECORD].copy_from_slice(&record_at(rng, kind, step, code));
    at
}

/// Any line in range.
pub fn any_line(rng: &mut Rng) -> Lent {
    let count = count(rng);
    let kinds = match rng.below(4) {
        0 => vec![DS28EC20; count],
        _ => (0..count)
            .map(|_| rng.pick(&[DS28EC20, DS28EC20, DS2413]))
            .collect(),
    };
    line_of(rng, &kinds)
}

/// So many different codes.
pub fn different_codes(rng: &mut Rng, count: usize) -> Vec<u64> {
    let mut codes = Vec::new();
    while codes.len() < count {
        let next = code(rng, &codes);
        if !codes.contains(&next) {
            codes.push(next);
        }
    }
    codes
}

/// Chips for a set of codes, as kind and code: each code once or, often, some of them more than once, at
/// most 16 chips, in any order, of one kind or of both.
fn chips_for(rng: &mut Rng, set: &[u64]) -> Vec<(u32, u64)> {
    let mut codes = set.to_vec();
    if !set.is_empty() && rng.chance(60) {
        for _ in 0..rng.below(MOST - set.len() + 1) {
            codes.push(rng.pick(set));
        }
    }
    for at in 1..codes.len() {
        codes.swap(at, rng.below(at + 1));
    }
    let kinds = rng.pick(&[
        &[DS28EC20][..],
        &[DS2413],
        &[DS28EC20, DS2413],
        &[DS28EC20, DS2413],
    ]);
    let chips = codes.into_iter();
    chips.map(|code| (rng.pick(kinds), code)).collect()
}

/// A line with this set of codes, its chips in any state in range.
pub fn any_line_of(rng: &mut Rng, set: &[u64]) -> Lent {
    let chips = chips_for(rng, set);
    let kinds: Vec<u32> = chips.iter().map(|(kind, _)| *kind).collect();
    let mut lent = line_of(rng, &kinds);
    for (record, (_, code)) in lent.table.chunks_exact_mut(RECORD).zip(&chips) {
        record[..8].copy_from_slice(&code.to_le_bytes());
    }
    lent
}

/// A line with this set of codes, its chips as set-up writes them, with any memory.
pub fn fresh_line_of(rng: &mut Rng, set: &[u64]) -> Lent {
    let mut lent = Lent::default();
    for (kind, code) in chips_for(rng, set) {
        lent.table.extend(pack(&Chip::at_set_up(kind, code)));
        lend_memory(rng, &mut lent, kind);
    }
    lent
}

/// A host's bit that lets some chip of the line go on with something likely.
pub fn leading_bit(rng: &mut Rng, lent: &Lent) -> u32 {
    let records: Vec<&[u8]> = lent.table.chunks_exact(RECORD).collect();
    if records.is_empty() {
        return rng.below(2) as u32;
    }
    let record = rng.pick(&records);
    let place = match record[STEP] {
        3 | 4 => record[A],
        _ => filling(record).map_or(0, |(_, _, taken)| taken as u8),
    };
    let matches = |number: &u64| match filling(record) {
        Some((register, width, taken)) => {
            let first = u64::from(register) >> (width - taken);
            number & ((1 << taken) - 1) == first
        }
        None => true,
    };
    // A few tries for something whose first bits are those taken already.
    let found = (0..8).map(|_| likely(rng, record)).find(matches);
    found.map_or(1, |number| (number >> place & 1) as u32)
}

/// An event with its chip and levels: mostly slots, some of them leading on.
pub fn any_event(rng: &mut Rng, lent: &Lent) -> (u32, u32, u32) {
    let chips = (lent.table.len() / RECORD) as u32;
    let [chip, levels] = [rng.below(18) as u32, rng.below(4) as u32];
    match rng.below(100) {
        0..=49 => (leading_bit(rng, lent), chip, levels),
        50..=79 => (rng.below(2) as u32, chip, 9),
        80..=84 => (2, chip, levels),
        85..=86 => (3, chip, levels),
        87..=92 => (4, rng.below(chips as usize + 1) as u32, levels),
        93 => (4, chip + 256 * rng.between(1, 3) as u32, levels),
        94 => (4, chip, 4 + rng.below(4) as u32),
        95 => (4, chip, 256 + levels),
        96 => (4, rng.bits() as u32, rng.bits() as u32),
        97 => (5 + rng.below(4) as u32, chip, levels),
        98 => (
            256 * rng.between(1, 9) as u32 + rng.below(5) as u32,
            chip,
            levels,
        ),
        _ => (rng.bits() as u32, chip, levels),
    }
}
