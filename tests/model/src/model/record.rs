//! A chip's record as the bytes that C code lends, by the table in include/toemsakun.h.

use std::collections::VecDeque;

use super::chip::{part_of, Chip, Step, DS2413, DS28EC20};
use super::crc::crc16;
use super::memory::LAST;

/// Bytes of a record.
pub const RECORD: usize = 32;

/// The fields of a record.
pub const KIND: usize = 8;
pub const RC: usize = 9;
pub const T: usize = 10;
pub const ES: usize = 12;
pub const LATCHES: usize = 13;
pub const LEVELS: usize = 14;
pub const STEP: usize = 15;
pub const W: usize = 16;
pub const A: usize = 18;
pub const B: usize = 19;
pub const C: usize = 20;
pub const UNUSED: usize = 21;

/// Every number that is a step.
pub const STEPS: [u8; 22] = [
    0, 1, 2, 3, 4, 5, 16, 17, 18, 19, 20, 21, 22, 23, 24, 25, 26, 32, 33, 34, 35, 36,
];

/// What a step uses: the most that w, a, b and c may be, 0 for one that it does not use.
#[derive(Clone, Copy)]
pub struct Shape {
    /// The part that it belongs to; none where any chip may be at it.
    pub part: Option<u32>,
    pub w: u16,
    pub a: u8,
    pub b: u8,
    pub c: u8,
}

/// The shape of a step; none for a number that is no step.
pub fn shape(step: u8) -> Option<Shape> {
    let (w, a, b, c) = match step {
        0 | 16 | 32 => (0, 0, 0, 0),
        1 | 5 => (0, 7, 0xFF, 0),
        2 | 3 => (0, 63, 0, 0),
        4 => (0, 63, 2, 0),
        17 | 19 | 22 | 25 | 34 => (0xFFFF, 15, 0, 0),
        18 => (0xFFFF, 31, 7, 0xFF),
        20 => (0, 23, 0, 0),
        21 => (0xFFFF, 31, 7, 0),
        23 => (0xFFFF, 7, 0xFF, 0),
        24 => (0, 1, 0, 0),
        26 => (LAST as u16, 7, 0, 0),
        33 | 36 => (0, 7, 0xFF, 0),
        35 => (0, 7, 0, 0),
        _ => return None,
    };
    let part = match step {
        0..=5 => None,
        16..=26 => Some(DS28EC20),
        _ => Some(DS2413),
    };
    Some(Shape { part, w, a, b, c })
}

/// Two bytes of a record as a number.
pub fn word(record: &[u8], at: usize) -> u16 {
    u16::from_le_bytes([record[at], record[at + 1]])
}

/// Whether bytes are a record: a step that there is, RC and the bit after a copy 0 or 1, and 0
/// in every byte that the step does not use. Ranges do not matter here.
pub fn is_record(record: &[u8]) -> bool {
    let Some(shape) = shape(record[STEP]) else {
        return false;
    };
    let uses = [shape.a, shape.b, shape.c].map(|most| most > 0);
    record[RC] <= 1
        && (record[STEP] != 24 || record[A] <= 1)
        && record[UNUSED..].iter().all(|byte| *byte == 0)
        && (shape.w > 0 || word(record, W) == 0)
        && uses
            .iter()
            .zip(&record[A..=C])
            .all(|(used, byte)| *used || *byte == 0)
}

/// Whether bytes are a record in range.
pub fn is_in_range(record: &[u8]) -> bool {
    let Some(shape) = shape(record[STEP]) else {
        return false;
    };
    let part = part_of(record[KIND].into());
    is_record(record)
        && part.is_some()
        && (shape.part.is_none() || shape.part == part)
        && record[ES] & 0x40 == 0
        && record[LATCHES] <= 3
        && record[LEVELS] <= 3
        && word(record, W) <= shape.w
        && record[A] <= shape.a
        && record[B] <= shape.b
        && record[C] <= shape.c
}

/// So many low bits of a number, least significant first.
fn bits(number: u64, count: usize) -> VecDeque<u8> {
    (0..count)
        .map(|place| (number >> place & 1) as u8)
        .collect()
}

/// Two bytes whose CRC-16 is this: each of the 16 shifts undone.
fn summed_to(crc: u16) -> Vec<u8> {
    let back = |crc: u16, _| match crc & 0x8000 {
        0 => crc << 1,
        _ => (crc ^ 0xA001) << 1 | 1,
    };
    (0..16).fold(crc, back).to_le_bytes().to_vec()
}

/// The step that a record names.
fn step_of(record: &[u8]) -> Step {
    let [a, b] = [A, B].map(|at| usize::from(record[at]));
    match record[STEP] {
        0 => Step::Wait,
        1 => Step::RomCommand,
        2 => Step::SendCode,
        3 => Step::MatchCode,
        4 => [Step::SearchBit, Step::SearchComplement, Step::SearchTake][b](a),
        5 => Step::FunctionCommand,
        16 | 32 => Step::Ones,
        17 => Step::WriteAddress,
        18 => Step::WriteData(a),
        19 => Step::SendCrc,
        20 => Step::SendRegisters,
        21 => Step::SendPad(a),
        22 | 23 => Step::CopyBytes,
        24 => Step::CopyDone,
        25 => Step::ReadAddress,
        26 => Step::ReadData(usize::from(word(record, W))),
        33 => Step::PioRead,
        34 => Step::PioPair,
        35 => Step::PioConfirm,
        36 => Step::PioStatus,
        step => unreachable!("step {step} is no step"),
    }
}

/// The register that a step fills, its width, and how many of its bits are taken.
pub fn filling(record: &[u8]) -> Option<(u16, usize, usize)> {
    let [a, b] = [A, B].map(|at| usize::from(record[at]));
    match record[STEP] {
        1 | 5 | 23 => Some((record[B].into(), 8, a)),
        17 | 22 | 25 | 34 => Some((word(record, W), 16, a)),
        18 => Some((record[C].into(), 8, b)),
        _ => None,
    }
}

/// The bits that a chip still has to send in its step, or that it has taken whole before.
fn bits_of_step(chip: &Chip, record: &[u8], memory: &[u8], pad: &[u8]) -> VecDeque<u8> {
    let [a, b] = [A, B].map(|at| usize::from(record[at]));
    let w = word(record, W);
    // The bits of a number from a place on.
    let left = |number: u64, width: usize, place: usize| bits(number >> place, width - place);
    match record[STEP] {
        2 => left(chip.code, 64, a),
        3 => bits(chip.code, a),
        19 => left(u64::from(!w), 16, a),
        20 => left(u64::from(chip.t) | u64::from(chip.es) << 16, 24, a),
        21 => left(pad[a].into(), 8, b),
        23 => bits(w.into(), 16),
        24 => VecDeque::from([record[A]]),
        26 => left(memory[usize::from(w)].into(), 8, a),
        33 | 36 => left(record[B].into(), 8, a),
        35 => left(0xAA, 8, a),
        _ => VecDeque::new(),
    }
}

/// The chip of a record in range, with its memory and scratchpad (empty for a DS2413).
pub fn unpack(record: &[u8], memory: &[u8], pad: &[u8]) -> Chip {
    let code = u64::from_le_bytes(record[..8].try_into().expect("eight code bytes"));
    let mut chip = Chip::at_set_up(record[KIND].into(), code);
    chip.rc = record[RC] == 1;
    chip.t = word(record, T);
    chip.es = record[ES];
    chip.latches = record[LATCHES];
    chip.levels = record[LEVELS];
    chip.step = step_of(record);
    chip.bits = bits_of_step(&chip, record, memory, pad);
    if let Some((register, width, taken)) = filling(record) {
        chip.below = bits(register.into(), width - taken);
        chip.bits
            .extend(bits(u64::from(register) >> (width - taken), taken));
    }
    let [low, high] = chip.t.to_le_bytes();
    match record[STEP] {
        17 => chip.summed = vec![0x0F],
        18 | 19 | 21 => chip.summed = summed_to(word(record, W)),
        20 => chip.summed = vec![0xAA, low, high, chip.es],
        33 | 36 => chip.sampled = record[B],
        _ => {}
    }
    chip
}

/// A register of so many bits after the bits below and those taken came in from the top.
fn register(chip: &Chip, width: usize, before: usize) -> u16 {
    let came = chip.below.iter().chain(chip.bits.iter().skip(before));
    came.fold(0, |register, bit| {
        register >> 1 | u16::from(*bit) << (width - 1)
    })
}

/// The record of a chip.
pub fn pack(chip: &Chip) -> [u8; RECORD] {
    let count = chip.bits.len() as u8;
    let byte = |before: usize| register(chip, 8, before) as u8;
    let wide = register(chip, 16, 0);
    let crc = crc16(&chip.summed);
    let (step, w, a, b, c) = match chip.step {
        Step::Wait => (0, 0, 0, 0, 0),
        Step::RomCommand => (1, 0, count, byte(0), 0),
        Step::SendCode => (2, 0, 64 - count, 0, 0),
        Step::MatchCode => (3, 0, count, 0, 0),
        Step::SearchBit(place) => (4, 0, place as u8, 0, 0),
        Step::SearchComplement(place) => (4, 0, place as u8, 1, 0),
        Step::SearchTake(place) => (4, 0, place as u8, 2, 0),
        Step::FunctionCommand => (5, 0, count, byte(0), 0),
        Step::Ones if chip.is(DS28EC20) => (16, 0, 0, 0, 0),
        Step::Ones => (32, 0, 0, 0, 0),
        Step::WriteAddress => (17, wide, count, 0, 0),
        Step::WriteData(offset) => (18, crc, offset as u8, count, byte(0)),
        Step::SendCrc => (19, crc, 16 - count, 0, 0),
        Step::SendRegisters => (20, 0, 24 - count, 0, 0),
        Step::SendPad(offset) => (21, crc, offset as u8, 8 - count, 0),
        Step::CopyBytes if count < 16 => (22, wide, count, 0, 0),
        Step::CopyBytes => {
            let first = chip.bits.iter().take(16).rev();
            let w = first.fold(0, |w, bit| w << 1 | u16::from(*bit));
            (23, w, count - 16, byte(16), 0)
        }
        Step::CopyDone => (24, 0, chip.bits[0], 0, 0),
        Step::ReadAddress => (25, wide, count, 0, 0),
        Step::ReadData(address) => (26, address as u16, 8 - count, 0, 0),
        Step::PioRead => (33, 0, 8 - count, chip.sampled, 0),
        Step::PioPair => (34, wide, count, 0, 0),
        Step::PioConfirm => (35, 0, 8 - count, 0, 0),
        Step::PioStatus => (36, 0, 8 - count, chip.sampled, 0),
    };
    let mut record = [0; RECORD];
    record[..8].copy_from_slice(&chip.code.to_le_bytes());
    record[KIND] = chip.kind as u8;
    record[RC] = u8::from(chip.rc);
    record[T..=T + 1].copy_from_slice(&chip.t.to_le_bytes());
    record[ES] = chip.es;
    record[LATCHES] = chip.latches;
    record[LEVELS] = chip.levels;
    record[STEP] = step;
    record[W..=W + 1].copy_from_slice(&w.to_le_bytes());
    [record[A], record[B], record[C]] = [a, b, c];
    record
}
