//! Recordings with a record at fault, with two, and with bytes changed anywhere.

use super::heads::long_bodies;
use super::recordings::{bytes_of, first_event, record, short, Record};
use super::rng::Rng;
use crate::model::line::MOST;
use crate::model::recording::{LEVELS, POWER_ON, RESET, RUN};

/// Where a record at fault stands.
#[derive(Clone, Copy)]
enum At {
    /// Before all others.
    First,
    /// Among the cards.
    Cards,
    /// Straight after the cards.
    Before,
    /// Among the events.
    Among,
    /// After all others.
    Last,
}

const ANY: &[At] = &[At::First, At::Cards, At::Before, At::Among, At::Last];
const EARLY: &[At] = &[At::First, At::Cards, At::Before];
const EVENTS: &[At] = &[At::Before, At::Among, At::Last];
const LATE: &[At] = &[At::Among, At::Last];

/// Records to put into a recording, the last of them at fault.
struct Fault {
    name: &'static str,
    at: &'static [At],
    records: Vec<Record>,
    /// Whether the recording ends there.
    ends: bool,
    /// Whether the recording has all 16 cards.
    full: bool,
}

impl Fault {
    fn new(name: &'static str, at: &'static [At], records: Vec<Record>) -> Fault {
        Fault {
            name,
            at,
            records,
            ends: false,
            full: false,
        }
    }

    /// Bytes at fault.
    fn odd(name: &'static str, at: &'static [At], bytes: Vec<u8>) -> Fault {
        Fault::new(name, at, vec![Record::Odd(bytes)])
    }

    /// Bytes at fault, and the end of the recording.
    fn end(name: &'static str, at: &'static [At], bytes: Vec<u8>) -> Fault {
        Fault {
            ends: true,
            ..Fault::odd(name, at, bytes)
        }
    }
}

/// A recording and where its faults are.
pub struct Faulty {
    pub name: &'static str,
    pub records: Vec<Record>,
    /// The first record that is put in.
    pub first: usize,
    /// The offset of a second fault, if there is one.
    pub second: Option<usize>,
}

/// Bits of any value.
fn any_bits(rng: &mut Rng, count: usize) -> Vec<u8> {
    (0..count).map(|_| rng.below(2) as u8).collect()
}

/// A good record of a kind.
fn good(rng: &mut Rng, kind: u16) -> Vec<u8> {
    let record = match kind {
        RUN => {
            let slots = rng.between(9, 40);
            Record::Run(any_bits(rng, slots))
        }
        RESET => Record::Reset,
        POWER_ON => Record::PowerOn,
        LEVELS => Record::Levels(1, 1),
        _ => Record::Card(kind, rng.bits()),
    };
    record.bytes()
}

/// The first bytes of a good record of a kind.
fn cut(rng: &mut Rng, kind: u16, bytes: usize) -> Vec<u8> {
    good(rng, kind)[..bytes].to_vec()
}

/// The record with another length, and as many bytes as that says where it says few.
fn with_length(rng: &mut Rng, mut bytes: Vec<u8>, length: usize) -> Vec<u8> {
    bytes[..2].copy_from_slice(&(length as u16).to_le_bytes());
    if length < 600 {
        bytes.resize((2 + length).max(4), rng.byte());
    }
    bytes
}

/// A run whose last byte has these bits too.
fn with_unused(rng: &mut Rng, slots: usize, unused: u8) -> Vec<u8> {
    let mut bytes = Record::Run(any_bits(rng, slots)).bytes();
    if let Some(last) = bytes.last_mut() {
        *last |= unused;
    }
    bytes
}

/// Every fault, each time with other bytes.
fn faults(rng: &mut Rng) -> Vec<Fault> {
    let mut all = forms(rng);
    all.extend(cards(rng));
    all.extend(events(rng));
    for bytes in long_bodies(rng) {
        all.push(Fault::odd("a long body", ANY, bytes));
    }
    all
}

/// Refusals 2 and 3.
fn forms(rng: &mut Rng) -> Vec<Fault> {
    let mut all = Vec::new();
    for bytes in 1..=3 {
        let kind = rng.pick(&[1, 2, RUN, RESET, POWER_ON, LEVELS]);
        all.push(Fault::end("a tail", ANY, cut(rng, kind, bytes)));
    }
    let any = rng.bits() as u16 | 256;
    for kind in [0, 3, 15, 20, 255, 257, 256 + 17, 0x1000, 0xFFFF, any] {
        let size = rng.pick(&[0, 2, 8]);
        let body: Vec<u8> = (0..size).map(|_| rng.byte()).collect();
        all.push(Fault::odd("a kind", ANY, record(kind, &body)));
    }
    for (kind, length, ends) in [
        (0, 0, false),
        (3, 1, false),
        (3, 10, true),
        (20, 0, true),
        (20, 0xFFFF, true),
        (257, 10, true),
    ] {
        let bytes = [u16::to_le_bytes(length), u16::to_le_bytes(kind)].concat();
        all.push(Fault {
            ends,
            ..Fault::odd("a kind and a length", ANY, bytes)
        });
    }
    for kind in [1, 2, RUN, RESET, POWER_ON, LEVELS] {
        let bytes = good(rng, kind);
        let right = bytes.len() - 2;
        let at = if kind < RUN { EARLY } else { ANY };
        for length in [right - 1, right + 1] {
            let bytes = with_length(rng, bytes.clone(), length);
            all.push(Fault::odd("a length", at, bytes));
        }
    }
    for wild in 0..5 {
        let kind = rng.pick(&[1, 2, RUN, RESET, POWER_ON, LEVELS]);
        let bytes = good(rng, kind);
        let right = bytes.len() - 2;
        let length = [0, 1, right + 256, right << 8, 0xFFFF][wild];
        let bytes = with_length(rng, bytes, length);
        all.push(Fault::odd("a wild length", ANY, bytes));
    }
    for change in [-8, 8] {
        let mut bytes = good(rng, RUN);
        bytes[4] = bytes[4].wrapping_add_signed(change);
        all.push(Fault::odd("a count", EVENTS, bytes));
    }
    for body in [&[][..], &[0]] {
        all.push(Fault::odd("no count", ANY, record(RUN, body)));
    }
    for (kind, bytes) in [(1, 4), (2, 11)] {
        all.push(Fault::end("a cut card", EARLY, cut(rng, kind, bytes)));
    }
    for bytes in 4..=5 {
        all.push(Fault::end("cut levels", ANY, cut(rng, LEVELS, bytes)));
    }
    for bytes in 4..=7 {
        all.push(Fault::end("a cut run", ANY, cut(rng, RUN, bytes)));
    }
    all
}

/// Refusals 1 and 9, and what comes before them.
fn cards(rng: &mut Rng) -> Vec<Fault> {
    let mut all = Vec::new();
    for event in [
        Record::Reset,
        Record::PowerOn,
        Record::Levels(1, 2),
        Record::Run(any_bits(rng, 5)),
        Record::Run(Vec::new()),
    ] {
        let card = Record::Card(rng.pick(&[1, 2]), rng.bits());
        all.push(Fault::new(
            "a card after an event",
            &[At::Before],
            vec![event, card],
        ));
    }
    let [bytes, length] = [rng.between(4, 11), rng.pick(&[9, 11])];
    all.push(Fault::odd("a late card", LATE, good(rng, 2)));
    all.push(Fault::odd("a last card", &[At::Last], good(rng, 1)));
    all.push(Fault::end("a late card, cut", LATE, cut(rng, 1, bytes)));
    let wrong = good(rng, 1);
    let wrong = with_length(rng, wrong, length);
    all.push(Fault::odd("a late card's length", LATE, wrong.clone()));
    for at in [&[At::Before][..], LATE] {
        let kind = rng.pick(&[3, 20, 257]);
        for fault in [
            Fault::odd("a 17th card", at, good(rng, 2)),
            Fault::end("a 17th card, cut", at, cut(rng, 2, bytes)),
            Fault::odd("a 17th card's length", at, wrong.clone()),
            Fault::odd("a 17th card's kind", at, record(kind, &[0; 8])),
        ] {
            all.push(Fault {
                full: true,
                ..fault
            });
        }
    }
    all
}

/// Refusals 10 and 7, and what comes before them.
fn events(rng: &mut Rng) -> Vec<Fault> {
    let mut all = Vec::new();
    for bit in 1..=7 {
        let slots = 8 * rng.below(5) + rng.between(1, bit);
        let bytes = with_unused(rng, slots, 1 << bit);
        all.push(Fault::odd("an unused bit", EVENTS, bytes));
    }
    let slots = 8 * rng.below(3) + 3;
    let unused = rng.byte() << 3 | 0x18;
    let mut bytes = with_unused(rng, slots, unused);
    all.push(Fault::odd("unused bits", ANY, bytes.clone()));
    bytes[0] += 1;
    bytes.push(0);
    all.push(Fault::odd("unused bits and a length", EVENTS, bytes));
    let absent = rng.between(16, 255) as u8;
    for (chip, levels) in [
        (0, 1),
        (0, 4),
        (1, 4),
        (1, 255),
        (1, 0x12),
        (15, 2),
        (16, 2),
        (17, 2),
        (absent, 255),
    ] {
        let records = vec![Record::Levels(chip, levels)];
        all.push(Fault::new("levels", EVENTS, records));
    }
    let levels = Record::Levels(0, 3);
    let first = vec![levels.clone()];
    all.push(Fault::new("levels first", &[At::First], first));
    let second = vec![Record::Run(Vec::new()), levels];
    all.push(Fault::new("levels after no slots", &[At::Before], second));
    let long = record(LEVELS, &[99, 0, 0]);
    all.push(Fault::odd("levels and a length", EVENTS, long));
    all
}

/// How many faults there are.
pub fn count() -> usize {
    faults(&mut Rng::new(0)).len()
}

/// A short recording with a fault, one of [`count`].
pub fn faulty(rng: &mut Rng, number: usize) -> Faulty {
    let fault = faults(rng).swap_remove(number);
    let chips = if fault.full { MOST } else { rng.between(2, 15) };
    let mut records = short(rng, chips);
    let at = rng.pick(fault.at);
    let first = place(rng, &records, at);
    let last = if fault.ends { records.len() } else { first };
    records.splice(first..last, fault.records);
    Faulty {
        name: fault.name,
        records,
        first,
        second: None,
    }
}

/// A short recording with any fault of that name.
pub fn faulty_named(rng: &mut Rng, name: &str) -> Faulty {
    let all = faults(&mut rng.clone());
    let named: Vec<usize> = (0..all.len()).filter(|at| all[*at].name == name).collect();
    let number = rng.pick(&named);
    faulty(rng, number)
}

/// Where in a recording that is.
fn place(rng: &mut Rng, records: &[Record], at: At) -> usize {
    let cards = first_event(records);
    match at {
        At::First => 0,
        At::Cards => rng.between(1, cards - 1),
        At::Before => cards,
        At::Among => rng.between(cards + 1, records.len() - 1),
        At::Last => records.len(),
    }
}

/// A recording with any fault, and another one behind it.
pub fn two_faults(rng: &mut Rng) -> Faulty {
    let count = count();
    loop {
        let number = rng.below(count);
        let mut faulty = faulty(rng, number);
        let later = faults(rng).swap_remove(rng.below(count));
        // A first fault that ends the recording leaves no place for a second one.
        let room = faulty.records.len() - faulty.first;
        if room < 3 {
            continue;
        }
        let second = faulty.first + rng.between(2, room);
        faulty.second = Some(bytes_of(&faulty.records[..second]).len());
        let last = if later.ends {
            faulty.records.len()
        } else {
            second
        };
        faulty.records.splice(second..last, later.records);
        faulty.name = "two faults";
        return faulty;
    }
}

/// The ways to change a recording's bytes.
pub const MANGLES: usize = 6;

/// A short recording with its bytes changed in one of the ways, which now and then leaves it good.
pub fn mangled(rng: &mut Rng, way: usize) -> (&'static str, Vec<u8>) {
    let chips = rng.below(MOST + 1);
    let mut bytes = bytes_of(&short(rng, chips));
    let at = rng.below(bytes.len());
    let name = match way {
        0 | 1 => {
            bytes.truncate(at);
            "cut at any byte"
        }
        2 => {
            bytes.remove(at);
            "a byte left out"
        }
        3 => {
            bytes.insert(at, rng.byte());
            "a byte put in"
        }
        4 => {
            bytes[at] ^= 1 << rng.below(8);
            "a bit turned"
        }
        _ => {
            bytes = (0..rng.below(200)).map(|_| rng.byte()).collect();
            "any bytes"
        }
    };
    (name, bytes)
}
