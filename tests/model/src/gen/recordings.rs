//! Recordings: good ones, and the same with their runs cut in two.

use super::bench::Bench;
use super::cards::{card_of, good_card, Style};
use super::rng::Rng;
use super::stories::{walk, STORIES};
use crate::model::book::{Book, Rule};
use crate::model::chip::{part_of, DS2413};
use crate::model::recording::{LEVELS, MOST_SLOTS, POWER_ON, RESET, RUN};
use crate::report::split_events;

/// A record of a recording.
#[derive(Clone, PartialEq, Eq, Debug)]
pub enum Record {
    /// A card record: kind and code.
    Card(u16, u64),
    /// The host's bits.
    Run(Vec<u8>),
    Reset,
    PowerOn,
    /// The chip's number and its levels.
    Levels(u8, u8),
    /// Bytes of any other sort.
    Odd(Vec<u8>),
}

/// The bytes of a record of this kind.
pub fn record(kind: u16, body: &[u8]) -> Vec<u8> {
    let length = 2 + body.len() as u16;
    [&length.to_le_bytes(), &kind.to_le_bytes(), body].concat()
}

impl Record {
    pub fn bytes(&self) -> Vec<u8> {
        match self {
            Record::Card(kind, code) => record(*kind, &code.to_le_bytes()),
            Record::Run(bits) => {
                let mut body = (bits.len() as u16).to_le_bytes().to_vec();
                body.extend(packed(bits));
                record(RUN, &body)
            }
            Record::Reset => record(RESET, &[]),
            Record::PowerOn => record(POWER_ON, &[]),
            Record::Levels(chip, levels) => record(LEVELS, &[*chip, *levels]),
            Record::Odd(bytes) => bytes.clone(),
        }
    }

    /// The events of the record, as the wire program is told them; none if it cannot be told.
    pub fn events(&self) -> Option<Vec<u8>> {
        match self {
            Record::Card(..) => Some(Vec::new()),
            Record::Run(bits) => Some(bits.iter().map(|bit| b'0' + bit).collect()),
            Record::Reset => Some(b"2".to_vec()),
            Record::PowerOn => Some(b"3".to_vec()),
            Record::Levels(chip @ 0..=15, levels @ 0..=15) => {
                Some(format!("4{chip:X}{levels:X}").into_bytes())
            }
            Record::Levels(..) | Record::Odd(_) => None,
        }
    }
}

/// Bits in bytes, least significant first, unused bits 0.
fn packed(bits: &[u8]) -> Vec<u8> {
    let pack = |eight: &[u8]| (0..).zip(eight).fold(0, |byte, (at, bit)| byte | bit << at);
    bits.chunks(8).map(pack).collect()
}

/// The bytes of records.
pub fn bytes_of(records: &[Record]) -> Vec<u8> {
    records.iter().flat_map(Record::bytes).collect()
}

/// The records of a good card.
fn cards(card: &[u8]) -> Vec<Record> {
    let record = |bytes: &[u8]| {
        let code = bytes[4..].try_into().expect("eight code bytes");
        Record::Card(
            u16::from_le_bytes([bytes[2], bytes[3]]),
            u64::from_le_bytes(code),
        )
    };
    card.chunks_exact(12).map(record).collect()
}

/// How many slots of what is left make a run.
fn length(rng: &mut Rng, left: usize) -> usize {
    let [few, many] = [rng.below(40), rng.below(400)];
    rng.pick(&[0, 1, 7, 8, 9, 16, 64, 72, few, many, left, left])
        .min(left)
        .min(MOST_SLOTS)
}

/// The records of what the wire program is told; what it refuses is left out.
fn told(rng: &mut Rng, card: &[Record], text: &[u8]) -> Vec<Record> {
    let digit = |character: u8| char::from(character).to_digit(16);
    let holds = |chip: u32| match card.get(chip as usize) {
        Some(Record::Card(kind, _)) => part_of((*kind).into()) == Some(DS2413),
        _ => false,
    };
    let mut records = Vec::new();
    let mut bits = Vec::new();
    for event in split_events(text) {
        let record = match event[..] {
            [bit @ (b'0' | b'1')] => {
                bits.push(bit - b'0');
                continue;
            }
            [b'2'] => Record::Reset,
            [b'3'] => Record::PowerOn,
            [b'4', chip, levels] => match (digit(chip), digit(levels)) {
                (Some(chip), Some(levels @ 0..=3)) if holds(chip) => {
                    Record::Levels(chip as u8, levels as u8)
                }
                _ => continue,
            },
            _ => continue,
        };
        in_runs(rng, &mut records, &std::mem::take(&mut bits));
        records.push(record);
    }
    in_runs(rng, &mut records, &bits);
    records
}

/// Adds slots in runs of any length.
fn in_runs(rng: &mut Rng, records: &mut Vec<Record>, bits: &[u8]) {
    let mut rest = bits;
    while !rest.is_empty() {
        let (part, later) = rest.split_at(length(rng, rest.len()));
        records.push(Record::Run(part.to_vec()));
        rest = later;
    }
}

/// The bits of bytes.
fn bits(bytes: &[u8]) -> Vec<u8> {
    let eight = |byte: &u8| (0..8).map(|at| byte >> at & 1).collect::<Vec<u8>>();
    bytes.iter().flat_map(eight).collect()
}

/// A recording that tells stories on a line of a style.
fn stories(rng: &mut Rng, style: Style, tell: &[fn(&mut Bench<'_>)]) -> Vec<Record> {
    let card = good_card(rng, style);
    let mut book = Book::new(None);
    let mut bench = Bench::new(&card, Rng::new(rng.bits()), &mut book);
    for (number, tell) in tell.iter().enumerate() {
        bench.wild = number % 3 == 2;
        tell(&mut bench);
    }
    let text = bench.take_script().text;
    let mut records = cards(&card);
    records.extend(told(rng, &records, &text));
    records
}

/// The styles of the recordings that tell stories.
const STYLES: [Style; 8] = [
    Style::Empty,
    Style::OneMemory,
    Style::OnePio,
    Style::Mixed,
    Style::Twins,
    Style::Any,
    Style::Full,
    Style::Deep,
];

/// The good recordings.
#[derive(Clone, Copy, PartialEq, Eq, Debug)]
pub enum Good {
    /// Every story of a style.
    Stories(Style),
    /// Some 100 KB on 16 chips.
    Long,
    /// Runs of up to 65,535 slots.
    Largest,
    /// Runs in a row that have 65,535 slots together, or more: one of the rows, small enough to be at hand as a whole.
    Row(usize),
    /// A line that is read before any power on.
    Fresh,
    /// Cards and no event.
    Cards,
}

/// Every good recording.
pub fn all_good() -> Vec<Good> {
    let others = [Good::Long, Good::Largest, Good::Fresh, Good::Cards];
    STYLES
        .map(Good::Stories)
        .into_iter()
        .chain(others)
        .chain((0..ROWS).map(Good::Row))
        .collect()
}

/// A good recording.
pub fn good(rng: &mut Rng, sort: Good) -> Vec<Record> {
    match sort {
        Good::Stories(style) => {
            let own = STORIES.iter().filter(|story| story.style == style);
            let mut tell: Vec<fn(&mut Bench<'_>)> = own.map(|story| story.tell).collect();
            tell.push(walk);
            stories(rng, style, &tell)
        }
        Good::Long => long(rng),
        Good::Largest => largest(rng),
        Good::Row(number) => row(rng, number),
        Good::Fresh => fresh(rng),
        Good::Cards => cards(&good_card(rng, Style::Mixed)),
    }
}

/// Some 100 KB on 16 chips.
fn long(rng: &mut Rng) -> Vec<Record> {
    let mut records = stories(rng, Style::Full, &[walk]);
    let card = records[..16].to_vec();
    let mut size = bytes_of(&records).len();
    let mut book = Book::new(None);
    let mut bench = Bench::new(&bytes_of(&card), Rng::new(rng.bits()), &mut book);
    while size < 100_000 {
        walk(&mut bench);
        let text = bench.take_script().text;
        let more = told(rng, &card, &text);
        size += bytes_of(&more).len();
        records.extend(more);
    }
    records
}

/// Runs of up to 65,535 slots.
fn largest(rng: &mut Rng) -> Vec<Record> {
    let told = STORIES.iter();
    let told = told.filter(|story| matches!(story.name, "copy" | "pio write"));
    let told: Vec<fn(&mut Bench<'_>)> = told.map(|story| story.tell).collect();
    let mut records = stories(rng, Style::Mixed, &told);
    let card = records[..4].to_vec();
    let slots = [MOST_SLOTS, 65_528, 8_193, 8_192];
    for (slots, card) in slots.into_iter().zip(&card) {
        records.push(Record::Reset);
        records.push(Record::Run(read_on(card, slots)));
    }
    records
}

/// So many slots that match a chip and read on from it.
fn read_on(card: &Record, slots: usize) -> Vec<u8> {
    let Record::Card(kind, code) = card else {
        panic!("no chip of the card");
    };
    let command: &[u8] = if *kind == 1 { &[0xF0, 0, 0] } else { &[0xF5] };
    let mut run = bits(&[&[0x55], &code.to_le_bytes()[..], command].concat());
    run.resize(slots, 1);
    run
}

/// The number of rows of runs.
const ROWS: usize = 4;

/// Runs in a row that have 65,535 slots together, or more.
fn row(rng: &mut Rng, number: usize) -> Vec<Record> {
    let mut records = cards(&card_of(rng, 2));
    let any = rng.between(1, 60_000);
    let rows: [&[usize]; ROWS] = [
        &[any, MOST_SLOTS - any, 1],
        &[MOST_SLOTS, 0, 1],
        &[any, 0, 65_530 - any, 0, 6],
        &[40_000, 30_000],
    ];
    let lengths = rows[number];
    let all = read_on(&records[number % 2], lengths.iter().sum());
    records.push(Record::Reset);
    let mut rest = &all[..];
    for slots in lengths {
        let (part, later) = rest.split_at(*slots);
        records.push(Record::Run(part.to_vec()));
        rest = later;
    }
    records.push(Record::Reset);
    records
}

/// A line that is spoken to as it is set up: slots before a reset, the scratchpad, the memory.
fn fresh(rng: &mut Rng) -> Vec<Record> {
    let mut records = cards(&good_card(rng, Style::OneMemory));
    records.push(Record::Run(bits(&[0xCC, 0xAA, 0xFF])));
    for command in [&[0xAA, 0xFF, 0xFF, 0xFF][..], &[0xF0, 0, 0]] {
        records.push(Record::Reset);
        let mut run = bits(&[&[0xCC], command].concat());
        run.resize(run.len() + 8 * 33, 1);
        in_runs(rng, &mut records, &run);
        let mut read = vec![1; rng.between(1, 3)];
        read.push(0);
        records.push(Record::Run(read));
    }
    records
}

/// A short recording with all kinds of events, on so many chips, of both kinds from two on.
pub fn short(rng: &mut Rng, chips: usize) -> Vec<Record> {
    let mut records = cards(&card_of(rng, chips));
    let kinds = [1, 2];
    for (record, kind) in records.iter_mut().zip(kinds) {
        if let Record::Card(known, _) = record {
            *known = kind;
        }
    }
    let card = records.clone();
    let mut book = Book::new(None);
    let mut bench = Bench::new(&bytes_of(&card), Rng::new(rng.bits()), &mut book);
    for _ in 0..rng.between(1, 3) {
        match bench.any() {
            Some(chip) => {
                bench.match_rom(chip);
                bench.speak(chip);
            }
            None => {
                bench.reset();
                bench.write(&[0xCC, 0xF5]);
            }
        }
        match bench.rng.below(3) {
            0 => bench.power_on(),
            1 if chips > 1 => bench.levels(1, 2),
            _ => bench.put_all(b"2011"),
        }
    }
    let text = bench.take_script().text;
    records.extend(told(rng, &card, &text));
    records
}

/// Where the events begin.
pub fn first_event(records: &[Record]) -> usize {
    let cards = records.iter();
    cards
        .take_while(|record| matches!(record, Record::Card(..)))
        .count()
}

/// The recording with runs before a place cut in two: one before its first slot, one after its last, then
/// others at any bit.
pub fn cut(rng: &mut Rng, records: &[Record], end: usize, book: &mut Book) -> Vec<Record> {
    let mut parts = Vec::new();
    let mut times = 0;
    for (at, record) in records.iter().enumerate() {
        let Record::Run(bits) = record else {
            parts.push(record.clone());
            continue;
        };
        if at >= end || times > 1 && rng.chance(40) {
            parts.push(record.clone());
            continue;
        }
        let slots = bits.len();
        let any = rng.below(slots + 1);
        let place = match times {
            0 => 0,
            1 => slots,
            _ => rng.pick(&[0, slots, any, any, any, any / 8 * 8]),
        };
        times += 1;
        book.saw_if(place == 0, Rule::PlayCutNone);
        book.saw_if(place == slots, Rule::PlayCutAll);
        book.saw_if(place % 8 != 0, Rule::PlayCutInside);
        let between = place % 8 == 0 && place > 0 && place < slots;
        book.saw_if(between, Rule::PlayCutBetween);
        let (first, second) = bits.split_at(place);
        parts.push(Record::Run(first.to_vec()));
        parts.push(Record::Run(second.to_vec()));
    }
    parts
}
