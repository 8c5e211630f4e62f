//! The classes of lent lines and calls that a run must reach.

use std::collections::BTreeMap;

use crate::model::chip::{part_of, AA, DS2413, DS28EC20, LAST_KIND, PF};
use crate::model::lent::Lent;
use crate::model::line::MOST;
use crate::model::memory::{LAST, PAD};
use crate::model::record::{
    filling, shape, word, A, B, ES, KIND, LATCHES, LEVELS, RC, RECORD, STEP, STEPS, T, W,
};

/// Counts how often each class was reached.
#[derive(Default)]
pub struct Classes(BTreeMap<String, u64>);

/// Steps in which a chip takes a bit.
const TAKING: [u8; 10] = [1, 3, 4, 5, 17, 18, 22, 23, 25, 34];
/// Events on a line in range.
const EVENTS: [&str; 4] = ["slot 0", "slot 1", "reset", "power on"];
/// The classes that are neither of a step nor of a damage.
const OTHERS: [&str; 31] = [
    "line: no chips",
    "line: 16 chips",
    "line: 16 memories",
    "line: equal codes",
    "copy: carried out",
    "copy: carried out with E below T mod 32",
    "copy: refused with the right bytes",
    "short address: reset with AA 1",
    "short address: reset with PF 1",
    "data byte: for an address above 0A3Fh",
    "data byte: an offset below T mod 32",
    "read scratchpad: an offset below T mod 32",
    "read memory: the last address",
    "event: over 4",
    "event: over 255, its low byte an event",
    "levels: taken",
    "levels: absent chip",
    "levels: absent chip, its low byte a DS2413",
    "levels: chip of kind 1",
    "levels: over 3",
    "levels: over 255, their low byte levels",
    "order: 8 before 5",
    "order: 5 before 6 or 7",
    "search: refused by 8",
    "search: refused by 5",
    "card: no places",
    "card: fewer records than places",
    "card: over 16 places",
    "card: a table of parts of records",
    "card: refused by 1 with fewer than 16 places",
    "card: refused by 1 at a 17th record",
];
/// How many places a list has, compared with the codes: of any search, and of lists held against one another.
const PLACES: [&str; 6] = [
    "no chips",
    "no places",
    "fewer places than codes",
    "as many places as codes",
    "more places than codes",
    "over 16 places",
];
/// The other classes of lists that are held against one another.
const TROUBLES: [&str; 19] = [
    "after trouble: 16 codes",
    "after trouble: 16 chips, a code twice",
    "after trouble: a list that holds codes of the line",
    "after trouble: the list of an earlier search",
    "after trouble: another order of the table",
    "after trouble: a code twice on one line alone",
    "after trouble: a code on chips of both kinds",
    "after trouble: kinds exchanged",
    "after trouble: RC 1",
    "after trouble: a latch at 0",
    "after trouble: a pin held low from outside",
    "after trouble: inside a command",
    "after trouble: in the middle of a copy",
    "after trouble: a copy carried out",
    "after trouble: PF 1",
    "after trouble: a search broken off",
    "after trouble: an earlier search",
    "after trouble: an earlier search refused by 4",
    "after trouble: a refused event",
];
/// The wrong sizes of images and scratchpads.
pub const SIZES: [&str; 6] = [
    "size: images one byte short",
    "size: images one byte long",
    "size: scratchpads one byte short",
    "size: scratchpads one byte long",
    "size: one more memory's buffers",
    "size: one memory's buffers too few",
];

/// The kinds that a step belongs to.
pub fn kinds_of(step: u8) -> Vec<u32> {
    let part = shape(step).and_then(|shape| shape.part);
    let own = |kind: &u32| part.is_none() || part_of(*kind) == part;
    (1..=LAST_KIND).filter(own).collect()
}

/// The class of a reset at a short address of so many bits, with PF 0.
fn after_bits(bits: u8) -> String {
    format!("short address: reset after {bits} bits")
}

/// The class of a list, held against others, of a line with a chip of this kind at this step.
fn listed_from(step: u8, kind: u8) -> String {
    format!("step {step:>2}, kind {kind}: the list")
}

/// The codes of a line, each with the kinds of its chips, in the order in which they first stand.
fn codes_of(lent: &Lent) -> Vec<(&[u8], Vec<u8>)> {
    let mut codes: Vec<(&[u8], Vec<u8>)> = Vec::new();
    for record in lent.table.chunks_exact(RECORD) {
        match codes.iter_mut().find(|(code, _)| *code == &record[..8]) {
            Some((_, kinds)) => kinds.push(record[KIND]),
            None => codes.push((&record[..8], vec![record[KIND]])),
        }
    }
    codes
}

/// The records of a line whose code no other chip of it has, each with its place: such a chip is listed only
/// where it answers itself.
fn alone(lent: &Lent) -> Vec<(usize, &[u8])> {
    let records: Vec<&[u8]> = lent.table.chunks_exact(RECORD).collect();
    let twins = |record: &[u8]| {
        let same = records.iter().filter(|other| other[..8] == record[..8]);
        same.count()
    };
    let places = records.iter().copied().enumerate();
    places.filter(|(_, record)| twins(record) == 1).collect()
}

/// Every class that a run must reach, but for damages.
pub fn classes() -> Vec<String> {
    let mut all: Vec<String> = OTHERS
        .iter()
        .chain(&SIZES)
        .chain(&TROUBLES)
        .map(|name| (*name).into())
        .collect();
    for searches in ["search", "after trouble"] {
        all.extend(PLACES.map(|name| format!("{searches}: {name}")));
    }
    for step in STEPS {
        for kind in kinds_of(step) {
            all.extend(EVENTS.map(|event| format!("step {step:>2}, kind {kind}: {event}")));
            all.push(listed_from(step, kind as u8));
        }
    }
    all.extend((0..16).map(after_bits));
    for step in TAKING {
        all.push(format!("step {step:>2}: takes a 0 that another chip sends"));
        if !matches!(step, 3 | 4) {
            all.push(format!(
                "step {step:>2}: register not 0 below the bits taken"
            ));
        }
    }
    all
}

impl Classes {
    /// Counts a class.
    pub fn saw(&mut self, name: &str) {
        *self.0.entry(name.into()).or_default() += 1;
    }

    /// Counts a class if the condition holds.
    pub fn saw_if(&mut self, condition: bool, name: &str) {
        if condition {
            self.saw(name);
        }
    }

    /// How often a class was reached.
    pub fn count(&self, name: &str) -> u64 {
        self.0.get(name).copied().unwrap_or(0)
    }

    /// Counts what a lent line is.
    pub fn note_line(&mut self, lent: &Lent) {
        let records: Vec<&[u8]> = lent.table.chunks_exact(RECORD).collect();
        let memory = |record: &&[u8]| part_of(record[KIND].into()) == Some(DS28EC20);
        self.saw_if(records.is_empty(), "line: no chips");
        self.saw_if(records.len() == 16, "line: 16 chips");
        let all = records.len() == 16 && records.iter().all(|record| memory(&record));
        self.saw_if(all, "line: 16 memories");
        let twin = |at: usize| {
            records[..at]
                .iter()
                .any(|other| other[..8] == records[at][..8])
        };
        self.saw_if((0..records.len()).any(twin), "line: equal codes");
    }

    /// Counts what an event on a line in range meets.
    pub fn note_event(&mut self, before: &Lent, event: u32, answer: i32, after: &Lent) {
        let sends_0 = event == 1 && answer == 0;
        let records = before.table.chunks_exact(RECORD);
        for (record, then) in records.zip(after.table.chunks_exact(RECORD)) {
            let (step, kind) = (record[STEP], record[KIND]);
            if let Some(name) = EVENTS.get(event as usize) {
                self.saw(&format!("step {step:>2}, kind {kind}: {name}"));
            }
            let takes = TAKING.contains(&step) && (step != 4 || record[B] == 2);
            if sends_0 && takes {
                self.saw(&format!(
                    "step {step:>2}: takes a 0 that another chip sends"
                ));
            }
            if let Some((register, width, taken)) = filling(record) {
                let below = u32::from(register) & ((1 << (width - taken)) - 1);
                if event < 2 && below != 0 {
                    self.saw(&format!(
                        "step {step:>2}: register not 0 below the bits taken"
                    ));
                }
            }
            match event {
                0 | 1 => self.note_slot(record, then, answer as u8),
                2 if step == 17 && part_of(kind.into()) == Some(DS28EC20) => {
                    self.note_short(record)
                }
                _ => {}
            }
        }
    }

    /// Counts what a reset at a short address meets.
    fn note_short(&mut self, record: &[u8]) {
        if record[ES] & PF != 0 {
            return self.saw("short address: reset with PF 1");
        }
        self.saw(&after_bits(record[A]));
        self.saw_if(record[ES] & AA != 0, "short address: reset with AA 1");
    }

    /// Counts what a slot of this value meets at one chip.
    fn note_slot(&mut self, record: &[u8], then: &[u8], value: u8) {
        let t = usize::from(word(record, T));
        let start = t % PAD;
        match record[STEP] {
            23 if then[STEP] == 24 => {
                self.saw("copy: carried out");
                let below = usize::from(record[ES] & 0x1F) < start;
                self.saw_if(below, "copy: carried out with E below T mod 32");
            }
            23 if then[STEP] == 16 => {
                let third = record[B] >> 1 | value << 7;
                let right = word(record, W) == word(record, T) && third == record[ES];
                self.saw_if(right, "copy: refused with the right bytes");
            }
            18 if record[B] == 7 => {
                let offset = usize::from(record[A]);
                self.saw_if(
                    t - start + offset > LAST,
                    "data byte: for an address above 0A3Fh",
                );
                self.saw_if(offset < start, "data byte: an offset below T mod 32");
            }
            21 => {
                let below = usize::from(record[A]) < start;
                self.saw_if(below, "read scratchpad: an offset below T mod 32");
            }
            26 => self.saw_if(
                usize::from(word(record, W)) == LAST && record[A] == 7,
                "read memory: the last address",
            ),
            _ => {}
        }
    }

    /// Counts in what two lines with one set of codes differ.
    pub fn note_pair(&mut self, one: &Lent, other: &Lent) {
        let full = |lent: &Lent| lent.table.len() / RECORD == MOST && alone(lent).len() < MOST;
        self.saw_if(
            full(one) || full(other),
            "after trouble: 16 chips, a code twice",
        );
        let [one, other] = [one, other].map(codes_of);
        let order = |codes: &[(&[u8], Vec<u8>)]| -> Vec<Vec<u8>> {
            codes.iter().map(|(code, _)| code.to_vec()).collect()
        };
        self.saw_if(
            order(&one) != order(&other),
            "after trouble: another order of the table",
        );
        for (code, kinds) in &one {
            let same = other.iter().find(|(known, _)| known == code);
            let others = &same.expect("one set of codes").1;
            let twice = (kinds.len() > 1) != (others.len() > 1);
            self.saw_if(twice, "after trouble: a code twice on one line alone");
            let both = [kinds, others].iter().any(|kinds| {
                let first = kinds[0];
                kinds.iter().any(|kind| *kind != first)
            });
            self.saw_if(both, "after trouble: a code on chips of both kinds");
            let exchanged = kinds.iter().all(|kind| !others.contains(kind));
            self.saw_if(exchanged, "after trouble: kinds exchanged");
        }
    }

    /// Counts how many places a list has, compared with the codes, by the answer.
    pub fn note_places(&mut self, searches: &str, answer: i32, places: usize, codes: usize) {
        let listed = answer > 0;
        let met = [
            answer == 0 && codes == 0,
            answer == -4 && places == 0,
            answer == -4 && places > 0,
            listed && places == codes,
            listed && places > codes,
            listed && places > MOST,
        ];
        for (name, met) in PLACES.iter().zip(met) {
            self.saw_if(met, &format!("{searches}: {name}"));
        }
    }

    /// Counts an earlier search that has made a pass, if there was one: its answer and its places.
    pub fn note_earlier(&mut self, earlier: Option<(i32, usize)>) {
        let whole = earlier.is_some_and(|(answer, _)| answer > 0);
        self.saw_if(whole, "after trouble: an earlier search");
        let refused = earlier.is_some_and(|(answer, places)| answer == -4 && places > 0);
        self.saw_if(refused, "after trouble: an earlier search refused by 4");
    }

    /// Counts the step of each chip of a line that is listed only where it answers itself.
    pub fn note_steps(&mut self, lent: &Lent) {
        for (_, record) in alone(lent) {
            self.saw(&listed_from(record[STEP], record[KIND]));
        }
    }

    /// Counts in what state events have left a line: of the chips that are no longer as they were lent and are
    /// listed only where they answer themselves.
    pub fn note_trouble(&mut self, lent: &Lent, left: &Lent) {
        for (place, record) in alone(left) {
            if lent.table[place * RECORD..][..RECORD] == *record {
                continue;
            }
            let step = record[STEP];
            let part = part_of(record[KIND].into());
            let [memory, switch] = [DS28EC20, DS2413].map(|known| part == Some(known));
            self.saw_if(record[RC] == 1, "after trouble: RC 1");
            let begun = matches!(step, 1 | 5) && record[A] > 0;
            self.saw_if(begun, "after trouble: inside a command");
            let copying = matches!(step, 22 | 23);
            self.saw_if(copying, "after trouble: in the middle of a copy");
            self.saw_if(step == 24, "after trouble: a copy carried out");
            self.saw_if(step == 4, "after trouble: a search broken off");
            self.saw_if(memory && record[ES] & PF != 0, "after trouble: PF 1");
            let latch = switch && record[LATCHES] < 3;
            self.saw_if(latch, "after trouble: a latch at 0");
            let low = switch && record[LEVELS] < 3;
            self.saw_if(low, "after trouble: a pin held low from outside");
        }
    }
}
