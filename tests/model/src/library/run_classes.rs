//! The classes of runs that a test run must reach.

use super::classes::{kinds_of, Classes};
use crate::model::chip::{part_of, DS28EC20};
use crate::model::lent::{Lent, Run, MOST_SLOTS};
use crate::model::line::MOST;
use crate::model::memory::IMAGE;
use crate::model::record::{KIND, LATCHES, RECORD, STEP, STEPS};

/// Lengths that a run must have had, and their classes.
pub const LENGTHS: [(usize, &str); 6] = [
    (0, "run: no slots"),
    (1, "run: 1 slot"),
    (7, "run: 7 slots"),
    (8, "run: 8 slots"),
    (9, "run: 9 slots"),
    (MOST_SLOTS as usize, "run: 65,535 slots"),
];
/// The wrong sizes of a run, each refused by 5.
pub const SIZES: [&str; 10] = [
    "run: bits one byte short",
    "run: bits one byte long",
    "run: answers one byte short",
    "run: answers one byte long",
    "run: bits and answers one byte short",
    "run: bits and answers one byte long",
    "run: 65,536 slots",
    "run: too many slots, their low 16 bits a run",
    "run: too many slots, their low 32 bits a run",
    "run: slots that wrap when they are rounded up",
];
/// The other classes of runs.
const OTHERS: [&str; 15] = [
    "run: over 256 slots",
    "run: host bits past its end",
    "run: on no chips",
    "run: on 16 chips",
    "run: all chips wait",
    "run: waiting chips before and behind one that does not wait",
    "run: a chip begins to wait",
    "run: the last chip begins to wait",
    "run: a 0 in a read slot",
    "run: a latch changes",
    "run: a scratchpad changes",
    "run: an image changes",
    "run: an image behind that of a waiting chip changes",
    "run: an image behind that of a chip that begins to wait changes",
    "run: 8 before 5",
];
/// The class of a run that finds, or leaves, a chip of this kind at this step.
fn at_step(step: u8, kind: u8, when: &str) -> String {
    format!("step {step:>2}, kind {kind}: {when} of a run")
}

/// Every class of runs.
pub fn classes() -> Vec<String> {
    let lengths = LENGTHS.iter().map(|(_, name)| *name);
    let names = lengths.chain(SIZES).chain(OTHERS);
    let mut all: Vec<String> = names.map(String::from).collect();
    for step in STEPS {
        for kind in kinds_of(step) {
            all.extend(["the start", "the end"].map(|when| at_step(step, kind as u8, when)));
        }
    }
    all
}

/// Whether a chip waits for a reset.
fn waits(record: &[u8]) -> bool {
    record[STEP] == 0
}

impl Classes {
    /// Counts the length and the bits of a run that is not refused.
    pub fn note_run(&mut self, run: &Run, answers: &[u8]) {
        let slots = run.slots as usize;
        for (length, name) in LENGTHS {
            self.saw_if(slots == length, name);
        }
        self.saw_if(slots > 256, "run: over 256 slots");
        let Some(last) = run.bits.last() else {
            return;
        };
        let past = last >> ((slots - 1) % 8) >> 1;
        self.saw_if(past != 0, "run: host bits past its end");
        let mut bytes = run.bits.iter().zip(answers);
        let low = past == 0 && bytes.any(|(host, bus)| host & !bus != 0);
        self.saw_if(low, "run: a 0 in a read slot");
    }

    /// Counts what a run that is not refused does to the chips.
    pub fn note_chips(&mut self, before: &Lent, run: &Run, after: &Lent) {
        let [records, then] =
            [before, after].map(|lent| -> Vec<&[u8]> { lent.table.chunks_exact(RECORD).collect() });
        self.saw_if(records.is_empty(), "run: on no chips");
        self.saw_if(records.len() == MOST, "run: on 16 chips");
        if run.slots == 0 {
            return;
        }
        for (when, records) in [("the start", &records), ("the end", &then)] {
            for record in records {
                self.saw(&at_step(record[STEP], record[KIND], when));
            }
        }
        self.note_waiting(&records, &then);
        let mut pairs = records.iter().zip(&then);
        let latch = pairs.any(|(record, then)| record[LATCHES] != then[LATCHES]);
        self.saw_if(latch, "run: a latch changes");
        self.saw_if(before.pads != after.pads, "run: a scratchpad changes");
        self.note_images(before, after);
    }

    /// Counts which chips wait for a reset, and which begin to.
    fn note_waiting(&mut self, records: &[&[u8]], then: &[&[u8]]) {
        let [Some(first), Some(last)] = [records.first(), records.last()] else {
            return;
        };
        let all = records.iter().all(|record| waits(record));
        self.saw_if(all, "run: all chips wait");
        let ends = waits(first) && waits(last) && !all;
        let name = "run: waiting chips before and behind one that does not wait";
        self.saw_if(ends, name);
        let pairs = records.iter().zip(then);
        let begins: Vec<bool> = pairs
            .map(|(record, then)| !waits(record) && waits(then))
            .collect();
        self.saw_if(begins.contains(&true), "run: a chip begins to wait");
        let last = begins.last() == Some(&true);
        self.saw_if(last, "run: the last chip begins to wait");
    }

    /// Counts an image that a run has changed.
    fn note_images(&mut self, before: &Lent, after: &Lent) {
        let records = before.table.chunks_exact(RECORD);
        let records = records.zip(after.table.chunks_exact(RECORD));
        let memory = |record: &[u8]| part_of(record[KIND].into()) == Some(DS28EC20);
        let memories = records.filter(|(record, _)| memory(record));
        let images = before.images.chunks(IMAGE).zip(after.images.chunks(IMAGE));
        let [mut waiting, mut begins] = [false; 2];
        for ((record, then), (image, changed)) in memories.zip(images) {
            let changes = image != changed;
            self.saw_if(changes, "run: an image changes");
            let name = "run: an image behind that of a waiting chip changes";
            self.saw_if(changes && waiting, name);
            let name = "run: an image behind that of a chip that begins to wait changes";
            self.saw_if(changes && begins, name);
            waiting |= waits(record);
            begins |= !waits(record) && waits(then);
        }
    }
}
