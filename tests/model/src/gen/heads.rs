//! Records that cannot be right, of which only the head is there, or all of a long body.

use super::recordings::{bytes_of, first_event, short};
use super::rng::Rng;
use crate::model::book::Rule;
use crate::model::line::MOST;
use crate::model::recording::{LEVELS, LONG, MOST_SLOTS, POWER_ON, RESET, RUN};

/// Most bytes of a long body.
const LONGEST: usize = 60_000;

/// A recording that stops behind the head of a record that cannot be right.
pub struct Headed {
    pub rule: Rule,
    /// The records before it.
    pub good: Vec<u8>,
    /// Its length and kind, and the count of a run.
    pub head: Vec<u8>,
}

/// Length, kind and, of a run, the count.
fn head(length: usize, kind: u16, count: Option<usize>) -> Vec<u8> {
    let numbers = [
        Some(length as u16),
        Some(kind),
        count.map(|count| count as u16),
    ];
    numbers
        .into_iter()
        .flatten()
        .flat_map(u16::to_le_bytes)
        .collect()
}

/// Every head that must be refused at once, each time after other records.
pub fn headed(rng: &mut Rng) -> Vec<Headed> {
    let any = rng.between(9, 0xFFFF);
    let kinds = [
        (99, 10),
        (0, 0xFFFF),
        (3, 12),
        (20, any),
        (257, 10),
        (256 + 17, 0xFFFF),
    ];
    let slots = rng.between(9, MOST_SLOTS);
    let asked = 4 + slots.div_ceil(8);
    let runs = [
        (0xFFFF, slots),
        (asked + 1, slots),
        (asked - 1, slots),
        (5, 0),
        (5, MOST_SLOTS),
        (8_197, MOST_SLOTS),
    ];
    let events = [
        (RESET, 0xFFFF, Rule::PlayHeadReset),
        (RESET, 3, Rule::PlayHeadReset),
        (POWER_ON, 0xFFFF, Rule::PlayHeadPower),
        (POWER_ON, 4, Rule::PlayHeadPower),
        (LEVELS, 0xFFFF, Rule::PlayHeadLevels),
        (LEVELS, 5, Rule::PlayHeadLevels),
    ];
    let cards = [(1, 0xFFFF), (2, 0xFFFF), (1, 11), (2, any.max(11))];
    let mut all = Vec::new();
    let mut add = |rule: Rule, chips: usize, events: bool, head: Vec<u8>| {
        let mut records = short(rng, chips);
        if !events {
            records.truncate(first_event(&records));
        }
        let good = bytes_of(&records);
        all.push(Headed { rule, good, head });
    };
    for (number, (kind, length)) in kinds.into_iter().enumerate() {
        let after = number % 3 < 2;
        add(
            Rule::PlayHeadKind,
            1 + number,
            after,
            head(length, kind, None),
        );
    }
    for (number, (length, count)) in runs.into_iter().enumerate() {
        let head = head(length, RUN, Some(count));
        add(Rule::PlayHeadRun, 1 + number, number > 0, head);
    }
    for (number, (kind, length, rule)) in events.into_iter().enumerate() {
        add(rule, 1 + number, true, head(length, kind, None));
    }
    for (kind, length) in cards {
        let head = head(length, kind, None);
        add(Rule::PlayHeadCard, 3, false, head.clone());
        add(Rule::PlayHeadCardLate, 3, true, head.clone());
        add(Rule::PlayHeadCard17, MOST, length == 11, head);
    }
    all
}

/// Records of a wrong length or of a kind not named, with all the bytes of a long body.
pub fn long_bodies(rng: &mut Rng) -> Vec<Vec<u8>> {
    let mut all = Vec::new();
    for kind in [1, 2, RUN, RUN, RESET, POWER_ON, LEVELS, 99, 256 + 17] {
        let body = rng.between(LONG + 1, LONGEST);
        let body = if kind == RESET { LONGEST } else { body };
        let eight = rng.bits().to_le_bytes();
        let mut bytes = head(2 + body, kind, None);
        bytes.extend(eight.iter().cycle().take(body));
        all.push(bytes);
    }
    all
}
