//! The scripts that the library is tried on: one for each part of a run.

use super::calls::Call;
use super::classes::SIZES;
use super::damages::Damage;
use super::lines::{any_event, any_line, line_of, with_step};
use super::{Script, Tester};
use crate::gen::cards::{card_of, damaged_card, good_card, Style, DAMAGES};
use crate::gen::rng::Rng;
use crate::model::chip::{part_of, DS2413, DS28EC20, PF};
use crate::model::lent::Lent;
use crate::model::memory::{IMAGE, PAD};
use crate::model::record::{A, ES, KIND, RECORD};

/// Events put on one lent line.
const EVENTS_PER_LINE: usize = 40;

impl Tester {
    /// tk_table_size of small, edge and large numbers.
    pub(super) fn sizes(&mut self) -> Script {
        let mut script = Script::default();
        let large = [
            255,
            256,
            1 << 32,
            (1 << 32) + 1,
            1 << 60,
            u64::MAX / RECORD as u64 + 1,
            u64::MAX,
        ];
        for chips in (0..20).chain(large) {
            script.add(Call::TableSize(chips), &mut self.book);
        }
        script
    }

    /// Adds an event and counts what it meets.
    fn event(&mut self, script: &mut Script, (event, chip, levels): (u32, u32, u32)) -> i32 {
        let before = script.lent.clone();
        let answer = script.event((event, chip, levels), &mut self.book);
        let kind = |chip: u32| before.table.get(chip as usize * RECORD + KIND).copied();
        let classes = &mut self.classes;
        match (answer, event) {
            (-7, _) => {
                let of_switch = kind(chip) == Some(DS2413 as u8);
                let low_of_switch = kind(chip & 0xFF) == Some(DS2413 as u8);
                classes.saw_if(kind(chip).is_none(), "levels: absent chip");
                let wraps = chip > 0xFF && low_of_switch && levels < 4;
                classes.saw_if(wraps, "levels: absent chip, its low byte a DS2413");
                classes.saw_if(kind(chip) == Some(1), "levels: chip of kind 1");
                classes.saw_if(of_switch && levels > 3, "levels: over 3");
                let wraps = of_switch && levels > 0xFF && levels & 0xFF < 4;
                classes.saw_if(wraps, "levels: over 255, their low byte levels");
            }
            (-6, _) => {
                classes.saw("event: over 4");
                let wraps = event > 0xFF && event & 0xFF < 5;
                classes.saw_if(wraps, "event: over 255, its low byte an event");
            }
            (0.., 4) => classes.saw("levels: taken"),
            (0.., _) => classes.note_event(&before, event, answer, &script.lent),
            _ => {}
        }
        answer
    }

    /// Adds a search with so many places, which hold any numbers before.
    fn searched(&mut self, script: &mut Script, rng: &mut Rng, places: usize) -> i32 {
        let list = (0..places).map(|_| rng.bits()).collect();
        script.search(list, &mut self.book)
    }

    /// A table with one fault: refused by 8, whatever the event and the sizes.
    pub(super) fn damaged(&mut self, rng: &mut Rng, damage: &Damage) -> Script {
        let mut script = Script::default();
        let mut lent = damage.line(rng);
        let wrong = rng.chance(25);
        if wrong {
            lent.pads.push(0);
        }
        let event = any_event(rng, &lent);
        script.lend(lent, &mut self.book);
        let refused = self.event(&mut script, event) == -8;
        let places = rng.below(20);
        let searched = self.searched(&mut script, rng, places) == -8;
        let ran = self.refused_run(&mut script, rng) == -8;
        self.classes
            .saw_if(refused && searched && ran, &damage.name);
        self.classes.saw_if(refused && wrong, "order: 8 before 5");
        self.classes.saw_if(searched, "search: refused by 8");
        script
    }

    /// A line whose buffers have another size than its table asks.
    pub(super) fn wrong_size(&mut self, rng: &mut Rng, number: usize) -> Script {
        let mut script = Script::default();
        let mut lent = any_line(rng);
        while lent.pads.is_empty() {
            lent = any_line(rng);
        }
        match number % SIZES.len() {
            0 => drop(lent.images.pop()),
            1 => lent.images.push(0xFF),
            2 => drop(lent.pads.pop()),
            3 => lent.pads.push(0xFF),
            4 => {
                lent.images.extend([0xFF; IMAGE]);
                lent.pads.extend([0xFF; PAD]);
            }
            _ => {
                lent.images.truncate(lent.images.len() - IMAGE);
                lent.pads.truncate(lent.pads.len() - PAD);
            }
        }
        let events = [any_event(rng, &lent), (5, 0, 0), (4, 99, 9)];
        script.lend(lent, &mut self.book);
        let refused = events.map(|event| self.event(&mut script, event) == -5);
        let searched = self.searched(&mut script, rng, 3) == -5;
        let ran = self.refused_run(&mut script, rng) == -5;
        let name = SIZES[number % SIZES.len()];
        self.classes.saw_if(refused[0] && searched && ran, name);
        self.classes
            .saw_if(refused[1] && refused[2], "order: 5 before 6 or 7");
        self.classes.saw_if(searched, "search: refused by 5");
        script
    }

    /// A reset while a memory has so many address bits of Write Scratchpad, every other time with PF 0.
    pub(super) fn short_address(&mut self, rng: &mut Rng, number: usize) -> Script {
        let mut script = Script::default();
        let mut lent = Lent::default();
        let at = with_step(rng, &mut lent, DS28EC20, 17);
        lent.table[at + A] = (number % 16) as u8;
        if number / 16 % 2 == 0 {
            lent.table[at + ES] &= !PF;
        }
        script.lend(lent, &mut self.book);
        self.event(&mut script, (2, 0, 0));
        script
    }

    /// A card into a table of any bytes and any size; then, often, the line that it made.
    pub(super) fn card(&mut self, rng: &mut Rng, number: usize) -> Script {
        let mut script = Script::default();
        let damage = rng.below(DAMAGES);
        let card = match rng.below(4) {
            0 => damaged_card(rng, damage),
            1 => card_of(rng, number % 18),
            _ => good_card(rng, Style::Any),
        };
        let places = rng.pick(&[0, 1, 2, 3, 5, 15, 16, 16, 16, 17, 20]);
        let part = rng.pick(&[0, 0, 0, 1, 23]);
        let table: Vec<u8> = (0..places * RECORD + part).map(|_| rng.byte()).collect();
        let records = card.len() / 12;
        let call = Call::Card { card, table };
        let answer = script.add(call, &mut self.book);
        let classes = &mut self.classes;
        classes.saw_if(places == 0, "card: no places");
        classes.saw_if(
            answer >= 0 && records < places,
            "card: fewer records than places",
        );
        classes.saw_if(answer >= 0 && places > 16, "card: over 16 places");
        classes.saw_if(answer > 0 && part > 0, "card: a table of parts of records");
        let short = answer == -1 && places < 16;
        classes.saw_if(short, "card: refused by 1 with fewer than 16 places");
        let many = answer == -1 && places > 16;
        classes.saw_if(many, "card: refused by 1 at a 17th record");
        if answer >= 0 {
            self.set_up(&mut script, rng, answer as usize);
        }
        script
    }

    /// Goes on with the chips that a card has set up: any memory, power on, a few events.
    fn set_up(&mut self, script: &mut Script, rng: &mut Rng, chips: usize) {
        let table = script.lent.table[..chips * RECORD].to_vec();
        let memories = table
            .chunks_exact(RECORD)
            .filter(|record| part_of(record[KIND].into()) == Some(DS28EC20));
        let memories = memories.count();
        let lent = Lent {
            table,
            images: (0..memories * IMAGE).map(|_| rng.byte()).collect(),
            pads: (0..memories * PAD).map(|_| rng.byte()).collect(),
        };
        script.lend(lent, &mut self.book);
        for event in [3, 2, 0] {
            self.event(script, (event, 0, 0));
        }
    }

    /// A search of any line in any state, and a few events after it.
    pub(super) fn search(&mut self, rng: &mut Rng, _: usize) -> Script {
        let mut script = Script::default();
        let lent = any_line(rng);
        let codes: Vec<&[u8]> = lent
            .table
            .chunks_exact(RECORD)
            .map(|record| &record[..8])
            .collect();
        let mut distinct = codes.clone();
        distinct.sort_unstable();
        distinct.dedup();
        let distinct = distinct.len();
        let any = rng.below(20);
        let places = rng.pick(&[
            0,
            1,
            distinct,
            distinct,
            distinct.saturating_sub(1),
            16,
            17,
            any,
        ]);
        self.classes.note_line(&lent);
        script.lend(lent, &mut self.book);
        let answer = self.searched(&mut script, rng, places);
        self.classes.note_places("search", answer, places, distinct);
        for _ in 0..12 {
            let event = any_event(rng, &script.lent);
            self.event(&mut script, event);
        }
        script
    }

    /// Events on any line in any state.
    pub(super) fn line(&mut self, rng: &mut Rng, number: usize) -> Script {
        let mut script = Script::default();
        let lent = match number % 50 {
            0 => line_of(rng, &[1; 16]),
            _ => any_line(rng),
        };
        self.classes.note_line(&lent);
        script.lend(lent, &mut self.book);
        for _ in 0..EVENTS_PER_LINE {
            let event = any_event(rng, &script.lent);
            self.event(&mut script, event);
        }
        script
    }
}
