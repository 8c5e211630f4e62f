//! Stories told to a line that a card has set up: the slots between two other events go as runs.

use super::calls::Call;
use super::runs::{length, run_of};
use super::{Script, Tester};
use crate::gen::bench::Bench;
use crate::gen::cards::good_card;
use crate::gen::rng::Rng;
use crate::gen::stories::STORIES;
use crate::model::book::Book;
use crate::model::lent::{memories_asked, Lent};
use crate::model::line::MOST;
use crate::model::memory::{IMAGE, PAD};
use crate::model::record::RECORD;
use crate::report::split_events;

/// How many stories there are.
pub const COUNT: usize = STORIES.len();

/// An event of a story: its number, chip and levels. What is no event to the wire program is none here either.
fn event_of(text: &[u8]) -> (u32, u32, u32) {
    let digit = |place: usize| match text.get(place) {
        Some(character) => char::from(*character).to_digit(16).unwrap_or(99),
        None => 0,
    };
    match text[0] {
        b'0'..=b'4' => (digit(0), digit(1), digit(2)),
        other => (other.into(), 0, 0),
    }
}

impl Tester {
    /// A story, every other time cut and disturbed.
    pub(super) fn story(&mut self, rng: &mut Rng, number: usize) -> Script {
        let story = &STORIES[number % COUNT];
        let card = good_card(rng, story.style);
        let mut book = Book::new(None);
        let mut bench = Bench::new(&card, rng.clone(), &mut book);
        bench.wild = number / COUNT % 2 == 1;
        (story.tell)(&mut bench);
        let text = bench.take_script().text;
        let mut script = self.from_card(card);
        let mut bits = Vec::new();
        for event in split_events(&text) {
            match event_of(&event) {
                (bit @ (0 | 1), ..) => bits.push(bit as u8),
                event => {
                    self.in_runs(&mut script, rng, &std::mem::take(&mut bits));
                    script.event(event, &mut self.book);
                }
            }
        }
        self.in_runs(&mut script, rng, &bits);
        script
    }

    /// A line set up from a card, its memories erased, after power on.
    fn from_card(&mut self, card: Vec<u8>) -> Script {
        let mut script = Script::default();
        let table = vec![0; MOST * RECORD];
        let chips = script.add(Call::Card { card, table }, &mut self.book);
        let table = script.lent.table[..chips as usize * RECORD].to_vec();
        let memories = memories_asked(&table);
        let lent = Lent {
            table,
            images: vec![0xFF; memories * IMAGE],
            pads: vec![0; memories * PAD],
        };
        script.lend(lent, &mut self.book);
        script.event((3, 0, 0), &mut self.book);
        script
    }

    /// Adds bits in runs of any length.
    fn in_runs(&mut self, script: &mut Script, rng: &mut Rng, bits: &[u8]) {
        let mut rest = bits;
        while !rest.is_empty() {
            let (part, later) = rest.split_at(length(rng).min(rest.len()));
            rest = later;
            let run = run_of(rng, part);
            self.ran(script, run);
        }
    }
}
