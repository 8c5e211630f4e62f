//! The list after trouble: one set of codes on a line in any state, on that line after many events, and on a
//! fresh line, searched with equally many places.

use super::calls::Call;
use super::classes::Classes;
use super::lines::{any_event, any_line_of, different_codes, fresh_line_of};
use super::lists::{self, Fault};
use super::{seed_for, Script};
use crate::gen::rng::Rng;
use crate::model::book::{Book, Slip};
use crate::model::chip::{part_of, DS28EC20};
use crate::model::lent::Lent;
use crate::model::line::MOST;
use crate::model::record::{KIND, RECORD};

/// The part of a run that these scripts are.
pub const PART: u64 = 8;
/// How many numbers of codes there are: 0 to 16. As many scripts in a row have one choice of places.
pub const COUNTS: usize = MOST + 1;
/// The choices of places: fewer than codes, as many, more, over 16.
const CHOICES: usize = 4;
/// Events before a search.
const EVENTS: usize = 40;

/// A host's hand on the line of a script.
struct Hand<'a> {
    script: Script,
    /// The set of codes on the line.
    codes: &'a [u64],
    rng: &'a mut Rng,
    book: &'a mut Book,
}

impl Hand<'_> {
    /// A slot of a bit, or a reset.
    fn event(&mut self, event: u32) {
        self.script.event((event, 0, 0), self.book);
    }

    /// Writes the lowest bits of a number.
    fn bits(&mut self, number: u64, count: usize) {
        for place in 0..count {
            self.event((number >> place & 1) as u32);
        }
    }

    /// Reset and Match ROM with a code.
    fn session(&mut self, code: u64) {
        self.event(2);
        self.bits(0x55, 8);
        self.bits(code, 64);
    }

    /// Any events; whether one of them was refused.
    fn events(&mut self) -> bool {
        let mut refused = false;
        for _ in 0..EVENTS {
            let event = any_event(self.rng, &self.script.lent);
            refused |= self.script.event(event, self.book) < 0;
        }
        refused
    }

    /// A list to search into: any numbers, and often codes of the line among them.
    fn list(&mut self, places: usize) -> Vec<u64> {
        let known = !self.codes.is_empty() && self.rng.chance(50);
        let mut list = Vec::new();
        for _ in 0..places {
            let any = self.rng.bits();
            list.push(if known && self.rng.chance(50) {
                self.rng.pick(self.codes)
            } else {
                any
            });
        }
        list
    }

    /// A search into this list; the answer, and the list as it is then.
    fn search(&mut self, list: Vec<u64>) -> (i32, Vec<u64>) {
        let answer = self.script.search(list, self.book);
        let told = self.script.answers.last().expect("the search");
        (answer, lists::list_in(told).expect("a whole answer"))
    }

    /// A search that ends inside its first pass, towards one of the codes.
    fn broken_search(&mut self) {
        let code = self.rng.pick(self.codes);
        self.event(2);
        self.bits(0xF0, 8);
        for slot in 0..self.rng.between(1, 190) {
            let chosen = slot % 3 == 2;
            self.bits(if chosen { code >> (slot / 3) } else { 1 }, 1);
        }
    }

    /// A byte into the scratchpad of the first memory, then a copy: whole, or cut inside its three bytes.
    fn copy(&mut self, whole: bool) {
        let mut records = self.script.lent.table.chunks_exact(RECORD);
        let memory = |record: &&[u8]| part_of(record[KIND].into()) == Some(DS28EC20);
        let Some(record) = records.find(memory) else {
            return;
        };
        let code = u64::from_le_bytes(record[..8].try_into().expect("eight code bytes"));
        let t = self.rng.below(0x0A00) as u64;
        let byte = u64::from(self.rng.byte());
        let count = if whole { 24 } else { self.rng.below(24) };
        self.session(code);
        self.bits(0x0F | t << 8 | byte << 24, 32);
        self.session(code);
        self.bits(0x55, 8);
        // T, and E where the one byte has gone.
        self.bits(t | (t % 32) << 16, count);
    }

    /// A function command to one of the codes, cut inside its own bits or after any slots.
    fn cut_command(&mut self) {
        let code = self.rng.pick(self.codes);
        let command = self.rng.pick(&[0x0F, 0xAA, 0x55, 0xF0, 0xF5, 0x5A, 0xA5]);
        let (any, count) = (self.rng.bits(), self.rng.between(1, 48));
        self.session(code);
        self.bits(command | any << 8, count);
    }

    /// What stands between the events and the search; of an earlier search, if there is one, the answer and the
    /// list that it left.
    fn end(&mut self, places: usize) -> Option<(i32, Vec<u64>)> {
        let end = self.rng.below(8);
        match end {
            0 | 1 => {
                let other = self.rng.below(MOST + 2);
                let as_many = self.rng.chance(50);
                let list = self.list(if as_many { places } else { other });
                let earlier = self.search(list);
                if end == 1 && !self.codes.is_empty() {
                    self.broken_search();
                }
                return Some(earlier);
            }
            _ if self.codes.is_empty() => {}
            2 => self.broken_search(),
            3 => self.cut_command(),
            4..=6 => {
                let whole = self.rng.chance(50);
                self.copy(whole);
            }
            _ => {}
        }
        None
    }
}

/// How many places a list has, for a choice.
fn places(rng: &mut Rng, choice: usize, codes: usize) -> usize {
    match choice % CHOICES {
        0 => rng.below(codes.max(1)),
        1 => codes,
        2 => rng.between(codes + 1, MOST + 1),
        _ => rng.between(MOST + 1, MOST + 8),
    }
}

/// The script of this number.
pub(super) fn script(
    rng: &mut Rng,
    number: usize,
    book: &mut Book,
    classes: &mut Classes,
) -> Script {
    let codes = different_codes(rng, number % COUNTS);
    let places = places(rng, number / COUNTS, codes.len());
    let [troubled, fresh] = [any_line_of(rng, &codes), fresh_line_of(rng, &codes)];
    let mut hand = Hand {
        script: Script {
            one_set: true,
            ..Script::default()
        },
        codes: &codes,
        rng,
        book,
    };
    // The line as it is lent.
    hand.script.lend(troubled.clone(), hand.book);
    let list = hand.list(places);
    hand.search(list);
    // The same line after the events, often into the list that an earlier search has filled.
    hand.script.lend(troubled.clone(), hand.book);
    let refused = hand.events();
    let earlier = hand.end(places);
    let left = hand.script.lent.clone();
    let (list, again) = match &earlier {
        Some((_, list)) if list.len() == places && hand.rng.chance(50) => (list.clone(), true),
        _ => (hand.list(places), false),
    };
    let known = list.iter().any(|code| codes.contains(code));
    let (answer, _) = hand.search(list);
    classes.note_places("after trouble", answer, places, codes.len());
    classes.saw_if(answer == MOST as i32, "after trouble: 16 codes");
    // Only where a pass is made does anything of the line show.
    if codes.len().min(places) > 0 {
        classes.note_pair(&troubled, &fresh);
        classes.saw_if(refused, "after trouble: a refused event");
        classes.saw_if(known, "after trouble: a list that holds codes of the line");
        classes.saw_if(again, "after trouble: the list of an earlier search");
        classes.note_earlier(earlier.map(|(answer, list)| (answer, list.len())));
    }
    // And only where all codes are listed does each chip.
    if answer > 0 {
        classes.note_steps(&troubled);
        classes.note_steps(&left);
        classes.note_trouble(&troubled, &left);
    }
    // A fresh line.
    hand.script.lend(fresh, hand.book);
    let list = hand.list(places);
    hand.search(list);
    hand.script
}

/// Slips that let something other than the set of codes show in a list.
const LEAKS: [Slip; 6] = [
    Slip::RcDeaf,
    Slip::PinDeaf,
    Slip::CopyDeaf,
    Slip::SearchResumes,
    Slip::KindsTwice,
    Slip::TableFirst,
];

/// The script of a number as the model makes it with a slip, or with none.
fn by_model(number: usize, slip: Option<Slip>) -> Script {
    let mut rng = seed_for(1, PART, number);
    let mut book = Book::new(slip);
    script(&mut rng, number, &mut book, &mut Classes::default())
}

/// Whether lists held against one another show each slip that library and model share; here the model answers in
/// the library's place. With a slip every answer is the model's, and yet a list has a fault; without one, none has.
pub fn shared_slips_show() -> bool {
    let hidden = LEAKS.iter().find(|slip| !shows(Some(**slip)));
    if let Some(slip) = hidden {
        println!("no list shows the slip {slip:?}");
    }
    hidden.is_none() && !shows(None)
}

/// Whether a script shows a fault in lists where library and model make this slip alike.
fn shows(slip: Option<Slip>) -> bool {
    (0..CHOICES * COUNTS).any(|number| {
        let script = by_model(number, slip);
        let (mut lent, mut book) = (Lent::default(), Book::new(slip));
        let answer = |call: &Call| call.answer(&mut lent, &mut book);
        let library: Vec<u8> = script.calls.iter().flat_map(answer).collect();
        let got = script.answered(&library);
        script.first_difference(&got).is_none() && lists::fault(&script, &got).is_some()
    })
}

/// The fault in the lists of a script with these bytes at a place of its last answer.
fn fault_with(script: &Script, place: usize, bytes: &[u8]) -> Option<Fault> {
    let mut answers = script.answers.clone();
    let last = answers.last_mut().expect("a search");
    last[place..place + bytes.len()].copy_from_slice(bytes);
    let got: Vec<&[u8]> = answers.iter().map(Vec::as_slice).collect();
    lists::fault(script, &got)
}

/// Whether lists held against one another show a change in each part of an answer: in either count, in a code
/// listed, in a place past the codes, and in the answer alone, which is -4 though every code has its place.
pub fn each_part_shows() -> bool {
    // Three codes, with more places and with three.
    let [more, full] = [2 * COUNTS + 3, COUNTS + 3].map(|number| by_model(number, None));
    let last = more.calls.len() - 1;
    let told = &more.answers[last];
    let list_end = 24 + 8 * lists::list_in(told).map_or(0, |list| list.len());
    let changed = |place: usize| fault_with(&more, place, &[told[place] ^ 1]);
    // The first search of a script is its second call.
    let unlike = Some(Fault::Unlike(1, last));
    let answer = fault_with(&full, 0, &(-4i32).to_le_bytes());
    fault_with(&more, 0, &[]).is_none()
        && [4, 12, 24]
            .into_iter()
            .all(|place| changed(place) == unlike)
        && changed(list_end - 1) == Some(Fault::Rest(last))
        && answer == Some(Fault::Unlike(1, full.calls.len() - 1))
}
