//! The library's answers to searches, held against one another: on lines with one set of codes, searches with
//! equally many places answer alike. The model has no say in it.

use super::calls::Call;
use super::Script;
use crate::model::record::RECORD;
use crate::report::hex;

/// What the library answers to a search.
struct Listed {
    answer: i32,
    resets: u64,
    slots: u64,
    /// The whole list, places past the codes listed too.
    list: Vec<u64>,
}

/// A number of up to eight bytes, low byte first.
fn number(bytes: &[u8]) -> u64 {
    let high_first = bytes.iter().rev();
    high_first.fold(0, |number, byte| number << 8 | u64::from(*byte))
}

impl Listed {
    /// Reads an answer as the driver writes it; none where it is cut short.
    fn read(bytes: &[u8]) -> Option<Listed> {
        let size = number(bytes.get(20..24)?) as usize;
        let list = bytes.get(24..24 + size)?.chunks_exact(8);
        Some(Listed {
            answer: number(&bytes[..4]) as u32 as i32,
            resets: number(&bytes[4..12]),
            slots: number(&bytes[12..20]),
            list: list.map(number).collect(),
        })
    }

    /// How many places are filled: as many as it answers, and all of them under refusal 4.
    fn filled(&self) -> usize {
        match self.answer {
            -4 => self.list.len(),
            answer => usize::try_from(answer).map_or(0, |listed| listed.min(self.list.len())),
        }
    }

    /// What must be alike: the answer, both counts, and the codes in the places filled.
    fn told(&self) -> (i32, u64, u64, &[u64]) {
        let codes = &self.list[..self.filled()];
        (self.answer, self.resets, self.slots, codes)
    }
}

/// The list in an answer to a search, as the driver writes it; none where it is cut short.
pub fn list_in(answer: &[u8]) -> Option<Vec<u64>> {
    Listed::read(answer).map(|listed| listed.list)
}

/// A list with the bytes of each code as they stand in a record.
fn shown(list: &[u64]) -> String {
    let codes: Vec<String> = list.iter().map(|code| hex(&code.to_le_bytes())).collect();
    codes.join(" ")
}

/// What is wrong with the lists of a script.
#[derive(Clone, Copy, PartialEq, Eq, Debug)]
pub enum Fault {
    /// Two searches with equally many places do not answer alike.
    Unlike(usize, usize),
    /// A search has changed a place past the codes that it lists.
    Rest(usize),
    /// A search gives another refusal than 4, and the line is in range.
    Refused(usize),
}

/// The first fault in the lists of a script whose lines have one set of codes, by what the library answers to
/// its calls. An answer that is cut short differs from the model's and is passed over here.
pub fn fault(script: &Script, got: &[&[u8]]) -> Option<Fault> {
    if !script.one_set {
        return None;
    }
    // The first search with each number of places.
    let mut firsts: Vec<(usize, Listed)> = Vec::new();
    for (at, call) in script.calls.iter().enumerate() {
        let Call::Search { list: before } = call else {
            continue;
        };
        let Some(listed) = Listed::read(got[at]) else {
            continue;
        };
        if listed.answer < 0 && listed.answer != -4 {
            return Some(Fault::Refused(at));
        }
        let filled = listed.filled();
        if listed.list.get(filled..) != before.get(filled..) {
            return Some(Fault::Rest(at));
        }
        let places = listed.list.len();
        match firsts.iter().find(|(_, first)| first.list.len() == places) {
            Some((first, known)) if known.told() != listed.told() => {
                return Some(Fault::Unlike(*first, at));
            }
            Some(_) => {}
            None => firsts.push((at, listed)),
        }
    }
    None
}

impl Fault {
    /// Shows the fault, with the line and the answer of each call that it names.
    pub fn report(self, script: &Script, got: &[&[u8]]) {
        let (what, calls) = match self {
            Fault::Unlike(first, second) => (
                format!("calls {first} and {second}: one set of codes, two answers"),
                vec![first, second],
            ),
            Fault::Rest(at) => (
                format!("call {at}: a place past the codes listed is changed"),
                vec![at],
            ),
            Fault::Refused(at) => (format!("call {at}: a line in range is refused"), vec![at]),
        };
        println!("\nDIFFERENCE: lists of {what}");
        for at in calls {
            println!("call {at}: {}", script.calls[at].shown());
            println!("table before, a record a row:");
            for record in script.tables[at].chunks(RECORD) {
                println!("  {}", hex(record));
            }
            if let (Call::Search { list }, Some(listed)) =
                (&script.calls[at], Listed::read(got[at]))
            {
                println!("list before: {}", shown(list));
                println!("list after:  {}", shown(&listed.list));
                let (answer, resets, slots, _) = listed.told();
                println!("library: answer {answer}, {resets} resets, {slots} slots");
            }
        }
    }
}
