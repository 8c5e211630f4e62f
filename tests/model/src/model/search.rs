//! The search: a host that knows the line by its answers alone.

use super::book::{Book, Rule, Slip};
use super::line::Line;

/// A host's way to the line: one event, its answer.
pub trait Host {
    /// Puts an event 0, 1 or 2 on the line.
    fn put(&mut self, event: u64) -> u8;
    /// The book to count in.
    fn book(&mut self) -> &mut Book;
}

/// What a search has found.
#[derive(Debug, PartialEq, Eq)]
pub struct Found {
    /// The refusal, if there is one.
    pub refusal: Option<u8>,
    /// The codes in branch order.
    pub list: Vec<u64>,
    pub resets: u64,
    pub slots: u64,
}

/// A line of the model as a host's line.
struct OnLine<'a> {
    line: &'a mut Line,
    book: &'a mut Book,
}

impl Host for OnLine<'_> {
    fn put(&mut self, event: u64) -> u8 {
        let answer = self.line.event(event, 0, 0, self.book);
        answer.expect("a line in range")
    }

    fn book(&mut self) -> &mut Book {
        self.book
    }
}

/// Searches a line, with so many places in the list.
pub fn search_line(line: &mut Line, places: usize, book: &mut Book) -> Found {
    if let Some(refusal) = line.refusal() {
        return Found {
            refusal: Some(refusal),
            list: Vec::new(),
            resets: 0,
            slots: 0,
        };
    }
    let mut found = search(&mut OnLine { line, book }, places);
    leak(&mut found.list, places, line, book);
    found
}

/// What two slips make of a list by the table, which no host knows.
fn leak(list: &mut Vec<u64>, places: usize, line: &Line, book: &Book) {
    let kinds = |code: u64| {
        let own = line.table.iter().filter(move |chip| chip.code == code);
        own.map(|chip| chip.kind)
    };
    if book.slips(Slip::KindsTwice) {
        let both = |code: u64| kinds(code).min() != kinds(code).max();
        let twice = |code: &u64| vec![*code; if both(*code) { 2 } else { 1 }];
        *list = list.iter().flat_map(twice).take(places).collect();
    }
    let first = line.table.first().map(|chip| chip.code);
    let at = list.iter().position(|code| Some(*code) == first);
    if let (Some(at), true) = (at, book.slips(Slip::TableFirst)) {
        list[..=at].rotate_right(1);
    }
}

/// The search itself: 0 first at each branch, the 1 side of a branch in a later pass.
pub fn search(host: &mut dyn Host, places: usize) -> Found {
    let mut found = Found {
        refusal: None,
        list: Vec::new(),
        resets: 0,
        slots: 0,
    };
    // The starts of codes still to be followed; the last is the next in branch order.
    let mut starts: Vec<Vec<u8>> = vec![Vec::new()];
    while let Some(start) = starts.pop() {
        if found.list.len() == places && found.resets > 0 {
            return refused(found, host);
        }
        found.resets += 1;
        if host.put(2) == 1 {
            host.book().saw(Rule::SearchNone);
            return found;
        }
        if places == 0 {
            return refused(found, host);
        }
        match pass(host, &start, &mut starts, &mut found.slots) {
            Some(code) => found.list.push(code),
            None => return found,
        }
    }
    let codes = found.list.len();
    host.book().saw_if(codes == 1, Rule::SearchOne);
    host.book().saw_if(codes == 16, Rule::SearchSixteen);
    found
}

/// Gives refusal 4.
fn refused(mut found: Found, host: &mut dyn Host) -> Found {
    host.book().saw(Rule::Refusal4);
    found.refusal = Some(4);
    found
}

/// One pass after its reset: the code reached, or none if no chip answers.
fn pass(
    host: &mut dyn Host,
    start: &[u8],
    starts: &mut Vec<Vec<u8>>,
    slots: &mut u64,
) -> Option<u64> {
    let mut slot = |host: &mut dyn Host, bit: u8| {
        *slots += 1;
        host.put(u64::from(bit))
    };
    let first = u8::from(host.book().slips(Slip::SearchOneFirst));
    for place in 0..8 {
        slot(host, 0xF0 >> place & 1);
    }
    let mut path: Vec<u8> = Vec::new();
    for place in 0..64 {
        let bit = match (slot(host, 1), slot(host, 1)) {
            (1, 1) => return None,
            (0, 1) => 0,
            (1, _) => 1,
            _ if place < start.len() => start[place],
            _ => {
                host.book().saw(Rule::SearchBranch);
                host.book().saw_if(place >= 56, Rule::SearchDeep);
                if host.book().slips(Slip::SearchDrops) {
                    starts.clear();
                }
                let mut other = path.clone();
                other.push(1 - first);
                starts.push(other);
                first
            }
        };
        slot(host, bit);
        path.push(bit);
    }
    let bits = path.iter().enumerate();
    Some(bits.fold(0, |code, (place, bit)| code | u64::from(*bit) << place))
}
